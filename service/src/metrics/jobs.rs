//! The gauges of jobs, which each scrape sets anew.
use super::{set, set_seconds, Families, Parted, KIND, STATE, STATES};
use crate::model::{Mode, Phase};
use crate::writer::JobState;
use prometheus::{GaugeVec, IntGaugeVec};

/// A gauge of what a job's state says: its name, what it is, and the value.
type Told<T> = (&'static str, &'static str, fn(&JobState) -> T);

/// Those of whole numbers; `None`: the job has no value.
const WHOLE: [Told<Option<u64>>; 9] = [
    ("relkvanu_mode", "What the job is doing: 1 running, 2 failed, 3 cancelled.", |job| Some(mode(job.mode))),
    ("relkvanu_phase", "Whether somebody stops the job: 1 it runs, 2 it stops, 3 it has stopped.", |job| {
        Some(phase(&job.phase))
    }),
    ("relkvanu_savepoints", "Complete savepoints that nobody has disposed of. A job has at most 1000.", |job| {
        Some(job.savepoints() as u64)
    }),
    ("relkvanu_log_calls", "Calls that the job's log has had: the place of the last.", |job| Some(job.seq)),
    ("relkvanu_log_kept_calls", "Calls that the job's log still has.", |job| {
        Some((job.seq + 1).saturating_sub(job.first))
    }),
    ("relkvanu_image_bytes", "How long the job's last image is.", |job| Some(job.image.map_or(0, |image| image.bytes))),
    ("relkvanu_calls_since_image", "Calls after the job's last image, which a start makes again.", |job| {
        Some(job.seq.saturating_sub(job.image.map_or(0, |image| image.seq)))
    }),
    ("relkvanu_term", "The term of the job's tasks, which each restore and cancel ends.", |job| {
        job.term.map(|now| now.term)
    }),
    ("relkvanu_next_name", "The next name that the job gives out.", |job| job.term.map(|now| now.next_name)),
];

/// Those of moments and times, in milliseconds.
const TIMES: [Told<u64>; 6] = [
    ("relkvanu_interval_seconds", "From one trigger to the next, the pause if it is longer.", |job| {
        job.settings.interval.max(job.settings.pause)
    }),
    ("relkvanu_timeout_seconds", "How long a record may wait for acknowledgements.", |job| job.settings.timeout),
    (
        "relkvanu_last_completed_timestamp_seconds",
        "When the last checkpoint completed, in Unix time; before the first, when the job was opened.",
        |job| job.last_completed.unwrap_or(job.opening.started),
    ),
    (
        "relkvanu_last_restored_timestamp_seconds",
        "When the job was restored last, in Unix time; before that, and after a start over a later image, when the job was opened.",
        |job| job.last_restored.unwrap_or(job.opening.started),
    ),
    ("relkvanu_job_opened_timestamp_seconds", "When the job was opened, in Unix time.", |job| job.opening.started),
    (
        "relkvanu_image_timestamp_seconds",
        "The moment of the job's last image, in Unix time; before the first, when the job was opened.",
        |job| job.image.map_or(job.opening.started, |image| image.at),
    ),
];

pub struct Gauges {
    whole: Vec<Parted<IntGaugeVec>>,
    times: Vec<Parted<GaugeVec>>,
    files: Parted<IntGaugeVec>,
    pending: Parted<IntGaugeVec>,
    history: Parted<IntGaugeVec>,
    served: Parted<GaugeVec>,
}

impl Gauges {
    pub fn new(all: &mut Families) -> Result<Gauges, prometheus::Error> {
        Ok(Gauges {
            whole: WHOLE.iter().map(|(name, help, _)| all.of_jobs(name, help, &[])).collect::<Result<_, _>>()?,
            times: TIMES.iter().map(|(name, help, _)| all.seconds(name, help, &[])).collect::<Result<_, _>>()?,
            files: all.of_jobs(
                "relkvanu_files",
                "State files that are in use, wait for deletion, or were taken for it.",
                &[STATE],
            )?,
            pending: all.of_jobs("relkvanu_pending_records", "Records that wait for acknowledgements.", &[KIND])?,
            history: all.of_jobs(
                "relkvanu_history_calls",
                "The place in the job's log up to which the history has read.",
                &[],
            )?,
            served: all.seconds(
                "relkvanu_served_since_timestamp_seconds",
                "Since when this process serves the job, in Unix time: its start, a take-over, or the opening of the job.",
                &[],
            )?,
        })
    }

    pub fn set(&self, job: &JobState) {
        let name = job.opening.name.as_str();
        for (gauge, (.., told)) in self.whole.iter().zip(WHOLE) {
            if let Some(value) = told(job) {
                set(gauge, &[name], value);
            }
        }
        for (gauge, (.., told)) in self.times.iter().zip(TIMES) {
            set_seconds(gauge, name, told(job));
        }
        for (state, number) in STATES.into_iter().zip([job.files.in_use, job.files.waiting, job.files.taken]) {
            set(&self.files, &[name, state], number);
        }
        set(&self.pending, &[name, "checkpoint"], job.pending_checkpoints as u64);
        set(&self.pending, &[name, "savepoint"], job.pending_savepoints as u64);
    }

    /// Since when this process serves a job.
    pub fn served(&self, job: &str, since: u64) {
        set_seconds(&self.served, job, since);
    }

    /// How far the history is in a job's log.
    pub fn history(&self, job: &str, upto: u64) {
        set(&self.history, &[job], upto);
    }
}

fn mode(mode: Mode) -> u64 {
    match mode {
        Mode::Running => 1,
        Mode::Failed => 2,
        Mode::Cancelled => 3,
        _ => 0,
    }
}

fn phase(phase: &Phase) -> u64 {
    match phase {
        Phase::Running | Phase::NotStopped(..) => 1,
        Phase::Stopping(_) => 2,
        Phase::Stopped(..) => 3,
    }
}
