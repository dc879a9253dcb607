//! Metrics of what the service does beside its calls: the history, deletions, and the room that it takes.
use super::{Families, Parted, STATE};
use crate::auth::{Access, Tokens};
use crate::store::Disk;
use crate::writer::Progress;
use prometheus::{Gauge, GaugeVec, IntGauge, IntGaugeVec, Opts};
use std::time::{Duration, SystemTime, UNIX_EPOCH};

pub struct Upkeep {
    pub history_up: IntGauge,
    history_lag: Parted<GaugeVec>,
    keys_behind: Gauge,
    samples_behind: Gauge,
    bytes: IntGaugeVec,
    free: IntGaugeVec,
    disk: IntGaugeVec,
    token_until: GaugeVec,
    certificate_until: Gauge,
    oldest_file: Parted<GaugeVec>,
    damaged: IntGaugeVec,
    jobs: IntGauge,
    replayed: IntGauge,
    pub reload_failed: IntGauge,
}

impl Upkeep {
    pub fn new(all: &mut Families) -> Result<Upkeep, prometheus::Error> {
        let vector = |name: &str, help: &str, label: &str| IntGaugeVec::new(Opts::new(name, help), &[label]);
        let token_until = Opts::new(
            "relkvanu_token_until_timestamp_seconds",
            "When the last token for this access ends, in Unix time; +Inf if it does not.",
        );
        Ok(Upkeep {
            history_up: all.whole("relkvanu_history_up", "1 while the history can be read and written.")?,
            token_until: all.add(GaugeVec::new(token_until, &["access"]))?,
            history_lag: all.seconds(
                "relkvanu_history_lag_seconds",
                "How long the history has not read calls that were committed, 0 if it has read all.",
                &[],
            )?,
            oldest_file: all.seconds(
                "relkvanu_oldest_file_age_seconds",
                "For how long the oldest state file that waits for deletion, or was taken for it, has done so; 0 if there is none.",
                &[STATE],
            )?,
            certificate_until: all.gauge(
                "relkvanu_certificate_until_timestamp_seconds",
                "When the certificate ends, or the first one of its chain, in Unix time; +Inf without TLS.",
            )?,
            keys_behind: all.gauge(
                "relkvanu_keys_behind_seconds",
                "For how long keys that are older than a day have been left.",
            )?,
            samples_behind: all.gauge(
                "relkvanu_samples_behind_seconds",
                "For how long samples that are older than a week have been left.",
            )?,
            damaged: all.add(vector(
                "relkvanu_job_damaged",
                "1 of a job that this process keeps out, since its log can't be replayed; nothing of other jobs.",
                "job_name",
            ))?,
            jobs: all.whole(
                "relkvanu_replay_jobs",
                "How many jobs there were when this process began to lead, those too that it keeps out.",
            )?,
            replayed: all.whole(
                "relkvanu_replayed_jobs",
                "How many of these are replayed by now: requests for the others wait.",
            )?,
            reload_failed: all.whole(
                "relkvanu_reload_failed",
                "1 if a file was bad when the tokens and the certificate were read again last: all stay as they were.",
            )?,
            bytes: all.add(vector("relkvanu_stored_bytes", "How large the database and the history are.", "of"))?,
            free: all.add(vector(
                "relkvanu_disk_free_bytes",
                "How much room the disks of these files have left.",
                "of",
            ))?,
            disk: all.add(vector("relkvanu_disk_size_bytes", "How large the disks of these files are.", "of"))?,
        })
    }

    /// The jobs that are kept out are these.
    pub fn damaged<'a>(&self, jobs: impl Iterator<Item = &'a str>) {
        self.damaged.reset();
        jobs.for_each(|job| self.damaged.with_label_values(&[job]).set(1));
    }

    /// How far the replay is.
    pub fn replay(&self, Progress { jobs, replayed, .. }: Progress) {
        self.jobs.set(jobs as i64);
        self.replayed.set(replayed as i64);
    }

    pub fn history_lag(&self, job: &str, lag: Duration) {
        self.history_lag.with_label_values(&[job]).set(lag.as_secs_f64());
    }

    /// When the last token for each access ends, if it does.
    pub fn tokens(&self, tokens: Option<&Tokens>) {
        for (word, access) in [("read", Access::Read), ("write", Access::Write)] {
            let until = tokens.and_then(|tokens| tokens.until(access));
            self.token_until.with_label_values(&[word]).set(until.map_or(f64::INFINITY, since));
        }
    }

    pub fn keys_behind(&self, time: Duration) {
        self.keys_behind.set(time.as_secs_f64());
    }

    pub fn samples_behind(&self, time: Duration) {
        self.samples_behind.set(time.as_secs_f64());
    }

    /// How large the database or the history is.
    pub fn stored(&self, of: &str, bytes: u64) {
        set(&self.bytes, of, bytes);
    }

    /// How large its disk is, and how much room that has left.
    pub fn disk(&self, of: &str, Disk { size, free }: Disk) {
        set(&self.disk, of, size);
        set(&self.free, of, free);
    }

    /// For how long the oldest file of a job has waited for deletion, and for how long the oldest one has been taken for it.
    pub fn oldest_files(&self, job: &str, waiting: Duration, taken: Duration) {
        for (state, age) in [("waiting", waiting), ("taken", taken)] {
            self.oldest_file.with_label_values(&[job, state]).set(age.as_secs_f64());
        }
    }

    /// When the certificate ends; `None` without TLS.
    pub fn certificate(&self, until: Option<SystemTime>) {
        self.certificate_until.set(until.map_or(f64::INFINITY, since));
    }
}

/// A moment in Unix time.
fn since(until: SystemTime) -> f64 {
    until.duration_since(UNIX_EPOCH).unwrap_or(Duration::ZERO).as_secs_f64()
}

fn set(gauge: &IntGaugeVec, of: &str, value: u64) {
    gauge.with_label_values(&[of]).set(i64::try_from(value).unwrap_or(i64::MAX));
}
