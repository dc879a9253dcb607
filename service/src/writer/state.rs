//! The state of a job, as reads return it between two commits.
use super::jobs::Jobs;
use super::message::Read;
use crate::files::JobStorage;
use crate::model::{
    Bytes, Choice, FileCounts, Job, KeptImage, Kind, LiveRecord, Mode, Opening, Phase, RunningTerm, Settings,
};
use std::sync::Arc;

#[derive(Clone, Debug)]
pub struct JobState {
    pub opening: Opening,
    /// The settings that the job has now.
    pub settings: Settings,
    /// The shape that the job has now.
    pub shape: Vec<u64>,
    pub mode: Mode,
    pub phase: Phase,
    pub storage: Option<Arc<JobStorage>>,
    pub seq: u64,
    pub now: u64,
    pub due: u64,
    pub oldest_expiry: Option<u64>,
    pub choice: Choice,
    pub files: FileCounts,
    /// The bytes of the files of which these are known.
    pub bytes: Bytes,
    pub last_completed: Option<u64>,
    pub last_restored: Option<u64>,
    pub last_event: u64,
    /// The first call that the log has, and the last image.
    pub first: u64,
    pub image: Option<KeptImage>,
    pub pending_checkpoints: usize,
    pub pending_savepoints: usize,
    /// The live records in rising number, each with how many subtasks are missing.
    pub live: Vec<(LiveRecord, u64)>,
    /// `None` if a recovery has not made the job whole.
    pub term: Option<RunningTerm>,
}

impl JobState {
    /// How many savepoints are complete and nobody has disposed of.
    pub fn savepoints(&self) -> usize {
        self.live.iter().filter(|(record, _)| record.done && record.kind == Kind::Savepoint).count()
    }
}

/// Reads what is asked for, when the writer's clock says `now`. A job whose coordinator is lent has had this state since.
pub fn read(jobs: &mut Jobs, read: Read, now: u64, lent: Option<&JobState>) {
    let state = |job: &mut Job| match lent.filter(|lent| lent.opening.number == job.opening.number) {
        Some(lent) => JobState { now: job.moment(now), ..lent.clone() },
        None => state(job, now),
    };
    match read {
        Read::Jobs { after, most, reply } => {
            let places = jobs.places_after(after, most);
            drop(reply.send(places.into_iter().map(|place| state(jobs.at(place))).collect()));
        }
        Read::Job(name, reply) => {
            let place = jobs.place(&name);
            drop(reply.send(place.map(|place| Box::new(state(jobs.at(place))))));
        }
        Read::Look(name, look) => {
            let place = jobs.place(&name);
            look(place.map(|place| jobs.at(place)));
        }
    }
}

/// The state of a job when the writer's clock says `now`.
pub fn state(job: &mut Job, now: u64) -> JobState {
    let records: Vec<LiveRecord> = job.live().values().copied().collect();
    let (checkpoints, savepoints) = (job.pending(Kind::Checkpoint), job.pending(Kind::Savepoint));
    let engine = job.engine();
    let live = records.iter().map(|record| (*record, engine.missing(record.id).unwrap_or(0))).collect();
    let (mode, due, oldest_expiry) = (engine.mode(), engine.due(), engine.oldest_expiry());
    let (choice, files, term) = (engine.choice(), engine.counts(), engine.term());
    JobState {
        opening: job.opening.clone(),
        settings: job.settings,
        shape: job.shape.clone(),
        mode,
        phase: job.phase,
        storage: job.storage.clone(),
        seq: job.seq,
        now: job.moment(now),
        due,
        oldest_expiry,
        choice,
        files,
        bytes: job.sizes.sum(),
        last_completed: job.last_completed,
        last_restored: job.last_restored,
        last_event: job.last_event,
        first: job.retention.first(),
        image: job.retention.last(),
        pending_checkpoints: checkpoints,
        pending_savepoints: savepoints,
        live,
        term,
    }
}

#[cfg(test)]
mod tests {
    use super::super::Served;
    use super::*;
    use crate::metrics::Metrics;
    use crate::model::settings_of;
    use std::time::Duration;

    #[test]
    fn a_job_that_has_gone_since_it_was_read_gets_no_metrics() -> Result<(), Box<dyn std::error::Error>> {
        let mut job = Job::tried(settings_of([1000, 0, 1, 600_000, 0, 1], false), &[1])?;
        let (read, metrics) = ([state(&mut job, 5)], Metrics::new()?);
        let has_it = |text: Vec<u8>| String::from_utf8_lossy(&text).contains("orders");
        let (names, served) = (["orders".to_string()], Served { since: 7, lag: Duration::ZERO });
        assert!(has_it(metrics.text(&read, &names, |_| Some(served))?));
        metrics.forget("orders");
        // also one that goes between the list of names and its turn
        assert!(!has_it(metrics.text(&read, &names, |_| None)?));
        Ok(())
    }
}
