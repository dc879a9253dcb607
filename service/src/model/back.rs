//! The way back to an older checkpoint that is retained: a savepoint of its own files, and the restore to that savepoint.
use super::call::{Call, Subtask, Target};
use super::held::Held;
use super::job::{Job, Logged};
use super::outcome::{Outcome, Reply, Unable};
use relkvanu::{Answer, Choice, Kind};
use serde::Deserialize;

/// The metadata of a done checkpoint.
#[derive(Deserialize)]
struct Record {
    shape: Vec<u64>,
    acks: Vec<Part>,
}

#[derive(Deserialize)]
struct Part {
    subtask: String,
    files: Vec<u64>,
}

impl Job {
    /// Restores the job to a checkpoint that is retained, in a new shape if one is given. Returns the answer of the restore, and adds the rows
    /// of all calls, which are for one commit. A refusal of one of them takes back what was done before it, so no file is lost.
    pub(super) fn go_back(&mut self, checkpoint: u64, shape: Option<&[u64]>, now: u64, made: &mut Vec<Logged>) -> Held {
        match self.parts(checkpoint) {
            Err(outcome) => self.hold_back(outcome),
            Ok(_) if self.engine().choice() == Choice::Checkpoint(checkpoint) => {
                self.step(&Call::Restore { target: Target::Latest, shape: shape.map(<[u64]>::to_vec) }, now, made)
            }
            Ok(parts) => self.restore_copy(checkpoint, &parts, shape, now, made),
        }
    }

    /// What each subtask has in a checkpoint, if the job can go back to it.
    fn parts(&mut self, checkpoint: u64) -> Result<Vec<(Subtask, Vec<u64>)>, Outcome> {
        let is_there = |live: &relkvanu::Live| live.done && live.kind == Kind::Checkpoint;
        if !self.live().get(&checkpoint).is_some_and(is_there) {
            return Err(Outcome::Unable(Unable::NoSuchCheckpoint));
        }
        let text = self.engine().show(checkpoint).ok_or(Outcome::NoMemory)?;
        let record: Record = serde_json::from_str(&text).map_err(|_| Outcome::NoMemory)?;
        if record.shape != self.shape {
            return Err(Outcome::Unable(Unable::OtherShape));
        }
        let parts = record.acks.into_iter().map(|part| Some((part.subtask.parse().ok()?, part.files)));
        parts.collect::<Option<Vec<_>>>().ok_or(Outcome::NoMemory)
    }

    /// Makes a savepoint of these parts of a checkpoint, and restores the job to it.
    fn restore_copy(
        &mut self,
        checkpoint: u64,
        parts: &[(Subtask, Vec<u64>)],
        shape: Option<&[u64]>,
        now: u64,
        made: &mut Vec<Logged>,
    ) -> Held {
        let held = self.step(&Call::Savepoint, now, made);
        let Outcome::Made { reply: Reply::Answered(Answer::SavepointTriggered(id)), .. } = held.outcome else {
            return held;
        };
        let term = self.engine().term().map_or(0, |now| now.term);
        for (subtask, files) in parts {
            let (subtask, reused) = (*subtask, files.clone());
            let ack = Call::Ack { term, id, subtask, fresh: vec![], reused, bytes: vec![], given: None };
            let held = self.step(&ack, now, made);
            if !matches!(held.outcome, Outcome::Made { .. }) {
                self.step(&Call::Decline { term, id, subtask, reason: None }, now, made);
                return held;
            }
        }
        if let (Some(last), Some(copy)) = (made.last_mut(), self.states.copy(checkpoint, id)) {
            last.states.get_or_insert_with(Box::default).copy = Some(copy);
        }
        let restore = Call::Restore { target: Target::Savepoint(id), shape: shape.map(<[u64]>::to_vec) };
        let held = self.step(&restore, now, made);
        if !matches!(held.outcome, Outcome::Made { .. }) {
            self.step(&Call::Dispose { id }, now, made);
        }
        held
    }
}

#[cfg(test)]
mod tests {
    use super::super::lines::ack;
    use super::super::settings::settings_of;
    use super::super::Settings;
    use super::*;
    use std::error::Error;

    const SETTINGS: Settings = settings_of([10, 0, 1, 5000, 0, 3], false);

    /// A job of two subtasks with three checkpoints, of which each has a file of each subtask and the first file of all.
    fn with_three() -> Result<Job, Box<dyn Error>> {
        let mut job = Job::tried(SETTINGS, &[2])?;
        for id in 1..=3 {
            job.call(&Call::Tick, id * 10);
            let reused: &[u64] = if id > 1 { &[10] } else { &[] };
            job.call(&ack(0, id, (0, 0), &[id * 10], reused), id * 10);
            job.call(&ack(0, id, (0, 1), &[id * 10 + 1], &[]), id * 10);
        }
        assert_eq!(job.live().values().filter(|live| live.done).count(), 3);
        Ok(job)
    }

    fn go_back(job: &mut Job, checkpoint: u64, now: u64) -> (Outcome, Vec<Logged>) {
        job.committed(&Call::Restore { target: Target::Checkpoint(checkpoint), shape: None }, now)
    }

    #[test]
    fn a_savepoint_that_is_refused_changes_nothing() -> Result<(), Box<dyn Error>> {
        let mut job = with_three()?;
        job.call(&Call::Tick, 50);
        job.call(&Call::Decline { term: 0, id: 4, subtask: Subtask { vertex: 0, index: 0 }, reason: None }, 51);
        // no failed checkpoint is tolerated, so the job has failed
        let (seq, image) = (job.seq, job.engine().image());
        let (outcome, made) = go_back(&mut job, 1, 60);
        assert_eq!((outcome.json()["refused"].as_str(), made.len()), (Some("NotRunning"), 0));
        assert_eq!((job.seq, job.engine().image()), (seq, image));
        Ok(())
    }
}
