//! What a log says of a job's phase, which is a row beside the log: for `relkvanu check`.
use super::call::{Call, Target};
use super::job::{Entry, Job};
use super::lines::parse_line;
use super::outcome::Reply;
use super::phase::{Phase, Stop};
use relkvanu::{Answer, Choice, Mode};
use std::collections::BTreeMap;

/// A call of the log.
#[derive(Clone, Copy, PartialEq, Eq)]
struct CallAt {
    record: u64,
    seq: u64,
    at: u64,
}

/// The calls of a log that a stop and a beginning consist of.
#[derive(Default)]
pub struct Trail {
    /// When the savepoints that are pending, or completed last, were triggered.
    triggered: BTreeMap<u64, u64>,
    /// The last call that completed a record.
    completed: Option<CallAt>,
    /// The last call that only a job makes which has not stopped, and the restore with which it stops.
    last: Option<Call>,
    /// The savepoint with which the job has stopped, as far as the log tells: the restore to it came with its last acknowledgement, nothing
    /// began since, and it is not the way back to a checkpoint, whose calls are all of one moment.
    held: Option<u64>,
}

impl Trail {
    /// Notes a call of the log.
    pub fn follow(&mut self, entry: &Entry) {
        let Some((_, call)) = parse_line(&entry.line) else {
            return;
        };
        for id in entry.ended_records() {
            self.triggered.remove(&id);
        }
        let place = CallAt { record: entry.record.unwrap_or(0), seq: entry.seq, at: entry.at };
        match call {
            Call::Ack { .. } if is_completion(entry) => self.completed = Some(place),
            Call::Restore { target: Target::Savepoint(id), .. } => {
                self.begin(self.stops(id, place).then_some(id), call);
            }
            Call::Savepoint => {
                self.triggered.insert(place.record, place.at);
                self.begin(None, call);
            }
            Call::Tick | Call::Trigger | Call::Restore { .. } | Call::Cancel => self.begin(None, call),
            _ => {}
        }
    }

    fn begin(&mut self, held: Option<u64>, call: Call) {
        (self.held, self.last) = (held, Some(call));
    }

    /// Whether a restore to a savepoint at this place is the end of a stop.
    fn stops(&self, id: u64, restore: CallAt) -> bool {
        let is_next = |it: CallAt| it.record == id && it.seq + 1 == restore.seq && it.at == restore.at;
        self.completed.is_some_and(is_next) && self.triggered.get(&id).is_none_or(|at| *at != restore.at)
    }

    /// What the log says of a job that has made all its calls, if the row of the phase can't be beside it.
    pub fn contradicts(&self, phase: Phase, job: &mut Job) -> Option<String> {
        match phase {
            Phase::Running => self.held.map(has_stopped),
            Phase::NotStopped(stop, _) if self.held == Some(stop.savepoint) => self.held.map(has_stopped),
            Phase::NotStopped(stop, _) => {
                is_pending(stop, job).then(|| format!("savepoint {} is pending", stop.savepoint))
            }
            Phase::Stopping(stop) => self.no_stop(stop, job),
            Phase::Stopped(stop, term) => self.goes_on(stop, term, job),
        }
    }

    /// Why the job does not stop with this savepoint. It may be complete: a stop that found no memory is made by the next call.
    fn no_stop(&self, stop: Stop, job: &mut Job) -> Option<String> {
        if self.held == Some(stop.savepoint) {
            return self.held.map(has_stopped);
        }
        let is_stopping = job.engine().mode() == Mode::Running && job.live().contains_key(&stop.savepoint);
        (!is_stopping).then(|| format!("the job runs without savepoint {}", stop.savepoint))
    }

    /// Why the job has not stopped with this savepoint. The log may have no call of the stop any more.
    fn goes_on(&self, stop: Stop, term: Option<u64>, job: &mut Job) -> Option<String> {
        let is_last = match &self.last {
            Some(Call::Restore { target: Target::Savepoint(id), .. }) => *id == stop.savepoint,
            other => other.is_none(),
        };
        let is_choice = job.engine().choice() == Choice::Savepoint(stop.savepoint);
        let is_idle = job.engine().mode() == Mode::Running && job.live().values().all(|live| live.done);
        if !is_last || !is_choice || !is_idle {
            return Some(format!("the job has gone on since savepoint {}", stop.savepoint));
        }
        let runs = job.engine().term().map(|now| now.term);
        (runs != term).then(|| "another term has begun since".to_string())
    }
}

fn is_completion(entry: &Entry) -> bool {
    matches!(entry.reply(), Some(Reply::Answered(Answer::AckCompleted { .. })))
}

fn is_pending(stop: Stop, job: &Job) -> bool {
    job.live().get(&stop.savepoint).is_some_and(|live| !live.done)
}

fn has_stopped(savepoint: u64) -> String {
    format!("the job has stopped with savepoint {savepoint}")
}

#[cfg(test)]
mod tests {
    use super::super::settings::settings_of;
    use super::super::{lines, Settings};
    use super::*;
    use std::error::Error;

    const SETTINGS: Settings = settings_of([100, 0, 1, 5000, 0, 2], false);

    /// What a log says of each phase that the job has is in `service/tests/test_stop_rows.py`; here is what else is called meanwhile.
    #[test]
    fn each_phase_is_as_its_log_says() -> Result<(), Box<dyn Error>> {
        let (mut job, mut trail) = (Job::tried(SETTINGS, &[1])?, Trail::default());
        let calls = [
            Call::Fence { first_name: 1 },
            Call::Reserve { term: 1, count: 10 },
            Call::Stop,
            lines::ack(1, 1, (0, 0), &[1], &[]),
            Call::Configure { numbers: [500, 0, 1, 5000, 0, 2, 0] },
            Call::Advance { term: 7, first_name: 90 },
            Call::Begin,
            Call::Stop,
            Call::Cancel,
        ];
        let mut stopped = None;
        for (call, now) in calls.iter().zip((10..).step_by(10)) {
            let (_, made) = job.committed(call, now);
            assert!(!made.is_empty(), "{call:?}");
            made.iter().map(|logged| &logged.entry).for_each(|entry| trail.follow(entry));
            let phase = job.phase;
            assert_eq!(trail.contradicts(phase, &mut job), None, "{phase:?}");
            stopped = stopped.or(Some(phase).filter(Phase::is_stopped));
        }
        // the log has no call before its image any more
        let told = Trail::default().contradicts(stopped.ok_or("it has stopped")?, &mut job);
        assert_eq!(told.as_deref(), Some("the job has gone on since savepoint 1"));
        Ok(())
    }
}
