//! The phase of a job: whether it runs, stops or has stopped.
use serde_json::{json, Value};

/// A stop that somebody asked for.
#[derive(Clone, Copy, Debug, PartialEq, Eq)]
pub struct Stop {
    /// The savepoint with which the job stops.
    pub savepoint: u64,
    /// The moment of the request, which is that of the savepoint's trigger.
    pub at: u64,
}

/// Why a stop failed.
#[derive(Clone, Copy, Debug, PartialEq, Eq)]
pub enum StopFailed {
    Expired,
    Declined,
    Restored,
    Cancelled,
    /// The job failed over: too many checkpoints failed in a row.
    Failed,
}

impl StopFailed {
    const ALL: [StopFailed; 5] =
        [StopFailed::Expired, StopFailed::Declined, StopFailed::Restored, StopFailed::Cancelled, StopFailed::Failed];

    /// Its word in the API and in the database.
    pub fn word(self) -> &'static str {
        match self {
            StopFailed::Expired => "expired",
            StopFailed::Declined => "declined",
            StopFailed::Restored => "restored",
            StopFailed::Cancelled => "cancelled",
            StopFailed::Failed => "failed",
        }
    }
}

/// The phases between a stop and the begin after it.
#[derive(Clone, Copy, Debug, Default, PartialEq, Eq)]
pub enum Phase {
    #[default]
    Running,
    /// It runs on, since the last stop failed.
    NotStopped(Stop, StopFailed),
    /// It runs until the savepoint is complete. Nothing is triggered.
    Stopping(Stop),
    /// The savepoint is what the job begins from, in this term or a later one. Nobody runs.
    Stopped(Stop, Option<u64>),
}

/// A phase as the database has it: its word, the savepoint and the moment of the stop, the term, and why the stop failed.
pub type PhaseRow<'a> = (&'a str, Option<u64>, Option<u64>, Option<u64>, Option<&'a str>);

impl Phase {
    /// Its word in the API and in the database.
    pub fn word(&self) -> &'static str {
        match self {
            Phase::Running | Phase::NotStopped(..) => "running",
            Phase::Stopping(_) => "stopping",
            Phase::Stopped(..) => "stopped",
        }
    }

    pub fn is_stopped(&self) -> bool {
        matches!(self, Phase::Stopped(..))
    }

    fn stop(&self) -> Option<&Stop> {
        match self {
            Phase::Running => None,
            Phase::NotStopped(stop, _) | Phase::Stopping(stop) | Phase::Stopped(stop, _) => Some(stop),
        }
    }

    fn term(&self) -> Option<u64> {
        match self {
            Phase::Stopped(_, term) => *term,
            _ => None,
        }
    }

    fn failed(&self) -> Option<&'static str> {
        match self {
            Phase::NotStopped(_, why) => Some(why.word()),
            _ => None,
        }
    }

    pub fn row(&self) -> PhaseRow<'static> {
        let stop = self.stop();
        (self.word(), stop.map(|it| it.savepoint), stop.map(|it| it.at), self.term(), self.failed())
    }

    /// Reads what [`Phase::row`] says, and nothing else.
    pub fn of_row(row: PhaseRow) -> Option<Phase> {
        let (word, savepoint, at, term, failed) = row;
        let stop = savepoint.zip(at).map(|(savepoint, at)| Stop { savepoint, at });
        let why = failed.and_then(|word| StopFailed::ALL.into_iter().find(|why| why.word() == word));
        let phase = match (word, stop, why) {
            ("running", None, None) => Phase::Running,
            ("running", Some(stop), Some(why)) => Phase::NotStopped(stop, why),
            ("stopping", Some(stop), None) => Phase::Stopping(stop),
            ("stopped", Some(stop), None) => Phase::Stopped(stop, term),
            _ => return None,
        };
        (phase.row() == row).then_some(phase)
    }

    /// The stop as the API tells it, without the term: a task of an ended term could learn it there.
    pub fn stop_json(&self) -> Option<Value> {
        let stop = self.stop()?;
        Some(json!({"savepoint": stop.savepoint, "at": stop.at, "failed": self.failed()}))
    }
}

#[cfg(test)]
mod tests {
    use super::*;

    const STOP: Stop = Stop { savepoint: 7, at: 1200 };

    #[test]
    fn a_row_is_one_phase() {
        let failed = StopFailed::ALL.map(|why| Phase::NotStopped(STOP, why));
        let others = [Phase::Running, Phase::Stopping(STOP), Phase::Stopped(STOP, None), Phase::Stopped(STOP, Some(3))];
        for phase in failed.into_iter().chain(others) {
            assert_eq!(Phase::of_row(phase.row()), Some(phase), "{phase:?}");
        }
    }

    #[test]
    fn another_row_is_none() {
        let some = (Some(7), Some(1200));
        for row in [
            ("running", some.0, some.1, None, None),
            ("running", some.0, some.1, None, Some("late")),
            ("running", None, None, Some(3), None),
            ("stopping", some.0, None, None, None),
            ("stopping", some.0, some.1, Some(3), None),
            ("stopping", some.0, some.1, None, Some("expired")),
            ("stopped", None, None, None, None),
            ("ended", some.0, some.1, None, None),
        ] {
            assert_eq!(Phase::of_row(row), None, "{row:?}");
        }
    }
}
