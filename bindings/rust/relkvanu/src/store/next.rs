//! What a timer has for the loop of an engine, as one of few cases.
use super::{CallError, Made, Phase, Store, StoreErrorKind};
use crate::answer::{Answer, Choice, Kind, Mode};
use crate::fault::{Fault, Refusal};

/// What the timer has for the engine.
#[derive(Clone, Copy, Debug, PartialEq, Eq)]
pub enum Next {
    /// A record was triggered: its barrier goes to the sources. What has changed since `base` is in fresh files, and those of `base` may be reused.
    Barrier { id: u64, kind: Kind, base: Choice },
    /// Of a job of the service: this checkpoint is complete, by whichever process.
    Completed { id: u64 },
    /// Another thread has restored the job, as by [`Store::go_back`]: it begins here, and its tasks have this term.
    Begun { from: Choice, term: u64 },
    /// The job has failed: the engine restores it.
    Failed,
    /// The job has ended for good.
    Cancelled,
    /// The job is stopped with a savepoint, until it begins again.
    Stopped,
    /// A stop of the job has failed: tasks that hold go on.
    NotStopped,
    /// Nothing is due.
    Idle,
    /// By [`Store::stop`].
    Ended,
}

/// What the timer has, and the numbers of records that its tick has ended.
#[derive(Clone, Debug, PartialEq, Eq)]
pub struct Awaited {
    pub next: Next,
    pub ended: Vec<u64>,
}

impl From<Next> for Awaited {
    fn from(next: Next) -> Awaited {
        let ended = Vec::new();
        Awaited { next, ended }
    }
}

impl Store {
    /// As [`await_tick`](Self::await_tick), with one case for each thing that an engine does next. Waits at most `longest` milliseconds. A job that is
    /// not running is told of at once when that begins, and then each time after `longest`.
    pub fn await_next(&self, longest: u64) -> Result<Awaited, CallError> {
        let made = match self.await_tick(longest) {
            Err(CallError::Store(why)) => match why.kind {
                StoreErrorKind::TimedOut => return self.standstill(),
                StoreErrorKind::JobStopped => return Ok(Next::Stopped.into()),
                StoreErrorKind::NotStopped => return Ok(Next::NotStopped.into()),
                StoreErrorKind::Stopped => return Ok(Next::Ended.into()),
                _ => return Err(why.into()),
            },
            Err(CallError::Fault(Fault::Refused(Refusal::NotRunning))) => return self.standstill(),
            told => told?,
        };
        Ok(Awaited { next: next(&made), ended: made.ended })
    }

    /// Why no tick is due.
    fn standstill(&self) -> Result<Awaited, CallError> {
        if self.phase()?.phase == Phase::Stopped {
            return Ok(Next::Stopped.into());
        }
        let next = match self.read(|job| job.mode())? {
            Mode::Failed => Next::Failed,
            Mode::Cancelled => Next::Cancelled,
            _ => Next::Idle,
        };
        Ok(next.into())
    }
}

fn next(made: &Made) -> Next {
    let barrier = |id, kind| Next::Barrier { id, kind, base: made.choice.unwrap_or(Choice::Fresh) };
    match made.called() {
        Some(Answer::Triggered { id, .. }) => barrier(id, Kind::Checkpoint),
        Some(Answer::SavepointTriggered(id)) => barrier(id, Kind::Savepoint),
        Some(Answer::Failed { .. }) => Next::Failed,
        Some(Answer::Restored { from, .. }) => Next::Begun { from, term: made.term.unwrap_or(0) },
        _ => Next::Idle,
    }
}
