//! A call with all that belongs to it in one commit: the stop of a job with a savepoint, its beginning after that, and the way back to an
//! older checkpoint.
use super::call::{Call, Target};
use super::held::Held;
use super::job::{Job, Logged};
use super::outcome::{Outcome, Reply, Unable};
use super::phase::{Phase, Stop, StopFailed};
use relkvanu::{Answer, Mode};

impl Job {
    /// Makes a call of a request or of the timer. Returns its answer, and the rows of all calls that it made, which are for one commit with the
    /// phase.
    pub fn operate(&mut self, call: &Call, now: u64) -> (Held, Vec<Logged>) {
        let mut made = Vec::new();
        if let Some(stop) = self.complete_stop() {
            // there was no memory for it when its savepoint completed
            let held = self.hold(stop, now, &mut made);
            if matches!(call, Call::Tick) || !matches!(held.outcome, Outcome::Made { .. }) {
                return (held, made);
            }
        }
        let held = match call {
            Call::Stop => self.stop(now, &mut made),
            Call::Begin => self.begin(now, &mut made),
            call if self.phase.is_stopped() && needs_tasks(call) => self.hold_back(Outcome::Unable(Unable::Stopped)),
            call if self.is_too_early(call, now) => self.hold_back(Outcome::Unable(Unable::Stopping)),
            Call::Restore { target: Target::Checkpoint(id), shape } => {
                self.go_back(*id, shape.as_deref(), now, &mut made)
            }
            Call::RestoreStopped { target, shape } => {
                let restore = Call::Restore { target: *target, shape: shape.clone() };
                if self.phase.is_stopped() {
                    self.step(&restore, now, &mut made)
                } else {
                    self.hold_back(Outcome::Unable(Unable::NotStopped))
                }
            }
            Call::TriggerFull => self.trigger_full(now, &mut made),
            call => self.step(call, now, &mut made),
        };
        self.settle(call, now, &mut made);
        (held, made)
    }

    fn trigger_full(&mut self, now: u64, made: &mut Vec<Logged>) -> Held {
        let held = self.step(&Call::Trigger, now, made);
        if let Outcome::Made { seq: Some(seq), reply: Reply::Answered(Answer::Triggered { .. }), .. } = held.outcome {
            let choice = self.engine().choice();
            self.bases.note_full(seq, choice);
        }
        held
    }

    /// Triggers the savepoint with which the job stops.
    fn stop(&mut self, now: u64, made: &mut Vec<Logged>) -> Held {
        match self.phase {
            Phase::Stopping(_) => return self.hold_back(Outcome::Unable(Unable::Stopping)),
            Phase::Stopped(..) => return self.hold_back(Outcome::Unable(Unable::Stopped)),
            Phase::Running | Phase::NotStopped(..) => {}
        }
        let held = self.step(&Call::Savepoint, now, made);
        if let Outcome::Made { reply: Reply::Answered(Answer::SavepointTriggered(savepoint)), .. } = held.outcome {
            self.phase = Phase::Stopping(Stop { savepoint, at: now });
        }
        held
    }

    /// Begins the job again where it has stopped.
    fn begin(&mut self, now: u64, made: &mut Vec<Logged>) -> Held {
        if !self.phase.is_stopped() {
            return self.hold_back(Outcome::Unable(Unable::NotStopped));
        }
        let held = self.step(&Call::Restore { target: Target::Latest, shape: None }, now, made);
        if matches!(held.outcome, Outcome::Made { .. }) {
            self.phase = Phase::Running;
        }
        held
    }

    /// Restores the job to the savepoint of a stop, which is complete: it has stopped. If there is no memory, the next call or tick does it.
    fn hold(&mut self, stop: Stop, now: u64, made: &mut Vec<Logged>) -> Held {
        let restore = Call::Restore { target: Target::Savepoint(stop.savepoint), shape: None };
        let held = self.step(&restore, now, made);
        match held.outcome {
            Outcome::Made { .. } | Outcome::Detailed { .. } => self.phase = Phase::Stopped(stop, self.running_term()),
            Outcome::NoMemory | Outcome::NotMade => {}
            Outcome::Refused(_) | Outcome::Unable(_) => self.phase = Phase::NotStopped(stop, StopFailed::Failed),
        }
        held
    }

    /// What a call made of a stop. An advance of a job that has stopped begins a later term, and leaves it stopped.
    fn settle(&mut self, call: &Call, now: u64, made: &mut Vec<Logged>) {
        let (phase, current) = (self.phase, self.engine().mode());
        match phase {
            Phase::Stopping(stop) => match self.live().get(&stop.savepoint) {
                Some(live) if live.done => {
                    self.hold(stop, now, made);
                }
                Some(_) => {}
                None => self.phase = Phase::NotStopped(stop, why(call, current)),
            },
            Phase::Stopped(..) if current == Mode::Cancelled => self.phase = Phase::Running,
            Phase::Stopped(stop, _) => self.phase = Phase::Stopped(stop, self.running_term()),
            Phase::Running | Phase::NotStopped(..) => {}
        }
    }

    /// A stop whose savepoint is complete, and which was not made.
    fn complete_stop(&self) -> Option<Stop> {
        match self.phase {
            Phase::Stopping(stop) => self.live().get(&stop.savepoint).filter(|live| live.done).map(|_| stop),
            _ => None,
        }
    }

    fn running_term(&mut self) -> Option<u64> {
        self.engine().term().map(|now| now.term)
    }

    /// When the timer has to tick a job that stops: as its savepoint expires, or at once if it is complete.
    pub(super) fn stop_wakes(&self, stop: Stop) -> u64 {
        match self.complete_stop() {
            Some(_) => stop.at,
            None => stop.at.saturating_add(self.settings.timeout),
        }
    }

    /// Whether a call would trigger while the job stops. Sinks would publish what such a record completes, and publish it again after the begin.
    /// Only the tick that is due goes through: the savepoint expires in it.
    fn is_too_early(&self, call: &Call, now: u64) -> bool {
        match (self.phase, call) {
            (Phase::Stopping(_), Call::Trigger | Call::TriggerFull | Call::Savepoint) => true,
            (Phase::Stopping(stop), Call::Tick) => now < self.stop_wakes(stop),
            _ => false,
        }
    }

    /// Makes one call, and keeps its row.
    pub(super) fn step(&mut self, call: &Call, now: u64, made: &mut Vec<Logged>) -> Held {
        let (held, logged) = self.call(call, now);
        made.extend(logged);
        held
    }
}

/// Whether a call asks for what only tasks can do, which do not run once the job has stopped.
fn needs_tasks(call: &Call) -> bool {
    matches!(call, Call::Tick | Call::Trigger | Call::TriggerFull | Call::Savepoint | Call::Restore { .. })
}

/// Why a stop failed whose savepoint ended with this call.
fn why(call: &Call, mode: Mode) -> StopFailed {
    match (mode, call) {
        (Mode::Failed, _) => StopFailed::Failed,
        (Mode::Cancelled, _) => StopFailed::Cancelled,
        (_, Call::Tick) => StopFailed::Expired,
        (_, Call::Decline { .. }) => StopFailed::Declined,
        _ => StopFailed::Restored,
    }
}

#[cfg(test)]
mod tests {
    use super::super::settings::settings_of;
    use super::super::{lines, Settings};
    use super::*;
    use std::error::Error;

    const SETTINGS: Settings = settings_of([100, 0, 1, 5000, 0, 1], false);
    const STOP: Stop = Stop { savepoint: 2, at: 150 };

    /// A job of two subtasks that gives out names, with checkpoint 1, which is complete. It stops.
    fn stopping() -> Result<Job, Box<dyn Error>> {
        let mut job = Job::tried(SETTINGS, &[2])?;
        job.committed(&Call::Fence { first_name: 1 }, 0);
        job.committed(&Call::Reserve { term: 1, count: 10 }, 0);
        job.committed(&Call::Tick, 100);
        (0..2).for_each(|index| assert!(is_made(&job.committed(&ack(1, index), 110).0)));
        assert!(is_made(&job.committed(&Call::Stop, 150).0));
        assert_eq!(job.phase, Phase::Stopping(STOP));
        Ok(job)
    }

    fn ack(id: u64, index: u16) -> Call {
        lines::ack(1, id, (0, index), &[id * 2 + u64::from(index)], &[])
    }

    fn is_made(outcome: &Outcome) -> bool {
        matches!(outcome, Outcome::Made { .. })
    }

    fn lines_of(made: &[Logged]) -> Vec<&str> {
        made.iter().map(|one| one.entry.line.as_str()).collect()
    }

    #[test]
    fn nothing_is_triggered_while_a_job_stops() -> Result<(), Box<dyn Error>> {
        let mut job = stopping()?;
        let (seq, image) = (job.seq, job.engine().image());
        let stopped = Call::RestoreStopped { target: Target::Latest, shape: Some(vec![3]) };
        assert_eq!(job.committed(&stopped, 160).0, Outcome::Unable(Unable::NotStopped));
        for call in [Call::Trigger, Call::TriggerFull, Call::Savepoint, Call::Tick] {
            // the interval is long over, and the savepoint expires a moment later
            let (outcome, made) = job.committed(&call, 5149);
            assert_eq!((outcome, made.len()), (Outcome::Unable(Unable::Stopping), 0), "{call:?}");
        }
        assert_eq!((job.seq, job.engine().image(), job.wake()), (seq, image, Some(5150)));
        job.committed(&Call::Tick, 5150);
        assert_eq!(job.phase, Phase::NotStopped(STOP, StopFailed::Expired));
        assert!(is_made(&job.committed(&Call::Savepoint, 5150).0));
        Ok(())
    }

    #[test]
    fn a_stop_that_found_no_memory_is_made_by_the_timer_or_the_next_call() -> Result<(), Box<dyn Error>> {
        for (call, wanted) in
            [(Call::Tick, vec!["restore 170 2"]), (Call::Take { most: 9 }, vec!["restore 170 2", "take 9"])]
        {
            let mut job = stopping()?;
            // as if the restore had found none
            (0..2).for_each(|index| assert!(is_made(&job.call(&ack(2, index), 160).0.outcome)));
            assert_eq!((job.phase, job.wake()), (Phase::Stopping(STOP), Some(150)));
            let (_, made) = job.committed(&call, 170);
            assert_eq!((lines_of(&made), job.phase), (wanted, Phase::Stopped(STOP, Some(2))));
            // nothing that only tasks can do is made until it begins
            let (seq, image) = (job.seq, job.engine().image());
            for call in [Call::Tick, Call::TriggerFull, Call::Savepoint, Call::Stop] {
                let (outcome, made) = job.committed(&call, 9_000_000);
                assert_eq!((outcome, made.len()), (Outcome::Unable(Unable::Stopped), 0), "{call:?}");
            }
            assert_eq!((job.seq, job.engine().image(), job.wake()), (seq, image, None));
        }
        Ok(())
    }
}
