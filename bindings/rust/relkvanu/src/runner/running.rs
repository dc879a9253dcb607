//! The loop itself: what an opening, a tick, a failure, a stop and an end ask of an engine.
use super::{
    in_term, locked, with_memory, Answered, Asked, Barrier, Ended, Ending, Engine, RunFault, Runner, SavepointFault,
};
use crate::answer::{Answer, Choice, Kind, Mode};
use crate::call::Call;
use crate::fault::{Fault, Refusal};
use crate::job::{Job, Opening};
use crate::signals;
use crate::store::{CallError, Made, Next, Phase, StoreErrorKind, NOW};
use relkvanu_sys::store::RELKVANU_STORE_MOST_HISTORY as MOST_HISTORY;
use std::collections::{BTreeMap, BTreeSet, VecDeque};
use std::sync::atomic::Ordering::SeqCst;
use std::sync::Arc;
use std::thread::{self, JoinHandle};
use std::time::{Duration, Instant};

/// Milliseconds after which the loop looks whether it shall end or restart.
const LOOKS_AGAIN: u64 = 200;

/// A savepoint that was asked for.
struct Awaited {
    answered: Option<Answered>, // by somebody who waits for it
    base: Choice,               // of its barrier
}

impl Asked {
    fn refuse(self, why: CallError) {
        let why = SavepointFault::Call(why);
        let _ = match self {
            Asked::Savepoint { answered, .. } | Asked::Checkpoint { answered, .. } => answered.send(Err(why)).is_ok(),
            Asked::Restore { answered, .. } => answered.send(Err(why)).is_ok(),
        }; // nobody may wait any more
    }
}

impl Awaited {
    fn answer(&self, told: Result<u64, SavepointFault>) {
        if let Some(answered) = &self.answered {
            let _ = answered.send(told); // nobody may wait any more
        }
    }
}

/// What the loop alone knows.
pub(super) struct Running<'a, E, J> {
    runner: &'a Arc<Runner<E, J>>,
    discarder: Option<JoinHandle<()>>,
    holds: bool,   // tasks wait for the end of a stop
    drained: bool, // they have put out what they keep
    began: u64,    // the last term in which tasks were started
    swept: Instant,
    savepoints: BTreeMap<u64, Awaited>,
    full: BTreeSet<u64>, // records whose barriers have no base
}

impl<E, J> Drop for Running<'_, E, J> {
    /// No answer comes any more, also after a panic.
    fn drop(&mut self) {
        let asked = locked(&self.runner.asked).take();
        for (id, it) in std::mem::take(&mut self.savepoints) {
            it.answer(Err(SavepointFault::Over { id: Some(id) }));
        }
        drop(asked); // whoever waits for those is told so by that
        if self.runner.listens.load(SeqCst) {
            signals::leave();
        }
    }
}

impl<'a, E: Engine<J>, J: Job> Running<'a, E, J> {
    pub(super) fn new(runner: &'a Arc<Runner<E, J>>) -> Running<'a, E, J> {
        let (savepoints, full) = (BTreeMap::new(), BTreeSet::new());
        let (holds, drained, began) = (false, false, 0);
        Running { runner, discarder: None, holds, drained, began, swept: Instant::now(), savepoints, full }
    }

    /// Waits for the discarder, once the job's are told to end.
    pub(super) fn join(&mut self) {
        if let Some(discarder) = self.discarder.take() {
            let _ = discarder.join(); // what it failed with ends the loop, and here it ends anyway
        }
    }

    pub(super) fn work(&mut self) -> Result<Ended, RunFault> {
        let mut ended = match with_memory(|| self.runner.job.opening())? {
            Opening::Stopped => Some(Ended::Stopped),
            Opening::Cancelled => Some(Ended::Cancelled),
            Opening::Restores => self.restore()?,
            Opening::Begun => None,
            Opening::Starts(term) => {
                self.begin(term)?;
                None
            }
        };
        loop {
            ended = match ended {
                None => self.turn_once()?,
                Some(is) => match self.end_tasks(is)? {
                    Ended::Stopped if self.runner.options.waits && !self.runner.stops() => self.await_begin()?,
                    ended => return Ok(ended),
                },
            };
        }
    }

    /// Waits until somebody begins the job that is stopped. `None`: it has begun, and tasks run.
    fn await_begin(&mut self) -> Result<Option<Ended>, RunFault> {
        let runner = self.runner;
        loop {
            runner.look_at_faults()?;
            if runner.closes.load(SeqCst) {
                return Ok(Some(Ended::Closed));
            }
            let term = runner.term.load(SeqCst);
            self.look_at_commands()?; // which refuses triggers, and says what became of savepoints
            if runner.term.load(SeqCst) != term {
                return runner.over(); // somebody has restored the job
            }
            match with_memory(|| runner.job.await_next(LOOKS_AGAIN))?.next {
                Next::Begun { term, .. } => return self.begin(term).map(|()| None),
                Next::Cancelled => return Ok(Some(Ended::Cancelled)),
                Next::Failed => return self.restore(),
                Next::Idle if runner.over()?.is_none() => return self.restore(),
                _ => {}
            }
        }
    }

    /// A turn of the loop. Returns why it is the last one.
    fn turn_once(&mut self) -> Result<Option<Ended>, RunFault> {
        let runner = self.runner;
        runner.look_at_faults()?;
        if runner.closes.load(SeqCst) {
            return Ok(Some(Ended::Closed));
        }
        let term = runner.term.load(SeqCst);
        if runner.lost.load(SeqCst) == term {
            return match runner.over()? {
                None => self.restore(),
                ended => Ok(ended),
            };
        }
        self.sweep_again()?;
        self.look_at_commands()?;
        let awaited = with_memory(|| runner.job.await_next(LOOKS_AGAIN))?;
        runner.abort(term, &awaited.ended);
        self.act(awaited.next)
    }

    /// What other threads have asked for.
    fn look_at_commands(&mut self) -> Result<(), RunFault> {
        let runner = self.runner;
        while locked(&runner.asked).as_ref().is_some_and(|it| !it.is_empty()) && self.is_answered()? {}
        self.answer_savepoints()?;
        if !runner.stops() || runner.job.phase()?.phase != Phase::Running {
            return Ok(());
        }
        match with_memory(|| runner.job.stop_job()) {
            // a failed job is restored first, and somebody else may be faster
            Err(CallError::Fault(Fault::Refused(Refusal::NotRunning))) => Ok(()),
            Err(CallError::Store(why)) if why.kind == StoreErrorKind::NotNow => Ok(()),
            told => Ok(told.map(drop)?),
        }
    }

    /// Whether the first thing that somebody asks for was done, or refused. A job that has failed is restored before it takes a record.
    fn is_answered(&mut self) -> Result<bool, RunFault> {
        let runner = self.runner;
        let Some(asked) = locked(&runner.asked).as_mut().and_then(VecDeque::pop_front) else { return Ok(false) };
        let told = with_memory(|| match &asked {
            Asked::Savepoint { .. } => runner.job.call(Call::Savepoint { now: NOW }),
            Asked::Checkpoint { .. } => runner.job.trigger(),
            Asked::Restore { savepoint, shape, .. } => runner.job.restore(*savepoint, shape.as_deref()),
        });
        match told {
            Ok(made) => self.done(asked, made)?,
            Err(CallError::Fault(Fault::Refused(Refusal::NotRunning))) if runner.job.mode()? == Mode::Failed => {
                if let Some(all) = locked(&runner.asked).as_mut() {
                    all.push_front(asked);
                }
                return Ok(false);
            }
            Err(why) if is_fatal(&why) => return Err(why.into()),
            Err(why) => asked.refuse(why),
        }
        Ok(true)
    }

    fn done(&mut self, asked: Asked, made: Made) -> Result<(), RunFault> {
        let base = made.choice.unwrap_or(Choice::Fresh);
        match (asked, made.called()) {
            (Asked::Savepoint { waits, answered }, Some(Answer::SavepointTriggered(id))) => {
                let mut it = Awaited { answered: Some(answered), base };
                if !waits {
                    it.answer(Ok(id));
                    it.answered = None;
                }
                self.savepoints.insert(id, it);
                if !self.runner.job.hands_over_savepoints() {
                    self.send(id, Kind::Savepoint, base, false)?;
                }
            }
            (Asked::Checkpoint { is_full, answered }, Some(Answer::Triggered { id, .. })) => {
                if is_full {
                    self.full.insert(id); // its barrier is handed over by the next turn
                }
                let _ = answered.send(Ok(id)); // nobody may wait any more
            }
            (Asked::Restore { answered, .. }, Some(Answer::Restored { .. })) => {
                let term = made.term.unwrap_or(0);
                let _ = answered.send(Ok(made)); // nobody may wait any more
                self.runner.engine.end().map_err(RunFault::Engine)?;
                self.begin(term)?;
            }
            other => unreachable!("it is answered {:?}", other.1),
        }
        Ok(())
    }

    /// Those that have ended.
    fn answer_savepoints(&mut self) -> Result<(), RunFault> {
        if self.savepoints.is_empty() {
            return Ok(());
        }
        for past in with_memory(|| Ok(self.runner.job.history(MOST_HISTORY)?))? {
            let Some(it) = self.savepoints.remove(&past.id) else { continue };
            it.answer(match past.ending {
                Ending::Completed => Ok(past.id),
                ending => Err(SavepointFault::Ended { id: past.id, ending, reason: past.reason }),
            });
        }
        Ok(())
    }

    fn act(&mut self, next: Next) -> Result<Option<Ended>, RunFault> {
        match next {
            Next::Barrier { id, kind, base } => {
                let holds = kind == Kind::Savepoint && self.is_of_stop(id)?;
                self.send(id, kind, base, holds)?;
            }
            Next::Begun { term, .. } => self.begin_elsewhere(term)?,
            Next::Completed { id } => {
                locked(&self.runner.pending).remove(&id);
                self.runner.complete(self.runner.term.load(SeqCst), id)?;
            }
            Next::Failed => {
                self.runner.look_at_progress()?;
                return self.restore();
            }
            Next::Cancelled => return Ok(Some(Ended::Cancelled)),
            Next::Stopped => {
                self.runner.tell_of_stop()?;
                return Ok(Some(Ended::Stopped));
            }
            Next::NotStopped => self.go_on()?,
            Next::Idle => {
                if self.holds && self.runner.job.phase()?.phase == Phase::Running {
                    self.go_on()?;
                } else {
                    self.look_at_term()?;
                }
            }
            Next::Ended => return Ok(Some(Ended::Closed)),
        }
        Ok(None)
    }

    /// Whether another thread has called [`Call::Restore`] of a store, which is not handed over.
    fn look_at_term(&mut self) -> Result<(), RunFault> {
        let job = &self.runner.job;
        let term = if job.hands_over_savepoints() { self.began } else { job.term()? };
        if term != self.began && self.runner.over()?.is_none() {
            self.begin_elsewhere(term)?;
        }
        Ok(())
    }

    /// Somebody else has restored the job: tasks begin in this term, but not twice, or nothing would refuse the first ones.
    fn begin_elsewhere(&mut self, term: u64) -> Result<(), RunFault> {
        if term == self.began {
            return Ok(());
        }
        self.runner.engine.end().map_err(RunFault::Engine)?;
        self.begin(term)
    }

    /// Whether this savepoint is that of a stop. Another phase was handed over late.
    fn is_of_stop(&self, id: u64) -> Result<bool, RunFault> {
        let phase = self.runner.job.phase()?;
        Ok(phase.phase != Phase::Running && phase.savepoint.map_or(true, |savepoint| savepoint == id))
    }

    fn send(&mut self, id: u64, kind: Kind, base: Choice, holds: bool) -> Result<(), RunFault> {
        self.go_on()?; // nobody may have said that the stop has failed for which tasks hold
        let runner = self.runner;
        let term = runner.term.load(SeqCst);
        if runner.lost.load(SeqCst) == term {
            return Ok(()); // the tasks start again, and the record ends
        }
        let base = if self.full.remove(&id) { Choice::Fresh } else { base };
        locked(&runner.pending).insert(id, BTreeSet::new());
        (self.holds, self.drained) = (holds, holds && runner.drains.load(SeqCst));
        let barrier = Barrier { id, kind, base, term, holds, drains: self.drained };
        in_term(runner.engine.barrier(barrier))?;
        runner.ack_finished(&barrier)
    }

    fn go_on(&mut self) -> Result<(), RunFault> {
        if !std::mem::take(&mut self.holds) {
            return Ok(());
        }
        if self.drained {
            self.runner.restart(); // tasks have put out what they keep, so they can't go on
            return Ok(());
        }
        self.runner.engine.go_on().map_err(RunFault::Engine)
    }

    /// Ends all tasks and starts them again, unless the job was stopped or cancelled: somebody else may be faster.
    fn restore(&mut self) -> Result<Option<Ended>, RunFault> {
        let runner = self.runner;
        runner.engine.end().map_err(RunFault::Engine)?;
        let restored = with_memory(|| runner.job.restore(None, None));
        let ended = runner.over()?;
        if ended.is_some() && matches!(restored, Ok(_) | Err(CallError::Fault(Fault::Refused(Refusal::NotRunning)))) {
            return Ok(ended);
        }
        self.begin(restored?.term.unwrap_or(0))?;
        Ok(None)
    }

    /// Looks that the record is whole, sweeps, and starts the tasks.
    fn begin(&mut self, term: u64) -> Result<(), RunFault> {
        let runner = self.runner;
        let record = runner.load()?;
        record.as_ref().map_or(Ok(()), |it| runner.check_shape(it))?;
        self.sweep()?;
        (self.holds, self.drained, self.began) = (false, false, term);
        {
            let mut told = locked(&runner.told);
            *told = 0;
            runner.term.store(term, SeqCst);
            locked(&runner.pending).clear();
            locked(&runner.finished).clear();
        }
        self.discard();
        runner.engine.start(runner, term, record.as_ref()).map_err(RunFault::Engine)?;
        runner.close_at(record.map_or(0, |it| it.id));
        self.answer_savepoints()?;
        if runner.job.hands_over_savepoints() {
            return Ok(());
        }
        let pending: Vec<(u64, Choice)> = self.savepoints.iter().map(|(id, it)| (*id, it.base)).collect();
        // the earlier tasks had these barriers, in a term that had just ended
        pending.into_iter().try_for_each(|(id, base)| self.send(id, Kind::Savepoint, base, false))
    }

    fn sweep(&mut self) -> Result<(), CallError> {
        self.swept = Instant::now();
        with_memory(|| self.runner.job.sweep(self.runner.options.files.as_deref()))
    }

    /// Now and then. What could not be read or synced now is tried at the next time.
    fn sweep_again(&mut self) -> Result<(), CallError> {
        if self.swept.elapsed() < self.runner.options.sweep_interval {
            return Ok(());
        }
        match self.sweep() {
            Err(CallError::Store(why)) if why.kind == StoreErrorKind::NotDone => Ok(()),
            told => told,
        }
    }

    /// Ends the tasks, and publishes what a stop has. Then one sweep, and all deletions that are due: a task that still writes may leave a file, which a
    /// later sweep deletes.
    fn end_tasks(&mut self, mut ended: Ended) -> Result<Ended, RunFault> {
        let runner = self.runner;
        runner.engine.end().map_err(RunFault::Engine)?;
        self.answer_savepoints()?;
        if ended == Ended::Stopped {
            runner.is_at_end.store(false, SeqCst);
            self.stopped()?;
            if runner.finishes.load(SeqCst) && (self.drained || runner.is_at_end.load(SeqCst)) {
                with_memory(|| runner.job.cancel())?;
                ended = Ended::Finished;
            }
        }
        if ended != Ended::Closed {
            self.discard();
            self.sweep()?;
            self.await_deletions()?;
        }
        Ok(ended)
    }

    fn await_deletions(&self) -> Result<(), RunFault> {
        let (runner, began) = (self.runner, Instant::now());
        loop {
            let counts = runner.job.file_counts()?;
            match counts.waiting + counts.taken {
                0 => return Ok(()),
                _ if runner.closes.load(SeqCst) => return Ok(()),
                left if began.elapsed() > runner.options.patience => return Err(RunFault::FilesLeft(left)),
                _ => runner.look_at_faults()?,
            }
            thread::sleep(Duration::from_millis(LOOKS_AGAIN));
        }
    }

    fn stopped(&self) -> Result<(), RunFault> {
        let runner = self.runner;
        {
            let _told = locked(&runner.told);
            runner.term.store(0, SeqCst); // `complete` is not called any more, by whatever comes late
        }
        match runner.load()? {
            Some(record) => runner.engine.stopped(&record).map_err(RunFault::Engine),
            None => Ok(()),
        }
    }

    fn discard(&mut self) {
        let runner = self.runner.clone();
        self.discarder.get_or_insert_with(|| {
            thread::spawn(move || {
                if let Err(why) = runner.job.discard(runner.options.files.as_deref()) {
                    locked(&runner.failed).get_or_insert(why.into());
                }
            })
        });
    }
}

/// Whether the loop can't go on after it, as after a commit that failed.
fn is_fatal(why: &CallError) -> bool {
    matches!(why, CallError::Store(why) if why.kind != StoreErrorKind::NotNow)
}
