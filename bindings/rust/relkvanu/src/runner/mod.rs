//! The loop of an engine over a job: what an opening, a tick, a failure, a stop and an end ask of it, in the right order. An engine says how its tasks
//! start, how a barrier reaches them, and what its sinks are told. `docs/ENGINE.md` has one.
mod faults;
mod finished;
mod running;
mod states;

use crate::aligner::AlignFault;
use crate::answer::{Answer, Choice, Kind, Mode};
use crate::call::Call;
use crate::fault::{Fault, Fenced};
use crate::job::Job;
use crate::locked;
use crate::signals;
use crate::storage::Storage;
use crate::store::{CallError, Made, More, Phase, Store, StoreError, StoreErrorKind, NOW};
use finished::Finished;
use running::Running;
use std::collections::{BTreeMap, BTreeSet, VecDeque};
use std::error::Error;
use std::fmt;
use std::num::NonZeroU64;
use std::ops::Range;
use std::panic::{catch_unwind, AssertUnwindSafe};
use std::sync::atomic::{AtomicBool, AtomicU64, Ordering::SeqCst};
use std::sync::mpsc::{channel, Sender};
use std::sync::{Arc, Mutex, MutexGuard};
use std::thread::{self, JoinHandle, ThreadId};
use std::time::{Duration, Instant};

pub use crate::inputs::{Inputs, Taken};
pub use crate::store::{Ending, Part, Whole as Record};
pub use faults::{RunFault, SavepointFault};

const SWEEP_INTERVAL: Duration = Duration::from_secs(600);
const PATIENCE: Duration = Duration::from_secs(600);
const SECOND: Duration = Duration::from_secs(1);

/// A barrier of the record `id`. What has changed since `base` is in fresh files, and those of `base` may be reused. If it `holds`, the job is being
/// stopped: a task waits after its acknowledgement until it is ended, or until [`Engine::go_on`]. If it `drains` too, nothing follows: before its cut a
/// task puts out what it keeps, such as windows that are open.
#[derive(Clone, Copy, Debug, PartialEq, Eq)]
pub struct Barrier {
    pub id: u64,
    pub kind: Kind,
    pub base: Choice,
    pub term: u64,
    pub holds: bool,
    pub drains: bool,
}

/// What a runner has besides its job and its engine.
pub struct Options {
    /// Where the state files are; `None`: in the folder of the store.
    pub files: Option<Box<dyn Storage>>,
    /// Between two sweeps: files whose names tasks have forfeited go.
    pub sweep_interval: Duration,
    /// For how long a storage may fail, files be left at an end, and a job fail without a complete record between: then [`Runner::run`] ends.
    pub patience: Duration,
    /// When somebody else stops the job, [`Runner::run`] waits until it begins again, and goes on.
    pub waits: bool,
}

impl Default for Options {
    fn default() -> Options {
        Options { files: None, sweep_interval: SWEEP_INTERVAL, patience: PATIENCE, waits: false }
    }
}

/// One of [`Runner::acks`].
#[derive(Clone, Copy, Debug)]
pub struct Ack<'a> {
    pub barrier: Barrier,
    pub subtask: (u16, u16),
    pub fresh: &'a [u64],
    pub reused: &'a [u64],
    pub more: More<'a>,
}

impl<'a> Ack<'a> {
    fn call(&self) -> Call<'a> {
        let Ack { barrier: Barrier { term, id, .. }, subtask, fresh, reused, .. } = *self;
        Call::AckIn { term, now: NOW, id, subtask, fresh, reused }
    }
}

/// Why [`Runner::run`] has returned.
#[derive(Clone, Copy, Debug, PartialEq, Eq)]
pub enum Ended {
    /// [`Runner::close`] was called: the next process goes on.
    Closed,
    /// The job is stopped with a savepoint, and goes on from it once [`Store::begin_job`] was called.
    Stopped,
    /// The job has ended for good. One sweep was made, and all that it and the job's records gave up is deleted.
    Cancelled,
    /// By [`Runner::finish`]: the job was drained, its sinks have published all, and it is cancelled.
    Finished,
}

/// What other threads ask of the loop.
enum Asked {
    Savepoint { waits: bool, answered: Answered }, // until it has ended
    Checkpoint { is_full: bool, answered: Answered },
    Restore { savepoint: Option<NonZeroU64>, shape: Option<Vec<u64>>, answered: Sender<Result<Made, SavepointFault>> },
}

type Subtasks = BTreeSet<(u16, u16)>;
type Answered = Sender<Result<u64, SavepointFault>>;

/// What an engine's function returns. An error ends [`Runner::run`].
pub type Told = Result<(), Box<dyn Error + Send + Sync>>;

/// What an engine does. All of these are called by the thread of [`Runner::run`], one at a time, but [`complete`](Engine::complete)
/// and [`aborted`](Engine::aborted), which wait for each other alone.
pub trait Engine<J: Job = Store>: Sized + Send + Sync + 'static {
    /// Starts all tasks with this term. They begin with the state that is in the record's files, or from nothing. They acknowledge by the runner. Before
    /// it writes, a sink publishes what its state lists, and gives up all else that was prepared.
    fn start(&self, runner: &Arc<Runner<Self, J>>, term: u64, record: Option<&Record>) -> Told;

    /// Sends a barrier to the sources.
    fn barrier(&self, barrier: Barrier) -> Told;

    /// Says, while tasks run, that the job would begin again from this record: sinks publish what they prepared for it and for records before it. The
    /// numbers rise within a term. Called by a thread that acknowledges, or by [`Runner::run`] once the job is stopped and tasks hold. It makes no
    /// [`ack`](Runner::ack) and no [`decline`](Runner::decline), and waits for none.
    fn complete(&self, id: u64) -> Told;

    /// Says, while no task runs, that the job is stopped with this record: when a stop has ended, after [`end`](Engine::end), and when [`Runner::run`]
    /// finds the job stopped. Its sinks publish what the record's state lists, as at a start: the process may have died before they did.
    fn stopped(&self, _record: &Record) -> Told {
        Ok(())
    }

    /// Tells tasks that these records have ended and are not complete: they drop what they keep for them alone. Sinks keep what they prepared for them:
    /// the next checkpoint publishes it. Called by a thread that acknowledges or declines, or by that of [`Runner::run`]; not for what a restore ends.
    fn aborted(&self, _ids: &[u64]) -> Told {
        Ok(())
    }

    /// A stop of the job has failed: tasks that hold go on. In an engine that does not say how, this ends [`Runner::run`], and the next process goes on. After a
    /// drain that has failed all tasks start again instead.
    fn go_on(&self) -> Told {
        Err("a stop of the job has failed, and this engine's tasks can't go on".into())
    }

    /// Tells all tasks to end, closes their [`Inputs`], and waits for none that hangs. What they send after a restore, a stop or a cancel is refused. After [`Runner::close`]
    /// their term goes on: until the store is closed they may still acknowledge, and [`complete`](Engine::complete) may be called.
    fn end(&self) -> Told;
}

/// The turn of a thread that tells tasks something. It would wait for itself if it acknowledged meanwhile.
struct Turn<'a> {
    told: MutexGuard<'a, u64>, // the greatest record that was complete in this term
    teller: &'a Mutex<Option<ThreadId>>,
}

impl Drop for Turn<'_> {
    fn drop(&mut self) {
        *locked(self.teller) = None;
    }
}

/// Runs an engine over a job and a storage. Tasks call [`ack`](Self::ack) and [`decline`](Self::decline), and [`reserve`](Self::reserve), [`files`](Self::files)
/// and [`forfeit`](Self::forfeit), each with the term that they were started with. Any thread may call `trigger`, `stop_job`, `configure`, `go_back` or
/// [`Call::Restore`] of the [`job`](Self::job): the engine sees the barrier or the restart that it brings. A savepoint is asked of the runner.
pub struct Runner<E, J = Store> {
    job: J,
    engine: E,
    options: Options,
    term: AtomicU64, // of the tasks
    told: Mutex<u64>,
    teller: Mutex<Option<ThreadId>>,
    pending: Mutex<BTreeMap<u64, Subtasks>>, // records whose barriers were sent, and who has acknowledged
    missed: Mutex<Option<(u64, Subtasks)>>,  // the last of them that failed
    fails_since: Mutex<Option<Instant>>,     // the job, without a complete checkpoint
    finished: Mutex<BTreeMap<(u16, u16), Finished>>, // tasks of the term
    lost: AtomicU64,                         // the last term of which a task has died
    closes: AtomicBool,
    last: AtomicU64, // the record after which it closes
    stops: AtomicBool,
    drains: AtomicBool, // when it stops
    finishes: AtomicBool,
    is_at_end: AtomicBool, // the engine has found so, as it was told of a stop
    listens: AtomicBool,   // signals ask it to stop
    looper: Mutex<Option<ThreadId>>,
    asked: Mutex<Option<VecDeque<Asked>>>, // None: the run is over
    failed: Mutex<Option<RunFault>>,       // by another thread
}

impl<E, J: fmt::Debug> fmt::Debug for Runner<E, J> {
    fn fmt(&self, f: &mut fmt::Formatter<'_>) -> fmt::Result {
        write!(f, "a runner over {:?}", self.job)
    }
}

/// Makes a call until memory suffices: without memory nothing has changed.
fn with_memory<T>(call: impl Fn() -> Result<T, CallError>) -> Result<T, CallError> {
    loop {
        match call() {
            Err(CallError::Fault(Fault::Memory)) => thread::sleep(SECOND),
            Err(CallError::Store(why)) if why.kind == StoreErrorKind::NoMemory => thread::sleep(SECOND),
            told => return told,
        }
    }
}

/// What a function of the engine has told that may acknowledge in a term which somebody has just ended: then the loop is about to see that.
fn in_term(told: Told) -> Result<(), RunFault> {
    const OLD_TERM: CallError = CallError::Fault(Fault::Fenced(Fenced::OldTerm));
    match told {
        Err(why) if why.downcast_ref() == Some(&OLD_TERM) => Ok(()),
        told => told.map_err(RunFault::Engine),
    }
}

/// What a function of the engine has told that any thread may be in. Nobody may look at that thread's end, so a panic is an error too.
fn caught(call: impl FnOnce() -> Told) -> Result<(), RunFault> {
    let told = catch_unwind(AssertUnwindSafe(call));
    told.unwrap_or_else(|_| Err("the engine has panicked".into())).map_err(RunFault::Engine)
}

impl<E: Engine> Runner<E> {
    /// Over the folder of a store.
    pub fn new(store: Store, engine: E) -> Arc<Runner<E>> {
        Self::with(store, engine, Options::default())
    }

    /// The same, with another number of milliseconds between two sweeps.
    pub fn with_sweeps(store: Store, engine: E, sweep_interval: u64) -> Arc<Runner<E>> {
        Self::with(
            store,
            engine,
            Options { sweep_interval: Duration::from_millis(sweep_interval), ..Options::default() },
        )
    }

    pub fn store(&self) -> &Store {
        &self.job
    }
}

impl<E: Engine<J>, J: Job> Runner<E, J> {
    /// Over any storage and either coordinator.
    pub fn with(job: J, engine: E, options: Options) -> Arc<Runner<E, J>> {
        let term = job.term().unwrap_or(0); // until the first start
        Arc::new(Runner {
            job,
            engine,
            options,
            term: AtomicU64::new(term),
            told: Mutex::new(0),
            teller: Mutex::new(None),
            pending: Mutex::new(BTreeMap::new()),
            missed: Mutex::new(None),
            fails_since: Mutex::new(None),
            finished: Mutex::new(BTreeMap::new()),
            lost: AtomicU64::new(0),
            closes: AtomicBool::new(false),
            last: AtomicU64::new(u64::MAX),
            stops: AtomicBool::new(false),
            drains: AtomicBool::new(false),
            finishes: AtomicBool::new(false),
            is_at_end: AtomicBool::new(false),
            listens: AtomicBool::new(false),
            looper: Mutex::new(None),
            asked: Mutex::new(Some(VecDeque::new())),
            failed: Mutex::new(None),
        })
    }

    pub fn job(&self) -> &J {
        &self.job
    }

    /// Where the state files are.
    ///
    /// # Panics
    /// The job has no storage, and none was given.
    pub fn files(&self) -> &dyn Storage {
        let given = self.options.files.as_deref();
        given.or_else(|| self.job.own_files()).expect("a runner over files, or a job with a storage")
    }

    /// Names for files that a task of this term will write.
    pub fn reserve(&self, term: u64, count: u64) -> Result<Range<u64>, CallError> {
        self.job.reserve(term, count)
    }

    /// A task of this term gives up names that it will not acknowledge.
    pub fn forfeit(&self, term: u64, names: &[u64]) -> Result<(), CallError> {
        self.job.forfeit(term, names)
    }

    pub fn engine(&self) -> &E {
        &self.engine
    }

    /// Acknowledges, with a payload if the task's state is small, and tells the sinks if the record of a checkpoint is complete. `NotNow` inside
    /// [`complete`](Engine::complete) and [`aborted`](Engine::aborted).
    pub fn ack(
        &self,
        term: u64,
        id: u64,
        subtask: (u16, u16),
        fresh: &[u64],
        reused: &[u64],
        more: More<'_>,
    ) -> Result<Made, CallError> {
        let ack = Call::AckIn { term, now: NOW, id, subtask, fresh, reused };
        self.make(term, &[(ack, more)])?.pop().unwrap_or(Err(Fault::Memory)).map_err(CallError::Fault)
    }

    /// The same of many subtasks, in one commit. What each is answered, in their order. That a term has ended is the error of all.
    pub fn acks(&self, acks: &[Ack<'_>]) -> Result<Vec<Result<Made, Fault>>, CallError> {
        let Some(first) = acks.first() else { return Ok(Vec::new()) };
        let calls: Vec<(Call<'_>, More<'_>)> = acks.iter().map(|it| (it.call(), it.more)).collect();
        let told = self.make(first.barrier.term, &calls)?;
        match told.iter().find(|it| **it == Err(Fault::Fenced(Fenced::OldTerm))) {
            Some(_) => Err(CallError::Fault(Fault::Fenced(Fenced::OldTerm))),
            None => Ok(told),
        }
    }

    /// Makes calls of tasks of a term, and tells the engine what they have completed and ended.
    fn make(&self, term: u64, calls: &[(Call<'_>, More<'_>)]) -> Result<Vec<Result<Made, Fault>>, CallError> {
        self.outside()?;
        let told = self.job.calls_with(calls)?;
        for ((call, _), made) in calls.iter().zip(&told) {
            let Ok(made) = made else { continue };
            if let Call::AckIn { id, subtask, .. } = *call {
                self.acked(term, id, subtask, made);
            }
            self.abort(term, &made.ended);
        }
        Ok(told)
    }

    /// An acknowledgement was made.
    fn acked(&self, term: u64, id: u64, subtask: (u16, u16), made: &Made) {
        if !matches!(made.called(), Some(Answer::AckCompleted { .. })) {
            if let Some(acked) = locked(&self.pending).get_mut(&id) {
                acked.insert(subtask);
            }
            return;
        }
        locked(&self.pending).remove(&id);
        if made.kind == Some(Kind::Checkpoint) {
            self.note(self.complete(term, id));
        }
    }

    /// [`ack`](Self::ack) of a task with this barrier whose whole state is the payload, at most 4096 bytes.
    pub fn ack_payload(&self, barrier: &Barrier, subtask: (u16, u16), payload: &[u8]) -> Result<Made, CallError> {
        self.ack(barrier.term, barrier.id, subtask, &[], &[], More { payload, ..More::default() })
    }

    /// Declines, with a reason for the history. If the job has failed by that, the loop restarts it. `NotNow` as of [`ack`](Self::ack).
    pub fn decline(&self, term: u64, id: u64, subtask: (u16, u16), reason: &str) -> Result<Made, CallError> {
        let decline = Call::DeclineIn { term, now: NOW, id, subtask };
        let more = More { reason, ..More::default() };
        self.make(term, &[(decline, more)])?.pop().unwrap_or(Err(Fault::Memory)).map_err(CallError::Fault)
    }

    /// A task has died or was lost: the loop ends all tasks, restores the job and starts them again, unless it was stopped or cancelled. Any thread may
    /// call it.
    pub fn restart(&self) {
        self.restart_of(self.term.load(SeqCst));
    }

    /// The same for a task of this term. A report about an earlier term is ignored.
    pub fn restart_of(&self, term: u64) {
        if term == self.term.load(SeqCst) {
            self.lost.fetch_max(term, SeqCst);
        }
    }

    /// Lets [`run`](Self::run) return once all tasks were told to end. Any thread may call it.
    pub fn close(&self) {
        self.closes.store(true, SeqCst);
    }

    /// As [`close`](Self::close), once a checkpoint with this number or a greater one is complete and published, or the job has begun from such a record.
    /// Call it before [`run`](Self::run).
    pub fn close_after(&self, id: u64) {
        self.last.store(id, SeqCst);
    }

    /// Lets [`run`](Self::run) stop the job with a savepoint, and return [`Ended::Stopped`]. A stop that fails is tried again, as long as it goes on. Any
    /// thread may call it.
    pub fn ask_to_stop(&self) {
        self.stops.store(true, SeqCst);
    }

    /// The same for a job that has come to its end: [`Barrier::drains`].
    pub fn ask_to_drain(&self) {
        self.drains.store(true, SeqCst);
        self.ask_to_stop();
    }

    /// Drains the job, and when its sinks have published all, cancels it: [`run`](Self::run) deletes what that gives up, and returns [`Ended::Finished`].
    /// Savepoints stay, and what [`Settings::keep_on_cancel`](crate::Settings) says. If the process dies in between, the job is stopped or goes on: call it again,
    /// when the sources are at their end, or in [`Engine::stopped`]. If somebody else has stopped the job meanwhile, it is not drained: [`run`](Self::run) returns
    /// [`Ended::Stopped`], and once it begins again its engine calls this again.
    pub fn finish(&self) {
        self.finishes.store(true, SeqCst);
        if *locked(&self.looper) == Some(thread::current().id()) {
            self.is_at_end.store(true, SeqCst);
        }
        self.ask_to_drain();
    }

    /// Lets SIGTERM and SIGINT (Ctrl-C) [ask to stop](Self::ask_to_stop). Whichever comes next ends the process, if it takes too long. One that is
    /// ignored stays so. Call it before [`run`](Self::run), of one runner in a process that has no handlers of its own for these signals.
    pub fn stop_at_signals(&self) {
        self.listens.store(true, SeqCst);
        signals::listen();
    }

    /// Begins the job if it is stopped: call it before [`run`](Self::run).
    pub fn begin_job(&self) -> Result<(), CallError> {
        if self.job.phase()?.phase == Phase::Stopped {
            with_memory(|| self.job.begin_job())?;
        }
        Ok(())
    }

    /// Starts a thread of a task of the term that runs. An error that it returns, and a panic, ends [`run`](Self::run). But once its term has ended, or its
    /// [`Inputs`] are closed, that only ends the task: the job was restored, stopped or cancelled meanwhile, and a sweep may have taken the file that it wrote.
    pub fn spawn(self: &Arc<Self>, task: impl FnOnce(&Arc<Self>) -> Told + Send + 'static) -> JoinHandle<()> {
        let (runner, term) = (self.clone(), self.term.load(SeqCst));
        thread::spawn(move || {
            let told = catch_unwind(AssertUnwindSafe(|| task(&runner)));
            let told = told.unwrap_or_else(|_| Err("a task has panicked".into()));
            let is_closed = matches!(&told, Err(why) if why.downcast_ref() == Some(&AlignFault::Closed));
            if told.is_err() && !is_closed && !runner.has_ended(term) {
                runner.note(in_term(told));
            }
        })
    }

    /// Whether it is known that this term has ended. The runner's own changes later: a restart sweeps before it begins.
    fn has_ended(&self, term: u64) -> bool {
        self.job.term().is_ok_and(|it| it != term)
    }

    /// Takes a savepoint, and returns its number once it is complete. Its barrier goes the way of a checkpoint's. Any thread may call it but a task: one
    /// that is to acknowledge would wait for itself. Its call is refused while the job is being stopped. In the thread of [`run`](Self::run), and inside
    /// [`complete`](Engine::complete) and [`aborted`](Engine::aborted), it is `NotNow`.
    pub fn savepoint(&self) -> Result<u64, SavepointFault> {
        self.ask(|answered| Asked::Savepoint { waits: true, answered })
    }

    /// Triggers a savepoint, as [`savepoint`](Self::savepoint), and returns its number at once.
    pub fn trigger_savepoint(&self) -> Result<u64, SavepointFault> {
        self.ask(|answered| Asked::Savepoint { waits: false, answered })
    }

    /// Triggers a checkpoint now, whatever the interval and the pause, and returns its number. The barrier of one that `is_full` has no base, so that tasks write
    /// all anew: the cure of a shared file that is damaged. In the thread of [`run`](Self::run) it is `NotNow`.
    pub fn checkpoint(&self, is_full: bool) -> Result<u64, SavepointFault> {
        self.ask(|answered| Asked::Checkpoint { is_full, answered })
    }

    /// Begins the job again, from its latest record or from this savepoint, in another shape if one is given, while it runs. In the thread of [`run`](Self::run)
    /// it is `NotNow`.
    pub fn restore(&self, savepoint: Option<NonZeroU64>, shape: Option<&[u64]>) -> Result<Made, SavepointFault> {
        self.ask(|answered| Asked::Restore { savepoint, shape: shape.map(<[u64]>::to_vec), answered })
    }

    fn ask<T>(&self, of: impl FnOnce(Sender<Result<T, SavepointFault>>) -> Asked) -> Result<T, SavepointFault> {
        let of_call = |why: StoreError| SavepointFault::Call(why.into());
        self.outside().map_err(of_call)?;
        if *locked(&self.looper) == Some(thread::current().id()) {
            let message = "this thread would wait for itself: ask for a record in another one".to_owned();
            return Err(of_call(StoreError { kind: StoreErrorKind::NotNow, message }));
        }
        let (answered, answer) = channel();
        match &mut *locked(&self.asked) {
            Some(all) => all.push_back(of(answered)),
            None => return Err(SavepointFault::Over { id: None }),
        }
        answer.recv().unwrap_or(Err(SavepointFault::Over { id: None }))
    }

    /// Runs the job until it is closed, stopped, finished or cancelled. Afterwards the job's timers and discarders have ended.
    pub fn run(self: &Arc<Self>) -> Result<Ended, RunFault> {
        *locked(&self.looper) = Some(thread::current().id());
        let mut running = Running::new(self);
        let ended = running.work();
        self.job.stop();
        running.join();
        ended
    }

    /// What the engine has failed with in another thread ends the loop.
    fn note(&self, told: Result<(), RunFault>) {
        if let Err(why) = told {
            locked(&self.failed).get_or_insert(why);
        }
    }

    fn turn(&self) -> Turn<'_> {
        let told = locked(&self.told);
        *locked(&self.teller) = Some(thread::current().id());
        Turn { told, teller: &self.teller }
    }

    fn outside(&self) -> Result<(), StoreError> {
        if *locked(&self.teller) != Some(thread::current().id()) {
            return Ok(());
        }
        Err(StoreError {
            kind: StoreErrorKind::NotNow,
            message: "this thread is in complete or aborted: acknowledge and decline when it has returned".to_owned(),
        })
    }

    /// Tells the engine which records have ended whose barriers were sent, and which are not complete.
    fn abort(&self, term: u64, ended: &[u64]) {
        if ended.is_empty() {
            return; // and waits for no sink
        }
        let _turn = self.turn();
        if term != self.term.load(SeqCst) {
            return;
        }
        let aborted: Vec<u64> = {
            let mut pending = locked(&self.pending);
            let mut miss = |id: &u64| pending.remove(id).map(|acked| *locked(&self.missed) = Some((*id, acked)));
            ended.iter().copied().filter(|id| miss(id).is_some()).collect()
        };
        if !aborted.is_empty() {
            self.note(caught(|| self.engine.aborted(&aborted)));
        }
    }

    /// Two threads may come here in another order than their records were completed.
    fn tell(&self, term: u64, id: u64) -> Result<(), RunFault> {
        let mut turn = self.turn();
        if term != self.term.load(SeqCst) || id <= *turn.told {
            return Ok(());
        }
        *turn.told = id;
        *locked(&self.fails_since) = None;
        caught(|| self.engine.complete(id))
    }

    /// A checkpoint is complete.
    fn complete(&self, term: u64, id: u64) -> Result<(), RunFault> {
        self.tell(term, id)?;
        if term == self.term.load(SeqCst) {
            self.close_at(id);
        }
        Ok(())
    }

    fn close_at(&self, id: u64) {
        if id >= self.last.load(SeqCst) {
            self.close();
        }
    }

    fn stops(&self) -> bool {
        self.stops.load(SeqCst) || self.listens.load(SeqCst) && signals::is_asked()
    }

    /// Tasks hold for this savepoint. Another record may be the choice by now, by a way back: its number says nothing of what is prepared.
    fn tell_of_stop(&self) -> Result<(), RunFault> {
        match (self.job.choice()?, self.job.phase()?.savepoint) {
            (Choice::Savepoint(id), Some(savepoint)) if id == savepoint => self.tell(self.term.load(SeqCst), id),
            _ => Ok(()),
        }
    }

    /// Whether the job was stopped or cancelled.
    fn over(&self) -> Result<Option<Ended>, RunFault> {
        if self.job.phase()?.phase == Phase::Stopped {
            return Ok(Some(Ended::Stopped));
        }
        Ok((self.job.mode()? == Mode::Cancelled).then_some(Ended::Cancelled))
    }

    /// What another thread has failed with.
    fn look_at_faults(&self) -> Result<(), RunFault> {
        locked(&self.failed).take().map_or(Ok(()), Err)
    }
}
