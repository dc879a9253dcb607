//! An engine for the tests of the runner, which notes what it is asked, and whose tasks do at a barrier what a test says.
#![allow(dead_code)] // each test uses a part
use relkvanu::runner::{Barrier, Ended, Engine, Inputs, Options, Record, RunFault, Runner, Told};
use relkvanu::store::{CallError, Store};
use relkvanu::{Fault, Kind};
use std::sync::atomic::{AtomicBool, Ordering::SeqCst};
use std::sync::{Arc, Condvar, Mutex, Weak};
use std::thread::{self, JoinHandle};
use std::time::Duration;

pub const TASKS: u16 = 2;
pub const LONGEST: Duration = Duration::from_secs(50); // that a busy machine may take for a step, and less than tests/try_mutants gives a test that hangs

#[derive(Clone, Debug, PartialEq)]
pub enum Word {
    Start(u64, Option<u64>, usize), // the term, the record, and how many payloads
    Barrier(u64, Kind, bool),
    Complete(u64),
    Aborted(Vec<u64>),
    Stopped(u64, usize), // the record, and how many payloads
    GoOn,
    End,
}
use Word::*;

pub type Job = Arc<Runner<Words>>;
pub type Run = JoinHandle<Result<Ended, RunFault>>;
pub type Does<Of> = Mutex<Option<Arc<dyn Fn(&Job, Of) -> Told + Send + Sync>>>;

#[derive(Default)]
pub struct Words {
    said: Mutex<Vec<Word>>,
    changed: Condvar,
    job: Mutex<Weak<Runner<Words>>>,
    does: Does<Barrier>,                      // at a barrier; None: its tasks do nothing
    pub starts: Does<()>,                     // when tasks start
    pub inside: Does<u64>,                    // inside complete and aborted, before it notes that
    pub stops: Does<()>,                      // when the job is found stopped
    pub ends: Does<()>,                       // while tasks are told to end
    pub barriers: Mutex<Vec<Barrier>>,        // that were sent
    pub inputs: Mutex<Vec<Arc<Inputs<u64>>>>, // of its tasks, which are closed at their end
}

/// What is done from now on at something.
pub fn when<Of>(at: &Does<Of>, does: impl Fn(&Job, Of) -> Told + Send + Sync + 'static) {
    *at.lock().unwrap() = Some(Arc::new(does));
}

/// An engine whose tasks do this at a barrier.
pub fn engine_that(does: impl Fn(&Job, Barrier) -> Told + Send + Sync + 'static) -> Words {
    let engine = Words::default();
    engine.does(does);
    engine
}

/// A job over such an engine.
pub fn job_of(store: Store, engine: Words, options: Options) -> Job {
    let job = Runner::with(store, engine, options);
    *job.engine().job.lock().unwrap() = Arc::downgrade(&job);
    job
}

pub fn runs<E: Engine>(job: &Arc<Runner<E>>) -> Run {
    let runs = job.clone();
    thread::spawn(move || runs.run())
}

/// Each task acknowledges with a payload. An operator may be faster.
pub fn acknowledge(job: &Job, it: Barrier) -> Told {
    for index in 0..TASKS {
        match job.ack_payload(&it, (0, index), format!("state {index}").as_bytes()) {
            Err(CallError::Fault(Fault::Fenced(_) | Fault::Refused(_))) => break,
            told => drop(told?),
        }
    }
    Ok(())
}

/// No task acknowledges.
pub fn hang(_: &Job, _: Barrier) -> Told {
    Ok(())
}

/// The next record of this kind is declined.
pub fn decline(kind: Kind) -> impl Fn(&Job, Barrier) -> Told + Send + Sync {
    let declines = AtomicBool::new(true);
    move |job, it| match it.kind == kind && declines.swap(false, SeqCst) {
        true => Ok(job.decline(it.term, it.id, (0, 0), "as it was told").map(drop)?),
        false => acknowledge(job, it),
    }
}

/// The payloads that are those of the tasks.
fn payloads(record: &Record) -> usize {
    let has_its = |index: &u16| record.part(0, *index).unwrap().payload == format!("state {index}").as_bytes();
    (0..TASKS).filter(has_its).count()
}

pub fn is_complete(word: &Word) -> bool {
    matches!(word, Complete(_))
}

pub fn is_start(word: &Word) -> bool {
    matches!(word, Start(..))
}

impl Words {
    /// What its tasks do at a barrier from now on, in the thread of that.
    pub fn does(&self, does: impl Fn(&Job, Barrier) -> Told + Send + Sync + 'static) {
        when(&self.does, does);
    }

    /// Does what the test says, if it says that.
    fn make<Of>(&self, does: &Does<Of>, of: Of) -> Told {
        let (does, job) = (does.lock().unwrap().clone(), self.job.lock().unwrap().upgrade().unwrap());
        does.map_or(Ok(()), |does| does(&job, of))
    }

    pub fn note(&self, word: Word) -> Told {
        self.said.lock().unwrap().push(word);
        self.changed.notify_all();
        Ok(())
    }

    pub fn said(&self) -> Vec<Word> {
        self.said.lock().unwrap().clone()
    }

    /// Waits until so many words are such ones.
    pub fn await_words(&self, count: usize, is_such: impl Fn(&Word) -> bool) {
        let lacks = |said: &mut Vec<Word>| said.iter().filter(|it| is_such(it)).count() < count;
        let said = self.said.lock().unwrap();
        let (said, waited) = self.changed.wait_timeout_while(said, LONGEST, lacks).unwrap();
        assert!(!waited.timed_out(), "{said:?}");
    }

    pub fn await_word(&self, word: Word) {
        self.await_words(1, |it| *it == word);
    }

    /// So many completions from now on.
    pub fn await_more(&self, count: usize) {
        let before = self.said().iter().filter(|it| is_complete(it)).count();
        self.await_words(before + count, is_complete);
    }

    /// The terms in which tasks were started.
    pub fn starts(&self) -> Vec<u64> {
        let term = |it: &Word| if let Start(term, ..) = it { Some(*term) } else { None };
        self.said().iter().filter_map(term).collect()
    }
}

impl Engine for Words {
    fn start(&self, _: &Job, term: u64, record: Option<&Record>) -> Told {
        self.make(&self.starts, ())?;
        self.note(Start(term, record.map(|it| it.id), record.map_or(0, payloads)))
    }

    fn barrier(&self, it: Barrier) -> Told {
        let does = Mutex::new(self.does.lock().unwrap().clone()); // a test that hears of the barrier may say another thing
        self.barriers.lock().unwrap().push(it);
        self.note(Barrier(it.id, it.kind, it.holds))?;
        self.make(&does, it)
    }

    fn complete(&self, id: u64) -> Told {
        self.make(&self.inside, id)?;
        self.note(Complete(id))
    }

    fn aborted(&self, ids: &[u64]) -> Told {
        self.make(&self.inside, ids[0])?;
        self.note(Aborted(ids.to_vec()))
    }

    fn stopped(&self, record: &Record) -> Told {
        self.make(&self.stops, ())?;
        self.note(Stopped(record.id, payloads(record)))
    }

    fn go_on(&self) -> Told {
        self.note(GoOn)
    }

    fn end(&self) -> Told {
        self.inputs.lock().unwrap().drain(..).for_each(|it| it.close());
        self.note(End)?;
        self.make(&self.ends, ())
    }
}
