//! The replay once this process leads: threads that bring one job after another up to date with its log, those first that requests wait for.
use super::board::Board;
use super::message::Message;
use super::queue::Inbox;
use super::replay::{bring_up, StartError};
use crate::log;
use crate::model::{Job, Keeping};
use crate::process;
use crate::store::{DbError, Reader};
use std::collections::{BTreeMap, HashMap, VecDeque};
use std::sync::atomic::{AtomicU64, Ordering};
use std::sync::{Arc, Mutex, MutexGuard, PoisonError};
use std::time::{Duration, Instant};
use tokio::sync::watch::{self, Receiver};

/// Each thread has a connection to the database, which allows so many.
const MOST_THREADS: usize = 16;
/// From a try that failed to the next.
const REST: Duration = Duration::from_secs(1);

/// A job that is as its log says, or why it can't be.
pub struct Replayed {
    pub number: i64,
    pub name: String,
    pub job: Result<Box<Job>, StartError>,
}

/// How far the replay is.
#[derive(Clone, Copy, Debug, Default, PartialEq, Eq)]
pub struct Progress {
    /// How many jobs there were, and how many of them are replayed.
    pub jobs: usize,
    pub replayed: usize,
    /// How many calls were made again.
    pub calls: u64,
}

/// The jobs that are not replayed yet. The writer has none of them: nothing of them is told, and they have no calls.
#[derive(Default)]
pub struct Replay {
    pending: Mutex<Pending>,
    calls: AtomicU64,
}

#[derive(Default)]
struct Pending {
    all: usize,
    since: Option<Instant>,
    /// Those that no thread has begun with.
    jobs: BTreeMap<i64, Job>,
    /// All, by their names.
    slots: HashMap<String, Slot>,
    /// Those that requests wait for, in the order of these.
    asked: VecDeque<i64>,
    /// Goes with the last job.
    end: Option<watch::Sender<()>>,
}

/// Goes as its job is there, which ends the waits of its receivers.
struct Slot {
    number: i64,
    done: watch::Sender<()>,
}

impl Replay {
    /// These jobs are to be replayed. So many calls were made before.
    pub fn begin(&self, jobs: Vec<Job>, calls: u64) {
        self.calls.store(calls, Ordering::SeqCst);
        let mut pending = self.pending();
        (pending.all, pending.since) = (jobs.len(), Some(Instant::now()));
        pending.end = Some(watch::channel(()).0);
        let slot = |job: &Job| Slot { number: job.opening.number, done: watch::channel(()).0 };
        pending.slots = jobs.iter().map(|job| (job.opening.name.clone(), slot(job))).collect();
        pending.jobs = jobs.into_iter().map(|job| (job.opening.number, job)).collect();
        self.look_for_end(&mut pending);
    }

    /// The next job for a thread.
    fn take(&self) -> Option<Job> {
        let mut pending = self.pending();
        while let Some(number) = pending.asked.pop_front() {
            if let Some(job) = pending.jobs.remove(&number) {
                return Some(job);
            }
        }
        pending.jobs.pop_first().map(|(_, job)| job)
    }

    /// The writer has the job of this name, or keeps it out.
    pub fn done(&self, name: &str) {
        let mut pending = self.pending();
        pending.slots.remove(name);
        self.look_for_end(&mut pending);
    }

    fn look_for_end(&self, pending: &mut Pending) {
        if !pending.slots.is_empty() || pending.end.take().is_none() {
            return;
        }
        let (jobs, calls) = (pending.all, self.calls.load(Ordering::SeqCst));
        let took = pending.since.map_or(0, |since| since.elapsed().as_millis());
        log::info(&format!("all jobs are replayed jobs={jobs} calls={calls} took_ms={took}"));
    }

    /// What ends once a job is replayed, which goes before those that nobody waits for; `None` if it is, or if there is no such job.
    pub fn of(&self, name: &str) -> Option<Receiver<()>> {
        let mut pending = self.pending();
        let Slot { number, done } = pending.slots.get(name)?;
        let (number, wait) = (*number, done.subscribe());
        pending.asked.push_back(number);
        Some(wait)
    }

    /// What ends once all jobs are replayed; `None` if they are.
    pub fn of_all(&self) -> Option<Receiver<()>> {
        self.pending().end.as_ref().map(watch::Sender::subscribe)
    }

    /// The names of those jobs that are not replayed, in their order.
    pub fn names(&self, wants: impl Fn(&str) -> bool) -> Vec<String> {
        let mut names: Vec<String> = self.pending().slots.keys().filter(|name| wants(name)).cloned().collect();
        names.sort_unstable();
        names
    }

    pub fn progress(&self) -> Progress {
        let pending = self.pending();
        let replayed = pending.all - pending.slots.len();
        Progress { jobs: pending.all, replayed, calls: self.calls.load(Ordering::SeqCst) }
    }

    fn pending(&self) -> MutexGuard<'_, Pending> {
        self.pending.lock().unwrap_or_else(PoisonError::into_inner)
    }
}

/// Opens a connection to read the log.
pub type OpenReader = Box<dyn Fn() -> Result<Box<dyn Reader>, DbError> + Send + Sync>;

/// What the threads share.
pub struct Pool {
    pub open: OpenReader,
    pub board: Arc<Board>,
    pub inbox: Inbox,
    pub keeping: Keeping,
}

impl Pool {
    /// Starts a thread for each processor. They end once there is nothing left for them.
    pub fn start(self) {
        let processors = std::thread::available_parallelism().map_or(1, usize::from);
        let threads = processors.min(MOST_THREADS).min(self.board.replay.progress().jobs);
        let pool = Arc::new(self);
        for _ in 0..threads {
            let pool = Arc::clone(&pool);
            process::thread("replay", move || pool.work());
        }
    }

    fn work(&self) {
        let mut reader = None;
        while let Some(job) = self.board.replay.take() {
            let replayed = self.replayed(job, &mut reader);
            if self.inbox.send(Message::Replayed(replayed)).is_err() {
                return;
            }
        }
        process::free_memory();
    }

    /// Replays a job, again and again if memory runs out or the database can't be read: others may be called meanwhile.
    fn replayed(&self, mut job: Job, reader: &mut Option<Box<dyn Reader>>) -> Replayed {
        let (number, name) = (job.opening.number, job.opening.name.clone());
        loop {
            match self.replay(&mut job, reader) {
                Err(why) if why.may_pass() => {
                    log::warn(&format!("job {name} is not replayed yet: {why}"));
                    *reader = None;
                    std::thread::sleep(REST);
                }
                told => return Replayed { number, name, job: told.map(|()| Box::new(job)) },
            }
        }
    }

    fn replay(&self, job: &mut Job, reader: &mut Option<Box<dyn Reader>>) -> Result<(), StartError> {
        let reader = match reader {
            Some(reader) => reader,
            None => reader.insert((self.open)()?),
        };
        let count = |calls: usize| _ = self.board.replay.calls.fetch_add(calls as u64, Ordering::SeqCst);
        bring_up(job, reader.as_mut(), self.keeping, &count)
    }
}

#[cfg(test)]
mod tests {
    use super::*;
    use crate::model::settings_of;

    fn job(number: i64) -> Job {
        let mut job = Job::tried(settings_of([1000, 0, 1, 600_000, 0, 1], false), &[1]).expect("a job");
        (job.opening.number, job.opening.name) = (number, format!("j{number}"));
        job
    }

    #[test]
    fn a_job_that_is_waited_for_goes_first() {
        let replay = Replay::default();
        assert!(replay.of("j3").is_none() && replay.of_all().is_none() && replay.take().is_none());
        replay.begin((1..=4).map(job).collect(), 7);
        let wait = replay.of("j3").expect("it is not replayed");
        assert!(replay.of("none").is_none() && replay.of("j3").is_some());
        let order: Vec<i64> = std::iter::from_fn(|| replay.take()).map(|job| job.opening.number).collect();
        assert_eq!(order, [3, 1, 2, 4]);
        // it was begun with, and is not there yet
        assert!(wait.has_changed().is_ok() && replay.of("j3").is_some());
        replay.done("j3");
        assert!(wait.has_changed().is_err() && replay.of("j3").is_none());
        assert_eq!(replay.progress(), Progress { jobs: 4, replayed: 1, calls: 7 });
    }

    #[test]
    fn all_are_replayed_with_the_last() {
        let replay = Replay::default();
        replay.begin((1..=2).map(job).collect(), 0);
        let wait = replay.of_all().expect("none is replayed");
        replay.done("j2");
        assert!(wait.has_changed().is_ok());
        replay.done("j1");
        assert!(wait.has_changed().is_err() && replay.of_all().is_none());
        replay.begin(Vec::new(), 0);
        assert!(replay.of_all().is_none());
    }
}
