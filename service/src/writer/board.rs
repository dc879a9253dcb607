//! The board: what the threads know of each other.
use super::damaged::KeptOut;
use super::lag::Lag;
use super::lease::Lease;
use super::pool::Replay;
use crate::model::{wall, Answer, Bases, Choice, Job, Moment, Outcome, Reply};
use serde_json::Value;
use std::collections::{BTreeMap, HashMap};
use std::fmt::Write;
use std::sync::atomic::{AtomicBool, AtomicU64, Ordering};
use std::sync::{Mutex, OnceLock, PoisonError, RwLock, RwLockReadGuard};
use std::time::{Duration, Instant};
use tokio::sync::watch;

/// Whether this process leads, which jobs there are, and how far each is.
pub struct Board {
    ready: AtomicBool,
    /// How many processes have led until this one does; 0 before.
    epoch: AtomicU64,
    /// The log's identity since this process leads.
    log: OnceLock<String>,
    /// When this process no longer leads, in milliseconds since the machine's start.
    lease_until: AtomicU64,
    beat: AtomicU64,
    /// When the commit began that is under way, in milliseconds since `started`, plus 1; 0 if none is.
    commits: AtomicU64,
    stopping: watch::Sender<bool>,
    started: Instant,
    jobs: RwLock<HashMap<String, Watched>>,
    /// The jobs that are kept out since their logs can't be replayed, and why.
    kept_out: RwLock<BTreeMap<String, String>>,
    /// The jobs that are not replayed yet.
    pub replay: Replay,
}

/// That this process serves a job.
#[derive(Clone, Copy)]
pub struct Served {
    /// The moment since which it does, by this machine's clock.
    pub since: u64,
    /// For how long the history has not read what was committed.
    pub lag: Duration,
}

struct Watched {
    number: i64,
    since: u64,
    /// How many calls were committed.
    length: AtomicU64,
    /// The first call that the log has.
    first: AtomicU64,
    /// How far the history has read.
    read: AtomicU64,
    lag: Lag,
    bases: Mutex<Bases>,
    last_event: watch::Sender<u64>,
}

impl Board {
    pub fn new() -> Board {
        let jobs = RwLock::new(HashMap::new());
        Board {
            ready: AtomicBool::new(false),
            epoch: AtomicU64::new(0),
            log: OnceLock::new(),
            lease_until: AtomicU64::new(0),
            beat: AtomicU64::new(0),
            commits: AtomicU64::new(0),
            stopping: watch::channel(false).0,
            started: Instant::now(),
            jobs,
            kept_out: RwLock::default(),
            replay: Replay::default(),
        }
    }

    /// These jobs are kept out.
    pub fn keep_out(&self, jobs: &KeptOut) {
        let mut kept_out = self.kept_out.write().unwrap_or_else(PoisonError::into_inner);
        kept_out.extend(jobs.iter().map(|damaged| (damaged.name.clone(), damaged.why.to_string())));
    }

    /// Why a job is kept out; `None` if it is not.
    pub fn damage(&self, job: &str) -> Option<String> {
        self.kept_out.read().unwrap_or_else(PoisonError::into_inner).get(job).cloned()
    }

    /// The jobs that are kept out, and why.
    pub fn damaged(&self) -> Vec<(String, String)> {
        let kept_out = self.kept_out.read().unwrap_or_else(PoisonError::into_inner);
        kept_out.iter().map(|(name, why)| (name.clone(), why.clone())).collect()
    }

    /// This process leads in this epoch, and the log has this identity.
    pub fn lead(&self, epoch: u64, log: String) {
        self.log.get_or_init(|| log);
        self.epoch.store(epoch, Ordering::SeqCst);
    }

    /// From now on requests are accepted. Those for jobs that are not replayed yet wait.
    pub fn open(&self) {
        self.ready.store(true, Ordering::SeqCst);
    }

    /// The lease was renewed, until then.
    pub fn set_lease(&self, lease: &Lease) {
        self.lease_until.store(lease.until(), Ordering::SeqCst);
    }

    /// This process leads no longer.
    pub fn end_lease(&self) {
        self.lease_until.store(0, Ordering::SeqCst);
    }

    /// Whether this process leads, and its lease is not over.
    pub fn is_ready(&self) -> bool {
        self.ready.load(Ordering::SeqCst) && Moment::now().millis() < self.lease_until.load(Ordering::SeqCst)
    }

    /// How often another process began to lead, until this one did; 0 if it does not lead yet.
    pub fn epoch(&self) -> u64 {
        self.epoch.load(Ordering::SeqCst)
    }

    /// The log's identity; empty before this process leads.
    pub fn log(&self) -> &str {
        self.log.get().map_or("", String::as_str)
    }

    /// The writer works, or the thread that waits to lead.
    pub fn beat(&self) {
        self.beat.store(self.now(), Ordering::SeqCst);
    }

    fn now(&self) -> u64 {
        u64::try_from(self.started.elapsed().as_millis()).unwrap_or(u64::MAX)
    }

    pub fn commit_begins(&self) {
        self.commits.store(self.now() + 1, Ordering::SeqCst);
    }

    pub fn commit_ended(&self) {
        self.commits.store(0, Ordering::SeqCst);
    }

    /// For how long the commit that is under way has not been possible; zero if none is.
    pub fn commit_takes(&self) -> Duration {
        match self.commits.load(Ordering::SeqCst) {
            0 => Duration::ZERO,
            since => Duration::from_millis(self.now().saturating_sub(since - 1)),
        }
    }

    /// The process was told to stop: it begins nothing more.
    pub fn stop(&self) {
        self.stopping.send_replace(true);
    }

    pub fn is_stopping(&self) -> bool {
        *self.stopping.borrow()
    }

    /// Ends once the process was told to stop.
    pub async fn stopping(&self) {
        let mut told = self.stopping.subscribe();
        while !*told.borrow_and_update() {
            if told.changed().await.is_err() {
                return;
            }
        }
    }

    /// How long ago the last beat was.
    pub fn silence(&self) -> Duration {
        self.started.elapsed().saturating_sub(Duration::from_millis(self.beat.load(Ordering::SeqCst)))
    }

    /// The body that answers a request.
    pub fn answers<'a>(&self, outcomes: impl IntoIterator<Item = &'a Outcome>) -> String {
        let outcomes = outcomes.into_iter();
        let mut body = String::with_capacity(128 + 64 * outcomes.size_hint().0);
        body.push_str(r#"{"answers":["#);
        for (place, outcome) in outcomes.enumerate() {
            body.push_str(if place > 0 { "," } else { "" });
            write_answer(&mut body, outcome);
        }
        // a write to a text does not fail
        let _ = write!(body, r#"],"epoch":{},"log":{}}}"#, self.epoch(), Value::from(self.log()));
        body
    }

    pub fn publish(&self, job: &Job) {
        if let Some(watched) = self.read().get(&job.opening.name) {
            watched.length.store(job.seq, Ordering::SeqCst);
            watched.first.store(job.retention.first(), Ordering::SeqCst);
            watched.lag.note(job.seq, watched.read.load(Ordering::SeqCst));
            let mut bases = watched.bases.lock().unwrap_or_else(PoisonError::into_inner);
            if bases.changed() != job.bases.changed() {
                bases.clone_from(&job.bases);
            }
            drop(bases);
            watched.last_event.send_if_modified(|last| std::mem::replace(last, job.last_event) != job.last_event);
            return;
        }
        let watched = Watched {
            number: job.opening.number,
            since: wall(),
            length: AtomicU64::new(job.seq),
            first: AtomicU64::new(job.retention.first()),
            read: AtomicU64::new(0),
            lag: Lag::default(),
            bases: Mutex::new(job.bases.clone()),
            last_event: watch::channel(job.last_event).0,
        };
        watched.lag.note(job.seq, 0);
        let mut jobs = self.jobs.write().unwrap_or_else(PoisonError::into_inner);
        jobs.insert(job.opening.name.clone(), watched);
    }

    /// A job was deleted. Whoever waits for its events waits no longer.
    pub fn forget(&self, job: &str) {
        self.jobs.write().unwrap_or_else(PoisonError::into_inner).remove(job);
    }

    /// A job's number in the database.
    pub fn number(&self, job: &str) -> Option<i64> {
        self.read().get(job).map(|watched| watched.number)
    }

    /// Each job's number, and how many calls of it were committed.
    pub fn lengths(&self) -> Vec<(i64, u64)> {
        self.read().values().map(|watched| (watched.number, watched.length.load(Ordering::SeqCst))).collect()
    }

    /// How many calls of a job were committed.
    pub fn length(&self, job: &str) -> u64 {
        self.read().get(job).map_or(0, |watched| watched.length.load(Ordering::SeqCst))
    }

    /// The first call that a job's log has.
    pub fn first(&self, job: &str) -> u64 {
        self.read().get(job).map_or(1, |watched| watched.first.load(Ordering::SeqCst))
    }

    /// The history has read the log of the job of this name and number up to here.
    pub fn set_history(&self, job: &str, number: i64, upto: u64) {
        if let Some(watched) = self.read().get(job).filter(|watched| watched.number == number) {
            watched.read.store(upto, Ordering::SeqCst);
            watched.lag.note(watched.length.load(Ordering::SeqCst), upto);
        }
    }

    /// The jobs that this process serves.
    pub fn names(&self) -> Vec<String> {
        self.read().keys().cloned().collect()
    }

    /// Whether this process serves a job, and how.
    pub fn served(&self, job: &str) -> Option<Served> {
        self.read().get(job).map(|watched| Served { since: watched.since, lag: watched.lag.time() })
    }

    /// How far the history has read a job's log.
    pub fn history(&self, job: &str) -> u64 {
        self.read().get(job).map_or(0, |watched| watched.read.load(Ordering::SeqCst))
    }

    /// What a restore would have begun from before a call of a job; `None` if that is not known.
    pub fn base(&self, job: &str, seq: u64) -> Option<Choice> {
        let jobs = self.read();
        let bases = jobs.get(job)?.bases.lock().unwrap_or_else(PoisonError::into_inner);
        bases.before(seq)
    }

    /// The place of a job's last event, as it changes.
    pub fn events(&self, job: &str) -> Option<watch::Receiver<u64>> {
        self.read().get(job).map(|watched| watched.last_event.subscribe())
    }

    fn read(&self) -> RwLockReadGuard<'_, HashMap<String, Watched>> {
        self.jobs.read().unwrap_or_else(PoisonError::into_inner)
    }
}

/// Writes the answer of a call. Nearly all calls have the first one, which takes no tree of values.
fn write_answer(body: &mut String, outcome: &Outcome) {
    let _ = match outcome {
        Outcome::Made { seq: Some(seq), reply: Reply::Answered(Answer::AckPending { missing }), .. } => {
            write!(body, r#"{{"ack":"pending","missing":{missing},"seq":{seq}}}"#)
        }
        other => write!(body, "{}", other.json()),
    };
}

#[cfg(test)]
mod tests {
    use super::*;
    use crate::model::Extra;

    #[test]
    fn all_answers_are_written_alike() {
        let reply = Reply::Answered(Answer::AckPending { missing: 3 });
        let made = Outcome::Made { seq: Some(7), reply, beside: Extra::Nothing };
        let outcomes = [made, Outcome::NoMemory, Outcome::NotMade];
        let told = outcomes.each_ref().map(Outcome::json);
        let board = Board::new();
        board.lead(4, "a\"b".to_string());
        assert_eq!(
            serde_json::from_str(&board.answers(&outcomes)).ok(),
            Some(serde_json::json!({"answers": told, "epoch": 4, "log": "a\"b"}))
        );
        assert_eq!(board.answers(&outcomes[1..2]), r#"{"answers":[{"no_memory":true}],"epoch":4,"log":"a\"b"}"#);
    }
}
