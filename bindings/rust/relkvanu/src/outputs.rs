//! Outputs that are exactly once: a sink over a target. What it puts out between two cuts is durable before the checkpoint at their end is complete, and is
//! published after that. `docs/ENGINE.md` has the rules that it keeps.
use crate::locked;
use crate::storage::checksum;
use std::collections::BTreeMap;
use std::error::Error;
use std::fmt;
use std::fs::{self, File};
use std::io::{self, ErrorKind, Write};
use std::path::PathBuf;
use std::sync::atomic::{AtomicBool, Ordering::SeqCst};
use std::sync::Mutex;
use std::time::{Duration, Instant};

const PATIENCE: Duration = Duration::from_secs(60);

/// Why a sink does not go on. Nothing is lost: the next process begins with the same state.
#[derive(Debug)]
pub enum SinkFault {
    /// The target has other rows under this number: a backup of the coordinator was put back.
    OtherRows { name: String, record: u64 },
    /// What the state lists is neither prepared nor published.
    Lost { name: String, record: u64 },
    /// The target does not publish this number, for as long as the patience is.
    Failed { name: String, record: u64, why: Box<dyn Error + Send + Sync> },
    /// The state is none of a sink.
    BadState,
}

impl fmt::Display for SinkFault {
    fn fmt(&self, f: &mut fmt::Formatter<'_>) -> fmt::Result {
        match self {
            SinkFault::OtherRows { name, record } => write!(f, "{name} has other rows under the number {record}"),
            SinkFault::Lost { name, record } => {
                write!(f, "{name} has lost what was prepared under the number {record}")
            }
            SinkFault::Failed { name, record, why } => write!(f, "{name} does not publish {record}: {why}"),
            SinkFault::BadState => f.write_str("the state is none of a sink"),
        }
    }
}

impl Error for SinkFault {}

/// What a target answers: the error of its medium is tried again.
#[derive(Debug)]
pub enum TargetFault {
    OtherRows,
    Lost,
    Failed(Box<dyn Error + Send + Sync>),
}

impl<E: Error + Send + Sync + 'static> From<E> for TargetFault {
    fn from(why: E) -> TargetFault {
        TargetFault::Failed(why.into())
    }
}

/// Where a sink publishes. Each function may be called again after a crash.
pub trait Target: Send + Sync {
    fn name(&self) -> String;

    /// Whether what [`prepare`](Self::prepare) returns has the rows, and another target can publish it.
    fn keeps_rows(&self) -> bool;

    /// Prepares these rows under the number of a record, durable and invisible. Returns what the state keeps of them.
    fn prepare(&self, job: &str, record: u64, rows: &[Vec<u8>]) -> Result<Vec<u8>, TargetFault>;

    /// Publishes what was prepared, all or nothing. It may come twice.
    fn publish(&self, job: &str, record: u64, kept: &[u8]) -> Result<(), TargetFault>;

    /// Gives up all that this job has prepared and not published.
    fn give_up(&self, job: &str) -> Result<(), TargetFault>;
}

/// What a sink has and did not publish.
#[derive(Default)]
struct Rows {
    gathered: Vec<Vec<u8>>,
    entries: BTreeMap<u64, Vec<u8>>, // what the target has said of each record, also of those that failed
    fails_since: Option<Instant>,
}

/// A sink of one subtask: it gathers rows, prepares them at its cut, and publishes them. Threads share it.
pub struct Sink<T> {
    target: T,
    job: String,
    patience: Duration,
    rows: Mutex<Rows>,
}

impl<T: Target> Sink<T> {
    /// Of the job with this [identity](crate::job::Job::identity). Each subtask of a sink has a target of its own, or adds its index to the identity.
    pub fn new(target: T, job: impl Into<String>) -> Sink<T> {
        Sink { target, job: job.into(), patience: PATIENCE, rows: Mutex::default() }
    }

    /// The same, whose target may fail for another time.
    #[must_use]
    pub fn within(self, patience: Duration) -> Sink<T> {
        Sink { patience, ..self }
    }

    pub fn target(&self) -> &T {
        &self.target
    }

    /// Puts a row out.
    pub fn push(&self, row: impl Into<Vec<u8>>) {
        locked(&self.rows).gathered.push(row.into());
    }

    /// At the cut: the target prepares what was gathered. Returns the sink's state. After an error the rows are gathered still, and the task declines.
    pub fn prepare(&self, record: u64) -> Result<Vec<u8>, SinkFault> {
        let mut rows = locked(&self.rows);
        if !rows.gathered.is_empty() {
            let kept = self.target.prepare(&self.job, record, &rows.gathered).map_err(|why| self.fault(record, why))?;
            rows.entries.insert(record, kept);
            rows.gathered.clear();
        }
        Ok(encoded(&rows.entries))
    }

    /// A checkpoint is complete: publishes what was prepared for it and for records before it. What fails comes again with the next one, until the patience ends.
    pub fn publish(&self, record: u64) -> Result<(), SinkFault> {
        let mut rows = locked(&self.rows);
        match self.publish_up_to(&self.job, record, &mut rows.entries) {
            Err(SinkFault::Failed { .. })
                if rows.fails_since.get_or_insert_with(Instant::now).elapsed() < self.patience =>
            {
                Ok(())
            }
            told => {
                rows.fails_since = None;
                told
            }
        }
    }

    /// At a start, and when the job is found stopped: publishes what the state lists, and gives up all else. A record that was carried from another job has an
    /// `origin`: what it lists is published under that job's numbers, but not what was prepared in another target, which is that job's.
    pub fn begin(&self, state: &[u8], origin: Option<[u64; 2]>) -> Result<(), SinkFault> {
        let mut rows = locked(&self.rows);
        *rows = Rows { entries: decoded(state).ok_or(SinkFault::BadState)?, ..Rows::default() };
        let job = origin.map_or_else(|| self.job.clone(), |[high, low]| format!("{high:016x}{low:016x}"));
        let began = Instant::now();
        loop {
            match self.publish_up_to(&job, u64::MAX, &mut rows.entries) {
                Err(SinkFault::Failed { .. }) if began.elapsed() < self.patience => {
                    std::thread::sleep(self.patience.min(Duration::from_secs(1)))
                }
                Err(SinkFault::Lost { record, .. }) if origin.is_some() && !self.target.keeps_rows() => {
                    rows.entries.remove(&record);
                }
                told => break told?,
            }
        }
        self.target.give_up(&self.job).map_err(|why| self.fault(0, why))
    }

    fn publish_up_to(&self, job: &str, last: u64, entries: &mut BTreeMap<u64, Vec<u8>>) -> Result<(), SinkFault> {
        while let Some(entry) = entries.first_entry().filter(|it| *it.key() <= last) {
            self.target.publish(job, *entry.key(), entry.get()).map_err(|why| self.fault(*entry.key(), why))?;
            entry.remove();
        }
        Ok(())
    }

    fn fault(&self, record: u64, why: TargetFault) -> SinkFault {
        let name = self.target.name();
        match why {
            TargetFault::OtherRows => SinkFault::OtherRows { name, record },
            TargetFault::Lost => SinkFault::Lost { name, record },
            TargetFault::Failed(why) => SinkFault::Failed { name, record, why },
        }
    }
}

/// Each list is its number of elements, and each text its length, in eight bytes.
fn encoded(entries: &BTreeMap<u64, Vec<u8>>) -> Vec<u8> {
    let entry = |(record, kept): (&u64, &Vec<u8>)| [&record.to_le_bytes()[..], &pack([kept])].concat();
    entries.iter().flat_map(entry).collect()
}

fn decoded(mut state: &[u8]) -> Option<BTreeMap<u64, Vec<u8>>> {
    let mut entries = BTreeMap::new();
    while !state.is_empty() {
        let record = number(&mut state)?;
        entries.insert(record, text(&mut state)?);
    }
    Some(entries)
}

/// Rows as what a state keeps of them.
pub fn pack<'a>(rows: impl IntoIterator<Item = &'a Vec<u8>>) -> Vec<u8> {
    rows.into_iter().flat_map(|row| [&(row.len() as u64).to_le_bytes()[..], row].concat()).collect()
}

/// The rows of [`pack`]. `None`: these are other bytes.
pub fn unpack(mut kept: &[u8]) -> Option<Vec<Vec<u8>>> {
    let mut rows = Vec::new();
    while !kept.is_empty() {
        rows.push(text(&mut kept)?);
    }
    Some(rows)
}

fn number(from: &mut &[u8]) -> Option<u64> {
    let number = from.get(..8)?.try_into().ok()?;
    *from = &from[8..];
    Some(u64::from_le_bytes(number))
}

fn text(from: &mut &[u8]) -> Option<Vec<u8>> {
    let len = usize::try_from(number(from)?).ok()?;
    let found = from.get(..len)?.to_vec();
    *from = &from[len..];
    Some(found)
}

/// A file of a folder for each record that has rows, with a line for each: JOB-RECORD.prepared, which is renamed to JOB-RECORD.jsonl. The folder exists.
///
/// What is given up goes at the next cut. A process that slept before it and wakes beside its successor gives up nothing of that: each record of a term has a
/// greater number than those of earlier terms.
#[derive(Debug)]
pub struct Files {
    folder: PathBuf,
    gives_up: AtomicBool, // at the next cut
}

impl Files {
    pub fn new(folder: impl Into<PathBuf>) -> Files {
        Files { folder: folder.into(), gives_up: AtomicBool::new(false) }
    }

    /// Removes what was prepared for records before this one.
    fn drop_before(&self, job: &str, record: u64) -> io::Result<()> {
        let record_of = |name: &str| name.strip_prefix(job)?.strip_prefix('-')?.strip_suffix(".prepared")?.parse().ok();
        for entry in fs::read_dir(&self.folder)? {
            let name = entry?.file_name();
            if name.to_str().and_then(record_of).is_some_and(|it: u64| it < record) {
                removed(&self.folder.join(name))?;
            }
        }
        Ok(())
    }

    fn path(&self, job: &str, record: u64, state: &str) -> PathBuf {
        self.folder.join(format!("{job}-{record:020}.{state}"))
    }

    fn sync(&self) -> io::Result<()> {
        File::open(&self.folder)?.sync_all()
    }
}

/// A file, if it is there.
fn found(path: &PathBuf) -> io::Result<Option<Vec<u8>>> {
    match fs::read(path) {
        Err(why) if why.kind() == ErrorKind::NotFound => Ok(None),
        told => told.map(Some),
    }
}

/// Removes a file, if it is there.
fn removed(path: &PathBuf) -> io::Result<()> {
    match fs::remove_file(path) {
        Err(why) if why.kind() == ErrorKind::NotFound => Ok(()),
        told => told,
    }
}

impl Target for Files {
    fn name(&self) -> String {
        self.folder.display().to_string()
    }

    fn keeps_rows(&self) -> bool {
        false
    }

    fn prepare(&self, job: &str, record: u64, rows: &[Vec<u8>]) -> Result<Vec<u8>, TargetFault> {
        if self.gives_up.load(SeqCst) {
            self.drop_before(job, record)?;
            self.gives_up.store(false, SeqCst);
        }
        let contents: Vec<u8> = rows.iter().flat_map(|row| [row, &b"\n"[..]].concat()).collect();
        let mut to = File::create(self.path(job, record, "prepared"))?;
        to.write_all(&contents)?;
        to.sync_all()?;
        self.sync()?;
        Ok(checksum(&contents))
    }

    /// By a link, which replaces no file. Another process may do the same meanwhile.
    fn publish(&self, job: &str, record: u64, kept: &[u8]) -> Result<(), TargetFault> {
        let (prepared, published) = (self.path(job, record, "prepared"), self.path(job, record, "jsonl"));
        if found(&prepared)?.is_some_and(|it| checksum(&it) == kept) {
            match fs::hard_link(&prepared, &published) {
                Err(why) if matches!(why.kind(), ErrorKind::AlreadyExists | ErrorKind::NotFound) => {}
                told => told?,
            }
        }
        match found(&published)? {
            Some(contents) if checksum(&contents) != kept => return Err(TargetFault::OtherRows),
            Some(_) => {}
            None => return Err(TargetFault::Lost),
        }
        self.sync()?; // the name is durable before the other one goes
        Ok(removed(&prepared)?)
    }

    fn give_up(&self, _job: &str) -> Result<(), TargetFault> {
        self.gives_up.store(true, SeqCst);
        Ok(())
    }
}
