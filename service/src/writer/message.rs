//! The messages to the writer, and its answers.
use super::delete::Delete;
use super::imager::{Imaged, Returned};
use super::pool::Replayed;
use super::state::JobState;
use crate::files::JobStorage;
use crate::model::{Call, Change, FileCounts, Job, NoJob, Outcome, PastRecord, Settings, SummaryPart};
use std::sync::Arc;
use thiserror::Error;
use tokio::sync::oneshot;

/// An Idempotency-Key, and the digest of the body that it came with.
#[derive(Debug)]
pub struct Key {
    pub name: String,
    pub digest: String,
}

pub enum Message {
    Calls {
        job: String,
        calls: Vec<Call>,
        /// Whether the answers tell which records the calls have ended.
        tells: bool,
        key: Option<Key>,
        reply: oneshot::Sender<CallsDone>,
    },
    /// Other settings, over those that the job has when the call is made.
    Configure {
        job: String,
        change: Change,
        reply: oneshot::Sender<CallsDone>,
    },
    Create {
        name: String,
        settings: Settings,
        shape: Vec<u64>,
        /// The number of its first record.
        first: u64,
        /// Where its files are. A job that is there takes it if it knows none.
        storage: Option<JobStorage>,
        reply: oneshot::Sender<Created>,
    },
    /// Where the files of a job are from now on. The answer is the state of the job.
    Locate {
        job: String,
        storage: JobStorage,
        reply: oneshot::Sender<Option<Box<JobState>>>,
    },
    Read(Read),
    /// What the history gives to the database. The answer says whether it was committed.
    Keep(ForKeeping, oneshot::Sender<bool>),
    Delete(Delete),
    /// The coordinator of a job, of which an image was made.
    Returned(Returned),
    Imaged(Imaged),
    /// A job that was replayed.
    Replayed(Replayed),
    Stop,
}

#[derive(Debug)]
pub enum Deletion {
    Done,
    NoJob,
    Refused(NotDeletable),
    /// The database does not take it now.
    Busy,
}

/// Why a job is not deleted.
#[derive(Clone, Copy, Debug, PartialEq, Eq, Error)]
pub enum NotDeletable {
    #[error("the job runs: cancel it first")]
    Running,
    #[error("files of the job are left: {} in use, {} waiting for deletion, {} taken", .0.in_use, .0.waiting, .0.taken)]
    Files(FileCounts),
}

impl NotDeletable {
    /// Its word in the API.
    pub fn word(self) -> &'static str {
        match self {
            NotDeletable::Running => "running",
            NotDeletable::Files(_) => "files",
        }
    }
}

#[derive(Debug)]
pub enum ForKeeping {
    Summary(SummaryPart),
    Past(Vec<PastRecord>),
}

#[derive(Debug)]
pub enum CallsDone {
    Made(Vec<Outcome>),
    /// The body of the answer, which was given under the request's key, now or before.
    Known(String),
    /// The key was used with another body.
    KeyUsed,
    /// What was answered under the key can't be read, so nobody knows whether the calls were made.
    BadKey(String),
    NoJob,
}

#[derive(Debug)]
pub enum Created {
    New,
    /// A job of this name was there, with these settings and this shape.
    Found {
        settings: Settings,
        shape: Vec<u64>,
        storage: Option<Arc<JobStorage>>,
    },
    /// A recovery makes a job of this name, and has not made it whole.
    Making,
    NotOpened(NoJob),
    /// A job of this name is kept out, and why.
    Damaged(String),
}

/// How many jobs the writer reads at once, between two groups of calls.
pub const MOST_JOBS: usize = 500;

/// Looks at a job, or at none if there is no job of the name.
pub type Look = Box<dyn FnOnce(Option<&mut Job>) + Send>;

/// What is read of jobs between two commits.
pub enum Read {
    /// The states of at most so many jobs with numbers above this one, in their order.
    Jobs {
        after: i64,
        most: usize,
        reply: oneshot::Sender<Vec<JobState>>,
    },
    /// The state of a job, which is there while its coordinator is lent too.
    Job(String, oneshot::Sender<Option<Box<JobState>>>),
    Look(String, Look),
}
