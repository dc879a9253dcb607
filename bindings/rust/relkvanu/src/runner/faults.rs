//! Why a run has failed, or a record was not made.
use super::Ending;
use crate::storage::StorageError;
use crate::store::{CallError, StoreError};
use crate::unaligned::NotRescalable;
use std::error::Error;
use std::fmt;

/// Why [`Runner::run`](super::Runner::run) has failed. The process ends then, and the next one recovers the job.
#[derive(Debug)]
pub enum RunFault {
    /// Of the store. Of the kind `FileLost`: a file of the record from which the job begins is not in the storage, and nothing was swept.
    Call(CallError),
    /// Of the engine.
    Engine(Box<dyn Error + Send + Sync>),
    /// The storage can't be listed.
    Files(StorageError),
    /// The storage lists this file of a record, and can't read it.
    Unreadable { file: u64, why: StorageError },
    /// The job has another shape than the record from which it begins. Nothing was swept.
    NotRescalable(NotRescalable),
    /// The job failed again and again, and no checkpoint became complete: these subtasks have not acknowledged this one, the last.
    Stuck { id: u64, missing: Vec<(u16, u16)> },
    /// So many files that the job's end has released are not deleted.
    FilesLeft(u64),
}

impl fmt::Display for RunFault {
    fn fmt(&self, f: &mut fmt::Formatter<'_>) -> fmt::Result {
        match self {
            RunFault::Call(why) => why.fmt(f),
            RunFault::Engine(why) => why.fmt(f),
            RunFault::Files(why) => write!(f, "the storage can't be listed: {why}"),
            RunFault::Unreadable { file, why } => write!(f, "file {file} can't be read: {why}"),
            RunFault::NotRescalable(why) => why.fmt(f),
            RunFault::Stuck { id, missing } => {
                write!(f, "no checkpoint is complete; subtasks that did not acknowledge {id}: ")?;
                missing.iter().try_for_each(|(vertex, index)| write!(f, "{vertex}.{index} "))
            }
            RunFault::FilesLeft(files) => write!(f, "{files} files can't be deleted"),
        }
    }
}

impl Error for RunFault {}

impl From<CallError> for RunFault {
    fn from(why: CallError) -> RunFault {
        RunFault::Call(why)
    }
}

impl From<StoreError> for RunFault {
    fn from(why: StoreError) -> RunFault {
        RunFault::Call(why.into())
    }
}

/// Why a savepoint of [`Runner::savepoint`](super::Runner::savepoint) is not complete.
#[derive(Clone, Debug, PartialEq, Eq)]
pub enum SavepointFault {
    /// It was not triggered: the call was refused, as [`Call::Savepoint`](crate::Call::Savepoint) is, or `NotNow`.
    Call(CallError),
    /// It has ended otherwise, and the reason is that of a task which has declined it.
    Ended { id: u64, ending: Ending, reason: String },
    /// [`Runner::run`](super::Runner::run) has returned before that was known, and without a number before it was triggered.
    Over { id: Option<u64> },
}

impl fmt::Display for SavepointFault {
    fn fmt(&self, f: &mut fmt::Formatter<'_>) -> fmt::Result {
        match self {
            SavepointFault::Call(why) => why.fmt(f),
            SavepointFault::Ended { id, ending, reason } => write!(f, "savepoint {id}: {ending:?} {reason}"),
            SavepointFault::Over { id: Some(id) } => write!(f, "savepoint {id} was pending when the run ended"),
            SavepointFault::Over { id: None } => f.write_str("the run has ended, and no savepoint was triggered"),
        }
    }
}

impl Error for SavepointFault {}
