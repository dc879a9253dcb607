//! Why a store was not opened, or calls were not committed.
use crate::fault::Fault;
use relkvanu_sys as sys;
use std::error::Error;
use std::ffi::{c_char, c_int, CStr};
use std::fmt;

/// The kinds, each with its status of the library.
macro_rules! kinds {
    ($($(#[$of:meta])* $name:ident = $status:ident,)*) => {
        /// Why a store was not opened, or calls were not committed.
        #[derive(Clone, Copy, Debug, PartialEq, Eq, Hash)]
        pub enum StoreErrorKind {
            $($(#[$of])* $name,)*
            /// The thread that called is in a read of the store, and would wait for itself.
            InRead,
        }

        impl StoreErrorKind {
            pub(super) fn of(status: c_int) -> StoreErrorKind {
                match status {
                    $(sys::store::$status => StoreErrorKind::$name,)*
                    other => unreachable!("status {other}"),
                }
            }
        }
    };
}

kinds! {
    // bindings/generate makes the kinds of errors
    BadArgument = RELKVANU_STORE_BAD_ARGUMENT,
    NoMemory = RELKVANU_STORE_NO_MEMORY,
    InUse = RELKVANU_STORE_IN_USE,
    Absent = RELKVANU_STORE_ABSENT,
    Present = RELKVANU_STORE_PRESENT,
    NotAStore = RELKVANU_STORE_NOT_A_STORE,
    Differs = RELKVANU_STORE_DIFFERS,
    Damaged = RELKVANU_STORE_DAMAGED,
    Storage = RELKVANU_STORE_STORAGE,
    Closed = RELKVANU_STORE_CLOSED,
    Forked = RELKVANU_STORE_FORKED,
    TimedOut = RELKVANU_STORE_TIMED_OUT,
    NotNow = RELKVANU_STORE_NOT_NOW,
    Stopped = RELKVANU_STORE_STOPPED,
    NotPut = RELKVANU_STORE_NOT_PUT,
    NotRunning = RELKVANU_STORE_NOT_RUNNING,
    NotDone = RELKVANU_STORE_NOT_DONE,
    /// Of `await_tick`: the job is stopped, so no tick is due until it begins again.
    JobStopped = RELKVANU_STORE_JOB_STOPPED,
    /// Of `await_tick`: a stop of the job has failed, and its phase says why.
    NotStopped = RELKVANU_STORE_NOT_STOPPED,
    /// Of `load`, and of a restore to a record by its number: a file of the record is not in the storage. Nothing has changed.
    FileLost = RELKVANU_STORE_FILE_LOST,
    Failed = RELKVANU_STORE_FAILED,
    Full = RELKVANU_STORE_FULL,
    ReadOnly = RELKVANU_STORE_READ_ONLY,
    Busy = RELKVANU_STORE_BUSY,
    OutOfMemory = RELKVANU_STORE_OUT_OF_MEMORY,
    // bindings/generate: end
}

impl StoreErrorKind {
    /// Whether the library has said why to the thread.
    pub(super) fn is_said(self) -> bool {
        use StoreErrorKind::*;
        matches!(self, BadArgument | NotNow | FileLost | Damaged | NotDone)
    }
}

/// Nobody may act on the calls. The message says where the fault is, if that is known.
#[derive(Clone, Debug, PartialEq, Eq)]
pub struct StoreError {
    pub kind: StoreErrorKind,
    pub message: String,
}

impl StoreError {
    /// Whether a commit failed: the store is closed for good, and the calls may or may not be in the log. Open it again, or end the
    /// process. A call that is `Storage` has closed it too, but nobody opens it again: another opening has the storage, so end the process.
    pub fn closes(&self) -> bool {
        use StoreErrorKind::*;
        matches!(self.kind, Failed | Full | ReadOnly | Busy | OutOfMemory)
    }
}

impl fmt::Display for StoreError {
    fn fmt(&self, f: &mut fmt::Formatter<'_>) -> fmt::Result {
        write!(f, "{:?}: {}", self.kind, self.message)
    }
}

impl Error for StoreError {}

/// What the library has written into a buffer.
pub(super) fn text(message: &[c_char]) -> String {
    // SAFETY: the library ends each message with a zero.
    let message = unsafe { CStr::from_ptr(message.as_ptr()) };
    message.to_string_lossy().into_owned()
}

/// What a function has returned that has written why.
pub(super) fn check(status: c_int, message: &[c_char]) -> Result<(), StoreError> {
    match status {
        sys::store::RELKVANU_STORE_OK => Ok(()),
        _ => Err(StoreError { kind: StoreErrorKind::of(status), message: text(message) }),
    }
}

/// Why a call was not made, or was refused.
#[derive(Clone, Debug, PartialEq, Eq)]
pub enum CallError {
    /// It changed nothing.
    Fault(Fault),
    /// It was not committed.
    Store(StoreError),
}

impl From<StoreError> for CallError {
    fn from(why: StoreError) -> CallError {
        CallError::Store(why)
    }
}

impl From<Fault> for CallError {
    fn from(why: Fault) -> CallError {
        CallError::Fault(why)
    }
}

impl fmt::Display for CallError {
    fn fmt(&self, f: &mut fmt::Formatter<'_>) -> fmt::Result {
        match self {
            CallError::Fault(why) => why.fmt(f),
            CallError::Store(why) => why.fmt(f),
        }
    }
}

impl Error for CallError {}
