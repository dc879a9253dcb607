//! The checkpoint coordinator of a stream processor's job, as a safe type over `include/relkvanu.h`.
//!
//! - One thread at a time owns a [`Coordinator`]. Its calls borrow it for writing, its reads for reading.
//! - A [`SharedCoordinator`] lets any number of threads call one, under a mutex.
//! - A [`Call`] can be written as a line of a log and read from it, and [`Coordinator::line`] makes it again. An [`Answer`] is kept as its
//!   [numbers](Answer::numbers).
//! - With the feature `store` a `store::Store` makes its calls durable, in an SQLite file. A `storage::Storage` is where its state files are. A
//!   `runner::Runner` is the loop of an engine over it.
//! - One that was opened by [`Coordinator::open_fenced`], or got names by [`Coordinator::fence`], gives out the numbers of files, each
//!   once, and refuses tasks of a term that a restore or a cancel has ended, as [`Fault::Fenced`].
//! - A [`Grouped`] tells its answers only once the program has synced its log.
//! - An [`Aligner`] says when a task with several inputs may take what is next, and when it takes its snapshot.
//!
//! The coordinator reads no clock and deletes no file by itself. The caller gives the moment of each call, in
//! milliseconds, at most 2^62 - 1, and fetches the files to delete. `docs/RULES.md` says what each call does and when
//! it is refused. `docs/RUST.md` shows engines.
//!
//! **Who may delete a file.** The files of an accepted acknowledgement belong to the coordinator, even if it came late.
//! After a refusal a task deletes a file only if no accepted acknowledgement ever named it: after
//! [`Refusal::AlreadyAcknowledged`], [`Refusal::NameTaken`] and [`Fenced::Spent`] the file may be in use.
#![warn(clippy::undocumented_unsafe_blocks)]

mod aligner;
mod answer;
mod call;
mod coordinator;
mod fault;
mod group;
#[cfg(feature = "store")]
mod inputs;
#[cfg(feature = "store")]
pub mod job;
mod keys;
#[cfg(feature = "store")]
mod lineage;
mod lines;
#[cfg(feature = "store")]
pub mod outputs;
#[cfg(feature = "store")]
pub mod runner;
mod shared;
#[cfg(feature = "store")]
mod signals;
#[cfg(feature = "store")]
pub mod storage;
#[cfg(feature = "store")]
pub mod store;
#[cfg(feature = "store")]
pub mod unaligned;

pub use aligner::{AlignFault, Aligner, Cut, Recorder, Step, MOST_INPUTS};
pub use answer::{Answer, Choice, FileCounts, Garbage, Kind, Live, Mode, RunningTerm, Standing};
pub use call::Call;
pub use coordinator::{Coordinator, Settings};
pub use fault::*;
pub use group::{Grouped, Held, Receipt, Told};
pub use keys::group_of;
#[cfg(feature = "store")]
pub use lineage::Lineage;
pub use lines::{opening_lines, Line, LineFault, Made, Said};
pub use shared::SharedCoordinator;

/// A lock, whose state a panic leaves sound wherever this is called.
pub(crate) fn locked<T>(of: &std::sync::Mutex<T>) -> std::sync::MutexGuard<'_, T> {
    of.lock().unwrap_or_else(std::sync::PoisonError::into_inner)
}

/// The version of the linked library: three numbers, such as "1.2.3".
pub fn version() -> &'static str {
    // SAFETY: the library returns a string of its own, which ends with a zero and never changes.
    let text = unsafe { std::ffi::CStr::from_ptr(relkvanu_sys::relkvanu_version()) };
    text.to_str().unwrap_or_default()
}
