//! The commands of an operator, and the phase of a job: it runs, is being stopped, or is stopped.
use super::calls::{outcome_of, List, Made};
use super::error::{CallError, StoreError};
use super::{Store, NOW};
use crate::call::Call;
use crate::coordinator::Settings;
use relkvanu_sys::{self as sys, store};
use std::ffi::c_int;

// bindings/generate makes the phases
/// The phase of a job.
#[derive(Clone, Copy, Debug, PartialEq, Eq, Hash)]
pub enum Phase {
    /// The job runs, has failed or was cancelled: its mode says which.
    Running,
    /// Its savepoint is pending.
    Stopping,
    /// Its savepoint is done, and the job goes on from it when it begins.
    Stopped,
    /// A number that this crate does not know: the library is of another version.
    Unknown(u32),
}

impl Phase {
    fn of(number: u32) -> Phase {
        match number {
            store::RELKVANU_STORE_PHASE_RUNNING => Phase::Running,
            store::RELKVANU_STORE_PHASE_STOPPING => Phase::Stopping,
            store::RELKVANU_STORE_PHASE_STOPPED => Phase::Stopped,
            other => Phase::Unknown(other),
        }
    }
}

/// Why a stop has failed.
#[derive(Clone, Copy, Debug, PartialEq, Eq, Hash)]
pub enum StopFailed {
    /// Its savepoint was not done within timeout.
    Expired,
    /// A task has declined it.
    Declined,
    /// The job was restored before, as after a crash.
    Restored,
    /// The job was cancelled, before it was stopped or afterwards.
    Cancelled,
    /// The job has failed.
    Failed,
    /// A number that this crate does not know: the library is of another version.
    Unknown(u32),
}

impl StopFailed {
    fn of(number: u32) -> StopFailed {
        match number {
            store::RELKVANU_STORE_STOP_EXPIRED => StopFailed::Expired,
            store::RELKVANU_STORE_STOP_DECLINED => StopFailed::Declined,
            store::RELKVANU_STORE_STOP_RESTORED => StopFailed::Restored,
            store::RELKVANU_STORE_STOP_CANCELLED => StopFailed::Cancelled,
            store::RELKVANU_STORE_STOP_FAILED => StopFailed::Failed,
            other => StopFailed::Unknown(other),
        }
    }
}
// bindings/generate: end

/// The phase of a job, and what it is about.
#[derive(Clone, Copy, Debug, PartialEq, Eq)]
pub struct JobPhase {
    pub phase: Phase,
    /// Of the stop; `None`: there was none, or the job has begun since.
    pub savepoint: Option<u64>,
    /// Of a job that is stopped: the term that began when it was.
    pub term: Option<u64>,
    /// While the job runs, until the next stop.
    pub stop_failed: Option<StopFailed>,
}

pub(super) fn job_phase(phase: u32, savepoint: u64, term: u64, failed: u32) -> JobPhase {
    let number = |it: u64| (it != 0).then_some(it);
    JobPhase {
        phase: Phase::of(phase),
        savepoint: number(savepoint),
        term: number(term),
        stop_failed: (failed != 0).then(|| StopFailed::of(failed)),
    }
}

/// The commands of an operator. Any thread makes them, also while another one is in [`await_tick`](Store::await_tick), which hands over what they have
/// made: `include/relkvanu_store.h` says how, under `relkvanu_store_trigger`. The others are `Call::Trigger` and `Call::Advance`.
impl Store {
    /// A checkpoint now, whatever the interval and the pause.
    pub fn trigger(&self) -> Result<Made, CallError> {
        self.call(Call::Trigger { now: NOW })
    }

    /// Other settings, from the next tick on. Done checkpoints above the new number retained go in the same commit. `BadArgument` if a value is outside
    /// its limits.
    pub fn configure(&self, settings: &Settings) -> Result<Made, CallError> {
        let given = settings.into();
        // SAFETY: the settings and the call outlive the function.
        self.verb(|store, call| unsafe { sys::store::relkvanu_store_configure(store, &given, call) })
    }

    /// Stops the job with a savepoint. With its last acknowledgement the job is stopped, in the same commit. `NotNow` if it is being stopped, or is stopped.
    pub fn stop_job(&self) -> Result<Made, CallError> {
        // SAFETY: the call outlives the function.
        self.verb(|store, call| unsafe { sys::store::relkvanu_store_stop_job(store, call) })
    }

    /// A job that is stopped goes on: [`Made::term`] is the term of its tasks. `NotNow` if it is not stopped.
    pub fn begin_job(&self) -> Result<Made, CallError> {
        // SAFETY: the call outlives the function.
        self.verb(|store, call| unsafe { sys::store::relkvanu_store_begin_job(store, call) })
    }

    /// Goes back to a done checkpoint that is retained, in one commit. What sinks have published for later records is not taken back, and the job will
    /// publish it again: `accept_published` has to say that this is accepted, or it is `BadArgument`. `FileLost`: the checkpoint lacks a file, and nothing
    /// has changed.
    pub fn go_back(&self, id: u64, accept_published: bool) -> Result<Made, CallError> {
        let flags = u32::from(accept_published) * sys::store::RELKVANU_STORE_ACCEPT_PUBLISHED;
        // SAFETY: the call outlives the function.
        self.verb(|store, call| unsafe { sys::store::relkvanu_store_go_back(store, id, flags, call) })
    }

    /// Begins a job again that lacks its last calls, in place of the first restore: `term` is the greatest that any task was told, and names are
    /// given out from `first_name` on.
    pub fn advance(&self, term: u64, first_name: u64) -> Result<Made, CallError> {
        self.call(Call::Advance { now: NOW, term, first_name })
    }

    /// The phase, of what is committed. Never waits.
    pub fn phase(&self) -> Result<JobPhase, StoreError> {
        let mut found = Default::default();
        // SAFETY: the place is this function's own.
        self.check(unsafe { sys::store::relkvanu_store_phase(self.at(), &mut found) })?;
        Ok(job_phase(found.phase, found.savepoint, found.term, found.stop_failed))
    }

    fn verb(
        &self,
        make: impl Fn(*mut sys::store::relkvanu_store, *mut sys::store::relkvanu_store_call) -> c_int,
    ) -> Result<Made, CallError> {
        self.outside()?;
        let mut list = List::place();
        self.check_why(make(self.at(), list.calls.as_mut_ptr()))?;
        outcome_of(&list.calls[0], &[]).map_err(CallError::Fault)
    }
}

/// Why the last put or command of this thread was not made, or the first call of its last list that was refused was: such as "record 6, subtask 2.0, term
/// 1: fenced OldTerm; term 2 runs". Empty if nothing failed.
pub fn why() -> String {
    said_why()
}

/// Why the last command of this thread was not made.
pub(super) fn said_why() -> String {
    let mut text = [0; sys::store::RELKVANU_STORE_MESSAGE];
    // SAFETY: the buffer has as many bytes as is said, and gets a zero at the end.
    unsafe { sys::store::relkvanu_store_why(text.as_mut_ptr(), text.len()) };
    super::error::text(&text)
}
