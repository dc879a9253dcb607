//! A complete record as a whole, and the history of records.
use super::error::text;
use super::phase::said_why;
use super::{CallError, Store, StoreError, NOW};
use crate::answer::{Answer, Choice, Kind};
use crate::call::Call;
use relkvanu_sys::store::{self, self as sys};
use std::ffi::{c_int, c_void};
use std::num::NonZeroU64;

/// What a subtask has in a record.
#[derive(Clone, Debug, PartialEq, Eq)]
pub struct Part {
    /// Its vertex, and its index in that.
    pub subtask: (u16, u16),
    /// In the order in which its acknowledgement gave them: the fresh ones, and then the reused ones.
    pub files: Vec<u64>,
    pub payload: Vec<u8>,
    /// What the task told of its snapshot; 0: nothing.
    pub bytes: u64,
    pub millis: u64,
}

/// A complete record.
#[derive(Clone, Debug, PartialEq, Eq)]
pub struct Whole {
    pub id: u64,
    pub kind: Kind,
    /// The term that ran when it was read.
    pub term: u64,
    /// How many subtasks each vertex had in it.
    pub shape: Vec<u64>,
    /// One for each subtask, in their order.
    pub parts: Vec<Part>,
    /// The job from which it was carried, as `Report::job` has it, where it had the same number; `None`: this job has made it. What a sink's state lists in it
    /// was prepared in the target of that job.
    pub origin: Option<[u64; 2]>,
}

impl Whole {
    /// What this subtask has. `None`: the record has no such subtask, as after a restore in another shape.
    pub fn part(&self, vertex: u16, index: u16) -> Option<&Part> {
        let subtask = (vertex, index);
        let place = self.parts.binary_search_by_key(&subtask, |it| it.subtask);
        place.ok().map(|place| &self.parts[place])
    }

    /// The payload of this subtask, empty if it has none, also if the record has no such subtask.
    pub fn payload_of(&self, vertex: u16, index: u16) -> &[u8] {
        self.part(vertex, index).map_or(&[], |it| &it.payload)
    }
}

/// Where the job begins: the term of its tasks, and the record of their states. `None`: it begins fresh.
#[derive(Clone, Debug, PartialEq, Eq)]
pub struct Restored {
    pub term: u64,
    pub record: Option<Whole>,
}

// bindings/generate makes the endings
/// What became of a record.
#[derive(Clone, Copy, Debug, PartialEq, Eq, Hash)]
#[non_exhaustive]
pub enum Ending {
    Completed,
    /// A subtask has declined it.
    Declined,
    Expired,
    /// It was pending at a restore or a cancel, when the job failed, or when a later checkpoint completed.
    Dropped,
    /// A number that this crate does not know: the library is of another version.
    Unknown(u32),
}

impl Ending {
    fn of(number: u32) -> Ending {
        match number {
            store::RELKVANU_STORE_COMPLETED => Ending::Completed,
            store::RELKVANU_STORE_DECLINED => Ending::Declined,
            store::RELKVANU_STORE_EXPIRED => Ending::Expired,
            store::RELKVANU_STORE_DROPPED => Ending::Dropped,
            other => Ending::Unknown(other),
        }
    }
}
// bindings/generate: end

// bindings/generate makes the past
/// A record of the history. The times of acknowledgements are milliseconds since its trigger, by the store's clock, of those since the opening.
#[derive(Clone, Debug, PartialEq, Eq)]
pub struct Past {
    pub id: u64,
    pub kind: Kind,
    pub ending: Ending,
    /// Moments; when it was complete, or failed.
    pub triggered: u64,
    pub ended: u64,
    /// Subtasks that have acknowledged since the opening.
    pub acks: u64,
    /// Acknowledgements: the lower median, and the 99th percentile by rank.
    pub first: u64,
    pub median: u64,
    pub p99: u64,
    pub slowest: u64,
    /// The sum of those that the tasks told, and the greatest one.
    pub bytes: u64,
    pub millis: u64,
    pub reason: String,
}

impl Past {
    fn of(it: &sys::relkvanu_store_past) -> Past {
        Past {
            id: it.id,
            kind: kind_of(it.kind).unwrap_or(Kind::Unknown(0)),
            ending: Ending::of(it.outcome),
            triggered: it.triggered,
            ended: it.ended,
            acks: it.acks,
            first: it.first,
            median: it.median,
            p99: it.p99,
            slowest: it.slowest,
            bytes: it.bytes,
            millis: it.millis,
            reason: text(&it.reason),
        }
    }
}
// bindings/generate: end

pub(super) fn kind_of(kind: u32) -> Option<Kind> {
    match kind {
        0 => None,
        sys::RELKVANU_STORE_CHECKPOINT => Some(Kind::Checkpoint),
        sys::RELKVANU_STORE_SAVEPOINT => Some(Kind::Savepoint),
        other => Some(Kind::Unknown(other)),
    }
}

/// The elements of a list of the library, which may have no place if it is empty.
unsafe fn listed<T: Copy>(at: *const T, len: usize) -> Vec<T> {
    match len {
        0 => Vec::new(),
        // SAFETY: the caller's.
        _ => unsafe { std::slice::from_raw_parts(at, len) }.to_vec(),
    }
}

unsafe extern "C" fn note(with: *mut c_void, part: *const sys::relkvanu_store_part) -> bool {
    // SAFETY: `with` is the list of `load`, and the library gives a part, whose lists have as many elements as it says.
    unsafe {
        let (parts, it) = (&mut *with.cast::<Vec<Part>>(), &*part);
        parts.push(Part {
            subtask: (it.vertex, it.index),
            files: listed(it.files, it.files_len),
            payload: listed(it.payload.cast(), it.payload_len),
            bytes: it.bytes,
            millis: it.millis,
        });
    }
    true
}

impl Store {
    /// The complete record with this number, or the one that a restart begins from, once it has looked that its files are in the storage folder. `None`:
    /// the job begins fresh. `FileLost`: end the process, and sweep nothing. `Absent`: there is no such complete record. Otherwise `Damaged` or `NotDone`.
    pub fn load(&self, id: Option<NonZeroU64>) -> Result<Option<Whole>, StoreError> {
        self.outside()?;
        let mut parts: Vec<Part> = Vec::new();
        // SAFETY: all zero is such a struct.
        let mut found: sys::relkvanu_store_loaded = unsafe { std::mem::zeroed() };
        let with: *mut Vec<Part> = &mut parts;
        // SAFETY: the places are this function's own, and the library calls `note` with the list, in this thread.
        let status = unsafe {
            let id = id.map_or(0, NonZeroU64::get);
            sys::relkvanu_store_load(self.at(), id, &mut found, note, with.cast())
        };
        self.check_why(status)?;
        Ok(kind_of(found.kind).map(|kind| Whole {
            id: found.id,
            kind,
            term: found.term,
            shape: found.shape[..found.shape_len].to_vec(),
            parts,
            origin: self.origin_of(found.id),
        }))
    }

    fn origin_of(&self, id: u64) -> Option<[u64; 2]> {
        let mut job = [0; 2];
        // SAFETY: the store is open, and the list has two places.
        unsafe { sys::relkvanu_store_origin(self.at(), id, job.as_mut_ptr()) }.then_some(job)
    }

    /// A restore to the latest record or to this savepoint, in the shape that the job has or in this one, and the record from which the job begins, as
    /// [`load`](Self::load).
    pub fn restore_whole(&self, savepoint: Option<NonZeroU64>, shape: Option<&[u64]>) -> Result<Restored, CallError> {
        let made = self.call(Call::Restore { now: NOW, savepoint, shape })?;
        let id = match made.called() {
            Some(Answer::Restored { from: Choice::Checkpoint(id) | Choice::Savepoint(id), .. }) => NonZeroU64::new(id),
            _ => None,
        };
        Ok(Restored { term: made.term.unwrap_or(0), record: id.map_or(Ok(None), |id| self.load(Some(id)))? })
    }

    /// At most so many of the last thousand records that are complete or have failed, the last one first.
    pub fn history(&self, most: usize) -> Result<Vec<Past>, StoreError> {
        self.outside()?;
        let mut len = most.min(sys::RELKVANU_STORE_MOST_HISTORY);
        // SAFETY: all zero is such a struct.
        let mut found = vec![unsafe { std::mem::zeroed::<sys::relkvanu_store_past>() }; len];
        // SAFETY: the list has as many places as is said.
        self.check_why(unsafe { sys::relkvanu_store_history(self.at(), found.as_mut_ptr(), &mut len) })?;
        Ok(found[..len].iter().map(Past::of).collect())
    }

    /// As `check`, with what the library has said of it in this thread.
    pub(super) fn check_why(&self, status: c_int) -> Result<(), StoreError> {
        self.check(status)
            .map_err(|why| if why.kind.is_said() { StoreError { message: said_why(), ..why } } else { why })
    }
}
