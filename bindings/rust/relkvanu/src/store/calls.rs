//! Calls of a store, and what they were answered.
use super::whole::kind_of;
use crate::answer::{self, Answer, Choice, Kind};
use crate::call::Call;
use crate::fault::{done, Fault};
use relkvanu_sys as sys;

/// What a call has beside its numbers.
#[derive(Clone, Copy, Debug, Default, PartialEq, Eq)]
pub struct More<'a> {
    /// Of an acknowledgement: the state of its task, if it is small, at most 4096 bytes. It is committed with the call, and is there as long as the record is.
    pub payload: &'a [u8],
    /// Of an acknowledgement: figures of the task's snapshot, for the history.
    pub bytes: u64,
    pub millis: u64,
    /// Of a decline: a text for the history, at most 200 bytes.
    pub reason: &'a str,
}

/// A call that was made and committed.
#[derive(Clone, Debug, PartialEq, Eq)]
pub struct Made {
    pub answer: Outcome,
    /// In the log, from 1; 0 if it changed nothing.
    pub place: u64,
    /// After a trigger: the record that its barrier names beside it.
    pub choice: Option<Choice>,
    /// After a restore, cancel or advance: the term that begins. Whoever starts the tasks tells each of them.
    pub term: Option<u64>,
    /// Of the record that was triggered, acknowledged, declined, disposed of or restored. `None`: it had ended before.
    pub kind: Option<Kind>,
    /// The numbers of records that the call has ended, in order. The commands of an operator but `trigger` do not tell them.
    pub ended: Vec<u64>,
}

/// The answer to a call, or the files that a take fetched.
#[derive(Clone, Debug, PartialEq, Eq)]
pub enum Outcome {
    Called(Answer),
    Taken(Vec<u64>),
}

impl Made {
    /// The answer of a call that is no take.
    pub fn called(&self) -> Option<Answer> {
        match self.answer {
            Outcome::Called(answer) => Some(answer),
            Outcome::Taken(_) => None,
        }
    }
}

const NONE: sys::relkvanu_answer = sys::relkvanu_answer { code: 0, what: 0, a: 0, b: 0 };

/// Calls as the library takes them, with all that they point to, at addresses that stay.
pub(super) struct List {
    pub(super) calls: Vec<sys::store::relkvanu_store_call>,
    _lists: Vec<Vec<u64>>,
    _texts: Vec<Vec<u8>>,
    #[allow(clippy::vec_box)] // their addresses stay while the list grows
    _mores: Vec<Box<sys::store::relkvanu_store_more>>,
    files: Vec<Vec<u64>>,
}

/// How many records a call may end.
fn most_ended(call: &Call<'_>) -> usize {
    match call {
        Call::Ack { .. } | Call::AckIn { .. } => 80,
        Call::Take { .. } | Call::Reserve { .. } | Call::Forfeit { .. } => 0,
        _ => sys::store::RELKVANU_STORE_MOST_ENDED,
    }
}

// SAFETY: the pointers of the calls lead to the vectors beside them, which nobody else has.
unsafe impl Send for List {}

impl List {
    pub(super) fn of(calls: &[Call<'_>]) -> List {
        List::with(calls.iter().map(|call| (*call, More::default())))
    }

    pub(super) fn with<'a>(calls: impl ExactSizeIterator<Item = (Call<'a>, More<'a>)>) -> List {
        let mut list = List {
            calls: Vec::with_capacity(calls.len()),
            _lists: Vec::new(),
            _texts: Vec::new(),
            _mores: Vec::with_capacity(calls.len()),
            files: Vec::with_capacity(calls.len()),
        };
        for (call, more) in calls {
            let (payload, reason) = (more.payload.to_vec(), more.reason.as_bytes().to_vec());
            let mut ended = vec![0; most_ended(&call)];
            let mut more = Box::new(sys::store::relkvanu_store_more {
                payload: payload.as_ptr().cast(),
                payload_len: payload.len(),
                bytes: more.bytes,
                millis: more.millis,
                reason: reason.as_ptr().cast(),
                reason_len: reason.len(),
                ended: ended.as_mut_ptr(),
                ended_room: ended.len(),
                reserved: [0; 4],
                ended_len: 0,
                kind: 0,
            });
            let (first, second) = call.lists();
            let (first, second) = (first.to_vec(), second.to_vec());
            let places = match call {
                Call::Take { most } => most.min(1 << 20) as usize,
                _ => 0,
            };
            let mut files = vec![0; places];
            list.calls.push(sys::store::relkvanu_store_call {
                call: call.fields(),
                first: first.as_ptr(),
                first_len: first.len(),
                second: second.as_ptr(),
                second_len: second.len(),
                files: files.as_mut_ptr(),
                files_len: files.len(),
                more: &mut *more,
                reserved: [0],
                answer: NONE,
                choice: NONE,
                place: 0,
                term: 0,
            });
            list._lists.extend([first, second, ended]);
            list._texts.extend([payload, reason]);
            list._mores.push(more);
            list.files.push(files);
        }
        list
    }

    /// A place for a call that the library writes.
    pub(super) fn place() -> List {
        List::of(&[Call::Tick { now: super::NOW }])
    }

    pub(super) fn outcomes(self) -> Vec<Result<Made, Fault>> {
        let files = self.files.iter();
        let calls = self.calls.iter().zip(files);
        calls.map(|(call, files)| outcome_of(call, files)).collect()
    }
}

/// The kind of a record that was triggered or restored: its answer says it, also of a call that has no more.
fn begun(what: u32) -> Option<Kind> {
    match what {
        sys::RELKVANU_TICK_TRIGGERED | sys::RELKVANU_RESTORED_CHECKPOINT => Some(Kind::Checkpoint),
        sys::RELKVANU_SAVEPOINT_TRIGGERED | sys::RELKVANU_RESTORED_SAVEPOINT => Some(Kind::Savepoint),
        _ => None,
    }
}

pub(super) fn outcome_of(call: &sys::store::relkvanu_store_call, files: &[u64]) -> Result<Made, Fault> {
    if call.answer.code == sys::store::RELKVANU_STORE_NOT_MADE {
        return Err(Fault::Memory);
    }
    let told = done(call.answer)?;
    let answer = if told.what == sys::RELKVANU_TAKEN {
        Outcome::Taken(files[..told.a as usize].to_vec())
    } else {
        Outcome::Called(answer::answer(told)?)
    };
    let has_choice = call.choice.what != 0;
    // SAFETY: what a call has more is in the list of the caller, if it has more.
    let (kind, ended) = match unsafe { call.more.as_ref() } {
        Some(more) if more.ended_room != 0 => {
            // SAFETY: the buffer has as many places as it says.
            let ended = unsafe { std::slice::from_raw_parts(more.ended, more.ended_len.min(more.ended_room)) };
            (more.kind, ended.to_vec())
        }
        more => (more.map_or(0, |it| it.kind), Vec::new()),
    };
    Ok(Made {
        answer,
        place: call.place,
        choice: has_choice.then(|| answer::choice(call.choice)),
        term: (call.term != 0).then_some(call.term),
        kind: kind_of(kind).or(begun(told.what)),
        ended,
    })
}
