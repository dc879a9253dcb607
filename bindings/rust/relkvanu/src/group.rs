//! A coordinator whose calls are made in groups: their answers are told only when the log is synced.
use crate::answer::{self, Answer};
use crate::call::Call;
use crate::coordinator::Coordinator;
use crate::fault::{done, Fault, Refusal};
use crate::lines::{LineFault, Made};
use relkvanu_sys as sys;
use std::ops::Deref;

/// A coordinator, and the answers that the library holds back, for a program with a log.
///
/// 1. [`make`](Self::make) makes calls. Append the line of each that was made, in this order. It returns the answer for the log alone.
/// 2. Sync the log, and say so by [`synced`](Self::synced). If an append or the sync fails, drop this, and begin again from the log.
/// 3. [`told`](Self::told) gives the answer of each receipt, until the next call.
///
/// Only `make` and [`repeat`](Self::repeat) change the coordinator. Tell a read between `synced` and the next call.
#[derive(Debug)]
pub struct Grouped {
    coordinator: Coordinator,
    group: sys::relkvanu_group,
    held: Vec<sys::relkvanu_answer>,
}

/// By which an answer is asked for. Receipts of a [`Grouped`] count up, and none comes again.
#[derive(Clone, Copy, Debug, PartialEq, Eq, Hash)]
pub struct Receipt(u64);

/// What a call did, for the log, and the receipt of its answer.
#[derive(Debug)]
pub struct Held<'a> {
    pub receipt: Receipt,
    /// A fault has changed nothing, and has no line.
    pub made: Result<Made<'a>, Fault>,
}

/// An answer that may be told.
#[derive(Clone, Copy, Debug, PartialEq, Eq)]
pub enum Told {
    Answered(Answer),
    /// So many files were fetched, into the buffer of the call.
    Taken(u64),
    /// The call has changed nothing.
    Fault(Fault),
}

const NONE: sys::relkvanu_answer = sys::relkvanu_answer { code: sys::RELKVANU_DONE, what: 0, a: 0, b: 0 };
/// How many places for answers are made at least, and how many stay for the next group.
const PLACES: usize = 8;
const KEPT: usize = 256;

impl Deref for Grouped {
    type Target = Coordinator;

    fn deref(&self) -> &Coordinator {
        &self.coordinator
    }
}

impl Grouped {
    pub fn new(coordinator: Coordinator) -> Grouped {
        let group = sys::relkvanu_group { waiting: 0, told: 0, has_failed: false, given: 0 };
        Grouped { coordinator, group, held: Vec::new() }
    }

    /// Makes a call as [`Coordinator::make`] does, and holds its answer back.
    ///
    /// A [`Fault`] of this function itself has changed nothing and has no receipt: [`Fault::TooShort`] of a take, [`Fault::Memory`] if there is none for the
    /// answer's place, and [`Fault::BadGroup`] after [`failed`](Self::failed).
    pub fn make<'a>(&mut self, call: &Call<'_>, files: &'a mut [u64]) -> Result<Held<'a>, Fault> {
        self.make_place()?;
        let checked = call.check_shape().and_then(|()| self.coordinator.check_moment(call.fields().now));
        if let Err(why) = checked {
            return self.hold_back(answer_of(why), why);
        }
        let mut room = call.line_room();
        loop {
            let group = (&mut self.group, self.held.as_mut_slice());
            let (told, line, made) = self.coordinator.make_into(call, files, vec![0; room], Some(group));
            match done(told) {
                Ok(told) => {
                    let answer = self.held[self.group.waiting as usize - 1];
                    return Ok(Held { receipt: Receipt(told.a), made: Made::of(answer, files, line, made) });
                }
                Err(Fault::TooShort { .. }) if told.b != 0 => room = told.b as usize,
                Err(why @ (Fault::TooShort { .. } | Fault::BadGroup | Fault::BadReceipt)) => return Err(why),
                // The line would be longer than a line may be. So it has more files than an acknowledgement may have, and is refused for these or
                // before them.
                Err(long @ Fault::BadLine(LineFault::TooLong)) => {
                    let why = self.refused(call)?.unwrap_or(long);
                    return self.hold_back(answer_of(why), why);
                }
                Err(why) => return self.hold_back(told, why),
            }
        }
    }

    /// Why an acknowledgement of too many files is refused.
    fn refused(&mut self, call: &Call<'_>) -> Result<Option<Fault>, Fault> {
        let told = match *call {
            Call::Ack { now, id, subtask, fresh, reused } => self.coordinator.ack(now, id, subtask, fresh, reused),
            Call::AckIn { term, now, id, subtask, fresh, reused } => {
                self.coordinator.ack_in(term, now, id, subtask, fresh, reused)
            }
            _ => return Ok(None),
        };
        if told.is_ok() {
            // it was made and has no line: nothing of this coordinator is told any more
            self.failed();
            return Err(Fault::BadGroup);
        }
        Ok(told.err())
    }

    /// Holds back that this program did not make a call, or that it refuses it.
    pub fn hold(&mut self, why: Refusal) -> Result<Receipt, Fault> {
        self.make_place()?;
        self.hold_answer(answer_of(why.into()))
    }

    fn hold_back<'a>(&mut self, answer: sys::relkvanu_answer, why: Fault) -> Result<Held<'a>, Fault> {
        Ok(Held { receipt: self.hold_answer(answer)?, made: Err(why) })
    }

    fn hold_answer(&mut self, answer: sys::relkvanu_answer) -> Result<Receipt, Fault> {
        // SAFETY: the group is this coordinator's, with as many places as is said. The answer outlives the call.
        let told =
            unsafe { sys::relkvanu_group_hold(&mut self.group, self.held.as_mut_ptr(), self.held.len(), &answer) };
        done(told).map(|told| Receipt(told.a))
    }

    /// All lines so far are synced: what was held back may be told, until the next call. Returns how many answers that are.
    pub fn synced(&mut self) -> Result<u64, Fault> {
        // SAFETY: the group is this coordinator's.
        done(unsafe { sys::relkvanu_group_synced(&mut self.group) }).map(|told| told.a)
    }

    /// An append or a sync has failed: nothing more is told of this coordinator.
    pub fn failed(&mut self) {
        // SAFETY: the group is this coordinator's.
        unsafe { sys::relkvanu_group_failed(&mut self.group) }
    }

    /// The answer of this receipt. It is a [`Fault::BadReceipt`] before [`synced`](Self::synced) and from the next call on.
    pub fn told(&self, receipt: Receipt) -> Result<Told, Fault> {
        // SAFETY: the group is this coordinator's, and has as many places as is said.
        let told = unsafe { sys::relkvanu_group_answer(&self.group, self.held.as_ptr(), self.held.len(), receipt.0) };
        match done(told) {
            Ok(told) if told.what == sys::RELKVANU_TAKEN => Ok(Told::Taken(told.a)),
            Ok(told) => answer::answer(told).map(Told::Answered),
            Err(why @ (Fault::BadGroup | Fault::BadReceipt)) => Err(why),
            Err(why) => Ok(Told::Fault(why)),
        }
    }

    /// Makes a call of the log again, whose line is synced. Only before the first call of a group: then it is a [`Fault::BadGroup`].
    pub fn repeat<'a>(&mut self, call: &Call<'_>, files: &'a mut [u64]) -> Result<Made<'a>, Fault> {
        match self.group.given {
            0 => self.coordinator.make(call, files),
            _ => Err(Fault::BadGroup),
        }
    }

    /// A place for the next answer. What one group needed more than most do goes with it.
    fn make_place(&mut self) -> Result<(), Fault> {
        let waiting = self.group.waiting as usize;
        if waiting == 0 && self.held.len() > KEPT {
            self.held = Vec::new();
        }
        if waiting == self.held.len() {
            let more = waiting.max(PLACES);
            self.held.try_reserve_exact(more).map_err(|_| Fault::Memory)?;
            self.held.resize(waiting + more, NONE);
        }
        Ok(())
    }
}

/// The library's answer for a fault that this crate found: a refusal, a bad shape, or that memory ran out.
fn answer_of(why: Fault) -> sys::relkvanu_answer {
    let (code, what, file) = match why {
        Fault::Refused(why) => (sys::RELKVANU_REFUSED, why.number(), why.file()),
        Fault::Fenced(why) => (sys::RELKVANU_FENCED, why.number(), why.file()),
        Fault::BadShape => (sys::RELKVANU_BAD_ARGUMENT, sys::RELKVANU_BAD_SHAPE, None),
        Fault::BadLine(why) => (sys::RELKVANU_BAD_LINE, why.number(), None),
        _ => (sys::RELKVANU_NO_MEMORY, 0, None),
    };
    sys::relkvanu_answer { code, what, a: file.unwrap_or(0), b: 0 }
}
