//! The inputs of a task whose channels are in its process, aligned.
use crate::aligner::AlignFault;
use crate::runner::Barrier;
use crate::unaligned::{self, UnalignedInputs};
use std::fmt;
use std::time::Duration;

/// What a task takes from its inputs.
#[derive(Clone, Copy, Debug, PartialEq, Eq)]
pub enum Taken<T> {
    /// It processes this element of an input.
    Element(usize, T),
    /// The barrier has come on each input: it takes its snapshot now, sends the barrier on, and acknowledges.
    Cut(Barrier),
}

/// What comes on an input.
pub(crate) enum Item<T> {
    Element(T),
    Barrier(Barrier),
    End,
}

/// The inputs of a task, from 0, each a channel of elements, barriers and the end. Threads put them, and the task takes them. What comes behind a barrier
/// stays on its input until the barrier has come on each one, as an [`Aligner`](crate::Aligner) says, or until its record is given up. An input that has ended counts as one
/// on which each barrier has come. Make it anew when tasks start, and end again the inputs that had ended: no record says so. Who waits to put waits
/// until the task takes, and who waits in [`take`](Self::take) until something comes or each input has ended; [`close`](Self::close) ends that.
pub struct Inputs<T>(UnalignedInputs<T>); // of which none overtakes

impl<T> fmt::Debug for Inputs<T> {
    fn fmt(&self, f: &mut fmt::Formatter<'_>) -> fmt::Result {
        write!(f, "{} inputs of a task", self.0.len())
    }
}

impl<T> Inputs<T> {
    /// So many inputs, 1 to [`MOST_INPUTS`](crate::MOST_INPUTS), otherwise [`AlignFault::BadInputs`]. Each has room for so many items, and for one at least.
    pub fn new(inputs: usize, room: usize) -> Result<Inputs<T>, AlignFault> {
        UnalignedInputs::with(inputs, room, Duration::ZERO, Vec::new(), None).map(Inputs)
    }

    /// Puts an element on an input, and waits while that is full. Inputs that are closed take nothing. A panic if there is no such input, and behind its end.
    pub fn put(&self, input: usize, element: T) {
        let _ = self.0.put(input, element); // that fails only while a checkpoint is recorded
    }

    /// The same of a barrier.
    pub fn put_barrier(&self, input: usize, barrier: Barrier) {
        let _ = self.0.put_barrier(input, barrier); // as above
    }

    /// Nothing more comes on this input. Waits and panics as [`put`](Self::put). If the others have delivered a barrier, [`take`](Self::take) returns its cut
    /// once it has come to the end.
    pub fn end(&self, input: usize) {
        let _ = self.0.end(input); // as above
    }

    /// The coordinator or the task gives this record up, as in [`Engine::aborted`](crate::runner::Engine::aborted). True: it was being aligned. What its
    /// barriers held comes next, each input in its order, and barriers of it that come later are dropped. False: nothing has changed. It was cut or given up
    /// before, or none of its barriers was taken so far: these may still come, and then it is cut. A task that gives up by itself declines the record. Any
    /// thread may call it, and it waits for none. [`AlignFault::Unknown`] if the library is of another version.
    pub fn give_up(&self, id: u64) -> Result<bool, AlignFault> {
        self.0.give_up(id)
    }

    /// The tasks end, as in [`Engine::end`](crate::runner::Engine::end): [`take`](Self::take) is [`AlignFault::Closed`] from now on, and nobody waits to put. What
    /// was put and not taken is given up. A source that takes from no inputs looks at [`is_closed`](Self::is_closed). Any thread may call it, and it waits for none.
    pub fn close(&self) {
        self.0.close();
    }

    pub fn is_closed(&self) -> bool {
        self.0.is_closed()
    }

    /// Waits for an element, or for the cut of a record: its barrier has come on each input that has not ended. [`AlignFault::EndedInput`] once each input has
    /// ended, and all was taken. [`AlignFault::TwoOrders`] if barriers come in another order on another input. [`AlignFault::Closed`] once they are closed.
    pub fn take(&self) -> Result<Taken<T>, AlignFault> {
        Ok(match self.0.take()? {
            unaligned::Taken::Element(input, element) => Taken::Element(input, element),
            unaligned::Taken::Cut(it) | unaligned::Taken::Snap(it) | unaligned::Taken::Recorded(it, _) => {
                Taken::Cut(it)
            }
        })
    }
}
