//! The alignment of a task with several inputs: when it may take what is next, and when it takes its snapshot.
use crate::fault::{check_library, Fault};
use relkvanu_sys as sys;
use std::fmt;

/// The most inputs of a task.
pub const MOST_INPUTS: usize = sys::RELKVANU_MOST_INPUTS as usize;

/// What an engine does next.
#[must_use]
#[derive(Debug, PartialEq, Eq)]
pub enum Step {
    /// Process the element now.
    Process,
    /// Leave the element, and all behind it, on its input, until the next cut or abandon.
    Hold,
    /// Nothing is to be done: no record is being aligned.
    Nothing,
    /// Go on: an open input has not delivered the barrier yet.
    Wait,
    /// Drop the barrier and go on: the record was cut or given up, or is below one that was begun.
    Late,
    /// Take the snapshot for this record now, and then send its barrier on each output, before anything else.
    Cut(Cut),
    /// Decline this record: it can no longer be cut.
    Abandon(u64),
    /// Of a [`Recorder`]: add the element to the record, and process it before what comes behind it.
    Record,
    /// Of a [`Recorder`]: as at [`Step::Cut`] of this record, but acknowledge nothing yet: what comes before its barrier is still to be recorded.
    Snap(u64),
    /// Of a [`Recorder`]: acknowledge the record, with its snapshot and with what was recorded.
    Complete(Cut),
}

/// The cut of a record at a task. Only an [`Aligner`] gives one out, at the cut; nobody can make or copy one. A task that acknowledges by
/// [`Coordinator::ack_cut`](crate::Coordinator::ack_cut) and [`ack_cut_in`](crate::Coordinator::ack_cut_in) alone acknowledges no record
/// that it has not cut.
///
/// ```compile_fail
/// let cut = relkvanu::Cut { id: 1 };
/// ```
#[derive(Debug, PartialEq, Eq)]
pub struct Cut {
    id: u64,
}

impl Cut {
    /// The record.
    pub fn id(&self) -> u64 {
        self.id
    }
}

/// Why a step is refused: the engine broke the rules. Nothing has changed.
#[derive(Clone, Copy, Debug, PartialEq, Eq, Hash)]
#[non_exhaustive]
pub enum AlignFault {
    /// The task has no input with this number.
    UnknownInput,
    /// The barrier or the end has to wait until the input is released.
    HeldInput,
    /// The input has ended. Of `take` of the inputs of a `runner`: each of them has, which breaks no rule.
    EndedInput,
    /// A task has 1 to [`MOST_INPUTS`] inputs.
    BadInputs,
    /// Barriers have come in another order on another input. Of the inputs of a `runner` alone: an [`Aligner`] abandons the earlier record.
    TwoOrders,
    /// The inputs of a `runner` were closed: the task ends, which breaks no rule.
    Closed,
    /// The linked library is of another version, this one.
    OtherLibrary { library: &'static str },
    /// A number that this crate does not know: the library is of another version.
    Unknown(u32),
}

impl fmt::Display for AlignFault {
    fn fmt(&self, f: &mut fmt::Formatter<'_>) -> fmt::Result {
        match self {
            AlignFault::UnknownInput => f.write_str("no such input"),
            AlignFault::HeldInput => f.write_str("the input is held"),
            AlignFault::EndedInput => f.write_str("the input has ended"),
            AlignFault::BadInputs => f.write_str("bad number of inputs"),
            AlignFault::TwoOrders => f.write_str("barriers in two orders"),
            AlignFault::Closed => f.write_str("the inputs are closed"),
            AlignFault::OtherLibrary { library } => write!(f, "the library is version {library}"),
            AlignFault::Unknown(what) => write!(f, "unknown step {what}"),
        }
    }
}

impl std::error::Error for AlignFault {}

type Stepped = Result<Step, AlignFault>;

// bindings/generate makes the steps
fn step_of(told: sys::relkvanu_step) -> Stepped {
    match told.what {
        sys::RELKVANU_STEP_PROCESS => Ok(Step::Process),
        sys::RELKVANU_STEP_HOLD => Ok(Step::Hold),
        sys::RELKVANU_STEP_NOTHING => Ok(Step::Nothing),
        sys::RELKVANU_STEP_WAIT => Ok(Step::Wait),
        sys::RELKVANU_STEP_LATE => Ok(Step::Late),
        sys::RELKVANU_STEP_CUT => Ok(Step::Cut(Cut { id: told.id })),
        sys::RELKVANU_STEP_ABANDON => Ok(Step::Abandon(told.id)),
        sys::RELKVANU_STEP_UNKNOWN_INPUT => Err(AlignFault::UnknownInput),
        sys::RELKVANU_STEP_HELD_INPUT => Err(AlignFault::HeldInput),
        sys::RELKVANU_STEP_ENDED_INPUT => Err(AlignFault::EndedInput),
        sys::RELKVANU_STEP_BAD_INPUTS => Err(AlignFault::BadInputs),
        sys::RELKVANU_STEP_RECORD => Ok(Step::Record),
        sys::RELKVANU_STEP_SNAP => Ok(Step::Snap(told.id)),
        sys::RELKVANU_STEP_COMPLETE => Ok(Step::Complete(Cut { id: told.id })),
        other => Err(AlignFault::Unknown(other)),
    }
}
// bindings/generate: end

/// A step of the state and the inputs of this value, which changes them or does not.
macro_rules! stepped {
    (change $self:ident.$state:ident, $step:ident $(, $word:ident)*) => {{
        let (inputs, len) = ($self.inputs.as_mut_ptr(), $self.inputs.len());
        // SAFETY: both are memory of this value, and the slice has as many places as is said.
        step_of(unsafe { sys::$step(&mut $self.$state, inputs, len $(, $word)*) })
    }};
    ($self:ident.$state:ident, $step:ident $(, $word:ident)*) => {{
        // SAFETY: as above; the call changes nothing.
        step_of(unsafe { sys::$step(&$self.$state, $self.inputs.as_ptr(), $self.inputs.len() $(, $word)*) })
    }};
}

/// The alignment of a task. A task begins a new one when it starts, also after a restore. `docs/ALIGNMENT.md` says what an engine does after
/// each step.
///
/// ```
/// use relkvanu::{Aligner, Coordinator, Settings, Step};
/// # let settings = Settings {
/// #     interval: 1000, pause: 0, at_once: 1, timeout: 600_000, tolerable: 0, retained: 1, keep_on_cancel: false,
/// # };
/// let mut job = Coordinator::open(&settings, &[1], 0, 1)?;
/// job.tick(1000)?;
/// let mut aligner = Aligner::new(2)?;
/// assert_eq!(aligner.element(0)?, Step::Process);
/// assert_eq!(aligner.barrier(0, 1)?, Step::Wait);
/// assert_eq!(aligner.element(0)?, Step::Hold);
/// if let Step::Cut(cut) = aligner.barrier(1, 1)? {
///     // here the task takes its snapshot, and sends the barrier on
///     job.ack_cut(1100, &cut, (0, 0), &[7], &[])?;
/// }
/// # Ok::<(), Box<dyn std::error::Error>>(())
/// ```
#[derive(Debug)]
pub struct Aligner {
    aligner: sys::relkvanu_aligner,
    inputs: Box<[u8]>,
}

impl Aligner {
    /// The alignment of a task with this many inputs, all open: 1 to [`MOST_INPUTS`].
    pub fn new(inputs: usize) -> Result<Aligner, AlignFault> {
        if let Err(Fault::OtherLibrary { library }) = check_library() {
            return Err(AlignFault::OtherLibrary { library });
        }
        if inputs > MOST_INPUTS {
            return Err(AlignFault::BadInputs);
        }
        let mut made =
            Aligner { aligner: sys::relkvanu_aligner { latest: 0 }, inputs: vec![0; inputs].into_boxed_slice() };
        let _ = stepped!(change made.aligner, relkvanu_align_open)?;
        Ok(made)
    }

    /// How many inputs the task has.
    pub fn inputs(&self) -> usize {
        self.inputs.len()
    }

    // bindings/generate makes the steps of an aligner
    /// An element is next on this input, from 0: whether the task may process it now. Changes nothing. process or hold; or
    /// unknown_input, ended_input.
    pub fn element(&self, input: u32) -> Stepped {
        stepped!(self.aligner, relkvanu_align_element, input)
    }

    /// The barrier of record id is next on this input. wait, late, cut, or abandon of an earlier record, whose place this one
    /// takes; or unknown_input, held_input, ended_input. A cut and an abandon release all held inputs; after an abandon this
    /// input alone is held.
    pub fn barrier(&mut self, input: u32, id: u64) -> Stepped {
        stepped!(change self.aligner, relkvanu_align_barrier, input, id)
    }

    /// Nothing more comes on this input. It counts as one that has delivered every barrier. nothing, wait or cut; or
    /// unknown_input, held_input, ended_input.
    pub fn end(&mut self, input: u32) -> Stepped {
        stepped!(change self.aligner, relkvanu_align_end, input)
    }

    /// The coordinator or the task gives record id up. abandon if this record is being aligned, and all held inputs are released;
    /// otherwise nothing.
    pub fn give_up(&mut self, id: u64) -> Stepped {
        stepped!(change self.aligner, relkvanu_align_give_up, id)
    }
    // bindings/generate: end
}

/// An aligner whose records may overtake. While one is recorded [`element`](Self::element) is [`Step::Record`] on an input that has not delivered its
/// barrier and [`Step::Process`] on others, and the last barrier, or end, is [`Step::Complete`]. After [`Step::Abandon`] the barrier is left on its
/// input: ask again.
#[derive(Debug)]
pub struct Recorder {
    recorder: sys::relkvanu_recorder,
    inputs: Box<[u8]>,
}

impl Recorder {
    /// The recorder of a task with this many inputs, all open: 1 to [`MOST_INPUTS`].
    pub fn new(inputs: usize) -> Result<Recorder, AlignFault> {
        let inputs = Aligner::new(inputs)?.inputs; // all open
        Ok(Recorder { recorder: sys::relkvanu_recorder { latest: 0, phase: 0 }, inputs })
    }

    // bindings/generate makes the steps of a recorder
    /// As element; and record.
    pub fn element(&self, input: u32) -> Stepped {
        stepped!(self.recorder, relkvanu_unaligned_element, input)
    }

    /// As barrier; and complete if it was the last of a record that has overtaken.
    pub fn barrier(&mut self, input: u32, id: u64) -> Stepped {
        stepped!(change self.recorder, relkvanu_unaligned_barrier, input, id)
    }

    /// As end; and complete.
    pub fn end(&mut self, input: u32) -> Stepped {
        stepped!(change self.recorder, relkvanu_unaligned_end, input)
    }

    /// As give_up: what was recorded for an abandoned record is given up.
    pub fn give_up(&mut self, id: u64) -> Stepped {
        stepped!(change self.recorder, relkvanu_unaligned_give_up, id)
    }

    /// Record id overtakes: its barrier was seen on an input, wherever it stands there, or has waited for long enough. snap; late
    /// if it is whole or was given up; nothing while an earlier record is open (ask again once that has ended), if it has
    /// overtaken before, or if each input has ended.
    pub fn overtake(&mut self, id: u64) -> Stepped {
        stepped!(change self.recorder, relkvanu_unaligned_overtake, id)
    }
    // bindings/generate: end
}
