//! A call as a line of a log (`docs/SCRIPT.md`, with terms and names `docs/LOGS.md`), and the call that a line says.
use crate::coordinator::parts;
use crate::fault::{check_library, done, text, Fault};
use crate::lines::LineFault;
use relkvanu_sys as sys;
use std::num::NonZeroU64;

/// A call for a log. Its line reads back as this call. A term is at least 1: 0 stands for none.
#[derive(Clone, Copy, Debug, PartialEq, Eq, Hash)]
pub enum Call<'a> {
    // bindings/generate makes the calls
    Tick {
        now: u64,
    },
    Savepoint {
        now: u64,
    },
    Dispose {
        id: u64,
    },
    Cancel {
        now: u64,
    },
    Deleted {
        file: u64,
    },
    Undeleted {
        file: u64,
    },
    Count {
        file: u64,
    },
    Fence {
        first_name: u64,
    },
    Trigger {
        now: u64,
    },
    /// The subtask vertex.index has taken its part of record id.
    Ack {
        now: u64,
        id: u64,
        subtask: (u16, u16),
        fresh: &'a [u64],
        reused: &'a [u64],
    },
    /// The subtask vertex.index could not take its part of record id.
    Decline {
        now: u64,
        id: u64,
        subtask: (u16, u16),
    },
    /// A task of this term reserves names for files that it will write, 1 to 65536 of them.
    Reserve {
        term: u64,
        count: u64,
    },
    /// A task of this term gives up names that it will not acknowledge, such as those of a failed upload: their files are garbage
    /// then.
    Forfeit {
        term: u64,
        names: &'a [u64],
    },
    /// Begins a job again that goes on from an older image or log, such as one that was restored from a backup: restore of the
    /// latest, in the shape that the job has, in a term above term, the greatest that any task was told, and with names from
    /// first_name on, 1 to 2^62, above each that was given out.
    Advance {
        now: u64,
        term: u64,
        first_name: u64,
    },
    /// ack of a task of this term.
    AckIn {
        term: u64,
        now: u64,
        id: u64,
        subtask: (u16, u16),
        fresh: &'a [u64],
        reused: &'a [u64],
    },
    /// decline of a task of this term.
    DeclineIn {
        term: u64,
        now: u64,
        id: u64,
        subtask: (u16, u16),
    },
    // bindings/generate: end
    Restore {
        now: u64,
        savepoint: Option<NonZeroU64>,
        shape: Option<&'a [u64]>,
    },
    /// The settings as [`Settings::numbers`](crate::Settings::numbers) gives them.
    Configure {
        now: u64,
        settings: &'a [u64],
    },
    Take {
        most: u64,
    },
    Show {
        id: u64,
    },
}

impl<'a> Call<'a> {
    /// The call that a line says: the bytes before its newline. `None` for a line without words and a comment. The
    /// lists are for its files, names, shape or settings.
    ///
    /// A line that makes no call is a [`Fault::BadLine`], a restore in a bad shape a [`Fault::BadShape`], and bad settings
    /// are a [`Fault::BadConfig`]. A restore
    /// to savepoint 0 is refused with [`Refusal::NoSuchSavepoint`](crate::Refusal::NoSuchSavepoint), since no savepoint has this number.
    /// A term before a call that has no use for one, as in `in 3 tick 5`, is [`LineFault::NoCall`]: no `Call` says it.
    pub fn of(line: &[u8], first: &'a mut Vec<u64>, second: &'a mut Vec<u64>) -> Result<Option<Call<'a>>, Fault> {
        check_library()?;
        let (told, call) = loop {
            let (told, call) = line_call(line, first, second);
            if told.code != sys::RELKVANU_TOO_SHORT {
                break (done(told)?, call);
            }
            first.resize(told.a as usize, 0);
            second.resize(told.b as usize, 0);
        };
        let (first, second) = (&first[..told.a as usize], &second[..told.b as usize]);
        Ok(match told.what {
            sys::RELKVANU_SKIPPED => None,
            _ => {
                let said = Call::with(&call, first, second).ok_or_else(|| Fault::unknown(told))?;
                Some(said.of_task(call.term)?)
            }
        })
    }

    /// The record that a line shows, with a term before it or without one.
    pub(crate) fn shown_by(line: &[u8]) -> Option<u64> {
        let (told, call) = line_call(line, &mut [], &mut []);
        let is_call = told.code == sys::RELKVANU_DONE && told.what == sys::RELKVANU_LINE_CALL;
        (is_call && call.kind == sys::RELKVANU_CALL_SHOW).then_some(call.number)
    }

    /// The call of a task of this term, or of none if it is 0.
    fn of_task(self, term: u64) -> Result<Call<'a>, Fault> {
        Ok(match self {
            call if term == 0 => call,
            Call::Ack { now, id, subtask, fresh, reused } => Call::AckIn { term, now, id, subtask, fresh, reused },
            Call::Decline { now, id, subtask } => Call::DeclineIn { term, now, id, subtask },
            call @ (Call::Reserve { .. } | Call::Forfeit { .. } | Call::Advance { .. } | Call::Fence { .. }) => call,
            _ => return Err(Fault::BadLine(LineFault::NoCall)),
        })
    }

    fn with(call: &sys::relkvanu_call, first: &'a [u64], second: &'a [u64]) -> Option<Call<'a>> {
        let &sys::relkvanu_call { kind, vertex, index, now, number, term } = call;
        let subtask = (vertex, index);
        Some(match kind {
            // bindings/generate makes what reads the calls
            sys::RELKVANU_CALL_TICK => Call::Tick { now },
            sys::RELKVANU_CALL_SAVEPOINT => Call::Savepoint { now },
            sys::RELKVANU_CALL_DISPOSE => Call::Dispose { id: number },
            sys::RELKVANU_CALL_CANCEL => Call::Cancel { now },
            sys::RELKVANU_CALL_DELETED => Call::Deleted { file: number },
            sys::RELKVANU_CALL_UNDELETED => Call::Undeleted { file: number },
            sys::RELKVANU_CALL_COUNT => Call::Count { file: number },
            sys::RELKVANU_CALL_FENCE => Call::Fence { first_name: number },
            sys::RELKVANU_CALL_TRIGGER => Call::Trigger { now },
            sys::RELKVANU_CALL_ACK => Call::Ack { now, id: number, subtask, fresh: first, reused: second },
            sys::RELKVANU_CALL_DECLINE => Call::Decline { now, id: number, subtask },
            sys::RELKVANU_CALL_RESERVE => Call::Reserve { term, count: number },
            sys::RELKVANU_CALL_FORFEIT => Call::Forfeit { term, names: first },
            sys::RELKVANU_CALL_ADVANCE => Call::Advance { now, term, first_name: number },
            // bindings/generate: end
            sys::RELKVANU_CALL_RESTORE => {
                Call::Restore { now, savepoint: NonZeroU64::new(number), shape: (!first.is_empty()).then_some(first) }
            }
            sys::RELKVANU_CALL_CONFIGURE => Call::Configure { now, settings: first },
            sys::RELKVANU_CALL_TAKE => Call::Take { most: number },
            sys::RELKVANU_CALL_SHOW => Call::Show { id: number },
            _ => return None,
        })
    }

    /// The line of the call, without a newline. A line that would be too long is a [`Fault::BadLine`]. None is cut.
    pub fn line(&self) -> Result<String, Fault> {
        self.check_shape()?;
        check_library()?;
        let call = self.fields();
        let (first, second) = self.lists();
        let ((first, len), (second, count)) = (parts(first), parts(second));
        // SAFETY: the fields, the slices and the buffer outlive the call, and have as many elements as is said.
        text(|to| unsafe { sys::relkvanu_call_line(&call, first, len, second, count, to.as_mut_ptr(), to.len()) })
    }

    /// An empty shape is a bad one: the library takes it for none.
    pub(crate) fn check_shape(&self) -> Result<(), Fault> {
        match self {
            Call::Restore { shape: Some([]), .. } => Err(Fault::BadShape),
            _ => Ok(()),
        }
    }

    pub(crate) fn lists(&self) -> (&[u64], &[u64]) {
        match self {
            Call::Ack { fresh, reused, .. } | Call::AckIn { fresh, reused, .. } => (fresh, reused),
            Call::Restore { shape, .. } => (shape.unwrap_or(&[]), &[]),
            Call::Forfeit { names, .. } => (names, &[]),
            Call::Configure { settings, .. } => (settings, &[]),
            _ => (&[], &[]),
        }
    }

    pub(crate) fn fields(&self) -> sys::relkvanu_call {
        let of = |kind| sys::relkvanu_call { kind, vertex: 0, index: 0, now: 0, number: 0, term: 0 };
        match *self {
            // bindings/generate makes what writes the calls
            Call::Tick { now } => sys::relkvanu_call { now, ..of(sys::RELKVANU_CALL_TICK) },
            Call::Savepoint { now } => sys::relkvanu_call { now, ..of(sys::RELKVANU_CALL_SAVEPOINT) },
            Call::Dispose { id } => sys::relkvanu_call { number: id, ..of(sys::RELKVANU_CALL_DISPOSE) },
            Call::Cancel { now } => sys::relkvanu_call { now, ..of(sys::RELKVANU_CALL_CANCEL) },
            Call::Deleted { file } => sys::relkvanu_call { number: file, ..of(sys::RELKVANU_CALL_DELETED) },
            Call::Undeleted { file } => sys::relkvanu_call { number: file, ..of(sys::RELKVANU_CALL_UNDELETED) },
            Call::Count { file } => sys::relkvanu_call { number: file, ..of(sys::RELKVANU_CALL_COUNT) },
            Call::Fence { first_name } => sys::relkvanu_call { number: first_name, ..of(sys::RELKVANU_CALL_FENCE) },
            Call::Trigger { now } => sys::relkvanu_call { now, ..of(sys::RELKVANU_CALL_TRIGGER) },
            Call::Ack { now, id, subtask, .. } => sys::relkvanu_call {
                now,
                number: id,
                vertex: subtask.0,
                index: subtask.1,
                ..of(sys::RELKVANU_CALL_ACK)
            },
            Call::Decline { now, id, subtask } => sys::relkvanu_call {
                now,
                number: id,
                vertex: subtask.0,
                index: subtask.1,
                ..of(sys::RELKVANU_CALL_DECLINE)
            },
            Call::Reserve { term, count } => {
                sys::relkvanu_call { term, number: count, ..of(sys::RELKVANU_CALL_RESERVE) }
            }
            Call::Forfeit { term, .. } => sys::relkvanu_call { term, ..of(sys::RELKVANU_CALL_FORFEIT) },
            Call::Advance { now, term, first_name } => {
                sys::relkvanu_call { now, term, number: first_name, ..of(sys::RELKVANU_CALL_ADVANCE) }
            }
            Call::AckIn { term, now, id, subtask, .. } => sys::relkvanu_call {
                term,
                now,
                number: id,
                vertex: subtask.0,
                index: subtask.1,
                ..of(sys::RELKVANU_CALL_ACK)
            },
            Call::DeclineIn { term, now, id, subtask } => sys::relkvanu_call {
                term,
                now,
                number: id,
                vertex: subtask.0,
                index: subtask.1,
                ..of(sys::RELKVANU_CALL_DECLINE)
            },
            // bindings/generate: end
            Call::Restore { now, savepoint, .. } => {
                let number = savepoint.map_or(0, NonZeroU64::get);
                sys::relkvanu_call { now, number, ..of(sys::RELKVANU_CALL_RESTORE) }
            }
            Call::Configure { now, .. } => sys::relkvanu_call { now, ..of(sys::RELKVANU_CALL_CONFIGURE) },
            Call::Take { most } => sys::relkvanu_call { number: most, ..of(sys::RELKVANU_CALL_TAKE) },
            Call::Show { id } => sys::relkvanu_call { number: id, ..of(sys::RELKVANU_CALL_SHOW) },
        }
    }
}

/// What the library says of a line, and the call. Its lists are at the start of these.
fn line_call(line: &[u8], first: &mut [u64], second: &mut [u64]) -> (sys::relkvanu_answer, sys::relkvanu_call) {
    let mut call = sys::relkvanu_call { kind: 0, vertex: 0, index: 0, now: 0, number: 0, term: 0 };
    let (first, len, second, count) = (first.as_mut_ptr(), first.len(), second.as_mut_ptr(), second.len());
    // SAFETY: the slices and the fields outlive the call, and have as many elements as is said.
    let told = unsafe { sys::relkvanu_line_call(line.as_ptr(), line.len(), &mut call, first, len, second, count) };
    (told, call)
}
