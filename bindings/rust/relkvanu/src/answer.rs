//! What calls and reads return.
use crate::fault::Fault;
use relkvanu_sys as sys;
use std::fmt;

/// What the job would restart from.
#[derive(Clone, Copy, Debug, PartialEq, Eq, Hash)]
#[non_exhaustive]
pub enum Choice {
    Checkpoint(u64),
    Savepoint(u64),
    Fresh,
    /// A number that this crate does not know: the library is of another version.
    Unknown(u32),
}

/// The record as a script names it, as "checkpoint 4" or "fresh".
impl fmt::Display for Choice {
    fn fmt(&self, f: &mut fmt::Formatter<'_>) -> fmt::Result {
        match self {
            Choice::Checkpoint(id) => write!(f, "checkpoint {id}"),
            Choice::Savepoint(id) => write!(f, "savepoint {id}"),
            Choice::Fresh => f.write_str("fresh"),
            Choice::Unknown(what) => write!(f, "unknown {what}"),
        }
    }
}

// bindings/generate makes the modes
/// What the job is doing.
#[derive(Clone, Copy, Debug, PartialEq, Eq, Hash)]
#[non_exhaustive]
pub enum Mode {
    /// The job takes checkpoints.
    Running,
    /// Too many checkpoints failed in a row: restore the job.
    Failed,
    /// The job has ended for good.
    Cancelled,
    /// A number that this crate does not know: the library is of another version.
    Unknown(u32),
}

impl Mode {
    pub(crate) fn of(what: u32) -> Mode {
        match what {
            sys::RELKVANU_MODE_RUNNING => Mode::Running,
            sys::RELKVANU_MODE_FAILED => Mode::Failed,
            sys::RELKVANU_MODE_CANCELLED => Mode::Cancelled,
            other => Mode::Unknown(other),
        }
    }

    /// The number in the header.
    pub fn number(&self) -> u32 {
        match self {
            Mode::Running => sys::RELKVANU_MODE_RUNNING,
            Mode::Failed => sys::RELKVANU_MODE_FAILED,
            Mode::Cancelled => sys::RELKVANU_MODE_CANCELLED,
            Mode::Unknown(what) => *what,
        }
    }
}
// bindings/generate: end

/// Whether a record is a checkpoint, which belongs to the coordinator, or a savepoint, which belongs to a user.
#[derive(Clone, Copy, Debug, PartialEq, Eq, Hash)]
#[non_exhaustive]
pub enum Kind {
    Checkpoint,
    Savepoint,
    /// A number that this crate does not know.
    Unknown(u32),
}

/// "checkpoint" or "savepoint".
impl fmt::Display for Kind {
    fn fmt(&self, f: &mut fmt::Formatter<'_>) -> fmt::Result {
        match self {
            Kind::Checkpoint => f.write_str("checkpoint"),
            Kind::Savepoint => f.write_str("savepoint"),
            Kind::Unknown(what) => write!(f, "unknown {what}"),
        }
    }
}

/// A live record: its number, its kind, and whether it is done or pending.
#[derive(Clone, Copy, Debug, PartialEq, Eq, Hash)]
pub struct Live {
    pub id: u64,
    pub kind: Kind,
    pub done: bool,
}

// bindings/generate makes the standings
/// What a number is.
#[derive(Clone, Copy, Debug, PartialEq, Eq, Hash)]
#[non_exhaustive]
pub enum Standing {
    /// A live record has the number, and lacks an acknowledgement.
    Pending,
    /// A live record has the number, and is complete.
    Done,
    /// A record had the number, and is no longer live.
    Ended,
    /// No record has had the number so far.
    NotYet,
    /// The number is below the first one of the opening.
    Never,
    /// A number that this crate does not know: the library is of another version.
    Unknown(u32),
}

impl Standing {
    pub(crate) fn of(what: u32) -> Standing {
        match what {
            sys::RELKVANU_STANDS_PENDING => Standing::Pending,
            sys::RELKVANU_STANDS_DONE => Standing::Done,
            sys::RELKVANU_STANDS_ENDED => Standing::Ended,
            sys::RELKVANU_STANDS_NOT_YET => Standing::NotYet,
            sys::RELKVANU_STANDS_NEVER => Standing::Never,
            other => Standing::Unknown(other),
        }
    }

    /// The number in the header.
    pub fn number(&self) -> u32 {
        match self {
            Standing::Pending => sys::RELKVANU_STANDS_PENDING,
            Standing::Done => sys::RELKVANU_STANDS_DONE,
            Standing::Ended => sys::RELKVANU_STANDS_ENDED,
            Standing::NotYet => sys::RELKVANU_STANDS_NOT_YET,
            Standing::Never => sys::RELKVANU_STANDS_NEVER,
            Standing::Unknown(what) => *what,
        }
    }
}
// bindings/generate: end

/// How many files are in use by live records (each counted once), wait for deletion, and were fetched for deletion and
/// not yet reported.
#[derive(Clone, Copy, Debug, PartialEq, Eq, Hash)]
pub struct FileCounts {
    pub in_use: u64,
    pub waiting: u64,
    pub taken: u64,
}

/// The term that runs, and the next name that is given out.
#[derive(Clone, Copy, Debug, PartialEq, Eq, Hash)]
pub struct RunningTerm {
    pub term: u64,
    pub next_name: u64,
}

/// Of some files: those that may be deleted, and those whose names were not given out, which nobody deletes.
#[derive(Clone, Debug, PartialEq, Eq, Hash)]
pub struct Garbage {
    pub garbage: Vec<u64>,
    pub unissued: Vec<u64>,
}

// bindings/generate makes the answers
/// The answer to a call that was made.
#[derive(Clone, Copy, Debug, PartialEq, Eq, Hash)]
#[non_exhaustive]
pub enum Answer {
    /// A checkpoint was triggered.
    Triggered { expired: u64, id: u64 },
    /// No checkpoint is due yet.
    HeldInterval { expired: u64 },
    /// As many checkpoints are pending as may be.
    HeldAtOnce { expired: u64 },
    /// The pause after the last completion has not passed.
    HeldPause { expired: u64 },
    /// Too many checkpoints failed in a row: restore the job.
    Failed { expired: u64 },
    /// A savepoint was triggered.
    SavepointTriggered(u64),
    /// The record is not complete yet.
    AckPending { missing: u64 },
    /// The record is complete.
    AckCompleted { dropped: u64, released: u64 },
    /// The record was done or had ended.
    AckLate { handed_out: u64 },
    /// The record is dropped.
    DeclineAborted { released: u64 },
    /// The record is dropped, and the job has failed: restore it.
    DeclineFailed { released: u64 },
    /// The record was done or had ended.
    DeclineLate,
    /// The savepoint is gone.
    Disposed { released: u64 },
    /// The job has ended for good.
    Cancelled { dropped: u64, released: u64 },
    /// The file is forgotten.
    Deleted(u64),
    /// The file waits again.
    Undeleted(u64),
    /// The uses by live records.
    Counted { file: u64, uses: u64 },
    /// The job has the new settings.
    Configured { checkpoints: u64, released: u64 },
    /// The names are given up.
    Forfeited,
    /// The job has names, and its first term runs.
    Named,
    /// From this name on as many are reserved as the call wanted.
    Reserved(u64),
    /// The job begins again from this record.
    Restored { from: Choice, released: u64 },
}

/// The answer to a call that was made and that writes to no buffer.
pub(crate) fn answer(told: sys::relkvanu_answer) -> Result<Answer, Fault> {
    let sys::relkvanu_answer { what, a, b, .. } = told;
    Ok(match what {
        sys::RELKVANU_TICK_TRIGGERED => Answer::Triggered { expired: a, id: b },
        sys::RELKVANU_TICK_HELD_INTERVAL => Answer::HeldInterval { expired: a },
        sys::RELKVANU_TICK_HELD_AT_ONCE => Answer::HeldAtOnce { expired: a },
        sys::RELKVANU_TICK_HELD_PAUSE => Answer::HeldPause { expired: a },
        sys::RELKVANU_TICK_FAILED => Answer::Failed { expired: a },
        sys::RELKVANU_SAVEPOINT_TRIGGERED => Answer::SavepointTriggered(a),
        sys::RELKVANU_ACK_PENDING => Answer::AckPending { missing: a },
        sys::RELKVANU_ACK_COMPLETED => Answer::AckCompleted { dropped: a, released: b },
        sys::RELKVANU_ACK_LATE => Answer::AckLate { handed_out: a },
        sys::RELKVANU_DECLINE_ABORTED => Answer::DeclineAborted { released: a },
        sys::RELKVANU_DECLINE_FAILED => Answer::DeclineFailed { released: a },
        sys::RELKVANU_DECLINE_LATE => Answer::DeclineLate,
        sys::RELKVANU_DISPOSED => Answer::Disposed { released: a },
        sys::RELKVANU_RESTORED_CHECKPOINT => Answer::Restored { from: Choice::Checkpoint(b), released: a },
        sys::RELKVANU_RESTORED_SAVEPOINT => Answer::Restored { from: Choice::Savepoint(b), released: a },
        sys::RELKVANU_RESTORED_FRESH => Answer::Restored { from: Choice::Fresh, released: a },
        sys::RELKVANU_CANCELLED => Answer::Cancelled { dropped: a, released: b },
        sys::RELKVANU_DELETED => Answer::Deleted(a),
        sys::RELKVANU_UNDELETED => Answer::Undeleted(a),
        sys::RELKVANU_COUNTED => Answer::Counted { file: a, uses: b },
        sys::RELKVANU_CONFIGURED => Answer::Configured { checkpoints: a, released: b },
        sys::RELKVANU_FORFEITED => Answer::Forfeited,
        sys::RELKVANU_NAMED => Answer::Named,
        sys::RELKVANU_RESERVED => Answer::Reserved(a),
        _ => return Err(Fault::unknown(told)),
    })
}

/// The numbers of an answer: what it is, and a and b.
pub(crate) fn numbers_of(answer: &Answer) -> (u32, u64, u64) {
    match *answer {
        Answer::Triggered { expired: a, id: b } => (sys::RELKVANU_TICK_TRIGGERED, a, b),
        Answer::HeldInterval { expired: a } => (sys::RELKVANU_TICK_HELD_INTERVAL, a, 0),
        Answer::HeldAtOnce { expired: a } => (sys::RELKVANU_TICK_HELD_AT_ONCE, a, 0),
        Answer::HeldPause { expired: a } => (sys::RELKVANU_TICK_HELD_PAUSE, a, 0),
        Answer::Failed { expired: a } => (sys::RELKVANU_TICK_FAILED, a, 0),
        Answer::SavepointTriggered(a) => (sys::RELKVANU_SAVEPOINT_TRIGGERED, a, 0),
        Answer::AckPending { missing: a } => (sys::RELKVANU_ACK_PENDING, a, 0),
        Answer::AckCompleted { dropped: a, released: b } => (sys::RELKVANU_ACK_COMPLETED, a, b),
        Answer::AckLate { handed_out: a } => (sys::RELKVANU_ACK_LATE, a, 0),
        Answer::DeclineAborted { released: a } => (sys::RELKVANU_DECLINE_ABORTED, a, 0),
        Answer::DeclineFailed { released: a } => (sys::RELKVANU_DECLINE_FAILED, a, 0),
        Answer::DeclineLate => (sys::RELKVANU_DECLINE_LATE, 0, 0),
        Answer::Disposed { released: a } => (sys::RELKVANU_DISPOSED, a, 0),
        Answer::Restored { from: Choice::Checkpoint(b), released: a } => (sys::RELKVANU_RESTORED_CHECKPOINT, a, b),
        Answer::Restored { from: Choice::Savepoint(b), released: a } => (sys::RELKVANU_RESTORED_SAVEPOINT, a, b),
        Answer::Restored { from: Choice::Fresh, released: a } => (sys::RELKVANU_RESTORED_FRESH, a, 0),
        Answer::Cancelled { dropped: a, released: b } => (sys::RELKVANU_CANCELLED, a, b),
        Answer::Deleted(a) => (sys::RELKVANU_DELETED, a, 0),
        Answer::Undeleted(a) => (sys::RELKVANU_UNDELETED, a, 0),
        Answer::Counted { file: a, uses: b } => (sys::RELKVANU_COUNTED, a, b),
        Answer::Configured { checkpoints: a, released: b } => (sys::RELKVANU_CONFIGURED, a, b),
        Answer::Forfeited => (sys::RELKVANU_FORFEITED, 0, 0),
        Answer::Named => (sys::RELKVANU_NAMED, 0, 0),
        Answer::Reserved(a) => (sys::RELKVANU_RESERVED, a, 0),
        Answer::Restored { from: Choice::Unknown(what), released } => (what, released, 0),
    }
}

// bindings/generate: end

impl Answer {
    /// What the header calls the answer to a take, which is a list of files: no `Answer` has this number.
    pub const TAKEN: u32 = sys::RELKVANU_TAKEN;

    /// The numbers that `include/relkvanu.h` gives the answer: what it is, and a and b, which are 0 where it has none. So a log has it as
    /// three numbers.
    #[must_use]
    pub fn numbers(&self) -> (u32, u64, u64) {
        numbers_of(self)
    }

    /// The answer of these numbers; `None` if they are no answer that this crate knows. Numbers that the answer does not have are left out.
    #[must_use]
    pub fn of_numbers(what: u32, a: u64, b: u64) -> Option<Answer> {
        let code = sys::RELKVANU_DONE;
        answer(sys::relkvanu_answer { code, what, a, b }).ok()
    }
}

/// The line that a script prints (`docs/SCRIPT.md`), as "ack completed 1 2".
impl fmt::Display for Answer {
    fn fmt(&self, f: &mut fmt::Formatter<'_>) -> fmt::Result {
        let (what, a, b) = numbers_of(self);
        match self {
            Answer::Named => f.write_str("term 1"),
            Answer::Reserved(first) => write!(f, "reserved {first}"), // the call says how many
            Answer::Restored { from: Choice::Unknown(_), .. } => write!(f, "unknown {what}"),
            _ => f.write_str(&text_of(&sys::relkvanu_answer { code: sys::RELKVANU_DONE, what, a, b })),
        }
    }
}

/// What the library says of an answer.
fn text_of(told: &sys::relkvanu_answer) -> String {
    let mut text = vec![0; sys::RELKVANU_ANSWER_TEXT as usize];
    // SAFETY: the answer and the text, which has so many bytes, outlive the call.
    let len = unsafe { sys::relkvanu_answer_text(told, text.as_mut_ptr(), text.len()) };
    crate::fault::text_of(text, len)
}

pub(crate) fn choice(told: sys::relkvanu_answer) -> Choice {
    match told.what {
        sys::RELKVANU_CHOICE_CHECKPOINT => Choice::Checkpoint(told.a),
        sys::RELKVANU_CHOICE_SAVEPOINT => Choice::Savepoint(told.a),
        sys::RELKVANU_CHOICE_FRESH => Choice::Fresh,
        other => Choice::Unknown(other),
    }
}

pub(crate) fn live(told: sys::relkvanu_answer) -> Option<Live> {
    let kind = match told.what {
        sys::RELKVANU_LIVE_CHECKPOINT => Kind::Checkpoint,
        sys::RELKVANU_LIVE_SAVEPOINT => Kind::Savepoint,
        sys::RELKVANU_LIVE_NONE => return None,
        other => Kind::Unknown(other),
    };
    Some(Live { id: told.a, kind, done: told.b == 1 })
}

#[cfg(test)]
mod tests {
    use super::*;

    /// Each number of an answer is one, and back.
    #[test]
    fn numbers_of_answers() {
        let known = (0..200).chain([u32::MAX]).filter_map(|what| Answer::of_numbers(what, 7, u64::MAX));
        let mut count = 0;
        for answer in known {
            let (what, a, b) = answer.numbers();
            assert_eq!(Answer::of_numbers(what, a, b), Some(answer));
            count += 1;
        }
        assert_eq!((count, Answer::TAKEN, Answer::of_numbers(Answer::TAKEN, 1, 0)), (24, 18, None));
    }

    /// Those with two numbers say which is which.
    #[test]
    fn names_of_two_numbers() {
        for (answer, numbers) in [
            (Answer::Triggered { expired: 0, id: 1 }, (1, 0, 1)),
            (Answer::AckCompleted { dropped: 3, released: 12 }, (8, 3, 12)),
            (Answer::Restored { from: Choice::Checkpoint(7), released: 8 }, (14, 8, 7)),
            (Answer::Restored { from: Choice::Savepoint(9), released: 0 }, (15, 0, 9)),
            (Answer::Cancelled { dropped: 1, released: 2 }, (17, 1, 2)),
            (Answer::Counted { file: 31, uses: 2 }, (22, 31, 2)),
            (Answer::Configured { checkpoints: 3, released: 12 }, (61, 3, 12)),
        ] {
            assert_eq!(answer.numbers(), numbers);
        }
    }
}
