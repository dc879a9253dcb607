//! Lines of a script (`docs/SCRIPT.md`) and of a log with names (`docs/LOGS.md`), which the library writes and reads.
use crate::answer::{self, Answer, FileCounts};
use crate::call::Call;
use crate::coordinator::{parts, Coordinator, Settings};
use crate::fault::{check_library, done, text, text_of, written, Fault};
use relkvanu_sys as sys;
use std::error::Error;
use std::fmt;

// bindings/generate makes the faults of lines
/// What is wrong with a line: the first fault from the left.
#[derive(Clone, Copy, Debug, PartialEq, Eq, Hash)]
#[non_exhaustive]
pub enum LineFault {
    /// A line has at most 131072 bytes.
    TooLong,
    /// A word that does not belong there.
    Word,
    /// The line ends before a word that it needs.
    Missing,
    /// Not a number, or not a subtask.
    Number,
    /// A word follows the last one.
    Extra,
    /// A config, job, start or all line, or in and a term before what is no call: it was read, and makes no call.
    NoCall,
    /// A number that this crate does not know: the library is of another version.
    Unknown(u32),
}

impl LineFault {
    pub(crate) fn of(what: u32) -> LineFault {
        match what {
            sys::RELKVANU_FAULT_TOO_LONG => LineFault::TooLong,
            sys::RELKVANU_FAULT_WORD => LineFault::Word,
            sys::RELKVANU_FAULT_MISSING => LineFault::Missing,
            sys::RELKVANU_FAULT_NUMBER => LineFault::Number,
            sys::RELKVANU_FAULT_EXTRA => LineFault::Extra,
            sys::RELKVANU_FAULT_NO_CALL => LineFault::NoCall,
            other => LineFault::Unknown(other),
        }
    }

    /// The number in the header.
    pub fn number(&self) -> u32 {
        match self {
            LineFault::TooLong => sys::RELKVANU_FAULT_TOO_LONG,
            LineFault::Word => sys::RELKVANU_FAULT_WORD,
            LineFault::Missing => sys::RELKVANU_FAULT_MISSING,
            LineFault::Number => sys::RELKVANU_FAULT_NUMBER,
            LineFault::Extra => sys::RELKVANU_FAULT_EXTRA,
            LineFault::NoCall => sys::RELKVANU_FAULT_NO_CALL,
            LineFault::Unknown(what) => *what,
        }
    }
}
// bindings/generate: end

/// The name of the fault, such as `Missing`.
impl fmt::Display for LineFault {
    fn fmt(&self, f: &mut fmt::Formatter<'_>) -> fmt::Result {
        fmt::Debug::fmt(self, f)
    }
}

impl Error for LineFault {}

/// What a line did.
#[derive(Clone, Debug, PartialEq, Eq)]
pub enum Said<'a> {
    /// Nothing: it has no words, or is a comment.
    Skipped,
    Called(Answer),
    /// It fetched these files, which are at the start of the buffer.
    Taken(&'a [u64]),
    /// The metadata of the record, as JSON.
    Shown(String),
}

/// What a call did, and the line that says it.
#[derive(Clone, Debug, PartialEq, Eq)]
pub struct Made<'a> {
    pub said: Said<'a>,
    /// The line of the call, without a newline.
    pub line: String,
    /// How many files waited for deletion before the call. The files that it released are at the places from this one on
    /// ([`waiting_file`](Coordinator::waiting_file)).
    pub waited: u64,
    /// The numbers of files after the call.
    pub counts: FileCounts,
}

impl<'a> Made<'a> {
    /// What the library told of a call, whose line is at the start of this buffer.
    pub(crate) fn of(
        told: sys::relkvanu_answer,
        files: &'a [u64],
        line: Vec<u8>,
        made: sys::relkvanu_made,
    ) -> Result<Made<'a>, Fault> {
        let told = done(told)?;
        let said = match told.what {
            sys::RELKVANU_TAKEN => Said::Taken(&files[..told.a as usize]),
            _ => Said::Called(answer::answer(told)?),
        };
        let counts = FileCounts { in_use: made.in_use, waiting: made.waiting, taken: made.taken };
        Ok(Made { said, line: text_of(line, made.written as usize), waited: made.waited, counts })
    }
}

/// Which line it is, with the numbers of one that makes no call.
#[derive(Clone, Debug, PartialEq, Eq)]
#[non_exhaustive]
pub enum Line {
    Skip,
    Config(Settings),
    /// The parallelism of each vertex.
    Job(Vec<u64>),
    Start(u64),
    Call,
    All {
        now: u64,
        id: u64,
        threads: u64,
        first: u64,
    },
}

impl Line {
    /// What the bytes before a newline say. Checks no number against the limits of a job.
    pub fn of(line: &[u8]) -> Result<Line, Fault> {
        check_library()?;
        // SAFETY: the slice and the buffer outlive the call, and have as many elements as is said.
        let (says, numbers) = written(8, |to: &mut [u64]| unsafe {
            sys::relkvanu_line_says(line.as_ptr(), line.len(), to.as_mut_ptr(), to.len())
        })?;
        Ok(match (says.what, numbers.as_slice()) {
            (sys::RELKVANU_LINE_SKIP, _) => Line::Skip,
            (sys::RELKVANU_LINE_CALL, _) => Line::Call,
            (sys::RELKVANU_LINE_JOB, _) => Line::Job(numbers),
            (sys::RELKVANU_LINE_START, [now]) => Line::Start(*now),
            (sys::RELKVANU_LINE_CONFIG, of) => {
                Line::Config(Settings::of_numbers(of).ok_or_else(|| Fault::unknown(says))?)
            }
            (sys::RELKVANU_LINE_ALL, [now, id, threads, first]) => {
                Line::All { now: *now, id: *id, threads: *threads, first: *first }
            }
            _ => return Err(Fault::unknown(says)),
        })
    }
}

/// The lines `config`, `job` and `start` of a coordinator whose first record has the number 1, each with its newline.
pub fn opening_lines(settings: &Settings, shape: &[u64], now: u64) -> Result<String, Fault> {
    check_library()?;
    let settings = settings.into();
    text(|bytes| {
        // SAFETY: the settings, the slice and the buffer outlive the call, and have as many elements as is said.
        unsafe {
            sys::relkvanu_opening_lines(&settings, shape.as_ptr(), shape.len(), now, bytes.as_mut_ptr(), bytes.len())
        }
    })
}

/// No line has more bytes.
const LONGEST: usize = 131_072;

impl Call<'_> {
    /// How many bytes its line has at most: a word of an acknowledgement at most 22, and what is before its files at most 86.
    pub(crate) fn line_room(&self) -> usize {
        let (first, second) = self.lists();
        (128 + 22 * (first.len() + second.len())).min(LONGEST)
    }
}

impl Coordinator {
    /// Makes a call, and returns what it did with its line, for a program that logs the calls that were made. It is one call of the
    /// library, where [`Call::line`] and [`line`](Self::line) are two.
    ///
    /// A [`Fault`] has changed nothing: a line that would be too long is a [`Fault::BadLine`], and a take that would fetch more files
    /// than the buffer has places a [`Fault::TooShort`]. A moment that is far ahead is refused, as it is by the function of the call.
    pub fn make<'a>(&mut self, call: &Call<'_>, files: &'a mut [u64]) -> Result<Made<'a>, Fault> {
        call.check_shape()?;
        self.check_moment(call.fields().now)?;
        if let Call::Show { id } = call {
            return self.shown(call, *id);
        }
        let mut room = call.line_room();
        loop {
            let (told, line, made) = self.make_into(call, files, vec![0; room], None);
            if told.code == sys::RELKVANU_TOO_SHORT && told.b != 0 {
                room = told.b as usize;
                continue;
            }
            return Made::of(told, files, line, made);
        }
    }

    /// The answer, the buffer for the line, and what the call leaves. With a group and its places the answer is held back there.
    pub(crate) fn make_into(
        &mut self,
        call: &Call<'_>,
        files: &mut [u64],
        mut line: Vec<u8>,
        group: Option<(&mut sys::relkvanu_group, &mut [sys::relkvanu_answer])>,
    ) -> (sys::relkvanu_answer, Vec<u8>, sys::relkvanu_made) {
        let mut made = sys::relkvanu_made { written: 0, waited: 0, in_use: 0, waiting: 0, taken: 0 };
        let (call, (first, second), handle) = (call.fields(), call.lists(), self.handle());
        let ((first, len), (second, count)) = (parts(first), parts(second));
        let (files, most, text, room) = (files.as_mut_ptr(), files.len(), line.as_mut_ptr(), line.len());
        // SAFETY: the handle is as the library last left it, and `&mut self` keeps other calls away; the fields, the group, the slices and the
        // buffers outlive the call, none overlaps another, and each has as many elements as is said.
        let told = unsafe {
            match group {
                None => {
                    sys::relkvanu_make(handle, &call, first, len, second, count, files, most, text, room, &mut made)
                }
                Some((group, held)) => {
                    let (make, held, places) = (sys::relkvanu_group_make, held.as_mut_ptr(), held.len());
                    make(
                        handle, group, held, places, &call, first, len, second, count, files, most, text, room,
                        &mut made,
                    )
                }
            }
        };
        (told, line, made)
    }

    /// A show, whose metadata is written into a buffer of its own.
    fn shown<'a>(&mut self, call: &Call<'_>, id: u64) -> Result<Made<'a>, Fault> {
        let (said, line, counts) = (Said::Shown(self.show(id)?), call.line()?, self.file_counts());
        let waited = counts.waiting;
        Ok(Made { said, line, waited, counts })
    }

    /// Makes the call of a line: the bytes before its newline. A carriage return at the end is dropped.
    ///
    /// A `take` line fetches at most as many files as it says into the buffer. If it would fetch more than the buffer
    /// has places, it is a [`Fault::TooShort`], and nothing has changed.
    pub fn line<'a>(&mut self, line: &[u8], files: &'a mut [u64]) -> Result<Said<'a>, Fault> {
        // SAFETY: the handle is as the library last left it, and `&mut self` keeps other calls away; the slice and the
        // buffer outlive the call, and have as many elements as is said.
        let told =
            unsafe { sys::relkvanu_line(self.handle(), line.as_ptr(), line.len(), files.as_mut_ptr(), files.len()) };
        if told.code == sys::RELKVANU_TOO_SHORT {
            return match Call::shown_by(line) {
                Some(id) => self.show(id).map(Said::Shown),
                None => Err(Fault::TooShort { places: told.a }),
            };
        }
        let told = done(told)?;
        Ok(match told.what {
            sys::RELKVANU_SKIPPED => Said::Skipped,
            sys::RELKVANU_TAKEN => Said::Taken(&files[..told.a as usize]),
            _ => Said::Called(answer::answer(told)?),
        })
    }
}
