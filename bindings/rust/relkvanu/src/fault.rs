//! Why a call changed nothing.
use crate::lines::LineFault;
use relkvanu_sys as sys;
use std::error::Error;
use std::fmt;
use std::sync::OnceLock;

// bindings/generate makes the refusals
/// Why a call was refused: the first of these that applies.
#[derive(Clone, Copy, Debug, PartialEq, Eq, Hash)]
#[non_exhaustive]
pub enum Refusal {
    /// The moment is above its limit.
    MomentTooLarge,
    /// The job has failed or was cancelled.
    NotRunning,
    /// An acknowledgement has more than 4096 files.
    TooManyFiles,
    /// An acknowledgement names a file twice.
    RepeatedFile,
    /// No record has had the number.
    UnknownCheckpoint,
    /// The job has no such subtask.
    UnknownSubtask,
    /// The subtask has acknowledged in this record. Its files may belong to the coordinator: do not delete them.
    AlreadyAcknowledged,
    /// The coordinator knows a file with the number of a fresh one. It may be in use: do not delete it.
    NameTaken(u64),
    /// A reused file is no longer in use: the task writes its state again, under a new number.
    FileGone(u64),
    /// No completed savepoint has the number.
    NoSuchSavepoint,
    /// The job would begin again from this savepoint.
    InUse,
    /// 1000 savepoints are pending or done.
    TooManySavepoints,
    /// The file was not fetched for deletion, or was reported before.
    NotTaken,
    /// No live record has the number.
    NoSuchRecord,
    /// No number is left for another record.
    IdsUsedUp,
    /// As many checkpoints are pending as may be, or more than the new settings allow.
    AtOnce,
    /// A number that this crate does not know: the library is of another version.
    Unknown(u32),
}

impl Refusal {
    pub(crate) fn of(told: sys::relkvanu_answer) -> Refusal {
        match told.what {
            sys::RELKVANU_MOMENT_TOO_LARGE => Refusal::MomentTooLarge,
            sys::RELKVANU_NOT_RUNNING => Refusal::NotRunning,
            sys::RELKVANU_TOO_MANY_FILES => Refusal::TooManyFiles,
            sys::RELKVANU_REPEATED_FILE => Refusal::RepeatedFile,
            sys::RELKVANU_UNKNOWN_CHECKPOINT => Refusal::UnknownCheckpoint,
            sys::RELKVANU_UNKNOWN_SUBTASK => Refusal::UnknownSubtask,
            sys::RELKVANU_ALREADY_ACKNOWLEDGED => Refusal::AlreadyAcknowledged,
            sys::RELKVANU_NAME_TAKEN => Refusal::NameTaken(told.a),
            sys::RELKVANU_FILE_GONE => Refusal::FileGone(told.a),
            sys::RELKVANU_NO_SUCH_SAVEPOINT => Refusal::NoSuchSavepoint,
            sys::RELKVANU_IN_USE => Refusal::InUse,
            sys::RELKVANU_TOO_MANY_SAVEPOINTS => Refusal::TooManySavepoints,
            sys::RELKVANU_NOT_TAKEN => Refusal::NotTaken,
            sys::RELKVANU_NO_SUCH_RECORD => Refusal::NoSuchRecord,
            sys::RELKVANU_IDS_USED_UP => Refusal::IdsUsedUp,
            sys::RELKVANU_AT_ONCE => Refusal::AtOnce,
            other => Refusal::Unknown(other),
        }
    }

    /// The number in the header.
    pub fn number(&self) -> u32 {
        match self {
            Refusal::MomentTooLarge => sys::RELKVANU_MOMENT_TOO_LARGE,
            Refusal::NotRunning => sys::RELKVANU_NOT_RUNNING,
            Refusal::TooManyFiles => sys::RELKVANU_TOO_MANY_FILES,
            Refusal::RepeatedFile => sys::RELKVANU_REPEATED_FILE,
            Refusal::UnknownCheckpoint => sys::RELKVANU_UNKNOWN_CHECKPOINT,
            Refusal::UnknownSubtask => sys::RELKVANU_UNKNOWN_SUBTASK,
            Refusal::AlreadyAcknowledged => sys::RELKVANU_ALREADY_ACKNOWLEDGED,
            Refusal::NameTaken(_) => sys::RELKVANU_NAME_TAKEN,
            Refusal::FileGone(_) => sys::RELKVANU_FILE_GONE,
            Refusal::NoSuchSavepoint => sys::RELKVANU_NO_SUCH_SAVEPOINT,
            Refusal::InUse => sys::RELKVANU_IN_USE,
            Refusal::TooManySavepoints => sys::RELKVANU_TOO_MANY_SAVEPOINTS,
            Refusal::NotTaken => sys::RELKVANU_NOT_TAKEN,
            Refusal::NoSuchRecord => sys::RELKVANU_NO_SUCH_RECORD,
            Refusal::IdsUsedUp => sys::RELKVANU_IDS_USED_UP,
            Refusal::AtOnce => sys::RELKVANU_AT_ONCE,
            Refusal::Unknown(what) => *what,
        }
    }

    /// The file that it names, if there is one.
    pub fn file(&self) -> Option<u64> {
        match self {
            Refusal::NameTaken(of) | Refusal::FileGone(of) => Some(*of),
            _ => None,
        }
    }
}

/// Why a term or the names refuse a call.
#[derive(Clone, Copy, Debug, PartialEq, Eq, Hash)]
#[non_exhaustive]
pub enum Fenced {
    /// The term of the task has ended, or has not begun.
    OldTerm,
    /// The job was cancelled, and no task runs.
    Ended,
    /// It would reserve no name, or more than 65536.
    BadCount,
    /// All names up to 2^62 - 1 were given out.
    NamesUsedUp,
    /// As many terms have ended as can be counted, 2^62.
    TermsUsedUp,
    /// Its name was given out, and the term does not hold it: nobody deletes it for this answer.
    Spent(u64),
    /// Its name was not given out.
    NeverReserved(u64),
    /// The handle has no names.
    NoNames,
    /// The handle has names.
    HasNames,
    /// A file with this number or a greater one is in use, waits for deletion or was fetched.
    NameInUse,
    /// A number that this crate does not know: the library is of another version.
    Unknown(u32),
}

impl Fenced {
    pub(crate) fn of(told: sys::relkvanu_answer) -> Fenced {
        match told.what {
            sys::RELKVANU_OLD_TERM => Fenced::OldTerm,
            sys::RELKVANU_ENDED => Fenced::Ended,
            sys::RELKVANU_BAD_COUNT => Fenced::BadCount,
            sys::RELKVANU_NAMES_USED_UP => Fenced::NamesUsedUp,
            sys::RELKVANU_TERMS_USED_UP => Fenced::TermsUsedUp,
            sys::RELKVANU_SPENT => Fenced::Spent(told.a),
            sys::RELKVANU_NEVER_RESERVED => Fenced::NeverReserved(told.a),
            sys::RELKVANU_NO_NAMES => Fenced::NoNames,
            sys::RELKVANU_HAS_NAMES => Fenced::HasNames,
            sys::RELKVANU_NAME_IN_USE => Fenced::NameInUse,
            other => Fenced::Unknown(other),
        }
    }

    /// The number in the header.
    pub fn number(&self) -> u32 {
        match self {
            Fenced::OldTerm => sys::RELKVANU_OLD_TERM,
            Fenced::Ended => sys::RELKVANU_ENDED,
            Fenced::BadCount => sys::RELKVANU_BAD_COUNT,
            Fenced::NamesUsedUp => sys::RELKVANU_NAMES_USED_UP,
            Fenced::TermsUsedUp => sys::RELKVANU_TERMS_USED_UP,
            Fenced::Spent(_) => sys::RELKVANU_SPENT,
            Fenced::NeverReserved(_) => sys::RELKVANU_NEVER_RESERVED,
            Fenced::NoNames => sys::RELKVANU_NO_NAMES,
            Fenced::HasNames => sys::RELKVANU_HAS_NAMES,
            Fenced::NameInUse => sys::RELKVANU_NAME_IN_USE,
            Fenced::Unknown(what) => *what,
        }
    }

    /// The file that it names, if there is one.
    pub fn file(&self) -> Option<u64> {
        match self {
            Fenced::Spent(of) | Fenced::NeverReserved(of) => Some(*of),
            _ => None,
        }
    }
}
// bindings/generate: end

/// The name of a number, which is written into a buffer.
fn name_of(number: u32, write: impl FnOnce(&mut [u8]) -> usize) -> String {
    let mut text = [0; 32];
    let len = write(&mut text);
    match text.get(..len) {
        None | Some([]) => format!("Unknown {number}"),
        Some(name) => String::from_utf8_lossy(name).into_owned(),
    }
}

fn write_with_file(f: &mut fmt::Formatter<'_>, name: &str, file: Option<u64>) -> fmt::Result {
    f.write_str(name)?;
    match file {
        Some(file) => write!(f, " {file}"),
        None => Ok(()),
    }
}

/// What refusals and fences have in common.
macro_rules! reasons {
    ($($reason:ident = $fault:ident by $text:ident;)*) => {$(
        impl $reason {
            /// Its name, such as `NotRunning` or `OldTerm`.
            pub fn name(&self) -> String {
                // SAFETY: the buffer is borrowed for writing, and has as many bytes as is said.
                name_of(self.number(), |text| unsafe { sys::$text(self.number(), text.as_mut_ptr(), text.len()) })
            }
        }

        /// The name, and the file that is to blame, such as `NameTaken 7`.
        impl fmt::Display for $reason {
            fn fmt(&self, f: &mut fmt::Formatter<'_>) -> fmt::Result {
                write_with_file(f, &self.name(), self.file())
            }
        }

        impl Error for $reason {}

        impl From<$reason> for Fault {
            fn from(why: $reason) -> Fault {
                Fault::$fault(why)
            }
        }
    )*};
}

reasons! {
    Refusal = Refused by relkvanu_refusal_text;
    Fenced = Fenced by relkvanu_fenced_text;
}

// bindings/generate makes the faults
/// Why a call has changed nothing. After [`Unknown`](Fault::Unknown) alone it may have been made.
#[derive(Clone, Copy, Debug, PartialEq, Eq, Hash)]
#[non_exhaustive]
pub enum Fault {
    /// The call was refused.
    Refused(Refusal),
    /// Memory ran out. Make the same call again. If the log has its line already, make it before any other logged call.
    Memory,
    /// The coordinator is closed.
    Closed,
    /// The handle has a coordinator already.
    AlreadyOpen,
    /// A value of the settings is outside its limits.
    BadConfig,
    /// 1 to 256 vertices, at least 1 subtask each, at most 4096 in sum.
    BadShape,
    /// The moment of an opening is above 2^62 - 1.
    BadMoment,
    /// The number of the first record is not within 1 to 2^62 - 1.
    BadFirst,
    /// The kind of a call that is to be written.
    BadKind,
    /// The bytes are not an image, or the state is not sound, or no coordinator could be opened so.
    BadImage,
    /// The first name is 0 or above 2^62.
    BadName,
    /// The group has failed: open the handle again, from the log.
    BadGroup,
    /// No answer may be told by the receipt, or there is no place or receipt for another answer.
    BadReceipt,
    /// A `take` line would fetch this many files, and the buffer has fewer places.
    TooShort { places: u64 },
    /// A line of a script can't be read, or the line of a call would be too long.
    BadLine(LineFault),
    /// Nothing has changed: what says why the term or the names refuse the call.
    Fenced(Fenced),
    /// The library that is linked has this version, which does not fit the crate's.
    OtherLibrary { library: &'static str },
    /// The library gave an answer that this crate does not know, so it is of another version.
    Unknown { code: u32, what: u32 },
}

/// The fault of an answer to a call that was not made.
fn fault_of(told: sys::relkvanu_answer) -> Fault {
    match (told.code, told.what) {
        (sys::RELKVANU_REFUSED, _) => Fault::Refused(Refusal::of(told)),
        (sys::RELKVANU_NO_MEMORY, _) => Fault::Memory,
        (sys::RELKVANU_CLOSED, _) => Fault::Closed,
        (sys::RELKVANU_BAD_ARGUMENT, sys::RELKVANU_ALREADY_OPEN) => Fault::AlreadyOpen,
        (sys::RELKVANU_BAD_ARGUMENT, sys::RELKVANU_BAD_CONFIG) => Fault::BadConfig,
        (sys::RELKVANU_BAD_ARGUMENT, sys::RELKVANU_BAD_SHAPE) => Fault::BadShape,
        (sys::RELKVANU_BAD_ARGUMENT, sys::RELKVANU_BAD_MOMENT) => Fault::BadMoment,
        (sys::RELKVANU_BAD_ARGUMENT, sys::RELKVANU_BAD_FIRST) => Fault::BadFirst,
        (sys::RELKVANU_BAD_ARGUMENT, sys::RELKVANU_BAD_KIND) => Fault::BadKind,
        (sys::RELKVANU_BAD_ARGUMENT, sys::RELKVANU_BAD_IMAGE) => Fault::BadImage,
        (sys::RELKVANU_BAD_ARGUMENT, sys::RELKVANU_BAD_NAME) => Fault::BadName,
        (sys::RELKVANU_BAD_ARGUMENT, sys::RELKVANU_BAD_GROUP) => Fault::BadGroup,
        (sys::RELKVANU_BAD_ARGUMENT, sys::RELKVANU_BAD_RECEIPT) => Fault::BadReceipt,
        (sys::RELKVANU_TOO_SHORT, _) => Fault::TooShort { places: told.a },
        (sys::RELKVANU_BAD_LINE, _) => Fault::BadLine(LineFault::of(told.what)),
        (sys::RELKVANU_FENCED, _) => Fault::Fenced(Fenced::of(told)),
        _ => Fault::unknown(told),
    }
}
// bindings/generate: end

impl Fault {
    pub(crate) fn unknown(told: sys::relkvanu_answer) -> Fault {
        Fault::Unknown { code: told.code, what: told.what }
    }
}

/// Says whether the linked library fits the header that the crate was made from: the first two numbers of the versions are the
/// same. A program asks the library once.
pub(crate) fn check_library() -> Result<(), Fault> {
    static FITS: OnceLock<Result<(), Fault>> = OnceLock::new();
    *FITS.get_or_init(|| {
        let series = |version: &'static str| version.rsplit_once('.').map(|(series, _)| series);
        let library = crate::version();
        match series(library) == series(sys::RELKVANU_VERSION) {
            true => Ok(()),
            false => Err(Fault::OtherLibrary { library }),
        }
    })
}

impl fmt::Display for Fault {
    fn fmt(&self, f: &mut fmt::Formatter<'_>) -> fmt::Result {
        match self {
            Fault::Refused(why) => write!(f, "the call is refused: {why}"),
            Fault::Memory => f.write_str("out of memory"),
            Fault::BadConfig => f.write_str("a value of the settings is outside its limits"),
            Fault::BadShape => f.write_str("the shape is outside its limits"),
            Fault::BadMoment => f.write_str("the opening moment is above 2^62 - 1"),
            Fault::BadFirst => f.write_str("the first number is not within 1 to 2^62 - 1"),
            Fault::BadName => f.write_str("the first name is not within 1 to 2^62"),
            Fault::Fenced(why) => write!(f, "the term or the names refuse the call: {why}"),
            Fault::BadImage => f.write_str("the bytes are no image of a coordinator"),
            Fault::Closed => f.write_str("the coordinator is closed"),
            Fault::BadLine(why) => write!(f, "the line can't be read: {why}"),
            Fault::TooShort { places } => write!(f, "the buffer has to have {places} places"),
            Fault::OtherLibrary { library } => write!(
                f,
                "the crate is for version {} of the library, and version {library}, which is linked, has another interface",
                sys::RELKVANU_VERSION
            ),
            Fault::Unknown { code, what } => write!(
                f,
                "version {} of the library gave an answer that the crate does not know: code {code}, what {what}",
                crate::version()
            ),
            other => write!(f, "the call was not made: {other:?}"),
        }
    }
}

impl Error for Fault {
    fn source(&self) -> Option<&(dyn Error + 'static)> {
        match self {
            Fault::Refused(why) => Some(why),
            Fault::BadLine(why) => Some(why),
            Fault::Fenced(why) => Some(why),
            _ => None,
        }
    }
}

/// The answer to a call that was made, or why it changed nothing.
pub(crate) fn done(told: sys::relkvanu_answer) -> Result<sys::relkvanu_answer, Fault> {
    match told.code {
        sys::RELKVANU_DONE => Ok(told),
        _ => Err(fault_of(told)),
    }
}

/// The text that is written into a buffer, which is made longer until it is long enough.
pub(crate) fn text(write: impl Fn(&mut [u8]) -> sys::relkvanu_answer) -> Result<String, Fault> {
    text_in(256, write)
}

/// The same, if the text probably fits so many bytes.
pub(crate) fn text_in(room: usize, write: impl Fn(&mut [u8]) -> sys::relkvanu_answer) -> Result<String, Fault> {
    written(room, write).map(|(told, bytes)| text_of(bytes, told.a as usize))
}

/// The answer of what writes into a buffer, which is made anew until it is long enough, and what is written.
pub(crate) fn written<T: Clone + Default>(
    mut room: usize,
    write: impl Fn(&mut [T]) -> sys::relkvanu_answer,
) -> Result<(sys::relkvanu_answer, Vec<T>), Fault> {
    loop {
        let mut buffer = vec![T::default(); room];
        let told = write(&mut buffer);
        if told.code != sys::RELKVANU_TOO_SHORT {
            buffer.truncate(done(told)?.a as usize);
            return Ok((told, buffer));
        }
        room = told.a as usize;
    }
}

/// The text that was written to the start of a buffer, whose bytes become the text: a copy of a long image takes milliseconds.
pub(crate) fn text_of(mut bytes: Vec<u8>, len: usize) -> String {
    bytes.truncate(len);
    let text = String::from_utf8(bytes);
    text.unwrap_or_else(|why| String::from_utf8_lossy(why.as_bytes()).into_owned())
}
