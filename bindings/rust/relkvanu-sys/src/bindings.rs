// What `include/relkvanu.h` says, made from it by `bindings/generate`: change the header, and run that.
use std::ffi::{c_char, c_void};

pub const RELKVANU_VERSION_MAJOR: u32 = 0;
pub const RELKVANU_VERSION_MINOR: u32 = 1;
pub const RELKVANU_VERSION_PATCH: u32 = 0;
pub const RELKVANU_VERSION: &str = "0.1.0";
/// the call was made: what is a reply
pub const RELKVANU_DONE: u32 = 0;
/// nothing has changed: what is a refusal
pub const RELKVANU_REFUSED: u32 = 1;
/// nothing has changed; what, a and b are 0: make the same call again later
pub const RELKVANU_NO_MEMORY: u32 = 2;
/// the handle has no coordinator; what, a and b are 0
pub const RELKVANU_CLOSED: u32 = 3;
/// nothing has changed: what is an argument
pub const RELKVANU_BAD_ARGUMENT: u32 = 4;
/// nothing has changed: the buffer needs a places, and a second one b; what is 0
pub const RELKVANU_TOO_SHORT: u32 = 5;
/// nothing has changed: what is a fault of a line
pub const RELKVANU_BAD_LINE: u32 = 6;
/// nothing has changed: what says why the term or the names refuse the call
pub const RELKVANU_FENCED: u32 = 7;
pub const RELKVANU_OPENED: u32 = 0;
/// a: expired records, b: number. A checkpoint was triggered
pub const RELKVANU_TICK_TRIGGERED: u32 = 1;
/// a: expired records. No checkpoint is due yet
pub const RELKVANU_TICK_HELD_INTERVAL: u32 = 2;
/// a: expired records. As many checkpoints are pending as may be
pub const RELKVANU_TICK_HELD_AT_ONCE: u32 = 3;
/// a: expired records. The pause after the last completion has not passed
pub const RELKVANU_TICK_HELD_PAUSE: u32 = 4;
/// a: expired records. Too many checkpoints failed in a row: restore the job
pub const RELKVANU_TICK_FAILED: u32 = 5;
/// a: number. A savepoint was triggered
pub const RELKVANU_SAVEPOINT_TRIGGERED: u32 = 6;
/// a: subtasks missing. The record is not complete yet
pub const RELKVANU_ACK_PENDING: u32 = 7;
/// a: records dropped, b: files released. The record is complete
pub const RELKVANU_ACK_COMPLETED: u32 = 8;
/// a: fresh files that this call handed out for deletion. The record was done or had ended
pub const RELKVANU_ACK_LATE: u32 = 9;
/// a: files released. The record is dropped
pub const RELKVANU_DECLINE_ABORTED: u32 = 10;
/// a: files released. The record is dropped, and the job has failed: restore it
pub const RELKVANU_DECLINE_FAILED: u32 = 11;
/// the record was done or had ended
pub const RELKVANU_DECLINE_LATE: u32 = 12;
/// a: files released. The savepoint is gone
pub const RELKVANU_DISPOSED: u32 = 13;
/// a: files released, b: number. The job begins again from a checkpoint
pub const RELKVANU_RESTORED_CHECKPOINT: u32 = 14;
/// a: files released, b: number. The job begins again from a savepoint
pub const RELKVANU_RESTORED_SAVEPOINT: u32 = 15;
/// a: files released. The job begins again from nothing
pub const RELKVANU_RESTORED_FRESH: u32 = 16;
/// a: records dropped, b: files released. The job has ended for good
pub const RELKVANU_CANCELLED: u32 = 17;
/// a: files at the start of the buffer
pub const RELKVANU_TAKEN: u32 = 18;
/// a: file. The file is forgotten
pub const RELKVANU_DELETED: u32 = 19;
/// a: file. The file waits again
pub const RELKVANU_UNDELETED: u32 = 20;
/// a: bytes at the start of the buffer
pub const RELKVANU_SHOWN: u32 = 21;
/// a: file, b: uses. The uses by live records
pub const RELKVANU_COUNTED: u32 = 22;
/// a: checkpoints dropped, b: files released. The job has the new settings
pub const RELKVANU_CONFIGURED: u32 = 61;
/// the job takes checkpoints
pub const RELKVANU_MODE_RUNNING: u32 = 23;
/// too many checkpoints failed in a row: restore the job
pub const RELKVANU_MODE_FAILED: u32 = 24;
/// the job has ended for good
pub const RELKVANU_MODE_CANCELLED: u32 = 25;
/// a: moment
pub const RELKVANU_DUE: u32 = 26;
/// a: moment
pub const RELKVANU_EXPIRES: u32 = 27;
pub const RELKVANU_NONE_PENDING: u32 = 28;
/// a: number
pub const RELKVANU_CHOICE_CHECKPOINT: u32 = 29;
/// a: number
pub const RELKVANU_CHOICE_SAVEPOINT: u32 = 30;
pub const RELKVANU_CHOICE_FRESH: u32 = 31;
/// a: number, b: 1 if it is done, 0 if it is pending
pub const RELKVANU_LIVE_CHECKPOINT: u32 = 32;
/// a: number, b: 1 if it is done, 0 if it is pending
pub const RELKVANU_LIVE_SAVEPOINT: u32 = 33;
/// there are fewer live records
pub const RELKVANU_LIVE_NONE: u32 = 34;
/// a: subtasks
pub const RELKVANU_MISSING: u32 = 35;
pub const RELKVANU_NOT_PENDING: u32 = 36;
/// a: moment
pub const RELKVANU_MOMENT: u32 = 55;
/// the line makes no call: it has no words or is a comment
pub const RELKVANU_SKIPPED: u32 = 37;
/// a: 0
pub const RELKVANU_LINE_SKIP: u32 = 38;
/// a: 7, the numbers at the start of the buffer: those of relkvanu_settings, in its order
pub const RELKVANU_LINE_CONFIG: u32 = 39;
/// a: how many numbers are at the start of the buffer: the parallelism of each vertex
pub const RELKVANU_LINE_JOB: u32 = 40;
/// a: 1, the number at the start of the buffer: the moment
pub const RELKVANU_LINE_START: u32 = 41;
/// a: 0; of relkvanu_line_call a, b: the items at the start of first and of second
pub const RELKVANU_LINE_CALL: u32 = 42;
/// a: 4, the numbers at the start of the buffer: moment, record, threads, first file
pub const RELKVANU_LINE_ALL: u32 = 43;
/// a: bytes at the start of the buffer
pub const RELKVANU_WRITTEN: u32 = 44;
/// a: bytes at the start of the buffer
pub const RELKVANU_SAVED: u32 = 45;
/// a live record has the number, and lacks an acknowledgement
pub const RELKVANU_STANDS_PENDING: u32 = 46;
/// a live record has the number, and is complete
pub const RELKVANU_STANDS_DONE: u32 = 47;
/// a record had the number, and is no longer live
pub const RELKVANU_STANDS_ENDED: u32 = 48;
/// no record has had the number so far
pub const RELKVANU_STANDS_NOT_YET: u32 = 49;
/// the number is below the first one of the opening
pub const RELKVANU_STANDS_NEVER: u32 = 50;
/// a: files at the start of the buffer
pub const RELKVANU_FILES: u32 = 51;
/// no live record has the number, or the subtask has not acknowledged in it
pub const RELKVANU_NOT_ACKNOWLEDGED: u32 = 52;
/// a: file
pub const RELKVANU_WAITING: u32 = 53;
/// there are fewer waiting files
pub const RELKVANU_NONE_WAITS: u32 = 54;
/// a: the first name, b: how many: the others follow it
pub const RELKVANU_RESERVED: u32 = 56;
pub const RELKVANU_FORFEITED: u32 = 57;
/// a: the term that runs, b: the next name
pub const RELKVANU_TERM: u32 = 58;
/// the handle has names now
pub const RELKVANU_NAMED: u32 = 59;
/// of relkvanu_garbage a, b: the files at the start of garbage and of unissued
pub const RELKVANU_GARBAGE: u32 = 60;
/// a: receipt. The call was made: its line is to be appended, and its answer is held back
pub const RELKVANU_APPEND: u32 = 62;
/// a: receipt. Nothing is to be appended, and the answer is held back
pub const RELKVANU_HELD_BACK: u32 = 63;
/// a: answers that may be told
pub const RELKVANU_SYNCED: u32 = 64;
/// the moment is above its limit
pub const RELKVANU_MOMENT_TOO_LARGE: u32 = 1;
/// the job has failed or was cancelled
pub const RELKVANU_NOT_RUNNING: u32 = 2;
/// an acknowledgement has more than 4096 files
pub const RELKVANU_TOO_MANY_FILES: u32 = 3;
/// an acknowledgement names a file twice
pub const RELKVANU_REPEATED_FILE: u32 = 4;
/// no record has had the number
pub const RELKVANU_UNKNOWN_CHECKPOINT: u32 = 5;
/// the job has no such subtask
pub const RELKVANU_UNKNOWN_SUBTASK: u32 = 6;
/// the subtask has acknowledged in this record. Its files may belong to the coordinator: do not delete them
pub const RELKVANU_ALREADY_ACKNOWLEDGED: u32 = 7;
/// a: file. The coordinator knows a file with the number of a fresh one. It may be in use: do not delete it
pub const RELKVANU_NAME_TAKEN: u32 = 8;
/// a: file. A reused file is no longer in use: the task writes its state again, under a new number
pub const RELKVANU_FILE_GONE: u32 = 9;
/// no completed savepoint has the number
pub const RELKVANU_NO_SUCH_SAVEPOINT: u32 = 10;
/// the job would begin again from this savepoint
pub const RELKVANU_IN_USE: u32 = 11;
/// 1000 savepoints are pending or done
pub const RELKVANU_TOO_MANY_SAVEPOINTS: u32 = 12;
/// the file was not fetched for deletion, or was reported before
pub const RELKVANU_NOT_TAKEN: u32 = 13;
/// no live record has the number
pub const RELKVANU_NO_SUCH_RECORD: u32 = 14;
/// no number is left for another record
pub const RELKVANU_IDS_USED_UP: u32 = 15;
/// as many checkpoints are pending as may be, or more than the new settings allow
pub const RELKVANU_AT_ONCE: u32 = 16;
/// the term of the task has ended, or has not begun
pub const RELKVANU_OLD_TERM: u32 = 1;
/// the job was cancelled, and no task runs
pub const RELKVANU_ENDED: u32 = 2;
/// it would reserve no name, or more than 65536
pub const RELKVANU_BAD_COUNT: u32 = 3;
/// all names up to 2^62 - 1 were given out
pub const RELKVANU_NAMES_USED_UP: u32 = 4;
/// as many terms have ended as can be counted, 2^62
pub const RELKVANU_TERMS_USED_UP: u32 = 5;
/// a: file; its name was given out, and the term does not hold it: nobody deletes it for this answer
pub const RELKVANU_SPENT: u32 = 6;
/// a: file; its name was not given out
pub const RELKVANU_NEVER_RESERVED: u32 = 7;
/// the handle has no names
pub const RELKVANU_NO_NAMES: u32 = 8;
/// the handle has names
pub const RELKVANU_HAS_NAMES: u32 = 9;
/// a file with this number or a greater one is in use, waits for deletion or was fetched
pub const RELKVANU_NAME_IN_USE: u32 = 10;
/// the handle has a coordinator already
pub const RELKVANU_ALREADY_OPEN: u32 = 1;
/// a value of the settings is outside its limits
pub const RELKVANU_BAD_CONFIG: u32 = 2;
/// 1 to 256 vertices, at least 1 subtask each, at most 4096 in sum
pub const RELKVANU_BAD_SHAPE: u32 = 3;
/// the moment of an opening is above 2^62 - 1
pub const RELKVANU_BAD_MOMENT: u32 = 4;
/// the number of the first record is not within 1 to 2^62 - 1
pub const RELKVANU_BAD_FIRST: u32 = 5;
/// the kind of a call that is to be written
pub const RELKVANU_BAD_KIND: u32 = 6;
/// the bytes are not an image, or the state is not sound, or no coordinator could be opened so
pub const RELKVANU_BAD_IMAGE: u32 = 7;
/// the first name is 0 or above 2^62
pub const RELKVANU_BAD_NAME: u32 = 8;
/// the group has failed: open the handle again, from the log
pub const RELKVANU_BAD_GROUP: u32 = 9;
/// no answer may be told by the receipt, or there is no place or receipt for another answer
pub const RELKVANU_BAD_RECEIPT: u32 = 10;
/// a line has at most 131072 bytes
pub const RELKVANU_FAULT_TOO_LONG: u32 = 1;
/// a word that does not belong there
pub const RELKVANU_FAULT_WORD: u32 = 2;
/// the line ends before a word that it needs
pub const RELKVANU_FAULT_MISSING: u32 = 3;
/// not a number, or not a subtask
pub const RELKVANU_FAULT_NUMBER: u32 = 4;
/// a word follows the last one
pub const RELKVANU_FAULT_EXTRA: u32 = 5;
/// a config, job, start or all line, or in and a term before what is no call: it was read, and makes no call
pub const RELKVANU_FAULT_NO_CALL: u32 = 6;
pub const RELKVANU_CALL_TICK: u32 = 1;
pub const RELKVANU_CALL_SAVEPOINT: u32 = 2;
pub const RELKVANU_CALL_ACK: u32 = 3;
pub const RELKVANU_CALL_DECLINE: u32 = 4;
pub const RELKVANU_CALL_DISPOSE: u32 = 5;
pub const RELKVANU_CALL_RESTORE: u32 = 6;
pub const RELKVANU_CALL_CANCEL: u32 = 7;
pub const RELKVANU_CALL_TAKE: u32 = 8;
pub const RELKVANU_CALL_DELETED: u32 = 9;
pub const RELKVANU_CALL_UNDELETED: u32 = 10;
pub const RELKVANU_CALL_SHOW: u32 = 11;
pub const RELKVANU_CALL_COUNT: u32 = 12;
/// the job gives out names from here on
pub const RELKVANU_CALL_FENCE: u32 = 13;
/// a task reserves names
pub const RELKVANU_CALL_RESERVE: u32 = 14;
/// a task gives up names
pub const RELKVANU_CALL_FORFEIT: u32 = 15;
pub const RELKVANU_CALL_TRIGGER: u32 = 16;
pub const RELKVANU_CALL_CONFIGURE: u32 = 17;
/// the job goes on above the terms and names that were told
pub const RELKVANU_CALL_ADVANCE: u32 = 18;
/// process the element now
pub const RELKVANU_STEP_PROCESS: u32 = 1;
/// leave the element, and all behind it, on its input, until the next cut or abandon
pub const RELKVANU_STEP_HOLD: u32 = 2;
/// nothing is to be done: no record is being aligned
pub const RELKVANU_STEP_NOTHING: u32 = 3;
/// go on: an open input has not delivered the barrier yet
pub const RELKVANU_STEP_WAIT: u32 = 4;
/// drop the barrier and go on: the record was cut or given up, or is below one that was begun
pub const RELKVANU_STEP_LATE: u32 = 5;
/// take the snapshot for record id now, and then send its barrier on each output, before anything else
pub const RELKVANU_STEP_CUT: u32 = 6;
/// decline record id: it can no longer be cut
pub const RELKVANU_STEP_ABANDON: u32 = 7;
/// nothing has changed: the task has no input with this number
pub const RELKVANU_STEP_UNKNOWN_INPUT: u32 = 8;
/// nothing has changed: the barrier or the end has to wait until the input is released
pub const RELKVANU_STEP_HELD_INPUT: u32 = 9;
/// nothing has changed: the input has ended
pub const RELKVANU_STEP_ENDED_INPUT: u32 = 10;
/// nothing has changed: a task has 1 to RELKVANU_MOST_INPUTS inputs
pub const RELKVANU_STEP_BAD_INPUTS: u32 = 11;
/// add the element to the record, and process it before what comes behind it
pub const RELKVANU_STEP_RECORD: u32 = 12;
/// as RELKVANU_STEP_CUT of record id, but do not acknowledge yet: what comes before its barrier is recorded
pub const RELKVANU_STEP_SNAP: u32 = 13;
/// acknowledge record id, with its snapshot and with what was recorded
pub const RELKVANU_STEP_COMPLETE: u32 = 14;
/// the most inputs of a task
pub const RELKVANU_MOST_INPUTS: u32 = 4096;
/// no text of an answer has more bytes
pub const RELKVANU_ANSWER_TEXT: u32 = 128;

#[repr(C)]
#[derive(Clone, Copy, Debug)]
pub struct relkvanu {
    pub state: *mut c_void,
}

#[repr(C)]
#[derive(Clone, Copy, Debug)]
pub struct relkvanu_settings {
    pub interval: u64,
    pub pause: u64,
    pub at_once: u64,
    pub timeout: u64,
    pub tolerable: u64,
    pub retained: u64,
    pub keep_on_cancel: bool,
}

#[repr(C)]
#[derive(Clone, Copy, Debug)]
pub struct relkvanu_answer {
    pub code: u32,
    pub what: u32,
    pub a: u64,
    pub b: u64,
}

#[repr(C)]
#[derive(Clone, Copy, Debug)]
pub struct relkvanu_counts {
    pub code: u32,
    pub in_use: u64,
    pub waiting: u64,
    pub taken: u64,
}

#[repr(C)]
#[derive(Clone, Copy, Debug)]
pub struct relkvanu_call {
    pub kind: u32,
    pub vertex: u16,
    pub index: u16,
    pub now: u64,
    pub number: u64,
    pub term: u64,
}

#[repr(C)]
#[derive(Clone, Copy, Debug)]
pub struct relkvanu_made {
    pub written: u64,
    pub waited: u64,
    pub in_use: u64,
    pub waiting: u64,
    pub taken: u64,
}

#[repr(C)]
#[derive(Clone, Copy, Debug)]
pub struct relkvanu_group {
    pub waiting: u64,
    pub told: u64,
    pub has_failed: bool,
    pub given: u64,
}

#[repr(C)]
#[derive(Clone, Copy, Debug)]
pub struct relkvanu_aligner {
    pub latest: u64,
}

#[repr(C)]
#[derive(Clone, Copy, Debug)]
pub struct relkvanu_recorder {
    pub latest: u64,
    pub phase: u32,
}

#[repr(C)]
#[derive(Clone, Copy, Debug)]
pub struct relkvanu_step {
    pub what: u32,
    pub id: u64,
}

extern "C" {
    /// The version of the library that is linked, as RELKVANU_VERSION.
    pub fn relkvanu_version() -> *const c_char;

    /// Opens a coordinator in a closed handle, from the moment now on. Its first record has the number first, 1 to 2^62 - 1. The shape is the parallelism of each vertex: 1 to 256 vertices, at least 1 each, at most 4096 in sum. Take the two words from a source of random numbers. They key the maps of files, so that no choice of file numbers makes calls slow. They change no answer. RELKVANU_OPENED; or RELKVANU_BAD_ARGUMENT, and the handle stays as it was: RELKVANU_ALREADY_OPEN, RELKVANU_BAD_CONFIG, RELKVANU_BAD_SHAPE, RELKVANU_BAD_MOMENT, RELKVANU_BAD_FIRST, checked in this order. Takes memory: after RELKVANU_NO_MEMORY the handle is closed, as before.
    pub fn relkvanu_open(
        handle: *mut relkvanu,
        settings: *const relkvanu_settings,
        shape: *const u64,
        shape_len: usize,
        now: u64,
        first: u64,
        first_word: u64,
        second_word: u64,
    ) -> relkvanu_answer;

    /// Closes the coordinator and frees its memory. A closed handle stays closed.
    pub fn relkvanu_close(handle: *mut relkvanu);

    /// Time has passed: records that are too old expire, and a checkpoint is triggered if one is due. RELKVANU_TICK_TRIGGERED to RELKVANU_TICK_FAILED. Refused: RELKVANU_MOMENT_TOO_LARGE, RELKVANU_NOT_RUNNING, RELKVANU_IDS_USED_UP. Takes memory only if it triggers.
    pub fn relkvanu_tick(handle: *mut relkvanu, now: u64) -> relkvanu_answer;

    /// Triggers a checkpoint now, whatever the interval and the pause. Nothing expires: make a tick first if records may be too old. The interval counts from it, as after a tick that triggers. RELKVANU_TICK_TRIGGERED with a 0. Refused: RELKVANU_MOMENT_TOO_LARGE, RELKVANU_NOT_RUNNING, RELKVANU_IDS_USED_UP, RELKVANU_AT_ONCE. Takes memory.
    pub fn relkvanu_trigger(handle: *mut relkvanu, now: u64) -> relkvanu_answer;

    /// Triggers a savepoint. At most 1000 savepoints are pending or done. RELKVANU_SAVEPOINT_TRIGGERED. Refused: RELKVANU_MOMENT_TOO_LARGE, RELKVANU_NOT_RUNNING, RELKVANU_TOO_MANY_SAVEPOINTS, RELKVANU_IDS_USED_UP. Takes memory.
    pub fn relkvanu_savepoint(handle: *mut relkvanu, now: u64) -> relkvanu_answer;

    /// The subtask vertex.index has taken its part of record id. fresh has the files that it wrote. reused has files of earlier records that it uses again. Both may be in any order, with at most 4096 files together. RELKVANU_ACK_PENDING, RELKVANU_ACK_COMPLETED or RELKVANU_ACK_LATE: the fresh files belong to the coordinator now. Refused: RELKVANU_MOMENT_TOO_LARGE, RELKVANU_TOO_MANY_FILES, RELKVANU_REPEATED_FILE, RELKVANU_UNKNOWN_CHECKPOINT, RELKVANU_UNKNOWN_SUBTASK, RELKVANU_ALREADY_ACKNOWLEDGED, RELKVANU_NAME_TAKEN, RELKVANU_FILE_GONE. After a refusal the task must not delete a file that an accepted acknowledgement ever named. The call first copies the two lists, which takes memory. So it may return RELKVANU_NO_MEMORY instead of a refusal.
    pub fn relkvanu_ack(
        handle: *mut relkvanu,
        now: u64,
        id: u64,
        vertex: u16,
        index: u16,
        fresh: *const u64,
        fresh_len: usize,
        reused: *const u64,
        reused_len: usize,
    ) -> relkvanu_answer;

    /// The subtask vertex.index could not take its part of record id. RELKVANU_DECLINE_ABORTED, RELKVANU_DECLINE_FAILED (too many checkpoints failed in a row) or RELKVANU_DECLINE_LATE. Refused: RELKVANU_MOMENT_TOO_LARGE, RELKVANU_UNKNOWN_CHECKPOINT, RELKVANU_UNKNOWN_SUBTASK. Takes no memory.
    pub fn relkvanu_decline(handle: *mut relkvanu, now: u64, id: u64, vertex: u16, index: u16) -> relkvanu_answer;

    /// A user disposes of the completed savepoint id. RELKVANU_DISPOSED. Refused: RELKVANU_NO_SUCH_SAVEPOINT, RELKVANU_IN_USE. Takes no memory.
    pub fn relkvanu_dispose(handle: *mut relkvanu, id: u64) -> relkvanu_answer;

    /// The job begins again: from a savepoint, or from the latest record if savepoint is 0. With shape_len above 0 it begins in a new shape, within the limits of relkvanu_open. Otherwise it keeps its current shape. RELKVANU_RESTORED_CHECKPOINT, RELKVANU_RESTORED_SAVEPOINT or RELKVANU_RESTORED_FRESH. RELKVANU_BAD_ARGUMENT with RELKVANU_BAD_SHAPE is checked first. Refused: RELKVANU_MOMENT_TOO_LARGE, RELKVANU_NOT_RUNNING (cancelled), RELKVANU_NO_SUCH_SAVEPOINT. The call first copies the shape, which takes memory. So it may return RELKVANU_NO_MEMORY instead of a refusal. Without a shape it takes no memory.
    pub fn relkvanu_restore(
        handle: *mut relkvanu,
        now: u64,
        savepoint: u64,
        shape: *const u64,
        shape_len: usize,
    ) -> relkvanu_answer;

    /// The job ends for good. RELKVANU_CANCELLED. Refused: RELKVANU_MOMENT_TOO_LARGE, RELKVANU_NOT_RUNNING (cancelled). Takes no memory.
    pub fn relkvanu_cancel(handle: *mut relkvanu, now: u64) -> relkvanu_answer;

    /// The job has these settings from now on, until the next call of this kind. A job that has failed may have others too. It deletes: done checkpoints above the new number retained, the oldest first, are dropped at once, and their files wait for deletion. The next checkpoint is due when it was, and at the latest one new interval from now. Nothing expires before the next tick, and the failures in a row count on, as many as are tolerated now. RELKVANU_CONFIGURED. RELKVANU_BAD_ARGUMENT with RELKVANU_BAD_CONFIG is checked first. Refused: RELKVANU_MOMENT_TOO_LARGE, RELKVANU_NOT_RUNNING (cancelled), RELKVANU_AT_ONCE. Takes no memory.
    pub fn relkvanu_configure(handle: *mut relkvanu, now: u64, settings: *const relkvanu_settings) -> relkvanu_answer;

    /// Fetches at most files_len files that wait for deletion, the longest waiting first, and writes them to the start of files. Report each one by relkvanu_deleted or relkvanu_undeleted. RELKVANU_TAKEN; a is 0 if no file waits. Never refused. Takes memory: after RELKVANU_NO_MEMORY the files still wait, and the buffer has not changed.
    pub fn relkvanu_take(handle: *mut relkvanu, files: *mut u64, files_len: usize) -> relkvanu_answer;

    /// A fetched file is deleted: the coordinator forgets it. RELKVANU_DELETED. Refused: RELKVANU_NOT_TAKEN. Takes no memory.
    pub fn relkvanu_deleted(handle: *mut relkvanu, file: u64) -> relkvanu_answer;

    /// A fetched file could not be deleted: it waits again, behind all others. RELKVANU_UNDELETED. Refused: RELKVANU_NOT_TAKEN. Takes no memory.
    pub fn relkvanu_undeleted(handle: *mut relkvanu, file: u64) -> relkvanu_answer;

    /// Writes the metadata of a live record as JSON, without a zero at its end. RELKVANU_SHOWN; or RELKVANU_TOO_SHORT, and a is its number of bytes: call again with a buffer of that many. Refused: RELKVANU_NO_SUCH_RECORD. Takes memory, even if the buffer is too short. Only RELKVANU_SHOWN changes the buffer.
    pub fn relkvanu_show(handle: *mut relkvanu, id: u64, json: *mut u8, json_len: usize) -> relkvanu_answer;

    /// The number of uses of a file, by acknowledgements and pins of live records. RELKVANU_COUNTED. Never refused. Takes no memory.
    pub fn relkvanu_count(handle: *mut relkvanu, file: u64) -> relkvanu_answer;

    /// What the job is doing: RELKVANU_MODE_RUNNING, RELKVANU_MODE_FAILED or RELKVANU_MODE_CANCELLED.
    pub fn relkvanu_mode(handle: *mut relkvanu) -> relkvanu_answer;

    /// RELKVANU_MOMENT: the greatest moment that the coordinator has seen, at its opening or in an accepted call. It takes an earlier moment for this one. So it shows whether a clock has run ahead.
    pub fn relkvanu_moment(handle: *mut relkvanu) -> relkvanu_answer;

    /// RELKVANU_DUE: the moment from which neither the interval nor the pause holds a checkpoint back. No tick before it triggers one. A tick at it or later triggers one, with three exceptions: as many are pending as may be, the job is not running, or so many checkpoints expire in the tick that the job fails over. A call that triggers, completes, restores or configures may move this moment, so read it again after a call.
    pub fn relkvanu_due(handle: *mut relkvanu) -> relkvanu_answer;

    /// RELKVANU_EXPIRES: the moment from which a pending record is expired. A tick at that moment drops the record. RELKVANU_NONE_PENDING if no record is pending. Visits each pending record.
    pub fn relkvanu_oldest_expiry(handle: *mut relkvanu) -> relkvanu_answer;

    /// The record that a restore of the latest would begin from: RELKVANU_CHOICE_CHECKPOINT, RELKVANU_CHOICE_SAVEPOINT or RELKVANU_CHOICE_FRESH.
    pub fn relkvanu_choice(handle: *mut relkvanu) -> relkvanu_answer;

    /// The live record at this place, from 0, in order of their numbers: RELKVANU_LIVE_CHECKPOINT or RELKVANU_LIVE_SAVEPOINT; RELKVANU_LIVE_NONE past the last. The time grows with the place.
    pub fn relkvanu_live(handle: *mut relkvanu, place: usize) -> relkvanu_answer;

    /// RELKVANU_MISSING: how many subtasks of this record have not acknowledged. RELKVANU_NOT_PENDING if no record with this number is pending.
    pub fn relkvanu_missing(handle: *mut relkvanu, id: u64) -> relkvanu_answer;

    /// How many files are in use by live records, wait for deletion, and were fetched for deletion.
    pub fn relkvanu_file_counts(handle: *mut relkvanu) -> relkvanu_counts;

    /// Returns the length of the name of the refusal with this number, such as "NotRunning", or 0 if no refusal has the number. Writes the name, without a zero at its end, if text_len is at least the length.
    pub fn relkvanu_refusal_text(what: u32, text: *mut u8, text_len: usize) -> usize;

    /// Returns the length of the text of an answer, such as "tick expired 0 triggered 1", "refused NameTaken 7", "no memory" or, for an answer that this version does not have, "unknown code 9, what 3, a 0, b 0". No text is longer than RELKVANU_ANSWER_TEXT. Writes the text, without a zero at its end, if text_len is at least the length. The reply to a call has the text that a script prints (docs/SCRIPT.md); that to a take or show has the count alone, as "taken 3". Takes no memory.
    pub fn relkvanu_answer_text(answer: *const relkvanu_answer, text: *mut u8, text_len: usize) -> usize;

    /// Makes the call of a line, and returns what the function of that call returns. A take line writes the files that it fetches to the start of files. If it would fetch more than files_len, the answer is RELKVANU_TOO_SHORT, a is how many places it needs, and nothing has changed. A show line returns what relkvanu_show returns with an empty buffer. A restore line with a bad shape returns RELKVANU_BAD_ARGUMENT with RELKVANU_BAD_SHAPE. A line that has no words or is a comment returns RELKVANU_SKIPPED. A line that can't be read, or makes no call, returns RELKVANU_BAD_LINE. Only RELKVANU_TAKEN changes the buffer. The call takes memory as its own function does, and for the lists of an ack, job, restore or forfeit line. So such a line may return RELKVANU_NO_MEMORY instead of a refusal. A line with fence, reserve, forfeit or advance returns what relkvanu_fence and so on returns. An ack or a decline line after in and a term returns what relkvanu_ack_in or relkvanu_decline_in returns. Each other call after in and a term returns what it returns alone, but RELKVANU_FENCED with RELKVANU_NO_NAMES on a handle without names. After in and the term 0 a call is the one without a term.
    pub fn relkvanu_line(
        handle: *mut relkvanu,
        line: *const u8,
        line_len: usize,
        files: *mut u64,
        files_len: usize,
    ) -> relkvanu_answer;

    /// Returns the kind of the line, RELKVANU_LINE_SKIP to RELKVANU_LINE_ALL. If the line makes no call, writes its numbers to the start of numbers, in the line's order; keep is 1 and delete is 0. Checks no number against the limits of a job. RELKVANU_TOO_SHORT, and a is how many places it needs; or RELKVANU_BAD_LINE with the fault. Neither changes the buffer. A restore line with a bad shape is RELKVANU_LINE_CALL, and so is each line with fence, reserve, forfeit, advance, in, trigger or configure: relkvanu_line says what is wrong with it. Takes memory only for the lists of an ack, job, restore or forfeit line.
    pub fn relkvanu_line_says(
        line: *const u8,
        line_len: usize,
        numbers: *mut u64,
        numbers_len: usize,
    ) -> relkvanu_answer;

    /// Writes the call that a line says: its kind, numbers and term to call, and its lists to the start of first and second. For an ack these are the fresh and the reused files, each in ascending order. For a restore, first is the new shape, or empty. For a forfeit, first is the names, in ascending order. For a configure, first is the seven numbers of relkvanu_settings, in its order; keep_on_cancel is 0 or 1. It is the inverse of relkvanu_call_line: that function writes a line that says this call. RELKVANU_LINE_CALL, and a and b are how many items first and second have; RELKVANU_TOO_SHORT, and a and b are how many places they need. A line that says no call, a restore line with a bad shape, or a configure line with bad settings, has the answer of relkvanu_line: RELKVANU_SKIPPED, RELKVANU_BAD_LINE or RELKVANU_BAD_ARGUMENT. A restore line with the savepoint 0 is RELKVANU_REFUSED with RELKVANU_NO_SUCH_SAVEPOINT, since 0 stands for the latest record in a relkvanu_call. Only RELKVANU_LINE_CALL changes call and the buffers. Takes memory only for the lists of an ack, job, restore or forfeit line.
    pub fn relkvanu_line_call(
        line: *const u8,
        line_len: usize,
        call: *mut relkvanu_call,
        first: *mut u64,
        first_len: usize,
        second: *mut u64,
        second_len: usize,
    ) -> relkvanu_answer;

    /// Writes the line of a call, without a newline and without a zero at its end. relkvanu_line reads it as that call. For an ack, first and second are the fresh and the reused files, in any order. For a restore, first is the new shape, or empty. For a forfeit, first is the names, in any order. For a configure, first is the seven numbers of relkvanu_settings, in its order; keep_on_cancel is 0 or 1. A call with a term other than 0 is written after in and the term. RELKVANU_WRITTEN; RELKVANU_TOO_SHORT, and a is how many bytes it needs; RELKVANU_BAD_ARGUMENT with RELKVANU_BAD_KIND, RELKVANU_BAD_SHAPE or RELKVANU_BAD_CONFIG; RELKVANU_BAD_LINE with RELKVANU_FAULT_TOO_LONG if the line would be too long. No line is cut. Only RELKVANU_WRITTEN changes the buffer. Takes memory.
    pub fn relkvanu_call_line(
        call: *const relkvanu_call,
        first: *const u64,
        first_len: usize,
        second: *const u64,
        second_len: usize,
        line: *mut u8,
        line_len: usize,
    ) -> relkvanu_answer;

    /// Makes a call and writes its line: what relkvanu_call_line and then relkvanu_line do, in one call and without reading the line. It is for programs that log each call which was made. call, first and second are those of relkvanu_call_line. The line has no newline and no zero at its end. A take writes the files that it fetches to the start of files. The first of these that applies: RELKVANU_CLOSED; RELKVANU_BAD_ARGUMENT with RELKVANU_BAD_KIND, RELKVANU_BAD_SHAPE or RELKVANU_BAD_CONFIG; RELKVANU_BAD_LINE with RELKVANU_FAULT_TOO_LONG if the line would be too long; RELKVANU_TOO_SHORT with a 0, and b is how many bytes line needs; what relkvanu_line returns for the line. So RELKVANU_TOO_SHORT with b 0 is that of a take, and a is how many places files needs, or of a show, which returns what relkvanu_show returns with an empty buffer. Only an answer with RELKVANU_DONE changes the handle, files, line or made. Takes memory for the line, and as relkvanu_line does.
    pub fn relkvanu_make(
        handle: *mut relkvanu,
        call: *const relkvanu_call,
        first: *const u64,
        first_len: usize,
        second: *const u64,
        second_len: usize,
        files: *mut u64,
        files_len: usize,
        line: *mut u8,
        line_len: usize,
        made: *mut relkvanu_made,
    ) -> relkvanu_answer;

    /// Writes the lines config, job and start of a coordinator whose first record has the number 1, each with its newline. RELKVANU_WRITTEN; RELKVANU_TOO_SHORT, and a is how many bytes it needs; RELKVANU_BAD_ARGUMENT if relkvanu_open returns it, with the same argument: RELKVANU_BAD_CONFIG, RELKVANU_BAD_SHAPE or RELKVANU_BAD_MOMENT. Only RELKVANU_WRITTEN changes the buffer. Takes memory.
    pub fn relkvanu_opening_lines(
        settings: *const relkvanu_settings,
        shape: *const u64,
        shape_len: usize,
        now: u64,
        lines: *mut u8,
        lines_len: usize,
    ) -> relkvanu_answer;

    /// Makes a call and writes its line as relkvanu_make does, and holds its answer back. The first of these that applies: RELKVANU_BAD_ARGUMENT with RELKVANU_BAD_GROUP, or with RELKVANU_BAD_RECEIPT if waiting is held_len or given is 2^62; RELKVANU_APPEND if relkvanu_make would return RELKVANU_DONE; RELKVANU_HELD_BACK if it would return RELKVANU_REFUSED or RELKVANU_FENCED; what it would return. Only RELKVANU_APPEND changes the handle, files, line and made. Only it and RELKVANU_HELD_BACK change the group and held. The first of them behind a sync ends what was told of that sync.
    pub fn relkvanu_group_make(
        handle: *mut relkvanu,
        group: *mut relkvanu_group,
        held: *mut relkvanu_answer,
        held_len: usize,
        call: *const relkvanu_call,
        first: *const u64,
        first_len: usize,
        second: *const u64,
        second_len: usize,
        files: *mut u64,
        files_len: usize,
        line: *mut u8,
        line_len: usize,
        made: *mut relkvanu_made,
    ) -> relkvanu_answer;

    /// Holds back the answer of any other function: of a read, or of a call whose line the program writes itself. RELKVANU_HELD_BACK; RELKVANU_BAD_ARGUMENT with RELKVANU_BAD_GROUP, or with RELKVANU_BAD_RECEIPT if waiting is held_len or given is 2^62.
    pub fn relkvanu_group_hold(
        group: *mut relkvanu_group,
        held: *mut relkvanu_answer,
        held_len: usize,
        answer: *const relkvanu_answer,
    ) -> relkvanu_answer;

    /// All lines so far are synced: what was held back may be told, until another answer is held back. What might be told before may be told no more. RELKVANU_SYNCED; RELKVANU_BAD_ARGUMENT with RELKVANU_BAD_GROUP.
    pub fn relkvanu_group_synced(group: *mut relkvanu_group) -> relkvanu_answer;

    /// An append or a sync has failed: from now on the group holds nothing back, and tells nothing.
    pub fn relkvanu_group_failed(group: *mut relkvanu_group);

    /// Returns the answer that was held back with this receipt, if it may be told. A receipt is given once, so however late it is asked, no other answer is told by it. RELKVANU_BAD_ARGUMENT with RELKVANU_BAD_GROUP, or with RELKVANU_BAD_RECEIPT if it waits for a sync, was told of a sync before, or was never held back. Such an answer may be one that was held back too, of another function.
    pub fn relkvanu_group_answer(
        group: *const relkvanu_group,
        held: *const relkvanu_answer,
        held_len: usize,
        receipt: u64,
    ) -> relkvanu_answer;

    /// Writes the image of the coordinator, all of its state, as JSON without a zero at its end. A handle that is opened with the image answers every list of calls as this one would. The image of a handle with names has its term and its names. RELKVANU_SAVED; RELKVANU_TOO_SHORT, and a is its number of bytes: call again with a buffer of that many. Only RELKVANU_SAVED changes the buffer, and nothing else changes. Takes memory, even if the buffer is too short.
    pub fn relkvanu_save(handle: *mut relkvanu, image: *mut u8, image_len: usize) -> relkvanu_answer;

    /// Opens the coordinator that an image describes in a closed handle: with names if the image has names, otherwise without. The two words have the meaning that they have in relkvanu_open. They may differ from those of the coordinator that was saved. Condition for the caller: all calls that were made after the save are made again, before any task makes a call. Otherwise names that were given out since then are given out again, and a term that has ended runs again. RELKVANU_OPENED; or RELKVANU_BAD_ARGUMENT, and the handle stays as it was: RELKVANU_ALREADY_OPEN, RELKVANU_BAD_IMAGE. Takes memory: after RELKVANU_NO_MEMORY the handle is closed, as before.
    pub fn relkvanu_open_saved(
        handle: *mut relkvanu,
        image: *const u8,
        image_len: usize,
        first_word: u64,
        second_word: u64,
    ) -> relkvanu_answer;

    /// The live record with the least number that is at least id: RELKVANU_LIVE_CHECKPOINT or RELKVANU_LIVE_SAVEPOINT; RELKVANU_LIVE_NONE if there is none. To visit all live records, begin with 0, and go on with the returned number plus 1. A binary search. Takes no memory.
    pub fn relkvanu_live_from(handle: *mut relkvanu, id: u64) -> relkvanu_answer;

    /// Whether the record with this number is pending, done or ended, or no record has had the number: RELKVANU_STANDS_PENDING to RELKVANU_STANDS_NEVER. A binary search. Takes no memory.
    pub fn relkvanu_standing(handle: *mut relkvanu, id: u64) -> relkvanu_answer;

    /// Writes the files that the subtask vertex.index acknowledged in the live record id, in ascending order. RELKVANU_FILES; RELKVANU_NOT_ACKNOWLEDGED; RELKVANU_TOO_SHORT. A binary search. Takes no memory.
    pub fn relkvanu_files_of(
        handle: *mut relkvanu,
        id: u64,
        vertex: u16,
        index: u16,
        files: *mut u64,
        files_len: usize,
    ) -> relkvanu_answer;

    /// Writes the files that the pending record id pins, in ascending order: the files of the record that a restart would have begun from at its trigger. Writes none if no record with this number is pending. RELKVANU_FILES; RELKVANU_TOO_SHORT. Takes memory only if the record is pending.
    pub fn relkvanu_pins_of(handle: *mut relkvanu, id: u64, files: *mut u64, files_len: usize) -> relkvanu_answer;

    /// The file at this place, from 0, among those that wait for deletion. The next to be fetched is the first. RELKVANU_WAITING; RELKVANU_NONE_WAITS past the last. Takes constant time and no memory.
    pub fn relkvanu_waiting_file(handle: *mut relkvanu, place: usize) -> relkvanu_answer;

    /// Writes the files that were fetched for deletion and are not yet reported, in ascending order. RELKVANU_FILES; RELKVANU_TOO_SHORT. Visits each file that waits or was fetched. Takes memory.
    pub fn relkvanu_taken_files(handle: *mut relkvanu, files: *mut u64, files_len: usize) -> relkvanu_answer;

    /// Opens a coordinator as relkvanu_open does, in term 1. The first name that it gives out is first_name, 1 to 2^62: all numbers of files that were used before are below it. RELKVANU_OPENED; or RELKVANU_BAD_ARGUMENT, and the handle stays as it was: RELKVANU_ALREADY_OPEN, RELKVANU_BAD_CONFIG, RELKVANU_BAD_SHAPE, RELKVANU_BAD_NAME, RELKVANU_BAD_MOMENT, RELKVANU_BAD_FIRST, checked in this order. Takes memory: after RELKVANU_NO_MEMORY the handle is closed, as before.
    pub fn relkvanu_open_fenced(
        handle: *mut relkvanu,
        settings: *const relkvanu_settings,
        shape: *const u64,
        shape_len: usize,
        now: u64,
        first: u64,
        first_name: u64,
        first_word: u64,
        second_word: u64,
    ) -> relkvanu_answer;

    /// Gives a coordinator names, from first_name on, 1 to 2^62, in term 1. All numbers of files that were used before have to be below it, those of files that nobody acknowledged too: numbers below it count as given out. Make the call between the end of all tasks and their restart, since a task that began before it has no term. RELKVANU_NAMED. RELKVANU_FENCED with RELKVANU_HAS_NAMES; RELKVANU_BAD_ARGUMENT with RELKVANU_BAD_NAME; RELKVANU_FENCED with RELKVANU_NAME_IN_USE, checked in this order. Takes memory, and visits all files of the coordinator: it is called once in the life of a job.
    pub fn relkvanu_fence(handle: *mut relkvanu, first_name: u64) -> relkvanu_answer;

    /// RELKVANU_TERM: the term that runs, and the next name that is given out. RELKVANU_FENCED with RELKVANU_NO_NAMES. Changes nothing, and takes no memory.
    pub fn relkvanu_term(handle: *mut relkvanu) -> relkvanu_answer;

    /// A task of this term reserves names for files that it will write, 1 to 65536 of them. RELKVANU_RESERVED. RELKVANU_FENCED: RELKVANU_NO_NAMES, RELKVANU_OLD_TERM, RELKVANU_ENDED, RELKVANU_BAD_COUNT, RELKVANU_NAMES_USED_UP, checked in this order. Takes memory only if it reserves.
    pub fn relkvanu_reserve(handle: *mut relkvanu, term: u64, count: u64) -> relkvanu_answer;

    /// A task of this term gives up names that it will not acknowledge, such as those of a failed upload: their files are garbage then. Names that the term does not hold are passed over, so the call can be repeated. RELKVANU_FORFEITED. RELKVANU_FENCED: RELKVANU_NO_NAMES, RELKVANU_OLD_TERM. The call first copies the list, which takes memory.
    pub fn relkvanu_forfeit(handle: *mut relkvanu, term: u64, names: *const u64, names_len: usize) -> relkvanu_answer;

    /// Begins a job again that goes on from an older image or log, such as one that was restored from a backup: relkvanu_restore of the latest, in the shape that the job has, in a term above term, the greatest that any task was told, and with names from first_name on, 1 to 2^62, above each that was given out. A smaller term and a smaller first_name lower nothing. Names that are passed over are garbage, unless the handle's records use them. Make this call before any other of such a job. docs/RULES.md, section 13, says what it is for. RELKVANU_RESTORED, and relkvanu_term tells the new term. RELKVANU_FENCED with RELKVANU_NO_NAMES; RELKVANU_BAD_ARGUMENT with RELKVANU_BAD_NAME; RELKVANU_FENCED with RELKVANU_TERMS_USED_UP, checked in this order; then the refusals of relkvanu_restore. None of these changes anything. Takes no memory.
    pub fn relkvanu_advance(handle: *mut relkvanu, now: u64, term: u64, first_name: u64) -> relkvanu_answer;

    /// relkvanu_ack of a task of this term. An accepted acknowledgement spends the names of its fresh files. As relkvanu_ack, and before its refusals RELKVANU_FENCED: RELKVANU_NO_NAMES, RELKVANU_OLD_TERM, and for the least fresh file whose name the term does not hold RELKVANU_SPENT or RELKVANU_NEVER_RESERVED. An acknowledgement that is sent twice is RELKVANU_SPENT the second time, if it has fresh files: then an accepted one has named them. So a task does not delete a file for RELKVANU_SPENT.
    pub fn relkvanu_ack_in(
        handle: *mut relkvanu,
        term: u64,
        now: u64,
        id: u64,
        vertex: u16,
        index: u16,
        fresh: *const u64,
        fresh_len: usize,
        reused: *const u64,
        reused_len: usize,
    ) -> relkvanu_answer;

    /// relkvanu_decline of a task of this term. As relkvanu_decline, and before its refusals RELKVANU_FENCED: RELKVANU_NO_NAMES, RELKVANU_OLD_TERM. Takes no memory.
    pub fn relkvanu_decline_in(
        handle: *mut relkvanu,
        term: u64,
        now: u64,
        id: u64,
        vertex: u16,
        index: u16,
    ) -> relkvanu_answer;

    /// Writes those of these files that are garbage to the start of garbage, in their order: each name was given out, no live record uses the file, it does not wait for deletion and was not fetched for it, and no task of the term that runs may write it. Garbage stays garbage for good, so it may be deleted at any time. Writes those whose names were not given out to the start of unissued: such a file is not of this job, or its log was lost, and nobody deletes it. RELKVANU_GARBAGE. RELKVANU_FENCED with RELKVANU_NO_NAMES. RELKVANU_TOO_SHORT unless both buffers have a place for each file. Only RELKVANU_GARBAGE changes the buffers, and nothing else changes. Takes no memory. Ask a coordinator whose calls are durable: one that forgot a call also forgets which files are in use.
    pub fn relkvanu_garbage(
        handle: *mut relkvanu,
        files: *const u64,
        files_len: usize,
        garbage: *mut u64,
        garbage_len: usize,
        unissued: *mut u64,
        unissued_len: usize,
    ) -> relkvanu_answer;

    /// relkvanu_refusal_text for the numbers of RELKVANU_FENCED, such as "OldTerm".
    pub fn relkvanu_fenced_text(what: u32, text: *mut u8, text_len: usize) -> usize;

    /// Begins the alignment of a task with this many inputs, 1 to RELKVANU_MOST_INPUTS: all are open. A task begins one when it starts, also after a restore. RELKVANU_STEP_NOTHING; or RELKVANU_STEP_BAD_INPUTS.
    pub fn relkvanu_align_open(aligner: *mut relkvanu_aligner, inputs: *mut u8, inputs_len: usize) -> relkvanu_step;

    /// An element is next on this input, from 0: whether the task may process it now. Changes nothing. RELKVANU_STEP_PROCESS or RELKVANU_STEP_HOLD; or RELKVANU_STEP_UNKNOWN_INPUT, RELKVANU_STEP_ENDED_INPUT.
    pub fn relkvanu_align_element(
        aligner: *const relkvanu_aligner,
        inputs: *const u8,
        inputs_len: usize,
        input: u32,
    ) -> relkvanu_step;

    /// The barrier of record id is next on this input. RELKVANU_STEP_WAIT, RELKVANU_STEP_LATE, RELKVANU_STEP_CUT, or RELKVANU_STEP_ABANDON of an earlier record, whose place this one takes; or RELKVANU_STEP_UNKNOWN_INPUT, RELKVANU_STEP_HELD_INPUT, RELKVANU_STEP_ENDED_INPUT. A cut and an abandon release all held inputs; after an abandon this input alone is held.
    pub fn relkvanu_align_barrier(
        aligner: *mut relkvanu_aligner,
        inputs: *mut u8,
        inputs_len: usize,
        input: u32,
        id: u64,
    ) -> relkvanu_step;

    /// Nothing more comes on this input. It counts as one that has delivered every barrier. RELKVANU_STEP_NOTHING, RELKVANU_STEP_WAIT or RELKVANU_STEP_CUT; or RELKVANU_STEP_UNKNOWN_INPUT, RELKVANU_STEP_HELD_INPUT, RELKVANU_STEP_ENDED_INPUT.
    pub fn relkvanu_align_end(
        aligner: *mut relkvanu_aligner,
        inputs: *mut u8,
        inputs_len: usize,
        input: u32,
    ) -> relkvanu_step;

    /// The coordinator or the task gives record id up. RELKVANU_STEP_ABANDON if this record is being aligned, and all held inputs are released; otherwise RELKVANU_STEP_NOTHING.
    pub fn relkvanu_align_give_up(
        aligner: *mut relkvanu_aligner,
        inputs: *mut u8,
        inputs_len: usize,
        id: u64,
    ) -> relkvanu_step;

    /// As relkvanu_align_open.
    pub fn relkvanu_unaligned_open(
        recorder: *mut relkvanu_recorder,
        inputs: *mut u8,
        inputs_len: usize,
    ) -> relkvanu_step;

    /// As relkvanu_align_element; and RELKVANU_STEP_RECORD.
    pub fn relkvanu_unaligned_element(
        recorder: *const relkvanu_recorder,
        inputs: *const u8,
        inputs_len: usize,
        input: u32,
    ) -> relkvanu_step;

    /// As relkvanu_align_barrier; and RELKVANU_STEP_COMPLETE if it was the last of a record that has overtaken.
    pub fn relkvanu_unaligned_barrier(
        recorder: *mut relkvanu_recorder,
        inputs: *mut u8,
        inputs_len: usize,
        input: u32,
        id: u64,
    ) -> relkvanu_step;

    /// As relkvanu_align_end; and RELKVANU_STEP_COMPLETE.
    pub fn relkvanu_unaligned_end(
        recorder: *mut relkvanu_recorder,
        inputs: *mut u8,
        inputs_len: usize,
        input: u32,
    ) -> relkvanu_step;

    /// As relkvanu_align_give_up: what was recorded for an abandoned record is given up.
    pub fn relkvanu_unaligned_give_up(
        recorder: *mut relkvanu_recorder,
        inputs: *mut u8,
        inputs_len: usize,
        id: u64,
    ) -> relkvanu_step;

    /// Record id overtakes: its barrier was seen on an input, wherever it stands there, or has waited for long enough. RELKVANU_STEP_SNAP; RELKVANU_STEP_LATE if it is whole or was given up; RELKVANU_STEP_NOTHING while an earlier record is open (ask again once that has ended), if it has overtaken before, or if each input has ended.
    pub fn relkvanu_unaligned_overtake(
        recorder: *mut relkvanu_recorder,
        inputs: *const u8,
        inputs_len: usize,
        id: u64,
    ) -> relkvanu_step;
}
