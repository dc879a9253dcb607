package relkvanu;

/** What include/relkvanu.h says, made from it by bindings/generate: change the header, and run that. */
final class Header {
    private Header() {}

    static final int VERSION_MAJOR = 0;
    static final int VERSION_MINOR = 1;
    static final int VERSION_PATCH = 0;
    static final String VERSION = "0.1.0";
    /** the call was made: what is a reply */
    static final int DONE = 0;
    /** nothing has changed: what is a refusal */
    static final int REFUSED = 1;
    /** nothing has changed; what, a and b are 0: make the same call again later */
    static final int NO_MEMORY = 2;
    /** the handle has no coordinator; what, a and b are 0 */
    static final int CLOSED = 3;
    /** nothing has changed: what is an argument */
    static final int BAD_ARGUMENT = 4;
    /** nothing has changed: the buffer needs a places, and a second one b; what is 0 */
    static final int TOO_SHORT = 5;
    /** nothing has changed: what is a fault of a line */
    static final int BAD_LINE = 6;
    /** nothing has changed: what says why the term or the names refuse the call */
    static final int FENCED = 7;
    static final int OPENED = 0;
    /** a: expired records, b: number. A checkpoint was triggered */
    static final int TICK_TRIGGERED = 1;
    /** a: expired records. No checkpoint is due yet */
    static final int TICK_HELD_INTERVAL = 2;
    /** a: expired records. As many checkpoints are pending as may be */
    static final int TICK_HELD_AT_ONCE = 3;
    /** a: expired records. The pause after the last completion has not passed */
    static final int TICK_HELD_PAUSE = 4;
    /** a: expired records. Too many checkpoints failed in a row: restore the job */
    static final int TICK_FAILED = 5;
    /** a: number. A savepoint was triggered */
    static final int SAVEPOINT_TRIGGERED = 6;
    /** a: subtasks missing. The record is not complete yet */
    static final int ACK_PENDING = 7;
    /** a: records dropped, b: files released. The record is complete */
    static final int ACK_COMPLETED = 8;
    /** a: fresh files that this call handed out for deletion. The record was done or had ended */
    static final int ACK_LATE = 9;
    /** a: files released. The record is dropped */
    static final int DECLINE_ABORTED = 10;
    /** a: files released. The record is dropped, and the job has failed: restore it */
    static final int DECLINE_FAILED = 11;
    /** the record was done or had ended */
    static final int DECLINE_LATE = 12;
    /** a: files released. The savepoint is gone */
    static final int DISPOSED = 13;
    /** a: files released, b: number. The job begins again from a checkpoint */
    static final int RESTORED_CHECKPOINT = 14;
    /** a: files released, b: number. The job begins again from a savepoint */
    static final int RESTORED_SAVEPOINT = 15;
    /** a: files released. The job begins again from nothing */
    static final int RESTORED_FRESH = 16;
    /** a: records dropped, b: files released. The job has ended for good */
    static final int CANCELLED = 17;
    /** a: files at the start of the buffer */
    static final int TAKEN = 18;
    /** a: file. The file is forgotten */
    static final int DELETED = 19;
    /** a: file. The file waits again */
    static final int UNDELETED = 20;
    /** a: bytes at the start of the buffer */
    static final int SHOWN = 21;
    /** a: file, b: uses. The uses by live records */
    static final int COUNTED = 22;
    /** a: checkpoints dropped, b: files released. The job has the new settings */
    static final int CONFIGURED = 61;
    /** the job takes checkpoints */
    static final int MODE_RUNNING = 23;
    /** too many checkpoints failed in a row: restore the job */
    static final int MODE_FAILED = 24;
    /** the job has ended for good */
    static final int MODE_CANCELLED = 25;
    /** a: moment */
    static final int DUE = 26;
    /** a: moment */
    static final int EXPIRES = 27;
    static final int NONE_PENDING = 28;
    /** a: number */
    static final int CHOICE_CHECKPOINT = 29;
    /** a: number */
    static final int CHOICE_SAVEPOINT = 30;
    static final int CHOICE_FRESH = 31;
    /** a: number, b: 1 if it is done, 0 if it is pending */
    static final int LIVE_CHECKPOINT = 32;
    /** a: number, b: 1 if it is done, 0 if it is pending */
    static final int LIVE_SAVEPOINT = 33;
    /** there are fewer live records */
    static final int LIVE_NONE = 34;
    /** a: subtasks */
    static final int MISSING = 35;
    static final int NOT_PENDING = 36;
    /** a: moment */
    static final int MOMENT = 55;
    /** the line makes no call: it has no words or is a comment */
    static final int SKIPPED = 37;
    /** a: 0 */
    static final int LINE_SKIP = 38;
    /** a: 7, the numbers at the start of the buffer: those of relkvanu_settings, in its order */
    static final int LINE_CONFIG = 39;
    /** a: how many numbers are at the start of the buffer: the parallelism of each vertex */
    static final int LINE_JOB = 40;
    /** a: 1, the number at the start of the buffer: the moment */
    static final int LINE_START = 41;
    /** a: 0; of relkvanu_line_call a, b: the items at the start of first and of second */
    static final int LINE_CALL = 42;
    /** a: 4, the numbers at the start of the buffer: moment, record, threads, first file */
    static final int LINE_ALL = 43;
    /** a: bytes at the start of the buffer */
    static final int WRITTEN = 44;
    /** a: bytes at the start of the buffer */
    static final int SAVED = 45;
    /** a live record has the number, and lacks an acknowledgement */
    static final int STANDS_PENDING = 46;
    /** a live record has the number, and is complete */
    static final int STANDS_DONE = 47;
    /** a record had the number, and is no longer live */
    static final int STANDS_ENDED = 48;
    /** no record has had the number so far */
    static final int STANDS_NOT_YET = 49;
    /** the number is below the first one of the opening */
    static final int STANDS_NEVER = 50;
    /** a: files at the start of the buffer */
    static final int FILES = 51;
    /** no live record has the number, or the subtask has not acknowledged in it */
    static final int NOT_ACKNOWLEDGED = 52;
    /** a: file */
    static final int WAITING = 53;
    /** there are fewer waiting files */
    static final int NONE_WAITS = 54;
    /** a: the first name, b: how many: the others follow it */
    static final int RESERVED = 56;
    static final int FORFEITED = 57;
    /** a: the term that runs, b: the next name */
    static final int TERM = 58;
    /** the handle has names now */
    static final int NAMED = 59;
    /** of relkvanu_garbage a, b: the files at the start of garbage and of unissued */
    static final int GARBAGE = 60;
    /** a: receipt. The call was made: its line is to be appended, and its answer is held back */
    static final int APPEND = 62;
    /** a: receipt. Nothing is to be appended, and the answer is held back */
    static final int HELD_BACK = 63;
    /** a: answers that may be told */
    static final int SYNCED = 64;
    /** the moment is above its limit */
    static final int MOMENT_TOO_LARGE = 1;
    /** the job has failed or was cancelled */
    static final int NOT_RUNNING = 2;
    /** an acknowledgement has more than 4096 files */
    static final int TOO_MANY_FILES = 3;
    /** an acknowledgement names a file twice */
    static final int REPEATED_FILE = 4;
    /** no record has had the number */
    static final int UNKNOWN_CHECKPOINT = 5;
    /** the job has no such subtask */
    static final int UNKNOWN_SUBTASK = 6;
    /** the subtask has acknowledged in this record. Its files may belong to the coordinator: do not delete them */
    static final int ALREADY_ACKNOWLEDGED = 7;
    /** a: file. The coordinator knows a file with the number of a fresh one. It may be in use: do not delete it */
    static final int NAME_TAKEN = 8;
    /** a: file. A reused file is no longer in use: the task writes its state again, under a new number */
    static final int FILE_GONE = 9;
    /** no completed savepoint has the number */
    static final int NO_SUCH_SAVEPOINT = 10;
    /** the job would begin again from this savepoint */
    static final int IN_USE = 11;
    /** 1000 savepoints are pending or done */
    static final int TOO_MANY_SAVEPOINTS = 12;
    /** the file was not fetched for deletion, or was reported before */
    static final int NOT_TAKEN = 13;
    /** no live record has the number */
    static final int NO_SUCH_RECORD = 14;
    /** no number is left for another record */
    static final int IDS_USED_UP = 15;
    /** as many checkpoints are pending as may be, or more than the new settings allow */
    static final int AT_ONCE = 16;
    /** the term of the task has ended, or has not begun */
    static final int OLD_TERM = 1;
    /** the job was cancelled, and no task runs */
    static final int ENDED = 2;
    /** it would reserve no name, or more than 65536 */
    static final int BAD_COUNT = 3;
    /** all names up to 2^62 - 1 were given out */
    static final int NAMES_USED_UP = 4;
    /** as many terms have ended as can be counted, 2^62 */
    static final int TERMS_USED_UP = 5;
    /** a: file; its name was given out, and the term does not hold it: nobody deletes it for this answer */
    static final int SPENT = 6;
    /** a: file; its name was not given out */
    static final int NEVER_RESERVED = 7;
    /** the handle has no names */
    static final int NO_NAMES = 8;
    /** the handle has names */
    static final int HAS_NAMES = 9;
    /** a file with this number or a greater one is in use, waits for deletion or was fetched */
    static final int NAME_IN_USE = 10;
    /** the handle has a coordinator already */
    static final int ALREADY_OPEN = 1;
    /** a value of the settings is outside its limits */
    static final int BAD_CONFIG = 2;
    /** 1 to 256 vertices, at least 1 subtask each, at most 4096 in sum */
    static final int BAD_SHAPE = 3;
    /** the moment of an opening is above 2^62 - 1 */
    static final int BAD_MOMENT = 4;
    /** the number of the first record is not within 1 to 2^62 - 1 */
    static final int BAD_FIRST = 5;
    /** the kind of a call that is to be written */
    static final int BAD_KIND = 6;
    /** the bytes are not an image, or the state is not sound, or no coordinator could be opened so */
    static final int BAD_IMAGE = 7;
    /** the first name is 0 or above 2^62 */
    static final int BAD_NAME = 8;
    /** the group has failed: open the handle again, from the log */
    static final int BAD_GROUP = 9;
    /** no answer may be told by the receipt, or there is no place or receipt for another answer */
    static final int BAD_RECEIPT = 10;
    /** a line has at most 131072 bytes */
    static final int FAULT_TOO_LONG = 1;
    /** a word that does not belong there */
    static final int FAULT_WORD = 2;
    /** the line ends before a word that it needs */
    static final int FAULT_MISSING = 3;
    /** not a number, or not a subtask */
    static final int FAULT_NUMBER = 4;
    /** a word follows the last one */
    static final int FAULT_EXTRA = 5;
    /** a config, job, start or all line, or in and a term before what is no call: it was read, and makes no call */
    static final int FAULT_NO_CALL = 6;
    static final int CALL_TICK = 1;
    static final int CALL_SAVEPOINT = 2;
    static final int CALL_ACK = 3;
    static final int CALL_DECLINE = 4;
    static final int CALL_DISPOSE = 5;
    static final int CALL_RESTORE = 6;
    static final int CALL_CANCEL = 7;
    static final int CALL_TAKE = 8;
    static final int CALL_DELETED = 9;
    static final int CALL_UNDELETED = 10;
    static final int CALL_SHOW = 11;
    static final int CALL_COUNT = 12;
    /** the job gives out names from here on */
    static final int CALL_FENCE = 13;
    /** a task reserves names */
    static final int CALL_RESERVE = 14;
    /** a task gives up names */
    static final int CALL_FORFEIT = 15;
    static final int CALL_TRIGGER = 16;
    static final int CALL_CONFIGURE = 17;
    /** the job goes on above the terms and names that were told */
    static final int CALL_ADVANCE = 18;
    /** process the element now */
    static final int STEP_PROCESS = 1;
    /** leave the element, and all behind it, on its input, until the next cut or abandon */
    static final int STEP_HOLD = 2;
    /** nothing is to be done: no record is being aligned */
    static final int STEP_NOTHING = 3;
    /** go on: an open input has not delivered the barrier yet */
    static final int STEP_WAIT = 4;
    /** drop the barrier and go on: the record was cut or given up, or is below one that was begun */
    static final int STEP_LATE = 5;
    /** take the snapshot for record id now, and then send its barrier on each output, before anything else */
    static final int STEP_CUT = 6;
    /** decline record id: it can no longer be cut */
    static final int STEP_ABANDON = 7;
    /** nothing has changed: the task has no input with this number */
    static final int STEP_UNKNOWN_INPUT = 8;
    /** nothing has changed: the barrier or the end has to wait until the input is released */
    static final int STEP_HELD_INPUT = 9;
    /** nothing has changed: the input has ended */
    static final int STEP_ENDED_INPUT = 10;
    /** nothing has changed: a task has 1 to RELKVANU_MOST_INPUTS inputs */
    static final int STEP_BAD_INPUTS = 11;
    /** add the element to the record, and process it before what comes behind it */
    static final int STEP_RECORD = 12;
    /** as RELKVANU_STEP_CUT of record id, but do not acknowledge yet: what comes before its barrier is recorded */
    static final int STEP_SNAP = 13;
    /** acknowledge record id, with its snapshot and with what was recorded */
    static final int STEP_COMPLETE = 14;
    /** the most inputs of a task */
    static final int MOST_INPUTS = 4096;
    /** no text of an answer has more bytes */
    static final int ANSWER_TEXT = 128;
}
