/* The coordinator of a stream processor's checkpoints.
 *
 * Link librelkvanu.a, which `make` builds in build and a release contains. It takes its memory from malloc. If a program defines the
 * three functions of relkvanu_alloc.h, it takes its memory from them. docs/C.md has worked examples. docs/RULES.md says what
 * each call does.
 *
 * Conditions for the caller:
 * - A handle is all zero, or as the library last left it. Do not copy it or change its field.
 * - Make one call or read at a time for each handle: a read takes the state out of the handle and puts it back. A handle may
 *   move between threads under the engine's own lock.
 * - Each pointer is aligned, and points to as many elements as the call says. The pointer to a list, a text or a buffer of
 *   length 0 may be null, or any other: nothing is read or written there. relkvanu_close may be given NULL. No other pointer may be null.
 * - A buffer that a call writes must not overlap any other argument of the call.
 * - Make no call from a signal handler.
 *
 * The library keeps no pointer to the caller's memory. It frees its own memory, that of a coordinator in relkvanu_close.
 *
 * Moments are milliseconds, at most 2^62 - 1. The coordinator keeps the greatest moment that an accepted call has named. If one call
 * names a moment that is ten years ahead, then for ten years no checkpoint is triggered, no record expires, and no answer says why.
 * relkvanu_restore does not heal that, and logs and images keep it. So take a clock that never jumps, such as a monotonic one that
 * begins at the greatest moment of the log. The wall clock jumps.
 *
 * Who may delete a file: a task deletes a file only if no accepted acknowledgement ever named it. A file that an
 * accepted acknowledgement named, even a late one, belongs to the coordinator. The coordinator hands it out for deletion
 * once no record uses it. A refused acknowledgement does not change who owns a file. After
 * RELKVANU_ALREADY_ACKNOWLEDGED and RELKVANU_NAME_TAKEN its files may belong to the coordinator: an earlier
 * acknowledgement may have named them. Before it acknowledges, a task syncs the files that it wrote, and their folder.
 *
 * Memory: a call that takes no memory never returns RELKVANU_NO_MEMORY. Each call on a closed handle returns
 * RELKVANU_CLOSED and changes nothing.
 */
#ifndef RELKVANU_H
#define RELKVANU_H

#include <stdbool.h>
#include <stddef.h>
#include <stdint.h>

#ifdef __cplusplus
extern "C" {
#endif

/* clang-format off */

/* The version of this header. It rises with each change that a caller sees. */
#define RELKVANU_VERSION_MAJOR 0
#define RELKVANU_VERSION_MINOR 1
#define RELKVANU_VERSION_PATCH 0
#define RELKVANU_VERSION "0.1.0"

/* The version of the library that is linked, as RELKVANU_VERSION. */
const char *relkvanu_version(void);

/* A compiler warns where a program drops the answer of a call, because then nobody sees that the call was not made. A program that wants
 * no such warning defines this name as nothing before it includes the header. */
#ifndef RELKVANU_NODISCARD
#ifdef __GNUC__
#define RELKVANU_NODISCARD __attribute__((warn_unused_result))
#else
#define RELKVANU_NODISCARD
#endif
#endif

/* {0}: closed */
typedef struct {
    void *state;
} relkvanu;

typedef struct {
    uint64_t interval;   /* 10 to 2^40 ms between two triggers */
    uint64_t pause;      /* 0 to 2^40 ms between a completion and the next trigger */
    uint64_t at_once;    /* 1 to 64 checkpoints that may be pending */
    uint64_t timeout;    /* 1 to 2^40 ms after which a pending record expires */
    uint64_t tolerable;  /* 0 to 1000 failed checkpoints in a row */
    uint64_t retained;   /* 1 to 1000 completed checkpoints to keep */
    bool keep_on_cancel; /* whether to keep them when the job is cancelled */
} relkvanu_settings;

typedef struct {
    uint32_t code; /* one of RELKVANU_DONE to RELKVANU_FENCED */
    uint32_t what; /* which reply, refusal or bad argument */
    uint64_t a, b; /* its numbers, which the comment of its constant describes; otherwise 0 */
} relkvanu_answer;

typedef struct {
    uint32_t code;    /* RELKVANU_DONE, or RELKVANU_CLOSED and all numbers 0 */
    uint64_t in_use;  /* files that live records use, each counted once */
    uint64_t waiting; /* files that wait for deletion: what relkvanu_take can fetch */
    uint64_t taken;   /* files that were fetched, and are not yet reported */
} relkvanu_counts;

/* A call, for relkvanu_call_line and relkvanu_make and of relkvanu_line_call. The first two do not read fields that its kind does not use;
 * the third sets them to 0. */
typedef struct {
    uint32_t kind;   /* RELKVANU_CALL_TICK to RELKVANU_CALL_ADVANCE */
    uint16_t vertex; /* with index: the subtask of an ack or a decline */
    uint16_t index;
    uint64_t now;    /* the moment, if the kind has one */
    uint64_t number; /* of the record or file; for a restore the savepoint or 0; a take the most files; a fence or an advance the first name; a
                        reserve how many */
    uint64_t term;   /* the term of the caller, or 0 for none; a fence has none; of an advance the greatest that was told */
} relkvanu_call;

/* What a call that was made leaves, of relkvanu_make. */
typedef struct {
    uint64_t written; /* bytes of its line */
    uint64_t waited;  /* files that waited for deletion before the call */
    uint64_t in_use;  /* files that live records use now, each counted once */
    uint64_t waiting; /* files that wait now: the call put those from the place waited on there */
    uint64_t taken;   /* files that were fetched, and are not yet reported */
} relkvanu_made;

/* How many answers a caller's buffer holds back, beside these answers. Plain memory of the caller. {0}: none. Behind a group that has failed the next
 * one is {.given = failed.given}: then no receipt of the failed one comes again. */
typedef struct {
    uint64_t waiting; /* answers that wait for a sync, from the first place on */
    uint64_t told;    /* answers that may be told, from the first place on */
    bool has_failed;  /* no answer is held back or told any more */
    uint64_t given;   /* the next receipt, at most 2^62: receipts count up for ever */
} relkvanu_group;

/* The alignment of a task, beside the bytes of its inputs. Plain memory of the caller, which relkvanu_align_open fills. */
typedef struct {
    uint64_t latest; /* the greatest record that an alignment began for; 0 before the first */
} relkvanu_aligner;

/* The recorder of a task, beside the bytes of its inputs. Plain memory of the caller, which relkvanu_unaligned_open fills. */
typedef struct {
    uint64_t latest; /* the greatest record that was begun; 0 before the first */
    uint32_t phase;  /* what is done for it: 0 nothing, 1 it is aligned, otherwise it is recorded */
} relkvanu_recorder;

/* What an engine does next, of the functions relkvanu_align_... and relkvanu_unaligned_... */
typedef struct {
    uint32_t what; /* one of RELKVANU_STEP_PROCESS to RELKVANU_STEP_COMPLETE */
    uint64_t id;   /* the record of a cut or of an abandon, otherwise 0 */
} relkvanu_step;

/* code */
#define RELKVANU_DONE 0u         /* the call was made: what is a reply */
#define RELKVANU_REFUSED 1u      /* nothing has changed: what is a refusal */
#define RELKVANU_NO_MEMORY 2u    /* nothing has changed; what, a and b are 0: make the same call again later */
#define RELKVANU_CLOSED 3u       /* the handle has no coordinator; what, a and b are 0 */
#define RELKVANU_BAD_ARGUMENT 4u /* nothing has changed: what is an argument. "refused {name}" */
#define RELKVANU_TOO_SHORT 5u    /* nothing has changed: the buffer needs a places, and a second one b; what is 0. "too short {a}" */
#define RELKVANU_BAD_LINE 6u     /* nothing has changed: what is a fault of a line. "fault {name}" */
#define RELKVANU_FENCED 7u       /* nothing has changed: what says why the term or the names refuse the call. "fenced {name}" */

/* what, if code is RELKVANU_DONE */
#define RELKVANU_OPENED 0u
#define RELKVANU_TICK_TRIGGERED 1u       /* a: expired records, b: number. A checkpoint was triggered. "tick expired {a} triggered {b}" */
#define RELKVANU_TICK_HELD_INTERVAL 2u   /* a: expired records. No checkpoint is due yet. "tick expired {a} held interval" */
#define RELKVANU_TICK_HELD_AT_ONCE 3u    /* a: expired records. As many checkpoints are pending as may be. "tick expired {a} held at-once" */
#define RELKVANU_TICK_HELD_PAUSE 4u      /* a: expired records. The pause after the last completion has not passed. "tick expired {a} held pause" */
#define RELKVANU_TICK_FAILED 5u          /* a: expired records. Too many checkpoints failed in a row: restore the job. "tick expired {a} failed" */
#define RELKVANU_SAVEPOINT_TRIGGERED 6u  /* a: number. A savepoint was triggered */
#define RELKVANU_ACK_PENDING 7u          /* a: subtasks missing. The record is not complete yet */
#define RELKVANU_ACK_COMPLETED 8u        /* a: records dropped, b: files released. The record is complete */
#define RELKVANU_ACK_LATE 9u             /* a: fresh files that this call handed out for deletion. The record was done or had ended */
#define RELKVANU_DECLINE_ABORTED 10u     /* a: files released. The record is dropped */
#define RELKVANU_DECLINE_FAILED 11u      /* a: files released. The record is dropped, and the job has failed: restore it */
#define RELKVANU_DECLINE_LATE 12u        /* the record was done or had ended */
#define RELKVANU_DISPOSED 13u            /* a: files released. The savepoint is gone */
#define RELKVANU_RESTORED_CHECKPOINT 14u /* a: files released, b: number. The job begins again from a checkpoint. "restored checkpoint {b} {a}" */
#define RELKVANU_RESTORED_SAVEPOINT 15u  /* a: files released, b: number. The job begins again from a savepoint. "restored savepoint {b} {a}" */
#define RELKVANU_RESTORED_FRESH 16u      /* a: files released. The job begins again from nothing */
#define RELKVANU_CANCELLED 17u           /* a: records dropped, b: files released. The job has ended for good */
#define RELKVANU_TAKEN 18u               /* a: files at the start of the buffer */
#define RELKVANU_DELETED 19u             /* a: file. The file is forgotten */
#define RELKVANU_UNDELETED 20u           /* a: file. The file waits again */
#define RELKVANU_SHOWN 21u               /* a: bytes at the start of the buffer */
#define RELKVANU_COUNTED 22u             /* a: file, b: uses. The uses by live records. "count {a} {b}" */
#define RELKVANU_CONFIGURED 61u          /* a: checkpoints dropped, b: files released. The job has the new settings */

/* what, if a read is RELKVANU_DONE */
#define RELKVANU_MODE_RUNNING 23u   /* the job takes checkpoints */
#define RELKVANU_MODE_FAILED 24u    /* too many checkpoints failed in a row: restore the job */
#define RELKVANU_MODE_CANCELLED 25u /* the job has ended for good */
#define RELKVANU_DUE 26u            /* a: moment */
#define RELKVANU_EXPIRES 27u        /* a: moment */
#define RELKVANU_NONE_PENDING 28u
#define RELKVANU_CHOICE_CHECKPOINT 29u /* a: number */
#define RELKVANU_CHOICE_SAVEPOINT 30u  /* a: number */
#define RELKVANU_CHOICE_FRESH 31u
#define RELKVANU_LIVE_CHECKPOINT 32u /* a: number, b: 1 if it is done, 0 if it is pending */
#define RELKVANU_LIVE_SAVEPOINT 33u  /* a: number, b: 1 if it is done, 0 if it is pending */
#define RELKVANU_LIVE_NONE 34u       /* there are fewer live records */
#define RELKVANU_MISSING 35u         /* a: subtasks */
#define RELKVANU_NOT_PENDING 36u
#define RELKVANU_MOMENT 55u /* a: moment */

/* what, if a line is RELKVANU_DONE */
#define RELKVANU_SKIPPED 37u     /* the line makes no call: it has no words or is a comment */
#define RELKVANU_LINE_SKIP 38u   /* a: 0 */
#define RELKVANU_LINE_CONFIG 39u /* a: 7, the numbers at the start of the buffer: those of relkvanu_settings, in its order */
#define RELKVANU_LINE_JOB 40u    /* a: how many numbers are at the start of the buffer: the parallelism of each vertex */
#define RELKVANU_LINE_START 41u  /* a: 1, the number at the start of the buffer: the moment */
#define RELKVANU_LINE_CALL 42u   /* a: 0; of relkvanu_line_call a, b: the items at the start of first and of second */
#define RELKVANU_LINE_ALL 43u    /* a: 4, the numbers at the start of the buffer: moment, record, threads, first file */
#define RELKVANU_WRITTEN 44u     /* a: bytes at the start of the buffer */

/* what, if a save is RELKVANU_DONE */
#define RELKVANU_SAVED 45u /* a: bytes at the start of the buffer */

/* what, if a read for a recovery is RELKVANU_DONE */
#define RELKVANU_STANDS_PENDING 46u   /* a live record has the number, and lacks an acknowledgement */
#define RELKVANU_STANDS_DONE 47u      /* a live record has the number, and is complete */
#define RELKVANU_STANDS_ENDED 48u     /* a record had the number, and is no longer live */
#define RELKVANU_STANDS_NOT_YET 49u   /* no record has had the number so far */
#define RELKVANU_STANDS_NEVER 50u     /* the number is below the first one of the opening */
#define RELKVANU_FILES 51u            /* a: files at the start of the buffer */
#define RELKVANU_NOT_ACKNOWLEDGED 52u /* no live record has the number, or the subtask has not acknowledged in it */
#define RELKVANU_WAITING 53u          /* a: file */
#define RELKVANU_NONE_WAITS 54u       /* there are fewer waiting files */

/* what, if a call on terms and names is RELKVANU_DONE */
#define RELKVANU_RESERVED 56u /* a: the first name, b: how many: the others follow it */
#define RELKVANU_FORFEITED 57u
#define RELKVANU_TERM 58u    /* a: the term that runs, b: the next name */
#define RELKVANU_NAMED 59u   /* the handle has names now */
#define RELKVANU_GARBAGE 60u /* of relkvanu_garbage a, b: the files at the start of garbage and of unissued */

/* what, if a call on a group is RELKVANU_DONE */
#define RELKVANU_APPEND 62u    /* a: receipt. The call was made: its line is to be appended, and its answer is held back */
#define RELKVANU_HELD_BACK 63u /* a: receipt. Nothing is to be appended, and the answer is held back */
#define RELKVANU_SYNCED 64u    /* a: answers that may be told */

/* what, if code is RELKVANU_REFUSED; they are checked in this order */
#define RELKVANU_MOMENT_TOO_LARGE 1u     /* the moment is above its limit */
#define RELKVANU_NOT_RUNNING 2u          /* the job has failed or was cancelled */
#define RELKVANU_TOO_MANY_FILES 3u       /* an acknowledgement has more than 4096 files */
#define RELKVANU_REPEATED_FILE 4u        /* an acknowledgement names a file twice */
#define RELKVANU_UNKNOWN_CHECKPOINT 5u   /* no record has had the number */
#define RELKVANU_UNKNOWN_SUBTASK 6u      /* the job has no such subtask */
#define RELKVANU_ALREADY_ACKNOWLEDGED 7u /* the subtask has acknowledged in this record. Its files may belong to the coordinator: do not delete them */
#define RELKVANU_NAME_TAKEN 8u           /* a: file. The coordinator knows a file with the number of a fresh one. It may be in use: do not delete it */
#define RELKVANU_FILE_GONE 9u            /* a: file. A reused file is no longer in use: the task writes its state again, under a new number */
#define RELKVANU_NO_SUCH_SAVEPOINT 10u   /* no completed savepoint has the number */
#define RELKVANU_IN_USE 11u              /* the job would begin again from this savepoint */
#define RELKVANU_TOO_MANY_SAVEPOINTS 12u /* 1000 savepoints are pending or done */
#define RELKVANU_NOT_TAKEN 13u           /* the file was not fetched for deletion, or was reported before */
#define RELKVANU_NO_SUCH_RECORD 14u      /* no live record has the number */
#define RELKVANU_IDS_USED_UP 15u         /* no number is left for another record */
#define RELKVANU_AT_ONCE 16u             /* as many checkpoints are pending as may be, or more than the new settings allow */

/* what, if code is RELKVANU_FENCED */
#define RELKVANU_OLD_TERM 1u       /* the term of the task has ended, or has not begun */
#define RELKVANU_ENDED 2u          /* the job was cancelled, and no task runs */
#define RELKVANU_BAD_COUNT 3u      /* it would reserve no name, or more than 65536 */
#define RELKVANU_NAMES_USED_UP 4u  /* all names up to 2^62 - 1 were given out */
#define RELKVANU_TERMS_USED_UP 5u  /* as many terms have ended as can be counted, 2^62 */
#define RELKVANU_SPENT 6u          /* a: file; its name was given out, and the term does not hold it: nobody deletes it for this answer */
#define RELKVANU_NEVER_RESERVED 7u /* a: file; its name was not given out */
#define RELKVANU_NO_NAMES 8u       /* the handle has no names */
#define RELKVANU_HAS_NAMES 9u      /* the handle has names */
#define RELKVANU_NAME_IN_USE 10u   /* a file with this number or a greater one is in use, waits for deletion or was fetched */

/* what, if code is RELKVANU_BAD_ARGUMENT */
#define RELKVANU_ALREADY_OPEN 1u /* the handle has a coordinator already */
#define RELKVANU_BAD_CONFIG 2u   /* a value of the settings is outside its limits */
#define RELKVANU_BAD_SHAPE 3u    /* 1 to 256 vertices, at least 1 subtask each, at most 4096 in sum */
#define RELKVANU_BAD_MOMENT 4u   /* the moment of an opening is above 2^62 - 1 */
#define RELKVANU_BAD_FIRST 5u    /* the number of the first record is not within 1 to 2^62 - 1 */
#define RELKVANU_BAD_KIND 6u     /* the kind of a call that is to be written */
#define RELKVANU_BAD_IMAGE 7u    /* the bytes are not an image, or the state is not sound, or no coordinator could be opened so */
#define RELKVANU_BAD_NAME 8u     /* the first name is 0 or above 2^62 */
#define RELKVANU_BAD_GROUP 9u    /* the group has failed: open the handle again, from the log */
#define RELKVANU_BAD_RECEIPT 10u /* no answer may be told by the receipt, or there is no place or receipt for another answer */

/* what, if code is RELKVANU_BAD_LINE: the first fault from the left */
#define RELKVANU_FAULT_TOO_LONG 1u /* a line has at most 131072 bytes */
#define RELKVANU_FAULT_WORD 2u     /* a word that does not belong there */
#define RELKVANU_FAULT_MISSING 3u  /* the line ends before a word that it needs */
#define RELKVANU_FAULT_NUMBER 4u   /* not a number, or not a subtask */
#define RELKVANU_FAULT_EXTRA 5u    /* a word follows the last one */
#define RELKVANU_FAULT_NO_CALL 6u  /* a config, job, start or all line, or in and a term before what is no call: it was read, and makes no call */

/* kind of a call */
#define RELKVANU_CALL_TICK 1u
#define RELKVANU_CALL_SAVEPOINT 2u
#define RELKVANU_CALL_ACK 3u
#define RELKVANU_CALL_DECLINE 4u
#define RELKVANU_CALL_DISPOSE 5u
#define RELKVANU_CALL_RESTORE 6u
#define RELKVANU_CALL_CANCEL 7u
#define RELKVANU_CALL_TAKE 8u
#define RELKVANU_CALL_DELETED 9u
#define RELKVANU_CALL_UNDELETED 10u
#define RELKVANU_CALL_SHOW 11u
#define RELKVANU_CALL_COUNT 12u
#define RELKVANU_CALL_FENCE 13u   /* the job gives out names from here on */
#define RELKVANU_CALL_RESERVE 14u /* a task reserves names */
#define RELKVANU_CALL_FORFEIT 15u /* a task gives up names */
#define RELKVANU_CALL_TRIGGER 16u
#define RELKVANU_CALL_CONFIGURE 17u
#define RELKVANU_CALL_ADVANCE 18u /* the job goes on above the terms and names that were told */

/* what of a step */
#define RELKVANU_STEP_PROCESS 1u       /* process the element now */
#define RELKVANU_STEP_HOLD 2u          /* leave the element, and all behind it, on its input, until the next cut or abandon */
#define RELKVANU_STEP_NOTHING 3u       /* nothing is to be done: no record is being aligned */
#define RELKVANU_STEP_WAIT 4u          /* go on: an open input has not delivered the barrier yet */
#define RELKVANU_STEP_LATE 5u          /* drop the barrier and go on: the record was cut or given up, or is below one that was begun */
#define RELKVANU_STEP_CUT 6u           /* take the snapshot for record id now, and then send its barrier on each output, before anything else */
#define RELKVANU_STEP_ABANDON 7u       /* decline record id: it can no longer be cut */
#define RELKVANU_STEP_UNKNOWN_INPUT 8u /* nothing has changed: the task has no input with this number */
#define RELKVANU_STEP_HELD_INPUT 9u    /* nothing has changed: the barrier or the end has to wait until the input is released */
#define RELKVANU_STEP_ENDED_INPUT 10u  /* nothing has changed: the input has ended */
#define RELKVANU_STEP_BAD_INPUTS 11u   /* nothing has changed: a task has 1 to RELKVANU_MOST_INPUTS inputs */
/* Of relkvanu_unaligned_... alone. */
#define RELKVANU_STEP_RECORD 12u   /* add the element to the record, and process it before what comes behind it */
#define RELKVANU_STEP_SNAP 13u     /* as RELKVANU_STEP_CUT of record id, but do not acknowledge yet: what comes before its barrier is recorded */
#define RELKVANU_STEP_COMPLETE 14u /* acknowledge record id, with its snapshot and with what was recorded */

#define RELKVANU_MOST_INPUTS 4096 /* the most inputs of a task */

/* The same numbers as types, for debuggers, and for a compiler that warns of a switch which lacks one: switch ((enum relkvanu_refusal)
 * answer.what). A later version may give others. The packages of other languages and relkvanu_answer_text are made from these, and from the
 * comments of the numbers: the numbers a and b come first, and an answer's text last, in quotes, if it is not the name and these numbers. */

/* What an answer is. */
enum relkvanu_code {
    relkvanu_code_done = RELKVANU_DONE,
    relkvanu_code_refused = RELKVANU_REFUSED,
    relkvanu_code_no_memory = RELKVANU_NO_MEMORY,
    relkvanu_code_closed = RELKVANU_CLOSED,
    relkvanu_code_bad_argument = RELKVANU_BAD_ARGUMENT,
    relkvanu_code_too_short = RELKVANU_TOO_SHORT,
    relkvanu_code_bad_line = RELKVANU_BAD_LINE,
    relkvanu_code_fenced = RELKVANU_FENCED
};

/* What was answered, if the code is RELKVANU_DONE. */
enum relkvanu_reply {
    relkvanu_reply_opened = RELKVANU_OPENED,
    relkvanu_reply_tick_triggered = RELKVANU_TICK_TRIGGERED,
    relkvanu_reply_tick_held_interval = RELKVANU_TICK_HELD_INTERVAL,
    relkvanu_reply_tick_held_at_once = RELKVANU_TICK_HELD_AT_ONCE,
    relkvanu_reply_tick_held_pause = RELKVANU_TICK_HELD_PAUSE,
    relkvanu_reply_tick_failed = RELKVANU_TICK_FAILED,
    relkvanu_reply_savepoint_triggered = RELKVANU_SAVEPOINT_TRIGGERED,
    relkvanu_reply_ack_pending = RELKVANU_ACK_PENDING,
    relkvanu_reply_ack_completed = RELKVANU_ACK_COMPLETED,
    relkvanu_reply_ack_late = RELKVANU_ACK_LATE,
    relkvanu_reply_decline_aborted = RELKVANU_DECLINE_ABORTED,
    relkvanu_reply_decline_failed = RELKVANU_DECLINE_FAILED,
    relkvanu_reply_decline_late = RELKVANU_DECLINE_LATE,
    relkvanu_reply_disposed = RELKVANU_DISPOSED,
    relkvanu_reply_restored_checkpoint = RELKVANU_RESTORED_CHECKPOINT,
    relkvanu_reply_restored_savepoint = RELKVANU_RESTORED_SAVEPOINT,
    relkvanu_reply_restored_fresh = RELKVANU_RESTORED_FRESH,
    relkvanu_reply_cancelled = RELKVANU_CANCELLED,
    relkvanu_reply_taken = RELKVANU_TAKEN,
    relkvanu_reply_deleted = RELKVANU_DELETED,
    relkvanu_reply_undeleted = RELKVANU_UNDELETED,
    relkvanu_reply_shown = RELKVANU_SHOWN,
    relkvanu_reply_counted = RELKVANU_COUNTED,
    relkvanu_reply_configured = RELKVANU_CONFIGURED,
    relkvanu_reply_mode_running = RELKVANU_MODE_RUNNING,
    relkvanu_reply_mode_failed = RELKVANU_MODE_FAILED,
    relkvanu_reply_mode_cancelled = RELKVANU_MODE_CANCELLED,
    relkvanu_reply_due = RELKVANU_DUE,
    relkvanu_reply_expires = RELKVANU_EXPIRES,
    relkvanu_reply_none_pending = RELKVANU_NONE_PENDING,
    relkvanu_reply_choice_checkpoint = RELKVANU_CHOICE_CHECKPOINT,
    relkvanu_reply_choice_savepoint = RELKVANU_CHOICE_SAVEPOINT,
    relkvanu_reply_choice_fresh = RELKVANU_CHOICE_FRESH,
    relkvanu_reply_live_checkpoint = RELKVANU_LIVE_CHECKPOINT,
    relkvanu_reply_live_savepoint = RELKVANU_LIVE_SAVEPOINT,
    relkvanu_reply_live_none = RELKVANU_LIVE_NONE,
    relkvanu_reply_missing = RELKVANU_MISSING,
    relkvanu_reply_not_pending = RELKVANU_NOT_PENDING,
    relkvanu_reply_moment = RELKVANU_MOMENT,
    relkvanu_reply_skipped = RELKVANU_SKIPPED,
    relkvanu_reply_line_skip = RELKVANU_LINE_SKIP,
    relkvanu_reply_line_config = RELKVANU_LINE_CONFIG,
    relkvanu_reply_line_job = RELKVANU_LINE_JOB,
    relkvanu_reply_line_start = RELKVANU_LINE_START,
    relkvanu_reply_line_call = RELKVANU_LINE_CALL,
    relkvanu_reply_line_all = RELKVANU_LINE_ALL,
    relkvanu_reply_written = RELKVANU_WRITTEN,
    relkvanu_reply_saved = RELKVANU_SAVED,
    relkvanu_reply_stands_pending = RELKVANU_STANDS_PENDING,
    relkvanu_reply_stands_done = RELKVANU_STANDS_DONE,
    relkvanu_reply_stands_ended = RELKVANU_STANDS_ENDED,
    relkvanu_reply_stands_not_yet = RELKVANU_STANDS_NOT_YET,
    relkvanu_reply_stands_never = RELKVANU_STANDS_NEVER,
    relkvanu_reply_files = RELKVANU_FILES,
    relkvanu_reply_not_acknowledged = RELKVANU_NOT_ACKNOWLEDGED,
    relkvanu_reply_waiting = RELKVANU_WAITING,
    relkvanu_reply_none_waits = RELKVANU_NONE_WAITS,
    relkvanu_reply_reserved = RELKVANU_RESERVED,
    relkvanu_reply_forfeited = RELKVANU_FORFEITED,
    relkvanu_reply_term = RELKVANU_TERM,
    relkvanu_reply_named = RELKVANU_NAMED,
    relkvanu_reply_garbage = RELKVANU_GARBAGE,
    relkvanu_reply_append = RELKVANU_APPEND,
    relkvanu_reply_held_back = RELKVANU_HELD_BACK,
    relkvanu_reply_synced = RELKVANU_SYNCED
};

/* Why a call was refused: the first of these that applies. */
enum relkvanu_refusal {
    relkvanu_refusal_moment_too_large = RELKVANU_MOMENT_TOO_LARGE,
    relkvanu_refusal_not_running = RELKVANU_NOT_RUNNING,
    relkvanu_refusal_too_many_files = RELKVANU_TOO_MANY_FILES,
    relkvanu_refusal_repeated_file = RELKVANU_REPEATED_FILE,
    relkvanu_refusal_unknown_checkpoint = RELKVANU_UNKNOWN_CHECKPOINT,
    relkvanu_refusal_unknown_subtask = RELKVANU_UNKNOWN_SUBTASK,
    relkvanu_refusal_already_acknowledged = RELKVANU_ALREADY_ACKNOWLEDGED,
    relkvanu_refusal_name_taken = RELKVANU_NAME_TAKEN,
    relkvanu_refusal_file_gone = RELKVANU_FILE_GONE,
    relkvanu_refusal_no_such_savepoint = RELKVANU_NO_SUCH_SAVEPOINT,
    relkvanu_refusal_in_use = RELKVANU_IN_USE,
    relkvanu_refusal_too_many_savepoints = RELKVANU_TOO_MANY_SAVEPOINTS,
    relkvanu_refusal_not_taken = RELKVANU_NOT_TAKEN,
    relkvanu_refusal_no_such_record = RELKVANU_NO_SUCH_RECORD,
    relkvanu_refusal_ids_used_up = RELKVANU_IDS_USED_UP,
    relkvanu_refusal_at_once = RELKVANU_AT_ONCE
};

/* Why a term or the names refuse a call. */
enum relkvanu_fenced {
    relkvanu_fenced_old_term = RELKVANU_OLD_TERM,
    relkvanu_fenced_ended = RELKVANU_ENDED,
    relkvanu_fenced_bad_count = RELKVANU_BAD_COUNT,
    relkvanu_fenced_names_used_up = RELKVANU_NAMES_USED_UP,
    relkvanu_fenced_terms_used_up = RELKVANU_TERMS_USED_UP,
    relkvanu_fenced_spent = RELKVANU_SPENT,
    relkvanu_fenced_never_reserved = RELKVANU_NEVER_RESERVED,
    relkvanu_fenced_no_names = RELKVANU_NO_NAMES,
    relkvanu_fenced_has_names = RELKVANU_HAS_NAMES,
    relkvanu_fenced_name_in_use = RELKVANU_NAME_IN_USE
};

/* The argument that is outside its limits. */
enum relkvanu_argument {
    relkvanu_argument_already_open = RELKVANU_ALREADY_OPEN,
    relkvanu_argument_bad_config = RELKVANU_BAD_CONFIG,
    relkvanu_argument_bad_shape = RELKVANU_BAD_SHAPE,
    relkvanu_argument_bad_moment = RELKVANU_BAD_MOMENT,
    relkvanu_argument_bad_first = RELKVANU_BAD_FIRST,
    relkvanu_argument_bad_kind = RELKVANU_BAD_KIND,
    relkvanu_argument_bad_image = RELKVANU_BAD_IMAGE,
    relkvanu_argument_bad_name = RELKVANU_BAD_NAME,
    relkvanu_argument_bad_group = RELKVANU_BAD_GROUP,
    relkvanu_argument_bad_receipt = RELKVANU_BAD_RECEIPT
};

/* What is wrong with a line: the first fault from the left. */
enum relkvanu_line_fault {
    relkvanu_line_fault_too_long = RELKVANU_FAULT_TOO_LONG,
    relkvanu_line_fault_word = RELKVANU_FAULT_WORD,
    relkvanu_line_fault_missing = RELKVANU_FAULT_MISSING,
    relkvanu_line_fault_number = RELKVANU_FAULT_NUMBER,
    relkvanu_line_fault_extra = RELKVANU_FAULT_EXTRA,
    relkvanu_line_fault_no_call = RELKVANU_FAULT_NO_CALL
};

/* Which call it is. */
enum relkvanu_call_kind {
    relkvanu_call_kind_tick = RELKVANU_CALL_TICK,
    relkvanu_call_kind_savepoint = RELKVANU_CALL_SAVEPOINT,
    relkvanu_call_kind_ack = RELKVANU_CALL_ACK,
    relkvanu_call_kind_decline = RELKVANU_CALL_DECLINE,
    relkvanu_call_kind_dispose = RELKVANU_CALL_DISPOSE,
    relkvanu_call_kind_restore = RELKVANU_CALL_RESTORE,
    relkvanu_call_kind_cancel = RELKVANU_CALL_CANCEL,
    relkvanu_call_kind_take = RELKVANU_CALL_TAKE,
    relkvanu_call_kind_deleted = RELKVANU_CALL_DELETED,
    relkvanu_call_kind_undeleted = RELKVANU_CALL_UNDELETED,
    relkvanu_call_kind_show = RELKVANU_CALL_SHOW,
    relkvanu_call_kind_count = RELKVANU_CALL_COUNT,
    relkvanu_call_kind_fence = RELKVANU_CALL_FENCE,
    relkvanu_call_kind_reserve = RELKVANU_CALL_RESERVE,
    relkvanu_call_kind_forfeit = RELKVANU_CALL_FORFEIT,
    relkvanu_call_kind_trigger = RELKVANU_CALL_TRIGGER,
    relkvanu_call_kind_configure = RELKVANU_CALL_CONFIGURE,
    relkvanu_call_kind_advance = RELKVANU_CALL_ADVANCE
};

/* What an engine does next. */
enum relkvanu_step_kind {
    relkvanu_step_kind_process = RELKVANU_STEP_PROCESS,
    relkvanu_step_kind_hold = RELKVANU_STEP_HOLD,
    relkvanu_step_kind_nothing = RELKVANU_STEP_NOTHING,
    relkvanu_step_kind_wait = RELKVANU_STEP_WAIT,
    relkvanu_step_kind_late = RELKVANU_STEP_LATE,
    relkvanu_step_kind_cut = RELKVANU_STEP_CUT,
    relkvanu_step_kind_abandon = RELKVANU_STEP_ABANDON,
    relkvanu_step_kind_unknown_input = RELKVANU_STEP_UNKNOWN_INPUT,
    relkvanu_step_kind_held_input = RELKVANU_STEP_HELD_INPUT,
    relkvanu_step_kind_ended_input = RELKVANU_STEP_ENDED_INPUT,
    relkvanu_step_kind_bad_inputs = RELKVANU_STEP_BAD_INPUTS,
    relkvanu_step_kind_record = RELKVANU_STEP_RECORD,
    relkvanu_step_kind_snap = RELKVANU_STEP_SNAP,
    relkvanu_step_kind_complete = RELKVANU_STEP_COMPLETE
};

/* Opens a coordinator in a closed handle, from the moment now on. Its first record has the number first, 1 to 2^62 - 1.
 * The shape is the parallelism of each vertex: 1 to 256 vertices, at least 1 each, at most 4096 in sum. Take the two words
 * from a source of random numbers. They key the maps of files, so that no choice of file numbers makes calls slow. They
 * change no answer.
 *
 * RELKVANU_OPENED; or RELKVANU_BAD_ARGUMENT, and the handle stays as it was: RELKVANU_ALREADY_OPEN,
 * RELKVANU_BAD_CONFIG, RELKVANU_BAD_SHAPE, RELKVANU_BAD_MOMENT, RELKVANU_BAD_FIRST, checked in this order. Takes memory: after
 * RELKVANU_NO_MEMORY the handle is closed, as before. */
RELKVANU_NODISCARD relkvanu_answer relkvanu_open(relkvanu *handle, const relkvanu_settings *settings, const uint64_t *shape, size_t shape_len, uint64_t now, uint64_t first, uint64_t first_word, uint64_t second_word);

/* Closes the coordinator and frees its memory. A closed handle stays closed. */
void relkvanu_close(relkvanu *handle);

/* Time has passed: records that are too old expire, and a checkpoint is triggered if one is due.
 *
 * RELKVANU_TICK_TRIGGERED to RELKVANU_TICK_FAILED. Refused: RELKVANU_MOMENT_TOO_LARGE, RELKVANU_NOT_RUNNING, RELKVANU_IDS_USED_UP.
 * Takes memory only if it triggers. */
RELKVANU_NODISCARD relkvanu_answer relkvanu_tick(relkvanu *handle, uint64_t now);

/* Triggers a checkpoint now, whatever the interval and the pause. Nothing expires: make a tick first if records may be too old.
 * The interval counts from it, as after a tick that triggers.
 *
 * RELKVANU_TICK_TRIGGERED with a 0. Refused: RELKVANU_MOMENT_TOO_LARGE, RELKVANU_NOT_RUNNING, RELKVANU_IDS_USED_UP, RELKVANU_AT_ONCE.
 * Takes memory. */
RELKVANU_NODISCARD relkvanu_answer relkvanu_trigger(relkvanu *handle, uint64_t now);

/* Triggers a savepoint. At most 1000 savepoints are pending or done.
 *
 * RELKVANU_SAVEPOINT_TRIGGERED. Refused: RELKVANU_MOMENT_TOO_LARGE, RELKVANU_NOT_RUNNING, RELKVANU_TOO_MANY_SAVEPOINTS,
 * RELKVANU_IDS_USED_UP. Takes memory. */
RELKVANU_NODISCARD relkvanu_answer relkvanu_savepoint(relkvanu *handle, uint64_t now);

/* The subtask vertex.index has taken its part of record id. fresh has the files that it wrote. reused has files of
 * earlier records that it uses again. Both may be in any order, with at most 4096 files together.
 *
 * RELKVANU_ACK_PENDING, RELKVANU_ACK_COMPLETED or RELKVANU_ACK_LATE: the fresh files belong to the coordinator now. Refused:
 * RELKVANU_MOMENT_TOO_LARGE, RELKVANU_TOO_MANY_FILES, RELKVANU_REPEATED_FILE, RELKVANU_UNKNOWN_CHECKPOINT, RELKVANU_UNKNOWN_SUBTASK,
 * RELKVANU_ALREADY_ACKNOWLEDGED, RELKVANU_NAME_TAKEN, RELKVANU_FILE_GONE. After a refusal the task must not delete a file that
 * an accepted acknowledgement ever named. The call first copies the two lists, which takes memory. So it may return
 * RELKVANU_NO_MEMORY instead of a refusal. */
RELKVANU_NODISCARD relkvanu_answer relkvanu_ack(relkvanu *handle, uint64_t now, uint64_t id, uint16_t vertex, uint16_t index, const uint64_t *fresh, size_t fresh_len, const uint64_t *reused, size_t reused_len);

/* The subtask vertex.index could not take its part of record id.
 *
 * RELKVANU_DECLINE_ABORTED, RELKVANU_DECLINE_FAILED (too many checkpoints failed in a row) or RELKVANU_DECLINE_LATE. Refused:
 * RELKVANU_MOMENT_TOO_LARGE, RELKVANU_UNKNOWN_CHECKPOINT, RELKVANU_UNKNOWN_SUBTASK. Takes no memory. */
RELKVANU_NODISCARD relkvanu_answer relkvanu_decline(relkvanu *handle, uint64_t now, uint64_t id, uint16_t vertex, uint16_t index);

/* A user disposes of the completed savepoint id.
 *
 * RELKVANU_DISPOSED. Refused: RELKVANU_NO_SUCH_SAVEPOINT, RELKVANU_IN_USE. Takes no memory. */
RELKVANU_NODISCARD relkvanu_answer relkvanu_dispose(relkvanu *handle, uint64_t id);

/* The job begins again: from a savepoint, or from the latest record if savepoint is 0. With shape_len above 0 it
 * begins in a new shape, within the limits of relkvanu_open. Otherwise it keeps its current shape.
 *
 * RELKVANU_RESTORED_CHECKPOINT, RELKVANU_RESTORED_SAVEPOINT or RELKVANU_RESTORED_FRESH. RELKVANU_BAD_ARGUMENT with RELKVANU_BAD_SHAPE is checked
 * first. Refused: RELKVANU_MOMENT_TOO_LARGE, RELKVANU_NOT_RUNNING (cancelled), RELKVANU_NO_SUCH_SAVEPOINT. The call first copies the
 * shape, which takes memory. So it may return RELKVANU_NO_MEMORY instead of a refusal. Without a shape it takes
 * no memory. */
RELKVANU_NODISCARD relkvanu_answer relkvanu_restore(relkvanu *handle, uint64_t now, uint64_t savepoint, const uint64_t *shape, size_t shape_len);

/* The job ends for good.
 *
 * RELKVANU_CANCELLED. Refused: RELKVANU_MOMENT_TOO_LARGE, RELKVANU_NOT_RUNNING (cancelled). Takes no memory. */
RELKVANU_NODISCARD relkvanu_answer relkvanu_cancel(relkvanu *handle, uint64_t now);

/* The job has these settings from now on, until the next call of this kind. A job that has failed may have others too.
 *
 * It deletes: done checkpoints above the new number retained, the oldest first, are dropped at once, and their files wait for deletion.
 * The next checkpoint is due when it was, and at the latest one new interval from now. Nothing expires before the next tick, and
 * the failures in a row count on, as many as are tolerated now.
 *
 * RELKVANU_CONFIGURED. RELKVANU_BAD_ARGUMENT with RELKVANU_BAD_CONFIG is checked first. Refused: RELKVANU_MOMENT_TOO_LARGE,
 * RELKVANU_NOT_RUNNING (cancelled), RELKVANU_AT_ONCE. Takes no memory. */
RELKVANU_NODISCARD relkvanu_answer relkvanu_configure(relkvanu *handle, uint64_t now, const relkvanu_settings *settings);

/* Fetches at most files_len files that wait for deletion, the longest waiting first, and writes them to the
 * start of files. Report each one by relkvanu_deleted or relkvanu_undeleted.
 *
 * RELKVANU_TAKEN; a is 0 if no file waits. Never refused. Takes memory: after RELKVANU_NO_MEMORY the files still
 * wait, and the buffer has not changed. */
RELKVANU_NODISCARD relkvanu_answer relkvanu_take(relkvanu *handle, uint64_t *files, size_t files_len);

/* A fetched file is deleted: the coordinator forgets it.
 *
 * RELKVANU_DELETED. Refused: RELKVANU_NOT_TAKEN. Takes no memory. */
RELKVANU_NODISCARD relkvanu_answer relkvanu_deleted(relkvanu *handle, uint64_t file);

/* A fetched file could not be deleted: it waits again, behind all others.
 *
 * RELKVANU_UNDELETED. Refused: RELKVANU_NOT_TAKEN. Takes no memory. */
RELKVANU_NODISCARD relkvanu_answer relkvanu_undeleted(relkvanu *handle, uint64_t file);

/* Writes the metadata of a live record as JSON, without a zero at its end.
 *
 * RELKVANU_SHOWN; or RELKVANU_TOO_SHORT, and a is its number of bytes: call again with a buffer of that many. Refused:
 * RELKVANU_NO_SUCH_RECORD. Takes memory, even if the buffer is too short. Only RELKVANU_SHOWN changes the buffer. */
RELKVANU_NODISCARD relkvanu_answer relkvanu_show(relkvanu *handle, uint64_t id, uint8_t *json, size_t json_len);

/* The number of uses of a file, by acknowledgements and pins of live records.
 *
 * RELKVANU_COUNTED. Never refused. Takes no memory. */
relkvanu_answer relkvanu_count(relkvanu *handle, uint64_t file);

/* Reads. None takes memory or changes anything. On an open handle each returns RELKVANU_DONE. A read takes the state out of the handle
 * meanwhile, so not even two reads of one handle may run at the same time: reads need the lock that calls need. */

/* What the job is doing: RELKVANU_MODE_RUNNING, RELKVANU_MODE_FAILED or RELKVANU_MODE_CANCELLED. */
relkvanu_answer relkvanu_mode(relkvanu *handle);

/* RELKVANU_MOMENT: the greatest moment that the coordinator has seen, at its opening or in an accepted call. It takes an
 * earlier moment for this one. So it shows whether a clock has run ahead. */
relkvanu_answer relkvanu_moment(relkvanu *handle);

/* RELKVANU_DUE: the moment from which neither the interval nor the pause holds a checkpoint back. No
 * tick before it triggers one. A tick at it or later triggers one, with three exceptions: as many are pending as may
 * be, the job is not running, or so many checkpoints expire in the tick that the job fails over. A call that
 * triggers, completes, restores or configures may move this moment, so read it again after a call. */
relkvanu_answer relkvanu_due(relkvanu *handle);

/* RELKVANU_EXPIRES: the moment from which a pending record is expired. A tick at that moment drops the record.
 * RELKVANU_NONE_PENDING if no record is pending. Visits each pending record. */
relkvanu_answer relkvanu_oldest_expiry(relkvanu *handle);

/* The record that a restore of the latest would begin from: RELKVANU_CHOICE_CHECKPOINT, RELKVANU_CHOICE_SAVEPOINT or
 * RELKVANU_CHOICE_FRESH. */
relkvanu_answer relkvanu_choice(relkvanu *handle);

/* The live record at this place, from 0, in order of their numbers: RELKVANU_LIVE_CHECKPOINT or
 * RELKVANU_LIVE_SAVEPOINT; RELKVANU_LIVE_NONE past the last. The time grows with the place. */
relkvanu_answer relkvanu_live(relkvanu *handle, size_t place);

/* RELKVANU_MISSING: how many subtasks of this record have not acknowledged. RELKVANU_NOT_PENDING if no record with this
 * number is pending. */
relkvanu_answer relkvanu_missing(relkvanu *handle, uint64_t id);

/* How many files are in use by live records, wait for deletion, and were fetched for deletion. */
relkvanu_counts relkvanu_file_counts(relkvanu *handle);

/* Returns the length of the name of the refusal with this number, such as "NotRunning", or 0 if no refusal has the
 * number. Writes the name, without a zero at its end, if text_len is at least the length. */
size_t relkvanu_refusal_text(uint32_t what, uint8_t *text, size_t text_len);

/* Returns the length of the text of an answer, such as "tick expired 0 triggered 1", "refused NameTaken 7", "no memory" or, for an answer
 * that this version does not have, "unknown code 9, what 3, a 0, b 0". No text is longer than RELKVANU_ANSWER_TEXT. Writes the text, without
 * a zero at its end, if text_len is at least the length. The reply to a call has the text that a script prints (docs/SCRIPT.md); that to a
 * take or show has the count alone, as "taken 3". Takes no memory. */
size_t relkvanu_answer_text(const relkvanu_answer *answer, uint8_t *text, size_t text_len);
#define RELKVANU_ANSWER_TEXT 128 /* no text of an answer has more bytes */

/* Lines of a log, to replay its calls, and of a script. docs/SCRIPT.md defines the lines of scripts. docs/LOGS.md defines those that scripts
 * do not have, for calls on names and calls with a term: fence, reserve, forfeit, advance and in. A line is the bytes before its newline, at
 * most 131072. A carriage return at its end is dropped. A log may have any number of lines. */

/* Makes the call of a line, and returns what the function of that call returns.
 *
 * A take line writes the files that it fetches to the start of files. If it would fetch more than files_len, the
 * answer is RELKVANU_TOO_SHORT, a is how many places it needs, and nothing has changed. A show line returns what
 * relkvanu_show returns with an empty buffer. A restore line with a bad shape returns RELKVANU_BAD_ARGUMENT with
 * RELKVANU_BAD_SHAPE. A line that has no words or is a comment returns RELKVANU_SKIPPED. A line that can't be read, or makes no
 * call, returns RELKVANU_BAD_LINE. Only RELKVANU_TAKEN changes the buffer. The call takes memory as its own function does, and for the
 * lists of an ack, job, restore or forfeit line. So such a line may return RELKVANU_NO_MEMORY instead of a refusal.
 *
 * A line with fence, reserve, forfeit or advance returns what relkvanu_fence and so on returns. An ack or a decline line
 * after in and a term returns what relkvanu_ack_in or relkvanu_decline_in returns. Each other call after in and a term returns what it
 * returns alone, but RELKVANU_FENCED with RELKVANU_NO_NAMES on a handle without names. After in and the term 0 a call is the one without a
 * term. */
RELKVANU_NODISCARD relkvanu_answer relkvanu_line(relkvanu *handle, const uint8_t *line, size_t line_len, uint64_t *files, size_t files_len);

/* Returns the kind of the line, RELKVANU_LINE_SKIP to RELKVANU_LINE_ALL. If the line makes no call, writes its numbers to the start
 * of numbers, in the line's order; keep is 1 and delete is 0. Checks no number against the limits of a job.
 *
 * RELKVANU_TOO_SHORT, and a is how many places it needs; or RELKVANU_BAD_LINE with the fault. Neither changes the buffer. A restore
 * line with a bad shape is RELKVANU_LINE_CALL, and so is each line with fence, reserve, forfeit, advance, in, trigger or configure:
 * relkvanu_line says what is wrong with it. Takes memory only for the lists of an ack, job, restore or forfeit line. */
RELKVANU_NODISCARD relkvanu_answer relkvanu_line_says(const uint8_t *line, size_t line_len, uint64_t *numbers, size_t numbers_len);

/* Writes the call that a line says: its kind, numbers and term to call, and its lists to the start of first and second. For an ack these
 * are the fresh and the reused files, each in ascending order. For a restore, first is the new shape, or empty. For a forfeit, first is the
 * names, in ascending order. For a configure, first is the seven numbers of relkvanu_settings, in its order; keep_on_cancel is 0 or 1. It
 * is the inverse of relkvanu_call_line: that function writes a line that says this call.
 *
 * RELKVANU_LINE_CALL, and a and b are how many items first and second have; RELKVANU_TOO_SHORT, and a and b are how many places they
 * need. A line that says no call, a restore line with a bad shape, or a configure line with bad settings, has the answer of relkvanu_line:
 * RELKVANU_SKIPPED, RELKVANU_BAD_LINE or RELKVANU_BAD_ARGUMENT. A restore line with the savepoint 0 is RELKVANU_REFUSED with
 * RELKVANU_NO_SUCH_SAVEPOINT, since 0 stands for the latest record in a relkvanu_call. Only RELKVANU_LINE_CALL changes call and the
 * buffers. Takes memory only for the lists of an ack, job, restore or forfeit line. */
RELKVANU_NODISCARD relkvanu_answer relkvanu_line_call(const uint8_t *line, size_t line_len, relkvanu_call *call, uint64_t *first, size_t first_len, uint64_t *second, size_t second_len);

/* Writes the line of a call, without a newline and without a zero at its end. relkvanu_line reads it as that call.
 *
 * For an ack, first and second are the fresh and the reused files, in any order. For a restore, first is the new shape, or
 * empty. For a forfeit, first is the names, in any order. For a configure, first is the seven numbers of relkvanu_settings, in its
 * order; keep_on_cancel is 0 or 1. A call with a term other than 0 is written after in and the term.
 *
 * RELKVANU_WRITTEN; RELKVANU_TOO_SHORT, and a is how many bytes it needs; RELKVANU_BAD_ARGUMENT with RELKVANU_BAD_KIND, RELKVANU_BAD_SHAPE
 * or RELKVANU_BAD_CONFIG; RELKVANU_BAD_LINE with RELKVANU_FAULT_TOO_LONG if the line would be too long. No line is cut. Only
 * RELKVANU_WRITTEN changes the buffer. Takes memory. */
RELKVANU_NODISCARD relkvanu_answer relkvanu_call_line(const relkvanu_call *call, const uint64_t *first, size_t first_len, const uint64_t *second, size_t second_len, uint8_t *line, size_t line_len);

/* Makes a call and writes its line: what relkvanu_call_line and then relkvanu_line do, in one call and without reading the line. It is for
 * programs that log each call which was made.
 *
 * call, first and second are those of relkvanu_call_line. The line has no newline and no zero at its end. A take writes the files that it
 * fetches to the start of files.
 *
 * The first of these that applies: RELKVANU_CLOSED; RELKVANU_BAD_ARGUMENT with RELKVANU_BAD_KIND, RELKVANU_BAD_SHAPE or
 * RELKVANU_BAD_CONFIG; RELKVANU_BAD_LINE with RELKVANU_FAULT_TOO_LONG if the line would be too long; RELKVANU_TOO_SHORT with a 0, and b is how many bytes line needs; what
 * relkvanu_line returns for the line. So RELKVANU_TOO_SHORT with b 0 is that of a take, and a is how many places files needs, or of a show,
 * which returns what relkvanu_show returns with an empty buffer. Only an answer with RELKVANU_DONE changes the handle, files, line or made.
 * Takes memory for the line, and as relkvanu_line does. */
RELKVANU_NODISCARD relkvanu_answer relkvanu_make(relkvanu *handle, const relkvanu_call *call, const uint64_t *first, size_t first_len, const uint64_t *second, size_t second_len, uint64_t *files, size_t files_len, uint8_t *line, size_t line_len, relkvanu_made *made);

/* Writes the lines config, job and start of a coordinator whose first record has the number 1, each with its newline.
 *
 * RELKVANU_WRITTEN; RELKVANU_TOO_SHORT, and a is how many bytes it needs; RELKVANU_BAD_ARGUMENT if relkvanu_open returns it, with
 * the same argument: RELKVANU_BAD_CONFIG, RELKVANU_BAD_SHAPE or RELKVANU_BAD_MOMENT. Only RELKVANU_WRITTEN changes the buffer. Takes
 * memory. */
RELKVANU_NODISCARD relkvanu_answer relkvanu_opening_lines(const relkvanu_settings *settings, const uint64_t *shape, size_t shape_len, uint64_t now, uint8_t *lines, size_t lines_len);

/* Groups, for programs with a log of their own: an answer is told only when what was made is synced. examples/c/log.c is a worked example.
 *
 * An answer that is told before its line is synced may be lost in a crash, and what it told is then told to somebody else: a record's number,
 * names of files, files to be deleted. A group keeps the order:
 * 1. relkvanu_group_make makes calls, and holds back their answers. Append the line of each call that says RELKVANU_APPEND, in this order.
 * 2. Sync the log. Then say so with relkvanu_group_synced. If an append or the sync has failed, call relkvanu_group_failed, close the handle,
 *    and begin again: open it with the image, make the calls of the log, and sync the log as one that was not synced.
 * 3. relkvanu_group_answer tells the answers.
 *
 * A group has no handle. It is memory of the caller, a relkvanu_group and a place for each answer, which only these functions write. Each such
 * memory is a group. Make one call at a time for each. A log that keeps answers beside its lines may copy them from there. None of these
 * functions takes memory, but relkvanu_group_make does what relkvanu_make does.
 *
 * Conditions for the caller: while a group is in use, no other function changes the handle, unless its answer is held back by
 * relkvanu_group_hold, and its line is appended in its place. A call that left the handle as it was needs no line: a take of no file. Nobody is told
 * what comes from elsewhere. relkvanu_group_synced is called only when all lines so far are synced. */

/* Makes a call and writes its line as relkvanu_make does, and holds its answer back.
 *
 * The first of these that applies: RELKVANU_BAD_ARGUMENT with RELKVANU_BAD_GROUP, or with RELKVANU_BAD_RECEIPT if waiting is held_len or given is 2^62;
 * RELKVANU_APPEND if relkvanu_make would return RELKVANU_DONE; RELKVANU_HELD_BACK if it would return RELKVANU_REFUSED or RELKVANU_FENCED; what
 * it would return. Only RELKVANU_APPEND changes the handle, files, line and made. Only it and RELKVANU_HELD_BACK change the group and held. The
 * first of them behind a sync ends what was told of that sync. */
RELKVANU_NODISCARD relkvanu_answer relkvanu_group_make(relkvanu *handle, relkvanu_group *group, relkvanu_answer *held, size_t held_len, const relkvanu_call *call, const uint64_t *first, size_t first_len, const uint64_t *second, size_t second_len, uint64_t *files, size_t files_len, uint8_t *line, size_t line_len, relkvanu_made *made);

/* Holds back the answer of any other function: of a read, or of a call whose line the program writes itself.
 *
 * RELKVANU_HELD_BACK; RELKVANU_BAD_ARGUMENT with RELKVANU_BAD_GROUP, or with RELKVANU_BAD_RECEIPT if waiting is held_len or given is 2^62. */
RELKVANU_NODISCARD relkvanu_answer relkvanu_group_hold(relkvanu_group *group, relkvanu_answer *held, size_t held_len, const relkvanu_answer *answer);

/* All lines so far are synced: what was held back may be told, until another answer is held back. What might be told before may be told no
 * more.
 *
 * RELKVANU_SYNCED; RELKVANU_BAD_ARGUMENT with RELKVANU_BAD_GROUP. */
RELKVANU_NODISCARD relkvanu_answer relkvanu_group_synced(relkvanu_group *group);

/* An append or a sync has failed: from now on the group holds nothing back, and tells nothing. */
void relkvanu_group_failed(relkvanu_group *group);

/* Returns the answer that was held back with this receipt, if it may be told. A receipt is given once, so however late it is asked, no other answer is
 * told by it.
 *
 * RELKVANU_BAD_ARGUMENT with RELKVANU_BAD_GROUP, or with RELKVANU_BAD_RECEIPT if it waits for a sync, was told of a sync before, or was never
 * held back. Such an answer may be one that was held back too, of another function. */
RELKVANU_NODISCARD relkvanu_answer relkvanu_group_answer(const relkvanu_group *group, const relkvanu_answer *held, size_t held_len, uint64_t receipt);

/* Images: save a coordinator, and open it again. docs/LOGS.md has the format. */

/* Writes the image of the coordinator, all of its state, as JSON without a zero at its end. A handle that is opened with the
 * image answers every list of calls as this one would. The image of a handle with names has its term and its names.
 *
 * RELKVANU_SAVED; RELKVANU_TOO_SHORT, and a is its number of bytes: call again with a buffer of that many. Only RELKVANU_SAVED
 * changes the buffer, and nothing else changes. Takes memory, even if the buffer is too short. */
RELKVANU_NODISCARD relkvanu_answer relkvanu_save(relkvanu *handle, uint8_t *image, size_t image_len);

/* Opens the coordinator that an image describes in a closed handle: with names if the image has names, otherwise without. The two
 * words have the meaning that they have in relkvanu_open. They may differ from those of the coordinator that was saved.
 *
 * Condition for the caller: all calls that were made after the save are made again, before any task makes a call. Otherwise names
 * that were given out since then are given out again, and a term that has ended runs again.
 *
 * RELKVANU_OPENED; or RELKVANU_BAD_ARGUMENT, and the handle stays as it was: RELKVANU_ALREADY_OPEN, RELKVANU_BAD_IMAGE. Takes memory: after
 * RELKVANU_NO_MEMORY the handle is closed, as before. */
RELKVANU_NODISCARD relkvanu_answer relkvanu_open_saved(relkvanu *handle, const uint8_t *image, size_t image_len, uint64_t first_word, uint64_t second_word);

/* Reads for a recovery. They change nothing but a buffer. If a buffer is too short, it stays as it was, and the read returns
 * RELKVANU_TOO_SHORT: a is how many places it needs. */

/* The live record with the least number that is at least id: RELKVANU_LIVE_CHECKPOINT or RELKVANU_LIVE_SAVEPOINT; RELKVANU_LIVE_NONE if
 * there is none. To visit all live records, begin with 0, and go on with the returned number plus 1. A binary search. Takes no
 * memory. */
relkvanu_answer relkvanu_live_from(relkvanu *handle, uint64_t id);

/* Whether the record with this number is pending, done or ended, or no record has had the number: RELKVANU_STANDS_PENDING to
 * RELKVANU_STANDS_NEVER. A binary search. Takes no memory. */
relkvanu_answer relkvanu_standing(relkvanu *handle, uint64_t id);

/* Writes the files that the subtask vertex.index acknowledged in the live record id, in ascending order.
 *
 * RELKVANU_FILES; RELKVANU_NOT_ACKNOWLEDGED; RELKVANU_TOO_SHORT. A binary search. Takes no memory. */
RELKVANU_NODISCARD relkvanu_answer relkvanu_files_of(relkvanu *handle, uint64_t id, uint16_t vertex, uint16_t index, uint64_t *files, size_t files_len);

/* Writes the files that the pending record id pins, in ascending order: the files of the record that a restart would have begun
 * from at its trigger. Writes none if no record with this number is pending.
 *
 * RELKVANU_FILES; RELKVANU_TOO_SHORT. Takes memory only if the record is pending. */
RELKVANU_NODISCARD relkvanu_answer relkvanu_pins_of(relkvanu *handle, uint64_t id, uint64_t *files, size_t files_len);

/* The file at this place, from 0, among those that wait for deletion. The next to be fetched is the first. RELKVANU_WAITING;
 * RELKVANU_NONE_WAITS past the last. Takes constant time and no memory. */
relkvanu_answer relkvanu_waiting_file(relkvanu *handle, size_t place);

/* Writes the files that were fetched for deletion and are not yet reported, in ascending order.
 *
 * RELKVANU_FILES; RELKVANU_TOO_SHORT. Visits each file that waits or was fetched. Takes memory. */
RELKVANU_NODISCARD relkvanu_answer relkvanu_taken_files(relkvanu *handle, uint64_t *files, size_t files_len);

/* Terms and names. A handle with names gives out the numbers of the files that tasks will write, each once, and tells in which term
 * the tasks run. Each accepted restore and cancel ends the term. What a task of an ended term sends is refused, and changes nothing.
 * So what it wrote and never acknowledged can be told from what is in use: relkvanu_garbage does.
 *
 * Conditions for the caller:
 * - Whoever restarts the tasks reads the term after the restore, and tells each of them. A task never asks for the term: one that
 *   should be dead would learn the new one.
 * - A log has all calls on names, with their terms, and in their order: relkvanu_call_line writes their lines, and relkvanu_line
 *   makes them again. A reservation is in the durable log before a task uses one of its names, and so is a restore before the tasks
 *   learn the term that it began. Otherwise a crash forgets them, and the names are given out again.
 *
 * On a handle with names a call without a term has the term 0, which none has: relkvanu_ack and relkvanu_decline are refused with
 * RELKVANU_OLD_TERM, and so are the lines of such calls, unless they begin with in and the term. relkvanu_restore, relkvanu_advance and
 * relkvanu_cancel end the term; after 2^62 terms they are refused with RELKVANU_TERMS_USED_UP. All other functions work as without.
 *
 * RELKVANU_FENCED and its reasons come before any RELKVANU_REFUSED. */

/* Opens a coordinator as relkvanu_open does, in term 1. The first name that it gives out is first_name, 1 to 2^62: all numbers of files
 * that were used before are below it.
 *
 * RELKVANU_OPENED; or RELKVANU_BAD_ARGUMENT, and the handle stays as it was: RELKVANU_ALREADY_OPEN, RELKVANU_BAD_CONFIG,
 * RELKVANU_BAD_SHAPE, RELKVANU_BAD_NAME, RELKVANU_BAD_MOMENT, RELKVANU_BAD_FIRST, checked in this order. Takes memory: after
 * RELKVANU_NO_MEMORY the handle is closed, as before. */
RELKVANU_NODISCARD relkvanu_answer relkvanu_open_fenced(relkvanu *handle, const relkvanu_settings *settings, const uint64_t *shape, size_t shape_len, uint64_t now, uint64_t first, uint64_t first_name, uint64_t first_word, uint64_t second_word);

/* Gives a coordinator names, from first_name on, 1 to 2^62, in term 1. All numbers of files that were used before have to be below it, those
 * of files that nobody acknowledged too: numbers below it count as given out. Make the call between the end of all tasks and their
 * restart, since a task that began before it has no term.
 *
 * RELKVANU_NAMED. RELKVANU_FENCED with RELKVANU_HAS_NAMES; RELKVANU_BAD_ARGUMENT with RELKVANU_BAD_NAME; RELKVANU_FENCED with
 * RELKVANU_NAME_IN_USE, checked in this order. Takes memory, and visits all files of the coordinator: it is called once in the life of a
 * job. */
RELKVANU_NODISCARD relkvanu_answer relkvanu_fence(relkvanu *handle, uint64_t first_name);

/* RELKVANU_TERM: the term that runs, and the next name that is given out. RELKVANU_FENCED with RELKVANU_NO_NAMES. Changes nothing, and
 * takes no memory. */
relkvanu_answer relkvanu_term(relkvanu *handle);

/* A task of this term reserves names for files that it will write, 1 to 65536 of them.
 *
 * RELKVANU_RESERVED. RELKVANU_FENCED: RELKVANU_NO_NAMES, RELKVANU_OLD_TERM, RELKVANU_ENDED, RELKVANU_BAD_COUNT, RELKVANU_NAMES_USED_UP,
 * checked in this order. Takes memory only if it reserves. */
RELKVANU_NODISCARD relkvanu_answer relkvanu_reserve(relkvanu *handle, uint64_t term, uint64_t count);

/* A task of this term gives up names that it will not acknowledge, such as those of a failed upload: their files are garbage then. Names
 * that the term does not hold are passed over, so the call can be repeated.
 *
 * RELKVANU_FORFEITED. RELKVANU_FENCED: RELKVANU_NO_NAMES, RELKVANU_OLD_TERM. The call first copies the list, which takes memory. */
RELKVANU_NODISCARD relkvanu_answer relkvanu_forfeit(relkvanu *handle, uint64_t term, const uint64_t *names, size_t names_len);

/* Begins a job again that goes on from an older image or log, such as one that was restored from a backup: relkvanu_restore of the latest, in
 * the shape that the job has, in a term above term, the greatest that any task was told, and with names from first_name on, 1 to 2^62, above
 * each that was given out. A smaller term and a smaller first_name lower nothing. Names that are passed over are garbage, unless the handle's
 * records use them. Make this call before any other of such a job. docs/RULES.md, section 13, says what it is for.
 *
 * RELKVANU_RESTORED, and relkvanu_term tells the new term. RELKVANU_FENCED with RELKVANU_NO_NAMES; RELKVANU_BAD_ARGUMENT with
 * RELKVANU_BAD_NAME; RELKVANU_FENCED with RELKVANU_TERMS_USED_UP, checked in this order; then the refusals of relkvanu_restore. None of these
 * changes anything. Takes no memory. */
RELKVANU_NODISCARD relkvanu_answer relkvanu_advance(relkvanu *handle, uint64_t now, uint64_t term, uint64_t first_name);

/* relkvanu_ack of a task of this term. An accepted acknowledgement spends the names of its fresh files.
 *
 * As relkvanu_ack, and before its refusals RELKVANU_FENCED: RELKVANU_NO_NAMES, RELKVANU_OLD_TERM, and for the least fresh file whose
 * name the term does not hold RELKVANU_SPENT or RELKVANU_NEVER_RESERVED. An acknowledgement that is sent twice is RELKVANU_SPENT the
 * second time, if it has fresh files: then an accepted one has named them. So a task does not delete a file for RELKVANU_SPENT. */
RELKVANU_NODISCARD relkvanu_answer relkvanu_ack_in(relkvanu *handle, uint64_t term, uint64_t now, uint64_t id, uint16_t vertex, uint16_t index, const uint64_t *fresh, size_t fresh_len, const uint64_t *reused, size_t reused_len);

/* relkvanu_decline of a task of this term.
 *
 * As relkvanu_decline, and before its refusals RELKVANU_FENCED: RELKVANU_NO_NAMES, RELKVANU_OLD_TERM. Takes no memory. */
RELKVANU_NODISCARD relkvanu_answer relkvanu_decline_in(relkvanu *handle, uint64_t term, uint64_t now, uint64_t id, uint16_t vertex, uint16_t index);

/* Writes those of these files that are garbage to the start of garbage, in their order: each name was given out, no live record uses
 * the file, it does not wait for deletion and was not fetched for it, and no task of the term that runs may write it. Garbage stays garbage
 * for good, so it may be deleted at any time. Writes those whose names were not given out to the start of unissued: such a
 * file is not of this job, or its log was lost, and nobody deletes it.
 *
 * RELKVANU_GARBAGE. RELKVANU_FENCED with RELKVANU_NO_NAMES. RELKVANU_TOO_SHORT unless both buffers have a place for each file.
 * Only RELKVANU_GARBAGE changes the buffers, and nothing else changes. Takes no memory. Ask a coordinator whose calls are durable: one that
 * forgot a call also forgets which files are in use. */
RELKVANU_NODISCARD relkvanu_answer relkvanu_garbage(relkvanu *handle, const uint64_t *files, size_t files_len, uint64_t *garbage, size_t garbage_len, uint64_t *unissued, size_t unissued_len);

/* relkvanu_refusal_text for the numbers of RELKVANU_FENCED, such as "OldTerm". */
size_t relkvanu_fenced_text(uint32_t what, uint8_t *text, size_t text_len);

/* Alignment, for engines: which element a task with several inputs may take next, and when it takes its snapshot. docs/ALIGNMENT.md says what
 * an engine does after each step.
 *
 * An alignment has no handle. It is memory of the caller, an aligner and a byte for each input, which only these functions write: 0 of an
 * open input, 1 of a held one, otherwise it has ended. Each such memory is an alignment. Make one call at a time for each. No call takes
 * memory from the library, and none fails for lack of it. relkvanu_align_element takes a few instructions. The others may visit each input. */

/* Begins the alignment of a task with this many inputs, 1 to RELKVANU_MOST_INPUTS: all are open. A task begins one when it starts, also after
 * a restore.
 *
 * RELKVANU_STEP_NOTHING; or RELKVANU_STEP_BAD_INPUTS. */
RELKVANU_NODISCARD relkvanu_step relkvanu_align_open(relkvanu_aligner *aligner, uint8_t *inputs, size_t inputs_len);

/* An element is next on this input, from 0: whether the task may process it now. Changes nothing.
 *
 * RELKVANU_STEP_PROCESS or RELKVANU_STEP_HOLD; or RELKVANU_STEP_UNKNOWN_INPUT, RELKVANU_STEP_ENDED_INPUT. */
RELKVANU_NODISCARD relkvanu_step relkvanu_align_element(const relkvanu_aligner *aligner, const uint8_t *inputs, size_t inputs_len, uint32_t input);

/* The barrier of record id is next on this input.
 *
 * RELKVANU_STEP_WAIT, RELKVANU_STEP_LATE, RELKVANU_STEP_CUT, or RELKVANU_STEP_ABANDON of an earlier record, whose place this one takes; or
 * RELKVANU_STEP_UNKNOWN_INPUT, RELKVANU_STEP_HELD_INPUT, RELKVANU_STEP_ENDED_INPUT. A cut and an abandon release all held inputs; after an
 * abandon this input alone is held. */
RELKVANU_NODISCARD relkvanu_step relkvanu_align_barrier(relkvanu_aligner *aligner, uint8_t *inputs, size_t inputs_len, uint32_t input, uint64_t id);

/* Nothing more comes on this input. It counts as one that has delivered every barrier.
 *
 * RELKVANU_STEP_NOTHING, RELKVANU_STEP_WAIT or RELKVANU_STEP_CUT; or RELKVANU_STEP_UNKNOWN_INPUT, RELKVANU_STEP_HELD_INPUT,
 * RELKVANU_STEP_ENDED_INPUT. */
RELKVANU_NODISCARD relkvanu_step relkvanu_align_end(relkvanu_aligner *aligner, uint8_t *inputs, size_t inputs_len, uint32_t input);

/* The coordinator or the task gives record id up.
 *
 * RELKVANU_STEP_ABANDON if this record is being aligned, and all held inputs are released; otherwise RELKVANU_STEP_NOTHING. */
RELKVANU_NODISCARD relkvanu_step relkvanu_align_give_up(relkvanu_aligner *aligner, uint8_t *inputs, size_t inputs_len, uint64_t id);

/* Unaligned barriers: a task may take its snapshot before each barrier has come, and records what comes before the others. A recorder is memory of
 * the caller as an alignment is, and each such memory is a recorder. It is an aligner until a record overtakes, with one difference: after
 * RELKVANU_STEP_ABANDON the barrier is left on its input, and the engine asks again. While a record is recorded no element is held; the
 * next barrier or the end on an input that has delivered waits (RELKVANU_STEP_HELD_INPUT) until the record is whole or given up. */

/* As relkvanu_align_open. */
RELKVANU_NODISCARD relkvanu_step relkvanu_unaligned_open(relkvanu_recorder *recorder, uint8_t *inputs, size_t inputs_len);

/* As relkvanu_align_element; and RELKVANU_STEP_RECORD. */
RELKVANU_NODISCARD relkvanu_step relkvanu_unaligned_element(const relkvanu_recorder *recorder, const uint8_t *inputs, size_t inputs_len, uint32_t input);

/* As relkvanu_align_barrier; and RELKVANU_STEP_COMPLETE if it was the last of a record that has overtaken. */
RELKVANU_NODISCARD relkvanu_step relkvanu_unaligned_barrier(relkvanu_recorder *recorder, uint8_t *inputs, size_t inputs_len, uint32_t input, uint64_t id);

/* As relkvanu_align_end; and RELKVANU_STEP_COMPLETE. */
RELKVANU_NODISCARD relkvanu_step relkvanu_unaligned_end(relkvanu_recorder *recorder, uint8_t *inputs, size_t inputs_len, uint32_t input);

/* As relkvanu_align_give_up: what was recorded for an abandoned record is given up. */
RELKVANU_NODISCARD relkvanu_step relkvanu_unaligned_give_up(relkvanu_recorder *recorder, uint8_t *inputs, size_t inputs_len, uint64_t id);

/* Record id overtakes: its barrier was seen on an input, wherever it stands there, or has waited for long enough.
 *
 * RELKVANU_STEP_SNAP; RELKVANU_STEP_LATE if it is whole or was given up; RELKVANU_STEP_NOTHING while an earlier record is open (ask again once
 * that has ended), if it has overtaken before, or if each input has ended. */
RELKVANU_NODISCARD relkvanu_step relkvanu_unaligned_overtake(relkvanu_recorder *recorder, const uint8_t *inputs, size_t inputs_len, uint64_t id);

/* clang-format on */

#ifdef __cplusplus
}
#endif

#endif
