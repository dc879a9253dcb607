/* The text of an answer, for librelkvanu.a and librelkvanu.so.0. It stands beside the proved library, and was not proved:
 * bindings/c/tests/texts.c tests it. */
#include "../../include/relkvanu.h"

#include <string.h>

#define UNKNOWN "unknown code {c}, what {w}, a {a}, b {b}"

/* {a} and {b} stand for the answer's numbers. */
/* bindings/generate makes the texts */
static const char *done_text(uint32_t what) {
    switch (what) {
    case RELKVANU_OPENED: return "opened";
    case RELKVANU_TICK_TRIGGERED: return "tick expired {a} triggered {b}";
    case RELKVANU_TICK_HELD_INTERVAL: return "tick expired {a} held interval";
    case RELKVANU_TICK_HELD_AT_ONCE: return "tick expired {a} held at-once";
    case RELKVANU_TICK_HELD_PAUSE: return "tick expired {a} held pause";
    case RELKVANU_TICK_FAILED: return "tick expired {a} failed";
    case RELKVANU_SAVEPOINT_TRIGGERED: return "savepoint triggered {a}";
    case RELKVANU_ACK_PENDING: return "ack pending {a}";
    case RELKVANU_ACK_COMPLETED: return "ack completed {a} {b}";
    case RELKVANU_ACK_LATE: return "ack late {a}";
    case RELKVANU_DECLINE_ABORTED: return "decline aborted {a}";
    case RELKVANU_DECLINE_FAILED: return "decline failed {a}";
    case RELKVANU_DECLINE_LATE: return "decline late";
    case RELKVANU_DISPOSED: return "disposed {a}";
    case RELKVANU_RESTORED_CHECKPOINT: return "restored checkpoint {b} {a}";
    case RELKVANU_RESTORED_SAVEPOINT: return "restored savepoint {b} {a}";
    case RELKVANU_RESTORED_FRESH: return "restored fresh {a}";
    case RELKVANU_CANCELLED: return "cancelled {a} {b}";
    case RELKVANU_TAKEN: return "taken {a}";
    case RELKVANU_DELETED: return "deleted {a}";
    case RELKVANU_UNDELETED: return "undeleted {a}";
    case RELKVANU_SHOWN: return "shown {a}";
    case RELKVANU_COUNTED: return "count {a} {b}";
    case RELKVANU_CONFIGURED: return "configured {a} {b}";
    case RELKVANU_MODE_RUNNING: return "mode running";
    case RELKVANU_MODE_FAILED: return "mode failed";
    case RELKVANU_MODE_CANCELLED: return "mode cancelled";
    case RELKVANU_DUE: return "due {a}";
    case RELKVANU_EXPIRES: return "expires {a}";
    case RELKVANU_NONE_PENDING: return "none pending";
    case RELKVANU_CHOICE_CHECKPOINT: return "choice checkpoint {a}";
    case RELKVANU_CHOICE_SAVEPOINT: return "choice savepoint {a}";
    case RELKVANU_CHOICE_FRESH: return "choice fresh";
    case RELKVANU_LIVE_CHECKPOINT: return "live checkpoint {a} {b}";
    case RELKVANU_LIVE_SAVEPOINT: return "live savepoint {a} {b}";
    case RELKVANU_LIVE_NONE: return "live none";
    case RELKVANU_MISSING: return "missing {a}";
    case RELKVANU_NOT_PENDING: return "not pending";
    case RELKVANU_MOMENT: return "moment {a}";
    case RELKVANU_SKIPPED: return "skipped";
    case RELKVANU_LINE_SKIP: return "line skip {a}";
    case RELKVANU_LINE_CONFIG: return "line config {a}";
    case RELKVANU_LINE_JOB: return "line job {a}";
    case RELKVANU_LINE_START: return "line start {a}";
    case RELKVANU_LINE_CALL: return "line call {a}";
    case RELKVANU_LINE_ALL: return "line all {a}";
    case RELKVANU_WRITTEN: return "written {a}";
    case RELKVANU_SAVED: return "saved {a}";
    case RELKVANU_STANDS_PENDING: return "stands pending";
    case RELKVANU_STANDS_DONE: return "stands done";
    case RELKVANU_STANDS_ENDED: return "stands ended";
    case RELKVANU_STANDS_NOT_YET: return "stands not yet";
    case RELKVANU_STANDS_NEVER: return "stands never";
    case RELKVANU_FILES: return "files {a}";
    case RELKVANU_NOT_ACKNOWLEDGED: return "not acknowledged";
    case RELKVANU_WAITING: return "waiting {a}";
    case RELKVANU_NONE_WAITS: return "none waits";
    case RELKVANU_RESERVED: return "reserved {a} {b}";
    case RELKVANU_FORFEITED: return "forfeited";
    case RELKVANU_TERM: return "term {a} {b}";
    case RELKVANU_NAMED: return "named";
    case RELKVANU_GARBAGE: return "garbage";
    case RELKVANU_APPEND: return "append {a}";
    case RELKVANU_HELD_BACK: return "held back {a}";
    case RELKVANU_SYNCED: return "synced {a}";
    default: return UNKNOWN;
    }
}

static const char *refused_text(uint32_t what) {
    switch (what) {
    case RELKVANU_MOMENT_TOO_LARGE: return "refused MomentTooLarge";
    case RELKVANU_NOT_RUNNING: return "refused NotRunning";
    case RELKVANU_TOO_MANY_FILES: return "refused TooManyFiles";
    case RELKVANU_REPEATED_FILE: return "refused RepeatedFile";
    case RELKVANU_UNKNOWN_CHECKPOINT: return "refused UnknownCheckpoint";
    case RELKVANU_UNKNOWN_SUBTASK: return "refused UnknownSubtask";
    case RELKVANU_ALREADY_ACKNOWLEDGED: return "refused AlreadyAcknowledged";
    case RELKVANU_NAME_TAKEN: return "refused NameTaken {a}";
    case RELKVANU_FILE_GONE: return "refused FileGone {a}";
    case RELKVANU_NO_SUCH_SAVEPOINT: return "refused NoSuchSavepoint";
    case RELKVANU_IN_USE: return "refused InUse";
    case RELKVANU_TOO_MANY_SAVEPOINTS: return "refused TooManySavepoints";
    case RELKVANU_NOT_TAKEN: return "refused NotTaken";
    case RELKVANU_NO_SUCH_RECORD: return "refused NoSuchRecord";
    case RELKVANU_IDS_USED_UP: return "refused IdsUsedUp";
    case RELKVANU_AT_ONCE: return "refused AtOnce";
    default: return UNKNOWN;
    }
}

static const char *bad_argument_text(uint32_t what) {
    switch (what) {
    case RELKVANU_ALREADY_OPEN: return "refused AlreadyOpen";
    case RELKVANU_BAD_CONFIG: return "refused BadConfig";
    case RELKVANU_BAD_SHAPE: return "refused BadShape";
    case RELKVANU_BAD_MOMENT: return "refused BadMoment";
    case RELKVANU_BAD_FIRST: return "refused BadFirst";
    case RELKVANU_BAD_KIND: return "refused BadKind";
    case RELKVANU_BAD_IMAGE: return "refused BadImage";
    case RELKVANU_BAD_NAME: return "refused BadName";
    case RELKVANU_BAD_GROUP: return "refused BadGroup";
    case RELKVANU_BAD_RECEIPT: return "refused BadReceipt";
    default: return UNKNOWN;
    }
}

static const char *bad_line_text(uint32_t what) {
    switch (what) {
    case RELKVANU_FAULT_TOO_LONG: return "fault TooLong";
    case RELKVANU_FAULT_WORD: return "fault Word";
    case RELKVANU_FAULT_MISSING: return "fault Missing";
    case RELKVANU_FAULT_NUMBER: return "fault Number";
    case RELKVANU_FAULT_EXTRA: return "fault Extra";
    case RELKVANU_FAULT_NO_CALL: return "fault NoCall";
    default: return UNKNOWN;
    }
}

static const char *fenced_text(uint32_t what) {
    switch (what) {
    case RELKVANU_OLD_TERM: return "fenced OldTerm";
    case RELKVANU_ENDED: return "fenced Ended";
    case RELKVANU_BAD_COUNT: return "fenced BadCount";
    case RELKVANU_NAMES_USED_UP: return "fenced NamesUsedUp";
    case RELKVANU_TERMS_USED_UP: return "fenced TermsUsedUp";
    case RELKVANU_SPENT: return "fenced Spent {a}";
    case RELKVANU_NEVER_RESERVED: return "fenced NeverReserved {a}";
    case RELKVANU_NO_NAMES: return "fenced NoNames";
    case RELKVANU_HAS_NAMES: return "fenced HasNames";
    case RELKVANU_NAME_IN_USE: return "fenced NameInUse";
    default: return UNKNOWN;
    }
}

static const char *text_of(uint32_t code, uint32_t what) {
    switch (code) {
    case RELKVANU_DONE: return done_text(what);
    case RELKVANU_REFUSED: return refused_text(what);
    case RELKVANU_NO_MEMORY: return what == 0 ? "no memory" : UNKNOWN;
    case RELKVANU_CLOSED: return what == 0 ? "closed" : UNKNOWN;
    case RELKVANU_BAD_ARGUMENT: return bad_argument_text(what);
    case RELKVANU_TOO_SHORT: return what == 0 ? "too short {a}" : UNKNOWN;
    case RELKVANU_BAD_LINE: return bad_line_text(what);
    case RELKVANU_FENCED: return fenced_text(what);
    default: return UNKNOWN;
    }
}
/* bindings/generate: end */

/* Writes a number, and returns its length: at most 20. */
static size_t put_number(uint8_t *text, uint64_t number) {
    uint8_t digits[20];
    size_t len = 0;
    do {
        digits[sizeof digits - ++len] = (uint8_t)('0' + number % 10);
        number /= 10;
    } while (number > 0);
    memcpy(text, digits + sizeof digits - len, len);
    return len;
}

static uint64_t number_of(const relkvanu_answer *answer, char letter) {
    switch (letter) {
    case 'a': return answer->a;
    case 'b': return answer->b;
    case 'c': return answer->code;
    default: return answer->what;
    }
}

size_t relkvanu_answer_text(const relkvanu_answer *answer, uint8_t *text, size_t text_len) {
    uint8_t told[RELKVANU_ANSWER_TEXT];
    size_t len = 0;
    for (const char *form = text_of(answer->code, answer->what); *form != '\0'; form++) {
        if (*form == '{') {
            len += put_number(told + len, number_of(answer, form[1]));
            form += 2;
        } else {
            told[len++] = (uint8_t)*form;
        }
    }
    if (len <= text_len) {
        memcpy(text, told, len);
    }
    return len;
}
