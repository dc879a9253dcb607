"""What include/relkvanu.h says, made from it by bindings/generate: change the header, and run that."""
from ctypes import POINTER, Structure, c_bool, c_char_p, c_size_t, c_uint8, c_uint16, c_uint32, c_uint64, c_void_p
from typing import Any, Dict, List, Tuple

VERSION_MAJOR = 0
VERSION_MINOR = 1
VERSION_PATCH = 0
VERSION = "0.1.0"
DONE = 0
REFUSED = 1
NO_MEMORY = 2
CLOSED = 3
BAD_ARGUMENT = 4
TOO_SHORT = 5
BAD_LINE = 6
FENCED = 7
OPENED = 0
TICK_TRIGGERED = 1
TICK_HELD_INTERVAL = 2
TICK_HELD_AT_ONCE = 3
TICK_HELD_PAUSE = 4
TICK_FAILED = 5
SAVEPOINT_TRIGGERED = 6
ACK_PENDING = 7
ACK_COMPLETED = 8
ACK_LATE = 9
DECLINE_ABORTED = 10
DECLINE_FAILED = 11
DECLINE_LATE = 12
DISPOSED = 13
RESTORED_CHECKPOINT = 14
RESTORED_SAVEPOINT = 15
RESTORED_FRESH = 16
CANCELLED = 17
TAKEN = 18
DELETED = 19
UNDELETED = 20
SHOWN = 21
COUNTED = 22
CONFIGURED = 61
MODE_RUNNING = 23
MODE_FAILED = 24
MODE_CANCELLED = 25
DUE = 26
EXPIRES = 27
NONE_PENDING = 28
CHOICE_CHECKPOINT = 29
CHOICE_SAVEPOINT = 30
CHOICE_FRESH = 31
LIVE_CHECKPOINT = 32
LIVE_SAVEPOINT = 33
LIVE_NONE = 34
MISSING = 35
NOT_PENDING = 36
MOMENT = 55
SKIPPED = 37
LINE_SKIP = 38
LINE_CONFIG = 39
LINE_JOB = 40
LINE_START = 41
LINE_CALL = 42
LINE_ALL = 43
WRITTEN = 44
SAVED = 45
STANDS_PENDING = 46
STANDS_DONE = 47
STANDS_ENDED = 48
STANDS_NOT_YET = 49
STANDS_NEVER = 50
FILES = 51
NOT_ACKNOWLEDGED = 52
WAITING = 53
NONE_WAITS = 54
RESERVED = 56
FORFEITED = 57
TERM = 58
NAMED = 59
GARBAGE = 60
APPEND = 62
HELD_BACK = 63
SYNCED = 64
MOMENT_TOO_LARGE = 1
NOT_RUNNING = 2
TOO_MANY_FILES = 3
REPEATED_FILE = 4
UNKNOWN_CHECKPOINT = 5
UNKNOWN_SUBTASK = 6
ALREADY_ACKNOWLEDGED = 7
NAME_TAKEN = 8
FILE_GONE = 9
NO_SUCH_SAVEPOINT = 10
IN_USE = 11
TOO_MANY_SAVEPOINTS = 12
NOT_TAKEN = 13
NO_SUCH_RECORD = 14
IDS_USED_UP = 15
AT_ONCE = 16
OLD_TERM = 1
ENDED = 2
BAD_COUNT = 3
NAMES_USED_UP = 4
TERMS_USED_UP = 5
SPENT = 6
NEVER_RESERVED = 7
NO_NAMES = 8
HAS_NAMES = 9
NAME_IN_USE = 10
ALREADY_OPEN = 1
BAD_CONFIG = 2
BAD_SHAPE = 3
BAD_MOMENT = 4
BAD_FIRST = 5
BAD_KIND = 6
BAD_IMAGE = 7
BAD_NAME = 8
BAD_GROUP = 9
BAD_RECEIPT = 10
FAULT_TOO_LONG = 1
FAULT_WORD = 2
FAULT_MISSING = 3
FAULT_NUMBER = 4
FAULT_EXTRA = 5
FAULT_NO_CALL = 6
CALL_TICK = 1
CALL_SAVEPOINT = 2
CALL_ACK = 3
CALL_DECLINE = 4
CALL_DISPOSE = 5
CALL_RESTORE = 6
CALL_CANCEL = 7
CALL_TAKE = 8
CALL_DELETED = 9
CALL_UNDELETED = 10
CALL_SHOW = 11
CALL_COUNT = 12
CALL_FENCE = 13
CALL_RESERVE = 14
CALL_FORFEIT = 15
CALL_TRIGGER = 16
CALL_CONFIGURE = 17
CALL_ADVANCE = 18
STEP_PROCESS = 1
STEP_HOLD = 2
STEP_NOTHING = 3
STEP_WAIT = 4
STEP_LATE = 5
STEP_CUT = 6
STEP_ABANDON = 7
STEP_UNKNOWN_INPUT = 8
STEP_HELD_INPUT = 9
STEP_ENDED_INPUT = 10
STEP_BAD_INPUTS = 11
STEP_RECORD = 12
STEP_SNAP = 13
STEP_COMPLETE = 14
MOST_INPUTS = 4096
ANSWER_TEXT = 128


class relkvanu(Structure):
    _fields_ = [
        ("state", c_void_p),
    ]


class relkvanu_settings(Structure):
    _fields_ = [
        ("interval", c_uint64), ("pause", c_uint64), ("at_once", c_uint64), ("timeout", c_uint64), ("tolerable", c_uint64), ("retained", c_uint64),
        ("keep_on_cancel", c_bool),
    ]


class relkvanu_answer(Structure):
    _fields_ = [
        ("code", c_uint32), ("what", c_uint32), ("a", c_uint64), ("b", c_uint64),
    ]


class relkvanu_counts(Structure):
    _fields_ = [
        ("code", c_uint32), ("in_use", c_uint64), ("waiting", c_uint64), ("taken", c_uint64),
    ]


class relkvanu_call(Structure):
    _fields_ = [
        ("kind", c_uint32), ("vertex", c_uint16), ("index", c_uint16), ("now", c_uint64), ("number", c_uint64), ("term", c_uint64),
    ]


class relkvanu_made(Structure):
    _fields_ = [
        ("written", c_uint64), ("waited", c_uint64), ("in_use", c_uint64), ("waiting", c_uint64), ("taken", c_uint64),
    ]


class relkvanu_group(Structure):
    _fields_ = [
        ("waiting", c_uint64), ("told", c_uint64), ("has_failed", c_bool), ("given", c_uint64),
    ]


class relkvanu_aligner(Structure):
    _fields_ = [
        ("latest", c_uint64),
    ]


class relkvanu_recorder(Structure):
    _fields_ = [
        ("latest", c_uint64), ("phase", c_uint32),
    ]


class relkvanu_step(Structure):
    _fields_ = [
        ("what", c_uint32), ("id", c_uint64),
    ]


# Of each function, its result and its parameters.
FUNCTIONS: Dict[str, Tuple[Any, List[Any]]] = {
    "relkvanu_version": (c_char_p, []),
    "relkvanu_open": (relkvanu_answer, [POINTER(relkvanu), POINTER(relkvanu_settings), POINTER(c_uint64), c_size_t, c_uint64, c_uint64, c_uint64, c_uint64]),
    "relkvanu_close": (None, [POINTER(relkvanu)]),
    "relkvanu_tick": (relkvanu_answer, [POINTER(relkvanu), c_uint64]),
    "relkvanu_trigger": (relkvanu_answer, [POINTER(relkvanu), c_uint64]),
    "relkvanu_savepoint": (relkvanu_answer, [POINTER(relkvanu), c_uint64]),
    "relkvanu_ack": (relkvanu_answer, [POINTER(relkvanu), c_uint64, c_uint64, c_uint16, c_uint16, POINTER(c_uint64), c_size_t, POINTER(c_uint64), c_size_t]),
    "relkvanu_decline": (relkvanu_answer, [POINTER(relkvanu), c_uint64, c_uint64, c_uint16, c_uint16]),
    "relkvanu_dispose": (relkvanu_answer, [POINTER(relkvanu), c_uint64]),
    "relkvanu_restore": (relkvanu_answer, [POINTER(relkvanu), c_uint64, c_uint64, POINTER(c_uint64), c_size_t]),
    "relkvanu_cancel": (relkvanu_answer, [POINTER(relkvanu), c_uint64]),
    "relkvanu_configure": (relkvanu_answer, [POINTER(relkvanu), c_uint64, POINTER(relkvanu_settings)]),
    "relkvanu_take": (relkvanu_answer, [POINTER(relkvanu), POINTER(c_uint64), c_size_t]),
    "relkvanu_deleted": (relkvanu_answer, [POINTER(relkvanu), c_uint64]),
    "relkvanu_undeleted": (relkvanu_answer, [POINTER(relkvanu), c_uint64]),
    "relkvanu_show": (relkvanu_answer, [POINTER(relkvanu), c_uint64, POINTER(c_uint8), c_size_t]),
    "relkvanu_count": (relkvanu_answer, [POINTER(relkvanu), c_uint64]),
    "relkvanu_mode": (relkvanu_answer, [POINTER(relkvanu)]),
    "relkvanu_moment": (relkvanu_answer, [POINTER(relkvanu)]),
    "relkvanu_due": (relkvanu_answer, [POINTER(relkvanu)]),
    "relkvanu_oldest_expiry": (relkvanu_answer, [POINTER(relkvanu)]),
    "relkvanu_choice": (relkvanu_answer, [POINTER(relkvanu)]),
    "relkvanu_live": (relkvanu_answer, [POINTER(relkvanu), c_size_t]),
    "relkvanu_missing": (relkvanu_answer, [POINTER(relkvanu), c_uint64]),
    "relkvanu_file_counts": (relkvanu_counts, [POINTER(relkvanu)]),
    "relkvanu_refusal_text": (c_size_t, [c_uint32, POINTER(c_uint8), c_size_t]),
    "relkvanu_answer_text": (c_size_t, [POINTER(relkvanu_answer), POINTER(c_uint8), c_size_t]),
    "relkvanu_line": (relkvanu_answer, [POINTER(relkvanu), POINTER(c_uint8), c_size_t, POINTER(c_uint64), c_size_t]),
    "relkvanu_line_says": (relkvanu_answer, [POINTER(c_uint8), c_size_t, POINTER(c_uint64), c_size_t]),
    "relkvanu_line_call": (relkvanu_answer, [POINTER(c_uint8), c_size_t, POINTER(relkvanu_call), POINTER(c_uint64), c_size_t, POINTER(c_uint64), c_size_t]),
    "relkvanu_call_line": (relkvanu_answer, [POINTER(relkvanu_call), POINTER(c_uint64), c_size_t, POINTER(c_uint64), c_size_t, POINTER(c_uint8), c_size_t]),
    "relkvanu_make": (relkvanu_answer, [
        POINTER(relkvanu), POINTER(relkvanu_call), POINTER(c_uint64), c_size_t, POINTER(c_uint64), c_size_t, POINTER(c_uint64), c_size_t, POINTER(c_uint8),
        c_size_t, POINTER(relkvanu_made),
    ]),
    "relkvanu_opening_lines": (relkvanu_answer, [POINTER(relkvanu_settings), POINTER(c_uint64), c_size_t, c_uint64, POINTER(c_uint8), c_size_t]),
    "relkvanu_group_make": (relkvanu_answer, [
        POINTER(relkvanu), POINTER(relkvanu_group), POINTER(relkvanu_answer), c_size_t, POINTER(relkvanu_call), POINTER(c_uint64), c_size_t, POINTER(c_uint64),
        c_size_t, POINTER(c_uint64), c_size_t, POINTER(c_uint8), c_size_t, POINTER(relkvanu_made),
    ]),
    "relkvanu_group_hold": (relkvanu_answer, [POINTER(relkvanu_group), POINTER(relkvanu_answer), c_size_t, POINTER(relkvanu_answer)]),
    "relkvanu_group_synced": (relkvanu_answer, [POINTER(relkvanu_group)]),
    "relkvanu_group_failed": (None, [POINTER(relkvanu_group)]),
    "relkvanu_group_answer": (relkvanu_answer, [POINTER(relkvanu_group), POINTER(relkvanu_answer), c_size_t, c_uint64]),
    "relkvanu_save": (relkvanu_answer, [POINTER(relkvanu), POINTER(c_uint8), c_size_t]),
    "relkvanu_open_saved": (relkvanu_answer, [POINTER(relkvanu), POINTER(c_uint8), c_size_t, c_uint64, c_uint64]),
    "relkvanu_live_from": (relkvanu_answer, [POINTER(relkvanu), c_uint64]),
    "relkvanu_standing": (relkvanu_answer, [POINTER(relkvanu), c_uint64]),
    "relkvanu_files_of": (relkvanu_answer, [POINTER(relkvanu), c_uint64, c_uint16, c_uint16, POINTER(c_uint64), c_size_t]),
    "relkvanu_pins_of": (relkvanu_answer, [POINTER(relkvanu), c_uint64, POINTER(c_uint64), c_size_t]),
    "relkvanu_waiting_file": (relkvanu_answer, [POINTER(relkvanu), c_size_t]),
    "relkvanu_taken_files": (relkvanu_answer, [POINTER(relkvanu), POINTER(c_uint64), c_size_t]),
    "relkvanu_open_fenced": (relkvanu_answer, [POINTER(relkvanu), POINTER(relkvanu_settings), POINTER(c_uint64), c_size_t, c_uint64, c_uint64, c_uint64, c_uint64, c_uint64]),
    "relkvanu_fence": (relkvanu_answer, [POINTER(relkvanu), c_uint64]),
    "relkvanu_term": (relkvanu_answer, [POINTER(relkvanu)]),
    "relkvanu_reserve": (relkvanu_answer, [POINTER(relkvanu), c_uint64, c_uint64]),
    "relkvanu_forfeit": (relkvanu_answer, [POINTER(relkvanu), c_uint64, POINTER(c_uint64), c_size_t]),
    "relkvanu_advance": (relkvanu_answer, [POINTER(relkvanu), c_uint64, c_uint64, c_uint64]),
    "relkvanu_ack_in": (relkvanu_answer, [POINTER(relkvanu), c_uint64, c_uint64, c_uint64, c_uint16, c_uint16, POINTER(c_uint64), c_size_t, POINTER(c_uint64), c_size_t]),
    "relkvanu_decline_in": (relkvanu_answer, [POINTER(relkvanu), c_uint64, c_uint64, c_uint64, c_uint16, c_uint16]),
    "relkvanu_garbage": (relkvanu_answer, [POINTER(relkvanu), POINTER(c_uint64), c_size_t, POINTER(c_uint64), c_size_t, POINTER(c_uint64), c_size_t]),
    "relkvanu_fenced_text": (c_size_t, [c_uint32, POINTER(c_uint8), c_size_t]),
    "relkvanu_align_open": (relkvanu_step, [POINTER(relkvanu_aligner), POINTER(c_uint8), c_size_t]),
    "relkvanu_align_element": (relkvanu_step, [POINTER(relkvanu_aligner), POINTER(c_uint8), c_size_t, c_uint32]),
    "relkvanu_align_barrier": (relkvanu_step, [POINTER(relkvanu_aligner), POINTER(c_uint8), c_size_t, c_uint32, c_uint64]),
    "relkvanu_align_end": (relkvanu_step, [POINTER(relkvanu_aligner), POINTER(c_uint8), c_size_t, c_uint32]),
    "relkvanu_align_give_up": (relkvanu_step, [POINTER(relkvanu_aligner), POINTER(c_uint8), c_size_t, c_uint64]),
    "relkvanu_unaligned_open": (relkvanu_step, [POINTER(relkvanu_recorder), POINTER(c_uint8), c_size_t]),
    "relkvanu_unaligned_element": (relkvanu_step, [POINTER(relkvanu_recorder), POINTER(c_uint8), c_size_t, c_uint32]),
    "relkvanu_unaligned_barrier": (relkvanu_step, [POINTER(relkvanu_recorder), POINTER(c_uint8), c_size_t, c_uint32, c_uint64]),
    "relkvanu_unaligned_end": (relkvanu_step, [POINTER(relkvanu_recorder), POINTER(c_uint8), c_size_t, c_uint32]),
    "relkvanu_unaligned_give_up": (relkvanu_step, [POINTER(relkvanu_recorder), POINTER(c_uint8), c_size_t, c_uint64]),
    "relkvanu_unaligned_overtake": (relkvanu_step, [POINTER(relkvanu_recorder), POINTER(c_uint8), c_size_t, c_uint64]),
}
