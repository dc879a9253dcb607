"""What include/relkvanu_store.h says, made from it by bindings/generate: change the header, and run that."""
from ctypes import CFUNCTYPE, POINTER, Structure, c_bool, c_char, c_char_p, c_int, c_int64, c_size_t, c_uint8, c_uint16, c_uint32, c_uint64, c_void_p
from typing import Any, Dict, List, Tuple

from relkvanu.header import relkvanu, relkvanu_answer, relkvanu_call, relkvanu_settings

OK = 0
BAD_ARGUMENT = 1
NO_MEMORY = 2
IN_USE = 3
ABSENT = 4
PRESENT = 5
NOT_A_STORE = 6
DIFFERS = 7
DAMAGED = 8
STORAGE = 9
CLOSED = 10
FORKED = 11
TIMED_OUT = 12
NOT_NOW = 13
STOPPED = 14
NOT_PUT = 15
NOT_RUNNING = 21
NOT_DONE = 22
JOB_STOPPED = 23
NOT_STOPPED = 24
FILE_LOST = 25
FAILED = 16
FULL = 17
READ_ONLY = 18
BUSY = 19
OUT_OF_MEMORY = 20
NOT_MADE = 100
RECOVER = 0
CREATE = 1
CREATE_ONLY = 2
ADOPT = 4
EARLIER_IMAGE = 8
BACKUP = 32
MANIFESTS = 64
CHECKSUMS = 128
NOW = (1 << 64) - 1
NO_IMAGES = (1 << 64) - 1
MOST_CALLS = 4096
MESSAGE = 512
MOST_PAYLOAD = 4096
MOST_REASON = 200
MOST_ENDED = 2200
MOST_HISTORY = 1000
MOST_VERTICES = 256
END_TASKS = 1
RESTORE = 2
SWEEP = 3
START_TASKS = 4
DISCARD = 5
MOST_STEPS = 8
CHECKPOINT = 1
SAVEPOINT = 2
COMPLETED = 1
DECLINED = 2
EXPIRED = 3
DROPPED = 4
PHASE_RUNNING = 0
PHASE_STOPPING = 1
PHASE_STOPPED = 2
STOP_EXPIRED = 1
STOP_DECLINED = 2
STOP_RESTORED = 3
STOP_CANCELLED = 4
STOP_FAILED = 5
ACCEPT_PUBLISHED = 1
FILE_MISSING = 1
FILE_LENGTH = 2
FILE_CHANGED = 3
FILE_UNREADABLE = 4

# The names of the statuses.
STATUSES: Dict[int, str] = {
    OK: "Ok", BAD_ARGUMENT: "BadArgument", NO_MEMORY: "NoMemory", IN_USE: "InUse", ABSENT: "Absent", PRESENT: "Present", NOT_A_STORE: "NotAStore",
    DIFFERS: "Differs", DAMAGED: "Damaged", STORAGE: "Storage", CLOSED: "Closed", FORKED: "Forked", TIMED_OUT: "TimedOut", NOT_NOW: "NotNow",
    STOPPED: "Stopped", NOT_PUT: "NotPut", NOT_RUNNING: "NotRunning", NOT_DONE: "NotDone", JOB_STOPPED: "JobStopped", NOT_STOPPED: "NotStopped",
    FILE_LOST: "FileLost", FAILED: "Failed", FULL: "Full", READ_ONLY: "ReadOnly", BUSY: "Busy", OUT_OF_MEMORY: "OutOfMemory",
}


class relkvanu_store_options(Structure):
    _fields_ = [
        ("flags", c_uint32), ("patience", c_uint32), ("image_calls", c_uint64), ("most_ahead", c_uint64), ("storage", c_char_p),
        ("settings", relkvanu_settings), ("shape", POINTER(c_uint64)), ("shape_len", c_size_t), ("reserved", c_uint64 * 4),
    ]


class relkvanu_store_report(Structure):
    _fields_ = [
        ("is_recovered", c_bool), ("settings_differ", c_bool), ("steps", c_uint32 * 8), ("steps_len", c_size_t), ("epoch", c_uint64), ("job", c_uint64 * 2),
        ("image_place", c_uint64), ("replayed", c_uint64), ("taken", c_uint64), ("moment", c_uint64), ("mode", relkvanu_answer), ("choice", relkvanu_answer),
        ("message", c_char * 512), ("term", c_uint64), ("next_name", c_uint64), ("phase", c_uint32), ("stop_failed", c_uint32), ("savepoint", c_uint64),
    ]


class relkvanu_store_more(Structure):
    _fields_ = [
        ("payload", c_void_p), ("payload_len", c_size_t), ("bytes", c_uint64), ("millis", c_uint64), ("reason", c_char_p), ("reason_len", c_size_t),
        ("ended", POINTER(c_uint64)), ("ended_room", c_size_t), ("reserved", c_uint64 * 4), ("ended_len", c_size_t), ("kind", c_uint32),
    ]


class relkvanu_store_call(Structure):
    _fields_ = [
        ("call", relkvanu_call), ("first", POINTER(c_uint64)), ("first_len", c_size_t), ("second", POINTER(c_uint64)), ("second_len", c_size_t),
        ("files", POINTER(c_uint64)), ("files_len", c_size_t), ("more", POINTER(relkvanu_store_more)), ("reserved", c_uint64 * 1), ("answer", relkvanu_answer),
        ("choice", relkvanu_answer), ("place", c_uint64), ("term", c_uint64),
    ]


class relkvanu_store_completion(Structure):
    _fields_ = [
        ("token", c_uint64), ("status", c_int),
    ]


class relkvanu_store_part(Structure):
    _fields_ = [
        ("vertex", c_uint16), ("index", c_uint16), ("files", POINTER(c_uint64)), ("files_len", c_size_t), ("payload", c_void_p), ("payload_len", c_size_t),
        ("bytes", c_uint64), ("millis", c_uint64),
    ]


class relkvanu_store_loaded(Structure):
    _fields_ = [
        ("id", c_uint64), ("kind", c_uint32), ("term", c_uint64), ("lost", c_uint64), ("shape_len", c_size_t), ("shape", c_uint64 * 256),
    ]


class relkvanu_store_past(Structure):
    _fields_ = [
        ("id", c_uint64), ("kind", c_uint32), ("outcome", c_uint32), ("triggered", c_uint64), ("ended", c_uint64), ("acks", c_uint64), ("first", c_uint64),
        ("median", c_uint64), ("p99", c_uint64), ("slowest", c_uint64), ("bytes", c_uint64), ("millis", c_uint64), ("reserved", c_uint64 * 2),
        ("reason", c_char * 208),
    ]


class relkvanu_store_job_phase(Structure):
    _fields_ = [
        ("phase", c_uint32), ("stop_failed", c_uint32), ("savepoint", c_uint64), ("term", c_uint64), ("reserved", c_uint64 * 2),
    ]


class relkvanu_store_record(Structure):
    _fields_ = [
        ("id", c_uint64), ("status", c_uint32), ("is_savepoint", c_bool), ("is_of_job", c_bool), ("is_next", c_bool), ("written", c_uint64),
        ("files", c_uint64), ("bytes", c_uint64), ("missing", c_uint64), ("unknown", c_uint64), ("changed", c_uint64), ("reserved", c_uint64 * 2),
    ]


class relkvanu_store_recovered(Structure):
    _fields_ = [
        ("record", c_uint64), ("is_savepoint", c_bool), ("files", c_uint64), ("bytes", c_uint64), ("passed", c_uint64), ("savepoints", c_uint64),
        ("term", c_uint64), ("next_name", c_uint64), ("next_number", c_uint64), ("reserved", c_uint64 * 4), ("message", c_char * 512),
    ]


class relkvanu_store_carried(Structure):
    _fields_ = [
        ("record", c_uint64), ("is_savepoint", c_bool), ("files", c_uint64), ("bytes", c_uint64), ("reserved", c_uint64 * 4), ("message", c_char * 512),
    ]


class relkvanu_store_counts(Structure):
    _fields_ = [
        ("commits", c_uint64), ("calls", c_uint64), ("largest", c_uint64), ("images", c_uint64), ("failed_images", c_uint64), ("checkpoints", c_uint64),
        ("failed_checkpoints", c_uint64), ("retries", c_uint64), ("swept", c_uint64), ("unissued", c_uint64), ("reserved", c_uint64 * 2),
    ]


class relkvanu_store_measures(Structure):
    _fields_ = [
        ("wal_bytes", c_uint64), ("log_rows", c_uint64), ("last_commit", c_uint64), ("failed_deletions", c_uint64), ("manifests", c_uint64),
        ("failed_manifests", c_uint64),
    ]


relkvanu_store_each_part = CFUNCTYPE(c_bool, c_void_p, POINTER(relkvanu_store_part))
relkvanu_store_delete = CFUNCTYPE(None, c_void_p, POINTER(c_uint64), c_size_t, POINTER(c_uint8))
relkvanu_store_delete_some = CFUNCTYPE(c_bool, c_void_p, POINTER(c_uint64), c_size_t, POINTER(c_uint8))
relkvanu_store_source = CFUNCTYPE(c_int64, c_void_p, c_void_p, c_size_t)
relkvanu_store_each_name = CFUNCTYPE(c_bool, c_void_p, c_char_p)
relkvanu_store_check_place = CFUNCTYPE(c_int, c_void_p)
relkvanu_store_put_named = CFUNCTYPE(c_int, c_void_p, c_char_p, c_void_p, c_size_t)
relkvanu_store_remove_named = CFUNCTYPE(c_int, c_void_p, c_char_p)
relkvanu_store_list_named = CFUNCTYPE(c_int, c_void_p, relkvanu_store_each_name, c_void_p)
relkvanu_store_each_record = CFUNCTYPE(c_bool, c_void_p, POINTER(relkvanu_store_record))
relkvanu_store_each_fault = CFUNCTYPE(c_bool, c_void_p, c_uint64, c_uint64, c_uint32)

# Of each function, its result and its parameters. A store is a pointer that nobody looks into.
FUNCTIONS: Dict[str, Tuple[Any, List[Any]]] = {
    "relkvanu_store_open": (c_int, [POINTER(c_void_p), c_char_p, POINTER(relkvanu_store_options), POINTER(relkvanu_store_report)]),
    "relkvanu_store_job": (c_int, [c_void_p, POINTER(relkvanu_settings), POINTER(c_uint64), POINTER(c_size_t)]),
    "relkvanu_store_close": (None, [c_void_p]),
    "relkvanu_store_calls": (c_int, [c_void_p, POINTER(relkvanu_store_call), c_size_t]),
    "relkvanu_store_ack_in": (c_int, [
        c_void_p, c_uint64, c_uint64, c_uint64, c_uint16, c_uint16, POINTER(c_uint64), c_size_t, POINTER(c_uint64), c_size_t, POINTER(relkvanu_answer),
    ]),
    "relkvanu_store_ack_with": (c_int, [
        c_void_p, c_uint64, c_uint64, c_uint64, c_uint16, c_uint16, POINTER(c_uint64), c_size_t, POINTER(c_uint64), c_size_t, POINTER(relkvanu_store_more),
        POINTER(relkvanu_answer),
    ]),
    "relkvanu_store_decline_with": (c_int, [c_void_p, c_uint64, c_uint64, c_uint64, c_uint16, c_uint16, POINTER(relkvanu_store_more), POINTER(relkvanu_answer)]),
    "relkvanu_store_reserve": (c_int, [c_void_p, c_uint64, c_uint64, POINTER(relkvanu_answer)]),
    "relkvanu_store_forfeit": (c_int, [c_void_p, c_uint64, POINTER(c_uint64), c_size_t, POINTER(relkvanu_answer)]),
    "relkvanu_store_submit": (c_int, [c_void_p, POINTER(relkvanu_store_call), c_size_t, c_uint64]),
    "relkvanu_store_submit_stop_job": (c_int, [c_void_p, POINTER(relkvanu_store_call), c_uint64]),
    "relkvanu_store_submit_begin_job": (c_int, [c_void_p, POINTER(relkvanu_store_call), c_uint64]),
    "relkvanu_store_completed": (c_size_t, [c_void_p, POINTER(relkvanu_store_completion), c_size_t]),
    "relkvanu_store_descriptor": (c_int, [c_void_p]),
    "relkvanu_store_read": (c_int, [c_void_p, POINTER(POINTER(relkvanu))]),
    "relkvanu_store_read_end": (None, [c_void_p]),
    "relkvanu_store_look": (c_int, [c_void_p, POINTER(c_void_p)]),
    "relkvanu_store_now": (c_uint64, [c_void_p]),
    "relkvanu_store_next_tick": (c_int, [c_void_p, POINTER(c_uint64)]),
    "relkvanu_store_await_tick": (c_int, [c_void_p, c_uint64, POINTER(relkvanu_store_call)]),
    "relkvanu_store_await_tick_with": (c_int, [c_void_p, c_uint64, POINTER(relkvanu_store_call), POINTER(relkvanu_store_more)]),
    "relkvanu_store_load": (c_int, [c_void_p, c_uint64, POINTER(relkvanu_store_loaded), relkvanu_store_each_part, c_void_p]),
    "relkvanu_store_origin": (c_bool, [c_void_p, c_uint64, POINTER(c_uint64)]),
    "relkvanu_store_history": (c_int, [c_void_p, POINTER(relkvanu_store_past), POINTER(c_size_t)]),
    "relkvanu_store_trigger": (c_int, [c_void_p, POINTER(relkvanu_store_call)]),
    "relkvanu_store_configure": (c_int, [c_void_p, POINTER(relkvanu_settings), POINTER(relkvanu_store_call)]),
    "relkvanu_store_stop_job": (c_int, [c_void_p, POINTER(relkvanu_store_call)]),
    "relkvanu_store_begin_job": (c_int, [c_void_p, POINTER(relkvanu_store_call)]),
    "relkvanu_store_phase": (c_int, [c_void_p, POINTER(relkvanu_store_job_phase)]),
    "relkvanu_store_go_back": (c_int, [c_void_p, c_uint64, c_uint32, POINTER(relkvanu_store_call)]),
    "relkvanu_store_advance": (c_int, [c_void_p, c_uint64, c_uint64, POINTER(relkvanu_store_call)]),
    "relkvanu_store_term": (c_int, [c_void_p, POINTER(relkvanu_answer)]),
    "relkvanu_store_garbage": (c_int, [c_void_p, POINTER(c_uint64), c_size_t, POINTER(c_uint64), POINTER(c_uint64), POINTER(relkvanu_answer)]),
    "relkvanu_store_folder": (c_int, [c_void_p]),
    "relkvanu_store_discard": (c_int, [c_void_p, c_size_t, relkvanu_store_delete, c_void_p]),
    "relkvanu_store_discard_for": (c_int, [c_void_p, c_size_t, c_uint64, relkvanu_store_delete_some, c_void_p]),
    "relkvanu_store_put": (c_int, [c_void_p, c_uint64, c_void_p, c_size_t]),
    "relkvanu_store_put_from": (c_int, [c_void_p, c_uint64, relkvanu_store_source, c_void_p]),
    "relkvanu_store_put_link": (c_int, [c_void_p, c_uint64, c_int, c_char_p]),
    "relkvanu_store_why": (c_size_t, [c_char_p, c_size_t]),
    "relkvanu_store_delete_files": (None, [c_void_p, POINTER(c_uint64), c_size_t, POINTER(c_uint8)]),
    "relkvanu_store_sweep": (c_int, [c_void_p, POINTER(c_size_t)]),
    "relkvanu_store_stop": (None, [c_void_p]),
    "relkvanu_store_backup": (c_int, [c_void_p, c_char_p, c_char_p, c_size_t]),
    "relkvanu_store_keep_manifests": (c_int, [c_void_p, relkvanu_store_check_place, relkvanu_store_put_named, relkvanu_store_remove_named, relkvanu_store_list_named, c_void_p]),
    "relkvanu_store_records": (c_int, [c_char_p, relkvanu_store_each_record, c_void_p, c_char_p, c_size_t]),
    "relkvanu_store_check_records": (c_int, [c_char_p, relkvanu_store_each_record, relkvanu_store_each_fault, c_void_p, c_char_p, c_size_t]),
    "relkvanu_store_recover": (c_int, [c_char_p, c_char_p, c_uint64, POINTER(relkvanu_store_recovered)]),
    "relkvanu_store_recover_listed": (c_int, [c_char_p, c_char_p, c_uint64, POINTER(relkvanu_store_recovered)]),
    "relkvanu_store_export": (c_int, [c_char_p, c_uint64, c_char_p, POINTER(relkvanu_store_carried)]),
    "relkvanu_store_import": (c_int, [c_char_p, c_uint64, c_char_p, c_char_p, POINTER(relkvanu_store_recovered)]),
    "relkvanu_store_claim": (c_int, [c_char_p, c_uint64, c_char_p, c_char_p, POINTER(relkvanu_store_recovered)]),
    "relkvanu_store_put_back": (c_int, [c_char_p, c_char_p, c_char_p, POINTER(relkvanu_store_recovered)]),
    "relkvanu_store_count": (None, [c_void_p, POINTER(relkvanu_store_counts)]),
    "relkvanu_store_measure": (None, [c_void_p, POINTER(relkvanu_store_measures), c_size_t]),
    "relkvanu_store_message": (c_size_t, [c_void_p, c_char_p, c_size_t]),
}
