"""A coordinator whose calls are durable: one SQLite file for each job, so that an engine writes no log, lock, sync or recovery.

librelkvanu-store.so.0 comes from where the package finds librelkvanu.so.0. Otherwise the import raises ImportError. Threads wait in C, so
each of them may call, and the calls of all that wait are committed together. The handler of a signal runs while the main thread waits; if it raises,
the call goes on to its end, and nobody is told its outcome. docs/DURABLE.md has an engine.
"""
import collections
import contextlib
import ctypes
import enum
import os
import struct
import threading
import time
from dataclasses import dataclass
from typing import Any, Callable, Container, ContextManager, DefaultDict, Dict, Iterable, List, NoReturn, Optional, Protocol, Sequence, Set, Tuple, TypeVar, Union

from relkvanu import header, store_header
from relkvanu.coordinator import (
    U64, BadArgument, Coordinator, Error, Fenced, OutOfMemory, Refused, Settings, _done, _loaded, _made, _settings, _told, _u64, _within, _words,
)
from relkvanu.jobs import (
    Call as Call, JobPhase as JobPhase, Made as Made, Opening, Outcome, Phase as Phase, Step as Step, StopFailed as StopFailed, StoreError as StoreError, made_of, subtasks_of, with_fields,
)
from relkvanu.nexts import (
    Next as Next, NextBarrier as NextBarrier, NextBegun as NextBegun, NextCancelled as NextCancelled, NextEnded as NextEnded, NextFailed as NextFailed,
    NextIdle as NextIdle, NextNotStopped as NextNotStopped, NextStopped as NextStopped,
)
from relkvanu.reads import CHOSEN, Chosen, FileCounts, Garbage, Kind, Live, Mode, RunningTerm
from relkvanu.replies import (
    MADE, Failed, Reserved, RestoredCheckpoint, RestoredFresh, RestoredSavepoint, SavepointTriggered, Taken, Triggered,
)
from relkvanu.storage import MARKER, Marker, OtherJob
from relkvanu.waits import Once, Task, is_main
from relkvanu.whole import KINDS, Part, Past, Restored, Whole, _part, _past, _whole

LIBRARY = "librelkvanu-store.so.0"
FOREVER = (1 << 64) - 1
SAID = ("BadArgument", "NotNow", "FileLost", "Damaged", "NotDone")  # the library has said why to the thread
READS = ("mode", "moment", "due", "oldest_expiry", "choice", "live", "live_from", "standing", "files_of", "pins_of", "waiting_file", "taken_files", "missing",
         "file_counts", "show", "save", "count", "term", "garbage")
SLICE = 100  # ms: the main thread waits so long for a tick, and a discarder for files, before it looks for what has happened
Path = Union[str, "os.PathLike[str]"]
T = TypeVar("T")


def _phase(phase: int, savepoint: int, term: int, failed: int) -> JobPhase:
    return JobPhase(Phase(phase), savepoint or None, term, StopFailed(failed) if failed else None)


@dataclass(frozen=True)
class Report:
    """What an opening found. include/relkvanu_store.h explains each field."""

    is_recovered: bool
    settings_differ: bool
    steps: Tuple[Step, ...]
    epoch: int
    job: str
    image_place: int
    replayed: int
    taken: int
    moment: int
    mode: Mode
    choice: Optional[Chosen]
    term: int = 0  # that runs: the tasks of a new job are started with it
    next_name: int = 0
    phase: JobPhase = JobPhase(Phase.RUNNING)  # without its term, which is the one above


@dataclass(frozen=True)
class Record:
    """A record of a storage folder, as its manifest says it. `damage` is "Damaged" or "NotAStore" (a later version wrote it), and then it says no more."""

    id: int
    is_savepoint: bool
    is_of_job: bool  # its job is the one that the marker of the folder names, or there is no marker
    is_next: bool  # a recovery, or an import, begins from it
    written: int  # ms of the wall clock since 1970
    files: int
    bytes: int
    missing: int  # files that are not there, or have another length
    damage: Optional[str] = None
    unknown: int = 0  # files of which the manifest has no checksum
    changed: int = 0  # of check_records(): files that have another checksum, or can't be read


class FileFault(enum.IntEnum):
    """What is wrong with a file of a record."""

    MISSING = store_header.FILE_MISSING
    LENGTH = store_header.FILE_LENGTH  # another one than the manifest says
    CHANGED = store_header.FILE_CHANGED  # it has another checksum
    UNREADABLE = store_header.FILE_UNREADABLE


class Manifests(Protocol):
    """A place for manifests that is no folder of a store, such as a bucket. None of its methods calls the store."""

    def check(self) -> None:
        """Raises unless the place is there and this opening's."""

    def put_manifest(self, name: str, contents: bytes) -> None:
        """Makes or replaces an object, whole and durable."""

    def remove_manifest(self, name: str) -> None:
        """Removes an object. One that is not there is removed."""

    def manifests(self) -> Iterable[str]:
        """The names of the objects that begin with "record-"."""


@dataclass(frozen=True)
class Carried:
    """The record that Store.export has made a folder of."""

    record: int
    is_savepoint: bool
    files: int
    bytes: int


@dataclass(frozen=True)
class Recovered:
    """What Store.recover has made a job of. include/relkvanu_store.h explains each field."""

    record: int
    is_savepoint: bool
    files: int
    bytes: int
    passed: int
    savepoints: int
    term: int
    next_name: int
    next_number: int


def _next_of(made: Made) -> Next:
    """The case of a tick, or of what a timer hands over."""
    reply = made.reply
    kind = Kind.CHECKPOINT if isinstance(reply, (Triggered, RestoredCheckpoint)) else Kind.SAVEPOINT
    if isinstance(reply, (Triggered, SavepointTriggered)):
        return NextBarrier(reply.id, kind, made.choice, made.ended)
    if isinstance(reply, (RestoredCheckpoint, RestoredSavepoint)):
        return NextBegun(Chosen(reply.id, kind), made.term, made.ended)
    if isinstance(reply, RestoredFresh):
        return NextBegun(None, made.term, made.ended)
    return NextFailed(made.ended) if isinstance(reply, Failed) else NextIdle(made.ended)


_library = _loaded(LIBRARY, store_header.FUNCTIONS, "relkvanu.store", "the library of relkvanu.store can't be loaded: %s", lambda library, path: None)

AT_FDCWD = -100  # a path that is not in a folder of its own


def _bytes(path: Path) -> bytes:
    """The bytes of a path. The library would take what is before a zero byte."""
    name = os.fsencode(path)
    if b"\0" in name:
        raise BadArgument("a path has no zero byte")
    return name


def _closes(status: int) -> bool:
    return store_header.FAILED <= status <= store_header.OUT_OF_MEMORY


def _check(status: int, message: bytes, closes: bool = False, number: Optional[int] = None) -> None:
    """What a function of the library returned that tells by itself why it has failed."""
    if status == store_header.NO_MEMORY:
        raise OutOfMemory
    if status != store_header.OK:
        raise StoreError(store_header.STATUSES[status], message.decode(errors="replace"), closes, ctypes.get_errno() if number is None else number)


def _told_of(kind: Callable[..., T], found: Any, function: Callable[..., int], *words: Any) -> T:
    """What a function that needs no store tells of what it has made."""
    _check(function(*words, ctypes.byref(found)), found.message)
    return kind(**{name: getattr(found, name) for name, *_ in found._fields_[:-2]})


def _recovered(function: Callable[..., int], *words: Any) -> Recovered:
    return _told_of(Recovered, store_header.relkvanu_store_recovered(), function, *words)


def _noting(kind: Callable[[Any], Any], found: List[T], make: Callable[[Any], T]) -> Any:
    """A function of this kind, which notes each thing that the library tells of."""
    def note(_: object, it: Any) -> bool:
        found.append(make(it.contents))
        return True

    return kind(note)


def _record(it: Any) -> Record:
    damage = None if it.status == store_header.OK else store_header.STATUSES[it.status]
    return Record(it.id, it.is_savepoint, it.is_of_job, it.is_next, it.written, it.files, it.bytes, it.missing, damage, it.unknown, it.changed)


def _why() -> str:
    text = ctypes.create_string_buffer(512)
    _library.relkvanu_store_why(text, len(text))
    return text.value.decode(errors="replace")


def _chosen(answer: header.relkvanu_answer) -> Optional[Chosen]:
    return Chosen(answer.a, CHOSEN[answer.what]) if answer.what in CHOSEN else None


UNTICKED: Dict[int, Callable[[], Next]] = {
    store_header.TIMED_OUT: NextIdle, store_header.JOB_STOPPED: NextStopped, store_header.NOT_STOPPED: NextNotStopped}
STANDSTILLS: Dict[Mode, Callable[[], Next]] = {Mode.FAILED: NextFailed, Mode.CANCELLED: NextCancelled}
ENDED = {header.CALL_ACK: 80, header.CALL_RESERVE: 0, header.CALL_FORFEIT: 0, header.CALL_TAKE: 0}  # records that such a call ends at most


def _more(ended: int) -> Any:
    """What a call tells beside its answer, with a buffer for so many records that it ends."""
    more = store_header.relkvanu_store_more()
    more.ended, more.ended_room = (U64 * ended)(), ended
    return more


def _layout(kind: Any) -> str:
    """The fields of a type of C, as struct has them."""
    if issubclass(kind, ctypes.Structure):
        return "".join(_layout(it) for _, it in kind._fields_)
    if issubclass(kind, ctypes.Array):
        return _layout(kind._type_) * int(kind._length_)
    return str(kind._type_) if kind._type_ in ("H", "I", "L") else "P"


def _layouts(kind: Any) -> Tuple[struct.Struct, struct.Struct]:
    """Of a structure: the fields that the library reads, up to "reserved"; and all of it, with the others as values."""
    length, zeros = [name for name, *_ in kind._fields_].index("reserved"), kind.reserved.size
    read, written = ("".join(_layout(it) for _, it in fields) for fields in (kind._fields_[:length], kind._fields_[length + 1:]))
    return struct.Struct(f"{read}{zeros}x"), struct.Struct(f"{struct.calcsize(read) + zeros}x{written}0P")


def _check_range(call: Call) -> None:
    """Raises OutOfRange for a number that has no room in its field."""
    for value, bits in ((call.vertex, 16), (call.index, 16), (call.number, 64), (call.term, 64), *((it, 64) for it in call.figures)):
        _within(value, bits)


READ_CALL, TOLD_CALL = _layouts(store_header.relkvanu_store_call)
READ_MORE, TOLD_MORE = _layouts(store_header.relkvanu_store_more)


class _List:
    """Calls as the library takes them, with what they point to: one array has all numbers, and one all texts. An object of ctypes for each field of each call
    would take longer than the commit."""

    def __init__(self, calls: Sequence[Call]) -> None:
        self.length = len(calls)
        self.calls: Any = (store_header.relkvanu_store_call * len(calls))()
        self._more = (store_header.relkvanu_store_more * len(calls))()
        texts = [it for call in calls for it in (bytes(call.payload), call.reason.encode())]
        self._texts = ctypes.c_char_p(b"".join(texts))
        self._numbers = _words([it for call in calls for it in (*call.first, *call.second)])
        rooms = [ENDED.get(it.kind, store_header.MOST_ENDED) for it in calls]
        taken = [_within(it.number, 20) if it.kind == header.CALL_TAKE else 0 for it in calls]
        self._rooms = (U64 * (sum(rooms) + sum(taken)))()
        self.calls.kept = self._more, self._texts, self._numbers, self._rooms  # a call goes on with them after an interrupt, when nobody has this list any more
        try:
            self._write(calls, [len(it) for it in texts], rooms, taken)
        except struct.error as why:
            for call in calls:
                _check_range(call)
            raise TypeError(str(why)) from None

    def _write(self, calls: Sequence[Call], texts: List[int], rooms: List[int], taken: List[int]) -> None:
        """The calls, with the lengths of what they point to."""
        text, number = ctypes.cast(self._texts, ctypes.c_void_p).value or 0, ctypes.addressof(self._numbers)
        room, more, at_call, at_more = ctypes.addressof(self._rooms), ctypes.addressof(self._more), 0, 0
        pack_call, pack_more, now = READ_CALL.pack_into, READ_MORE.pack_into, store_header.NOW
        for it, payload, reason, ended, files in zip(calls, texts[::2], texts[1::2], rooms, taken):
            first, second = len(it.first), len(it.second)
            pack_more(self._more, at_more, text, payload, *it.figures, text + payload, reason, room, ended)
            pack_call(
                self.calls, at_call, it.kind, it.vertex, it.index, now if it.now is None else _within(it.now, 63), it.number, it.term,
                number, first, number + 8 * first, second, room + 8 * ended, files, more + at_more)
            text, number, room = text + payload + reason, number + 8 * (first + second), room + 8 * (ended + files)
            at_call, at_more = at_call + TOLD_CALL.size, at_more + TOLD_MORE.size

    def outcomes(self) -> List[Outcome]:
        """Nearly every call was made, and has ended no record."""
        outcomes: List[Outcome] = []
        answers, more = TOLD_CALL.iter_unpack(self.calls), TOLD_MORE.iter_unpack(self._more)
        for (code, what, a, b, _, choice, _, _, place, term), (ended, kind) in zip(answers, more):
            if code == header.DONE and what in MADE and choice not in CHOSEN and ended == 0:
                outcomes.append(with_fields(
                    Made, reply=MADE[what](a, b), place=place, choice=None, term=term, kind=KINDS.get(kind), ended=()))
            else:
                outcomes.append(self.outcome(self.calls[len(outcomes)]))
        return outcomes

    @staticmethod
    def outcome(call: store_header.relkvanu_store_call) -> Outcome:
        answer = call.answer
        if answer.code == store_header.NOT_MADE:
            return OutOfMemory()
        try:
            _done(answer)
            reply = Taken(tuple(call.files[: answer.a])) if answer.what == header.TAKEN else _made(answer)
        except Error as error:
            return error
        more = call.more.contents if call.more else None
        told = (KINDS.get(more.kind), tuple(more.ended[: min(more.ended_len, more.ended_room)])) if more is not None else (None, ())
        return Made(reply, call.place, _chosen(call.choice), call.term, *told)


class Reads(Coordinator):
    """The reads of a coordinator, between two commits: those of Coordinator that change nothing. For the time of Store.read()."""

    def __init__(self, handle: Any) -> None:
        self._begin()
        self._handle = header.relkvanu.from_address(ctypes.addressof(handle.contents))

    def __getattribute__(self, name: str) -> Any:
        if name[0] != "_" and name not in READS:
            raise AttributeError(f"{name} is no read")
        return super().__getattribute__(name)

    def __del__(self) -> None:
        """The store closes it."""

    def _end(self) -> None:
        self._handle = header.relkvanu(None)  # each later read raises Closed


class _Read:
    """A read of a store. It ends once, whoever ends it, and also if it begins only after that."""

    def __init__(self, job: "Store") -> None:
        self._job = job
        self._handle = ctypes.POINTER(header.relkvanu)()  # the library sets it when the read begins
        self.thread = threading.get_ident()
        self._reads: Optional[Reads] = None
        self._ender: Optional[Once] = None
        self._is_over = self._has_returned = False

    def _wait(self) -> Optional[Exception]:
        """Waits for the read to begin. It may be over by then, because the wait was interrupted."""
        store = self._job._store
        fault = self._job._fault(_library.relkvanu_store_read(store, ctypes.byref(self._handle)), store)
        self._has_returned = True
        if self._is_over or fault is not None:
            self.end()
        return fault

    def begin(self) -> Reads:
        task = Task(self._wait)
        try:
            self._job._used.add(self)
            self._ender = Once(_library.relkvanu_store_read_end, self._job._opened())
            if is_main():
                task.start()
                fault = task.wait()
            else:
                fault = self._wait()
            if fault is not None:
                raise fault
            self._job._reading = self
            self._reads = Reads(self._handle)
            return self._reads
        except BaseException:
            if task.is_taken_back():
                self._has_returned = True
            self.end()  # or the task does, once it has returned
            raise

    def end(self) -> None:
        self._is_over = True
        if not self._has_returned:
            return
        if self._reads is not None:
            self._reads._end()
        if self._handle and self._ender is not None:
            self._ender.end()
        if self._job._reading is self:
            self._job._reading = None
        self._job._used.discard(self)


class _Reading:
    """A read for `with`. If a signal interrupts its end, it ends when nobody has this any more."""

    def __init__(self, job: "Store") -> None:
        self._read = _Read(job)

    def __enter__(self) -> Reads:
        return self._read.begin()

    def __exit__(self, *_: object) -> None:
        self._read.end()

    def __del__(self) -> None:
        self._read.end()


class Store(ContextManager["Store"]):
    """A durable coordinator. `with Store(..) as job:` closes it. Threads may share it.

    Each call raises Refused, OutOfMemory and so on as that of Coordinator does, and StoreError if it was not committed. close() waits for
    the calls of other threads; later ones raise StoreError("Closed").
    """

    def __init__(
        self,
        path: Path,
        settings: Settings,
        shape: Sequence[int],
        *,
        storage: Optional[Path] = None,
        create: bool = False,
        only_create: bool = False,
        adopt: bool = False,
        earlier_image: bool = False,
        backup: bool = False,
        manifests: bool = False,
        checksums: bool = False,
        patience: int = 0,
        image_calls: Optional[int] = 10_000,
        most_ahead: int = 0,
    ) -> None:
        """Recovers the job at `path`, or makes one if `create` says so. `storage` is the folder of the state files, which has to exist.
        `image_calls` is None for no images. The settings are those of a new job; `report.settings_differ` compares them.
        `backup` opens a backup, once: see backup().
        With `manifests` the storage folder gets a manifest of each complete record, of which recover() makes the job again if its file is lost.
        With `checksums` too the manifests have a checksum of each file, for which the store reads it once: see check_records()."""
        self.path = os.fspath(path)
        self._store = ctypes.c_void_p()
        self._process = os.getpid()
        self._used: Set[object] = set()  # who is in the library; add and discard are one step each, so an interrupt leaves nobody here
        self._reading: Optional[_Read] = None
        self._closing = False
        self._closer: Optional[Task] = None
        self._ends = threading.RLock()
        self._lock = threading.Lock()
        self._submits: Dict[int, _List] = {}
        self._token = 0
        self._places: List[Tuple[Any, ...]] = []  # the functions of keep_manifests(), which C calls
        self.manifest_fault: Optional[BaseException] = None
        self._kept: Optional[Manifests] = None  # the place of keep_manifests()
        self.checksums = checksums  # whether its manifests have them
        flags = create * store_header.CREATE | only_create * store_header.CREATE_ONLY | adopt * store_header.ADOPT
        words, found = _words(shape), store_header.relkvanu_store_report()
        options = store_header.relkvanu_store_options(
            flags | earlier_image * store_header.EARLIER_IMAGE | backup * store_header.BACKUP
            | manifests * store_header.MANIFESTS | checksums * store_header.CHECKSUMS, _within(patience, 32),
            store_header.NO_IMAGES if image_calls is None else _u64(image_calls), _u64(most_ahead),
            None if storage is None else _bytes(storage), _settings(settings), ctypes.cast(words, ctypes.POINTER(U64)), len(shape))
        status = _library.relkvanu_store_open(ctypes.byref(self._store), _bytes(path), ctypes.byref(options), ctypes.byref(found))
        _check(status, found.message, _closes(status))
        self.report = Report(
            found.is_recovered, found.settings_differ, tuple(Step(it) for it in found.steps[: found.steps_len]), found.epoch,
            f"{found.job[0]:016x}{found.job[1]:016x}", found.image_place, found.replayed, found.taken, found.moment, Mode(found.mode.what),
            _chosen(found.choice), found.term, found.next_name, _phase(found.phase, found.savepoint, 0, found.stop_failed))

    def _message(self, store: ctypes.c_void_p) -> str:
        text = ctypes.create_string_buffer(512)
        _library.relkvanu_store_message(store, text, len(text))
        return text.value.decode(errors="replace")

    def _fault(self, status: int, store: ctypes.c_void_p, *fine: int) -> Optional[Exception]:
        """What a status of the library says, unless it is fine. The thread is the one that has called it."""
        number = ctypes.get_errno()
        if status == store_header.OK or status in fine:
            return None
        if status == store_header.NO_MEMORY:
            return OutOfMemory()
        if status == store_header.NOT_PUT:
            return StoreError("NotPut", os.strerror(number), False, number)
        if status == store_header.STORAGE and self._message(store):  # a commit has found that the storage is another's
            return StoreError("Storage", self._message(store), True)
        if status in (store_header.NOT_DONE, store_header.STORAGE, store_header.PRESENT):
            return StoreError(store_header.STATUSES[status], _why(), False, number if status == store_header.NOT_DONE else 0)
        return StoreError(store_header.STATUSES[status], self._message(store), _closes(status))

    def _opened(self, in_read: bool = False) -> ctypes.c_void_p:
        """The store, for who is among the uses."""
        if self._closing or not self._store:
            raise StoreError("Closed", "close() was called", False)
        if not in_read and self._reading is not None and self._reading.thread == threading.get_ident():
            raise StoreError("InRead", "this thread is in read(), so the call would wait for itself: make it after the read", False)
        return self._store

    def _at_once(self, work: Callable[[ctypes.c_void_p], Any], in_read: bool = True) -> Any:
        """Does what never waits, with the store, which is not freed meanwhile. Or it waits in this thread, and may not be called `in_read`: then a handler runs in
        what it calls, or afterwards."""
        use = object()
        try:
            self._used.add(use)
            return work(self._opened(in_read))
        finally:
            self._used.discard(use)

    def _waits(self, work: Callable[[ctypes.c_void_p], Any]) -> Any:
        """Does what may wait. In the main thread another one does it, so that the handlers of signals run meanwhile. If one raises, the work goes
        on to its end, and the store is not freed before."""
        use = object()

        def done() -> Any:
            try:
                return work(store)
            finally:
                self._used.discard(use)

        task = Task(done)
        try:
            self._used.add(use)
            store = self._opened()
            if not is_main() or os.getpid() != self._process:
                return work(store)
            task.start()
            return task.wait()
        finally:
            if not is_main() or task.is_taken_back():
                self._used.discard(use)

    def _made(self, function: Callable[..., int], *words: Any, fine: Sequence[int] = (), says: bool = False, at_once: bool = False) -> int:
        """Makes a call of the library that may wait, and returns its status, which is OK or fine. One that says why it was not made has said it for this thread."""
        def work(store: ctypes.c_void_p) -> Tuple[int, Optional[Exception]]:
            status = function(store, *words)
            if says and store_header.STATUSES[status] in SAID:
                return status, StoreError(store_header.STATUSES[status], _why(), False)
            return status, self._fault(status, store, *fine)

        status, fault = self._at_once(work) if at_once else self._waits(work)
        if fault is not None:
            raise fault
        return int(status)

    def __reduce__(self) -> NoReturn:
        raise TypeError("a Store can't be copied or pickled")

    def close(self) -> None:
        """Lets timers and discarders return, waits for the calls of other threads and for submits, makes an image, and closes. If it is interrupted,
        no later call is made, and the next close() goes on with it."""
        if not self._store or os.getpid() != self._process:
            return  # in a forked child the store is that of its parent
        for use in list(self._used):
            if isinstance(use, _Read) and use.thread == threading.get_ident():
                use.end()
        with self._ends:
            self._closing = True
            if self._closer is None:
                _library.relkvanu_store_stop(self._store)
                while self._used:
                    time.sleep(0.002)
            if self._closer is None:
                self._closer = Task(self._free)
            self._closer.start()
            self._closer.wait()

    def _free(self) -> None:
        _library.relkvanu_store_close(self._store)
        self._store = ctypes.c_void_p()

    def __exit__(self, *_: object) -> None:
        self.close()

    def __del__(self) -> None:
        if getattr(self, "_store", None):
            self.close()

    def calls(self, calls: Sequence[Call]) -> List[Outcome]:
        """Makes 1 to 4096 calls with no other in between, and returns once they are committed. A refused one is a Refused in the list."""
        made = _List(calls)
        about: List[str] = []

        def make(*words: Any) -> int:
            status: int = _library.relkvanu_store_calls(*words)
            about.append(_why())
            return status

        self._made(make, made.calls, made.length, says=True)
        outcomes = made.outcomes()
        for refused in [it for it in outcomes if isinstance(it, (Refused, Fenced))][:1]:
            refused.about = about[0]
        return outcomes

    def call(self, call: Call) -> Made:
        """One call."""
        (outcome,) = self.calls([call])
        return made_of(outcome)

    # bindings/generate makes the calls of one number of a store
    def tick(self, now: Optional[int] = None) -> Made:
        """Time has passed: records that are too old expire, and a checkpoint is triggered if one is due."""
        return self.call(Call.tick(now))

    def savepoint(self, now: Optional[int] = None) -> Made:
        """Triggers a savepoint. At most 1000 savepoints are pending or done."""
        return self.call(Call.savepoint(now))

    def dispose(self, id: int) -> Made:
        """A user disposes of the completed savepoint id."""
        return self.call(Call.dispose(id))

    def cancel(self, now: Optional[int] = None) -> Made:
        """The job ends for good."""
        return self.call(Call.cancel(now))

    def trigger(self, now: Optional[int] = None) -> Made:
        """Triggers a checkpoint now, whatever the interval and the pause. Nothing expires: make a tick first if records may be
        too old. The interval counts from it, as after a tick that triggers."""
        return self.call(Call.trigger(now))
    # bindings/generate: end

    # A task has a term, and its calls raise Fenced("OldTerm") once it has ended. Such a call changes nothing.

    def ack_in(
        self, term: int, id: int, vertex: int, index: int, fresh: Sequence[int] = (), reused: Sequence[int] = (), now: Optional[int] = None,
        *, payload: bytes = b"", bytes: int = 0, millis: int = 0
    ) -> Made:
        """The acknowledgement of a task of this term. The same once more raises Fenced("Spent"), if it has fresh files: a task deletes no file.
        A payload of at most 4096 bytes is the state of the task, if it is small: it is committed with the acknowledgement, and load() gives it back as long as the
        record is there. `bytes` and `millis` are figures of the task's snapshot, for history(). The record keeps the files in the order given here, the fresh
        ones first. Raises StoreError("BadArgument") if the payload is too long."""
        return self.call(Call.ack(id, vertex, index, fresh, reused, now, term, payload, (bytes, millis)))

    def decline_in(self, term: int, id: int, vertex: int, index: int, now: Optional[int] = None, *, reason: str = "") -> Made:
        """history() keeps the reason, at most 200 bytes in UTF-8; a longer one raises StoreError("BadArgument")."""
        return self.call(Call.decline(id, vertex, index, now, term, reason))

    def reserve(self, term: int, count: int) -> range:
        """Names for files that the task will write, 1 to 65536. They are durable, and not given out again."""
        reply = self.call(Call.reserve(term, count)).reply
        assert isinstance(reply, Reserved), reply
        return reply.names

    def forfeit(self, term: int, names: Sequence[int]) -> None:
        """Gives up names that the task will not acknowledge, as after a failed put: their files are garbage. At most 65536. Names that the
        term does not hold are passed over."""
        answer = header.relkvanu_answer()
        self._made(_library.relkvanu_store_forfeit, _u64(term), _words(names), len(names), ctypes.byref(answer))
        _told(answer, header.FORFEITED)

    def term(self) -> RunningTerm:
        """The term that runs, and the next name. Whoever starts tasks takes the term from its restore (Made.term). A task never asks."""
        answer = header.relkvanu_answer()
        self._made(_library.relkvanu_store_term, ctypes.byref(answer))
        return RunningTerm(_told(answer, header.TERM).a, answer.b)

    def garbage(self, files: Sequence[int]) -> Garbage:
        """Of these files those that may be deleted at any time, and those whose names were not given out, which nobody deletes."""
        answer, length = header.relkvanu_answer(), len(files)
        garbage, unissued = (U64 * length)(), (U64 * length)()
        self._made(_library.relkvanu_store_garbage, _words(files), length, garbage, unissued, ctypes.byref(answer))
        _told(answer, header.GARBAGE)
        return Garbage(tuple(garbage[: answer.a]), tuple(unissued[: answer.b]))

    def restore(self, savepoint: Optional[int] = None, shape: Optional[Sequence[int]] = None, now: Optional[int] = None) -> Made:
        """Raises StoreError("FileLost") if a savepoint that is named lacks a file in the storage folder, or in the bucket that has the manifests: nothing has
        changed then."""
        if savepoint:
            self._look_for(savepoint)
        return self.call(Call.restore(savepoint, shape, now))

    def _look_for(self, id: int) -> None:
        """Looks for the files of a record in a bucket, before all checkpoints are dropped. In a folder the library looks."""
        pages = getattr(self._kept, "pages", None)
        if pages is None:
            return
        try:
            found = self.load(id)
        except StoreError as why:
            if why.name != "Absent":
                raise
            return  # the call will be refused
        lost = {file for part in found.parts for file in part.files} if found is not None else set()
        lost.difference_update(*pages())
        if lost:
            raise StoreError("FileLost", f"file {min(lost)} of record {id} is missing", False)

    def restore_whole(self, savepoint: Optional[int] = None, shape: Optional[Sequence[int]] = None, now: Optional[int] = None) -> Restored:
        """restore(), and the record from which the job begins: see load(). The term is that of the tasks."""
        made = self.restore(savepoint, shape, now)
        return Restored(made.term, self.load(made.reply.id) if isinstance(made.reply, (RestoredCheckpoint, RestoredSavepoint)) else None)

    def load(self, id: Optional[int] = None) -> Optional[Whole]:
        """The complete record with this number, or the one that a restart begins from, with the files and the payload of each subtask, once it has looked
        that the files are in the storage folder. None: the job begins fresh. Raises StoreError "FileLost" (end the process, and sweep nothing),
        "Absent" (there is no such complete record) or "Damaged"."""
        found, parts = store_header.relkvanu_store_loaded(), []  # type: Any, List[Part]
        each = _noting(store_header.relkvanu_store_each_part, parts, _part)
        self._made(_library.relkvanu_store_load, _u64(id or 0), ctypes.byref(found), each, None, says=True)
        origin = (U64 * 2)()
        is_carried = self._at_once(lambda store: _library.relkvanu_store_origin(store, _u64(found.id), origin))
        return _whole(found, parts, f"{origin[0]:016x}{origin[1]:016x}" if is_carried else "")

    def history(self, most: int = 100) -> List[Past]:
        """At most so many of the last thousand records that are complete or have failed, the last one first."""
        room = min(most, store_header.MOST_HISTORY)
        found, length = (store_header.relkvanu_store_past * room)(), ctypes.c_size_t(room)
        self._made(_library.relkvanu_store_history, found, ctypes.byref(length), says=True)
        return [_past(it) for it in found[: length.value]]

    def advance(self, term: int, first_name: int) -> Made:
        """Begins a job again that lacks its last calls, as one of a backup does, in place of the first restore. `term` is the greatest
        that any task was told, and names are given out from `first_name` on. Made.term is the term of the tasks."""
        return self._verb(_library.relkvanu_store_advance, _u64(term), _u64(first_name))

    # What an operator wants of a job that runs. Any thread calls these, also while another one is in await_tick(), which hands over what they have made.
    # trigger() is one of them.

    def configure(self, settings: Settings) -> Made:
        """Other settings, from the next tick on. Done checkpoints above the new number retained go in the same commit, and the reply says how many. Raises
        StoreError("BadArgument") if a value is outside its limits, and Refused("AtOnce") if more are pending than may be from then on."""
        return self._verb(_library.relkvanu_store_configure, ctypes.byref(_settings(settings)))

    def stop_job(self) -> Made:
        """Stops the job with a savepoint: the reply is SavepointTriggered. The timer rests. With the savepoint's last acknowledgement the job is stopped, in
        the same commit: await_tick() returns None, and phase() says so. Raises StoreError("NotNow") if it is being stopped, or is stopped."""
        return self._verb(_library.relkvanu_store_stop_job)

    def begin_job(self) -> Made:
        """A job that is stopped goes on: the reply says where, and Made.term is the term of its tasks. Raises StoreError("NotNow") if it is not stopped."""
        return self._verb(_library.relkvanu_store_begin_job)

    def go_back(self, id: int, accept_published: bool = False) -> Made:
        """Goes back to a done checkpoint that is retained, in one commit. What sinks have published for later records is not taken back, and the job will
        publish it again: `accept_published` has to say that this is accepted. The reply says where the job begins, and Made.term is the term of its tasks.
        Raises Refused("NoSuchRecord"), BadArgument("BadShape") if the job has another shape than the checkpoint had, or StoreError("FileLost") if the
        checkpoint lacks a file: nothing has changed then."""
        flags = store_header.ACCEPT_PUBLISHED if accept_published else 0
        if accept_published:
            self._look_for(id)
        return self._verb(_library.relkvanu_store_go_back, _u64(id), flags)

    def phase(self) -> JobPhase:
        """Whether the job runs, is being stopped or is stopped, of what is committed."""
        found = store_header.relkvanu_store_job_phase()
        self._made(_library.relkvanu_store_phase, ctypes.byref(found), at_once=True)
        return _phase(found.phase, found.savepoint, found.term, found.stop_failed)

    def _verb(self, function: Callable[..., int], *words: Any) -> Made:
        call = store_header.relkvanu_store_call()
        self._made(function, *words, ctypes.byref(call), says=True)
        return made_of(_List.outcome(call))

    def submit(self, calls: Sequence[Call]) -> int:
        """For event loops: as calls(), but returns a token at once. completed() returns it with the outcomes."""
        made = _List(calls)
        return self._submitted(made, lambda store, token: _library.relkvanu_store_submit(store, made.calls, made.length, token))

    def submit_stop_job(self) -> int:
        """For event loops: as stop_job(). completed() returns the token with one outcome, or with StoreError("NotNow")."""
        return self._submitted_verb(_library.relkvanu_store_submit_stop_job)

    def submit_begin_job(self) -> int:
        """For event loops: as begin_job(). completed() returns the token with one outcome, or with StoreError("NotNow")."""
        return self._submitted_verb(_library.relkvanu_store_submit_begin_job)

    def _submitted_verb(self, function: Callable[..., int]) -> int:
        made = _List([Call.tick()])  # a place: the function writes the call
        return self._submitted(made, lambda store, token: function(store, made.calls, token))

    def _submitted(self, made: "_List", submit: Callable[[ctypes.c_void_p, int], Any]) -> int:
        def work(store: ctypes.c_void_p) -> int:
            with self._lock:
                self._token += 1
                token = self._token
            self._submits[token] = made
            fault = self._fault(submit(store, token), store)
            if fault is not None:
                del self._submits[token]
                raise fault
            return token

        return int(self._at_once(work))

    def completed(self) -> List[Tuple[int, Union[List[Outcome], StoreError]]]:
        """The submits that are committed, or failed, since the last time. Never waits."""
        found = (store_header.relkvanu_store_completion * 64)()

        def work(store: ctypes.c_void_p) -> List[Tuple[int, Union[List[Outcome], StoreError]]]:
            length = _library.relkvanu_store_completed(store, found, len(found))
            return [(it.token, self._completion(it, store)) for it in found[:length]]

        completions: List[Tuple[int, Union[List[Outcome], StoreError]]] = self._at_once(work)
        return completions

    def _completion(self, it: store_header.relkvanu_store_completion, store: ctypes.c_void_p) -> Union[List[Outcome], StoreError]:
        made = self._submits.pop(it.token)
        if it.status == store_header.OK:
            return made.outcomes()
        return StoreError(store_header.STATUSES[it.status], self._message(store), _closes(it.status) or it.status == store_header.STORAGE)

    def fileno(self) -> int:
        """A descriptor that can be read (select, asyncio) while there are completions."""
        return int(self._at_once(_library.relkvanu_store_descriptor))

    def read(self) -> _Reading:
        """`with job.read() as reads:` reads what is committed. All callers wait meanwhile, so be quick, and make no call: one of this thread raises
        StoreError("InRead"), but close(), which ends the read, and submit()."""
        return _Reading(self)

    # What the protocol of a Job (relkvanu.jobs) has beside these.

    tells_savepoints = False

    @property
    def identity(self) -> str:
        return self.report.job

    def storage_marker(self) -> Marker:
        return Marker(MARKER, f"relkvanu: state files of the job {self.report.job}\n")

    def opening(self) -> Opening:
        if self.report.phase.phase is Phase.STOPPED:
            return Opening.BEGUN
        if Step.START_TASKS not in self.report.steps:
            return Opening.CANCELLED
        return Opening.OLD if Step.RESTORE in self.report.steps else Opening.NEW

    def mode(self) -> Mode:
        with self.read() as reads:
            return reads.mode()

    def choice(self) -> Optional[Chosen]:
        with self.read() as reads:
            return reads.choice()

    def live(self) -> List[Live]:
        with self.read() as reads:
            first = reads.live_from(0)
            found = [first] if first is not None else []
            while found and (it := reads.live_from(found[-1].id + 1)) is not None:
                found.append(it)
        return found

    def missing(self, id: int) -> List[Tuple[int, int]]:
        with self.read() as reads:
            acked = {it["subtask"] for it in reads.show(id).metadata["acks"]}
        return [it for it in subtasks_of(self.shape()) if "%d.%d" % it not in acked]

    def shape(self) -> Tuple[int, ...]:
        return self.job()[1]

    def file_counts(self) -> FileCounts:
        with self.read() as reads:
            return reads.file_counts()

    def now(self) -> int:
        """The moment of the store's clock."""
        return int(self._at_once(_library.relkvanu_store_now))

    def next_tick(self) -> Optional[int]:
        """After how many milliseconds the next tick has to come, unless a call is made before; None: only a call can bring one."""
        wait = U64()
        self._made(_library.relkvanu_store_next_tick, ctypes.byref(wait), at_once=True)
        return None if wait.value == FOREVER else wait.value

    def await_tick(self, longest: int = 1000) -> Optional[Made]:
        """A timer in a loop of a thread: sleeps until a tick is due, at most so many milliseconds, and makes it. It also hands over what trigger(),
        stop_job(), begin_job() and go_back() have made, once: the reply of the call, with its choice and its term. Triggered: the engine sends the
        barrier. SavepointTriggered: the same, and each task holds after its acknowledgement. A restore: the engine begins there, as after one of its own.
        None: none was due. It comes at once if the job has failed or was cancelled (read the mode), is stopped, or its stop has failed (see phase()).
        await_next() tells these apart."""
        status, outcome = self._timed(longest)
        return made_of(outcome) if status == store_header.OK else None

    def await_next(self, longest: int = 1000) -> Next:
        """As await_tick(), with one case for each thing that an engine does next: see relkvanu.nexts. Waits at most `longest` milliseconds, 0 to 2^64 - 1. A
        job that is not running is told of at once when that begins, to one caller, and then each time after `longest`. After stop() it is NextEnded at once.

        Raises Refused as tick(), but not "NotRunning"; OutOfMemory: no tick was made; OutOfRange for another `longest`; StoreError "Closed" after close(),
        "InRead" in a thread that reads, "Forked" in a child of the process, and one that `closes` if a commit has failed."""
        try:
            status, outcome = self._timed(longest)
        except StoreError as why:
            if why.name != "Stopped":
                raise
            return NextEnded()
        if status in UNTICKED:
            return UNTICKED[status]()
        if isinstance(outcome, Refused) and outcome.name == "NotRunning":
            return self._standstill()
        return _next_of(made_of(outcome))

    def _standstill(self) -> Next:
        """Why a tick was refused, or none is due. Nothing is due if that is over by now."""
        if self.phase().phase is Phase.STOPPED:
            return NextStopped()
        return STANDSTILLS.get(self.mode(), NextIdle)()

    def _timed(self, longest: int) -> Tuple[int, Outcome]:
        """Waits for a tick, and for what is handed over, in slices if it is the main thread. Returns what C does, and the outcome, if a call was made."""
        call, left, more = store_header.relkvanu_store_call(), _u64(longest), _more(store_header.MOST_ENDED)
        status, waits = store_header.TIMED_OUT, (store_header.NOT_RUNNING, store_header.JOB_STOPPED)
        while status == store_header.TIMED_OUT or (status in waits and call.answer.a == 0):
            part = min(left, SLICE) if is_main() else left
            left -= part
            status = self._made(_library.relkvanu_store_await_tick_with, part, ctypes.byref(call), ctypes.byref(more), fine=(
                store_header.TIMED_OUT, store_header.NOT_STOPPED, *waits))
            if left == 0:
                break
        return status, _List.outcome(call)

    def put(self, file: int, contents: bytes) -> None:
        """Makes a file of the storage folder by its number. When it returns, a loss of power does not take the file, and a task may acknowledge it.
        Raises StoreError "Present", "Storage" or "NotPut": then the task forfeits the name and declines, and leaves what is there to a sweep. `errno`
        of a "NotPut" says what the system has said."""
        self._made(_library.relkvanu_store_put, _u64(file), contents, len(contents))

    def put_from(self, file: int, source: Any) -> None:
        """As put(), of what an open binary file (or anything with read()) gives from its position on. What read() raises is raised, and then there is
        no file."""
        thrown: List[BaseException] = []

        def read(_: Any, to: int, room: int) -> int:
            try:
                some = source.read(room)
                ctypes.memmove(to, bytes(some), len(some))
                return len(some)
            except BaseException as why:
                thrown.append(why)
                return -1

        try:
            self._made(_library.relkvanu_store_put_from, _u64(file), store_header.relkvanu_store_source(read), None)
        except StoreError:
            if thrown:
                raise thrown[0]
            raise

    def put_link(self, file: int, path: Path) -> None:
        """As put(), of a file that exists, on the same file system, which gets the number as a second name: nobody writes it afterwards. Raises
        StoreError("NotPut") with the `errno` EXDEV if it is on another file system: put_from() copies it."""
        self._made(_library.relkvanu_store_put_link, _u64(file), AT_FDCWD, _bytes(path))

    def sweep(self) -> int:
        """A sweep: deletes the files of the storage folder that are garbage, and syncs it. Returns how many could not be deleted.
        It runs at any time, also beside tasks, and counts()["unissued"] are the files that it left since their names were not
        given out. Raises StoreError "Storage" if the folder is gone or another's, and "NotDone" if it could not be read or
        synced now: sweep again later."""
        left = ctypes.c_size_t()
        self._made(_library.relkvanu_store_sweep, ctypes.byref(left))
        return left.value

    def backup(self, path: Path) -> None:
        """Makes a backup of the job in a new file, while other threads call. It is whole and durable when this returns. Raises StoreError "Present",
        "NotNow" (another backup writes it) or "NotPut" (a full disk, say): then there is none, and the store goes on.

        A BACKUP LACKS THE CALLS SINCE IT WAS MADE. Store(.., backup=True) opens it, once, after all processes and tasks of the job have ended, and then
        the engine restores a record whose files are all there: docs/DURABLE-OPERATION.md, Back up. Without that it raises StoreError("Storage")."""
        message, name = ctypes.create_string_buffer(512), _bytes(path)

        def work(store: ctypes.c_void_p) -> Tuple[int, int]:
            return _library.relkvanu_store_backup(store, name, message, len(message)), ctypes.get_errno()

        status, number = self._waits(work)
        _check(status, message.value, _closes(status), number)

    def marker(self) -> Marker:
        """What a storage of this opening has as its marker: a folder or a bucket with it takes no deletion of an earlier opening."""
        return Marker(".relkvanu-job", f"relkvanu job {self.report.job}\nepoch {self.report.epoch}\n")

    def keep_manifests(self, place: Manifests) -> None:
        """Keeps manifests in a place of the engine's, for a store without `storage`: right after each opening. relkvanu.s3.StateBucket does it. Those of all
        complete records are put anew. While one is put the calls of all threads wait. If one can't be put, `manifest_fault` has the reason, measures() counts
        it, and it is tried again. Raises what the place has raised: then no manifests are kept."""
        def guarded(work: Callable[..., None]) -> Callable[..., int]:
            def done(_: object, *words: Any) -> int:
                try:
                    work(*words)
                except BaseException as error:  # nothing passes through C
                    self.manifest_fault = error
                    return 4 if isinstance(error, OtherJob) else 9  # RELKVANU_STORAGE_OTHER_JOB, _FAILED
                return 0
            return done

        def tell_names(each: Callable[..., bool], with_each: Any) -> None:
            for name in place.manifests():
                each(with_each, name.encode())

        functions = (
            store_header.relkvanu_store_check_place(guarded(place.check)),
            store_header.relkvanu_store_put_named(guarded(lambda name, at, length: place.put_manifest(name.decode(), ctypes.string_at(at, length)))),
            store_header.relkvanu_store_remove_named(guarded(lambda name: place.remove_manifest(name.decode()))),
            store_header.relkvanu_store_list_named(guarded(tell_names)))
        self._places.append(functions)  # a refused call changes nothing: those that are kept stay
        self.manifest_fault = None
        try:
            self._made(_library.relkvanu_store_keep_manifests, *functions, None)
        except StoreError as error:
            raise (self.manifest_fault or error) from None
        self._kept = place

    @staticmethod
    def recover_listed(path: Path, listing: Path, record: int = 0) -> Recovered:
        """recover() for a job whose manifests keep_manifests() has kept: `listing` is a folder that stands for the place. relkvanu.manifests makes one."""
        return _recovered(_library.relkvanu_store_recover_listed, _bytes(path), _bytes(listing), _u64(record))

    @staticmethod
    def recover(path: Path, storage: Path, record: int = 0) -> Recovered:
        """Makes the job at `path` again, whose file was lost, from the manifests in its storage folder: from the last record that was the choice and has
        all its files, or from the record with this number. Each task and process of the old job has been told to end. Killed at any moment it
        has done nothing, or all. Then Store(path, .., storage=storage) recovers the job as ever.

        Raises StoreError "Present" (there is a job), "Absent" (no record with a manifest has all its files), "Damaged" (a manifest that can't be read is
        later: give a record), "Storage" or "InUse", and nothing has changed."""
        return _recovered(_library.relkvanu_store_recover, _bytes(path), _bytes(storage), _u64(record))

    @staticmethod
    def export(storage: Path, to: Path, record: int = 0) -> Carried:
        """Makes the folder `to` of the record that recover() would begin from, or of this one: its files, linked or copied, and its manifest. The job of
        the storage folder may run meanwhile. Killed at any moment it has done nothing, or all. Raises StoreError "Present" (there is something at
        `to`), "Absent" (no record with a manifest has all its files) and so on."""
        found = store_header.relkvanu_store_carried()
        return _told_of(Carried, found, _library.relkvanu_store_export, _bytes(storage), _u64(record), _bytes(to))

    @staticmethod
    def import_job(source: Path, path: Path, storage: Path, record: int = 0, claim: bool = False) -> Recovered:
        """Makes another job, at `path` over the folder `storage`, of a record in `source`: an exported folder, or the storage folder of a job, which may run.
        With `claim` the record's files leave `source`, or stay in place if `storage` is the same folder, and a job that has the folder is refused from then on.
        A mark stays there: without a number nothing else takes an earlier record for the latest ("Absent"). Raises StoreError as export() and recover()."""
        function = _library.relkvanu_store_claim if claim else _library.relkvanu_store_import
        return _recovered(function, _bytes(source), _u64(record), _bytes(path), _bytes(storage))

    @staticmethod
    def put_back(backup: Path, path: Path, storage: Path) -> Tuple[Recovered, str]:
        """Puts a backup of backup() back in the place of the job's file. Read docs/DURABLE-OPERATION.md, Back up, first. Returns what the job goes on from, and
        the folder that has what was there before."""
        found = store_header.relkvanu_store_recovered()
        made = _told_of(Recovered, found, _library.relkvanu_store_put_back, _bytes(backup), _bytes(path), _bytes(storage))
        return made, found.message.decode(errors="replace")

    @staticmethod
    def records(storage: Path) -> List[Record]:
        """The records of a storage folder that have a manifest, in the order of their numbers. It needs no job, and may be called at any time."""
        message, records = ctypes.create_string_buffer(512), []  # type: Any, List[Record]
        each = _noting(store_header.relkvanu_store_each_record, records, _record)
        _check(_library.relkvanu_store_records(_bytes(storage), each, None, message, len(message)), message.value)
        return records

    @staticmethod
    def check_records(storage: Path) -> List[Tuple[Record, Dict[int, FileFault]]]:
        """The same, and reads the files: each one of which a manifest has a checksum, once. Returns for each record what is wrong with its files."""
        message, records = ctypes.create_string_buffer(512), []  # type: Any, List[Record]
        faults: DefaultDict[int, Dict[int, FileFault]] = collections.defaultdict(dict)

        def note_fault(_: object, record: int, file: int, fault: int) -> bool:
            faults[record][file] = FileFault(fault)
            return True

        each = _noting(store_header.relkvanu_store_each_record, records, _record), store_header.relkvanu_store_each_fault(note_fault)
        _check(_library.relkvanu_store_check_records(_bytes(storage), *each, None, message, len(message)), message.value)
        return [(it, faults.get(it.id, {})) for it in records]

    def job(self) -> Tuple[Settings, Tuple[int, ...]]:
        """The settings and the shape that the job has now: for after an opening whose report says `settings_differ`, or before configure(). Makes an image."""
        settings, shape, length = header.relkvanu_settings(), (U64 * 256)(), ctypes.c_size_t(256)
        self._made(_library.relkvanu_store_job, ctypes.byref(settings), shape, ctypes.byref(length))
        return Settings(**{name: getattr(settings, name) for name, *_ in settings._fields_}), tuple(shape[: length.value])

    def folder(self) -> Optional[int]:
        """The descriptor of the storage folder, for os.unlink(.., dir_fd=..), which reaches no folder that is mounted over it."""
        folder: int = self._at_once(_library.relkvanu_store_folder)
        return None if folder < 0 else folder

    def discard(self, delete: Optional[Callable[[int], bool]] = None, batch: int = 0) -> None:
        """A discarder in a thread of the engine: runs until stop() or close(). delete(file) says whether the file is not there any more, also
        if it was not there before; an OSError says that it is. What else it raises ends the discarder, which raises it too, once the files before it
        are reported. Without it the files of the storage folder are deleted. Never gives up."""
        def delete_each(files: List[int], is_gone: Any) -> None:
            for place, file in enumerate(files):
                with contextlib.suppress(OSError):
                    is_gone[place] = 1 if delete is not None and delete(file) else 0

        self._discard(None if delete is None else delete_each, batch)

    def discard_lists(self, delete: Callable[[List[int]], Container[int]], batch: int = 1000) -> None:
        """As discard(), for a storage that deletes many files by one request: delete(files) is given up to `batch` of them, 1 to 4095, and returns those
        that may be there still, as `delete` of a relkvanu.storage.Storage does. An OSError says that all may be there."""
        def delete_list(files: List[int], is_gone: Any) -> None:
            with contextlib.suppress(OSError):
                failed = delete(files)
                for place, file in enumerate(files):
                    is_gone[place] = file not in failed

        self._discard(delete_list, batch)

    def _discard(self, delete: Optional[Callable[[List[int], Any], None]], batch: int) -> None:
        """Runs a discarder: delete(files, is_gone) notes which of the files are gone. None: the files of the storage folder are deleted."""
        thrown: List[BaseException] = []

        def delete_some(_: Any, files: Any, length: int, is_gone: Any) -> bool:
            try:
                if delete is not None:
                    delete(files[:length], is_gone)
                return True
            except BaseException as why:
                thrown.append(why)
                return False

        deletes = store_header.relkvanu_store_delete_some(delete_some) if delete is not None else store_header.relkvanu_store_delete_some(0)

        def work(store: ctypes.c_void_p) -> Tuple[int, Optional[Exception]]:
            status = _library.relkvanu_store_discard_for(store, batch, SLICE, deletes, None)
            return status, self._fault(status, store, store_header.TIMED_OUT, store_header.STOPPED, store_header.NO_MEMORY)

        status, fault = store_header.OK, None
        while status != store_header.STOPPED and fault is None and not thrown:
            status, fault = self._waits(work) if delete is None else self._at_once(work, in_read=False)
        if thrown:
            raise thrown[0]
        if fault is not None:
            raise fault

    def stop(self) -> None:
        """Lets await_tick and discard end, now and later: await_tick raises StoreError("Stopped")."""
        self._at_once(_library.relkvanu_store_stop)

    def counts(self) -> Dict[str, int]:
        """Counts since the opening: commits, calls, largest, images, failed_images, checkpoints, failed_checkpoints, retries, swept, unissued."""
        found = store_header.relkvanu_store_counts()
        self._at_once(lambda store: _library.relkvanu_store_count(store, ctypes.byref(found)))
        return {name: getattr(found, name) for name, *_ in found._fields_[:-1]}

    def measures(self) -> Dict[str, int]:
        """What an operator watches: wal_bytes, log_rows, last_commit (ms since 1970 by the wall clock; 0: none since the opening) and failed_deletions."""
        found = store_header.relkvanu_store_measures()
        self._at_once(lambda store: _library.relkvanu_store_measure(store, ctypes.byref(found), ctypes.sizeof(found)))
        return {name: getattr(found, name) for name, *_ in found._fields_}
