"""The coordinator of one job, with a method for each call."""
import contextlib
import ctypes
import os
import pathlib
import secrets
import threading
from dataclasses import dataclass
from typing import TYPE_CHECKING, Any, Callable, ContextManager, Dict, Iterator, NoReturn, Optional, Sequence, Tuple, TypeVar, Union

from relkvanu import header
from relkvanu.errors import (  # also under these names
    BadArgument as BadArgument, BadLine as BadLine, Closed as Closed, Error as Error, Fenced as Fenced, OutOfMemory as OutOfMemory,
    OutOfRange as OutOfRange, Refused as Refused, TooShort as TooShort, check_restore,
)
from relkvanu.reads import CHOSEN, LIVE, Chosen, FileCounts, Garbage, Live, Mode, RunningTerm, Standing
from relkvanu.replies import MADE, HeldAtOnce, Reply, Shown, Taken

if TYPE_CHECKING:
    from relkvanu.aligner import Cut

LIBRARY = "librelkvanu.so.0"
U64 = ctypes.c_uint64
T = TypeVar("T")
DAY = 24 * 60 * 60 * 1000
LAST_MOMENT = (1 << 62) - 1
# bindings/generate makes the names
# The names of what an answer has, by its code.
NAMES: Dict[int, Dict[int, str]] = {
    header.BAD_ARGUMENT: {
        header.ALREADY_OPEN: "AlreadyOpen", header.BAD_CONFIG: "BadConfig", header.BAD_SHAPE: "BadShape", header.BAD_MOMENT: "BadMoment",
        header.BAD_FIRST: "BadFirst", header.BAD_KIND: "BadKind", header.BAD_IMAGE: "BadImage", header.BAD_NAME: "BadName", header.BAD_GROUP: "BadGroup",
        header.BAD_RECEIPT: "BadReceipt",
    },
    header.BAD_LINE: {
        header.FAULT_TOO_LONG: "TooLong", header.FAULT_WORD: "Word", header.FAULT_MISSING: "Missing", header.FAULT_NUMBER: "Number",
        header.FAULT_EXTRA: "Extra", header.FAULT_NO_CALL: "NoCall",
    },
    header.FENCED: {
        header.OLD_TERM: "OldTerm", header.ENDED: "Ended", header.BAD_COUNT: "BadCount", header.NAMES_USED_UP: "NamesUsedUp",
        header.TERMS_USED_UP: "TermsUsedUp", header.SPENT: "Spent", header.NEVER_RESERVED: "NeverReserved", header.NO_NAMES: "NoNames",
        header.HAS_NAMES: "HasNames", header.NAME_IN_USE: "NameInUse",
    },
}
# bindings/generate: end


class Unknown(Error):
    """The library gave an answer that this package does not know, so it is of another version. After this exception alone the call may
    have been made, if `code` is 0."""

    def __init__(self, code: int, what: int) -> None:
        super().__init__(code, what)
        self.code = code
        self.what = what

    def __str__(self) -> str:
        return f"version {version()} of the library gave an answer that the package does not know: code {self.code}, what {self.what}"


@dataclass(frozen=True)
class Settings:
    """The configuration. Durations are milliseconds. docs/RULES.md has the limits."""

    interval: int
    pause: int = 0
    at_once: int = 1
    timeout: int = 600_000
    tolerable: int = 0
    retained: int = 1
    keep_on_cancel: bool = False


def _check_version(library: ctypes.CDLL, path: str) -> None:
    """Raises ImportError unless the first two numbers of its version are those of the package: before 1.0 each of these has an interface
    of its own."""
    library.relkvanu_version.restype = ctypes.c_char_p
    told: str = library.relkvanu_version().decode()
    if told.rpartition(".")[0] != header.VERSION.rpartition(".")[0]:
        raise ImportError(
            f"the package relkvanu {header.VERSION} can't use {path}, which is version {told} and has another interface: install version "
            f"{header.VERSION} of the library",
            name="relkvanu", path=path,
        )


def _loaded(file: str, functions: Dict[str, Any], of: str, told: str, check: Callable[[ctypes.CDLL, str], None]) -> ctypes.CDLL:
    """The library in the folder that RELKVANU_LIB names, else the one beside the package, else that of the system. Raises ImportError if
    there is none, if it lacks a function, or if the check does."""
    folder = os.environ.get("RELKVANU_LIB")
    beside = pathlib.Path(__file__).resolve().parent / file
    path = os.path.join(folder, file) if folder is not None else str(beside) if beside.is_file() else file
    try:
        library = ctypes.CDLL(path, use_errno=True)  # which releases the interpreter's lock in each call
        check(library, path)
        for name, (result, parameters) in functions.items():
            function = getattr(library, name)
            function.argtypes, function.restype = parameters, result
    except (OSError, AttributeError) as fault:
        raise ImportError(told % fault, name=of, path=path) from None
    return library


_library = _loaded(LIBRARY, header.FUNCTIONS, "relkvanu", (
    f"the library of Relkvanu {header.VERSION} can't be loaded: %s; run make and set RELKVANU_LIB to its folder `build`, or install a release (docs/EMBEDDING.md)"
), _check_version)


def _shared() -> ctypes.CDLL:
    return _library


def _within(value: int, bits: int) -> int:
    """The number. Raises OutOfRange if it does not fit, since ctypes would cut it off."""
    if not 0 <= value < 1 << bits:
        raise OutOfRange(f"{value} has more than {bits} bits, or is negative")
    return value


def _u64(value: int) -> int:
    return _within(value, 64)


def _words(values: Sequence[int]) -> Any:
    return (U64 * len(values))(*map(_u64, values))


def _text(text: bytes) -> Any:
    return (ctypes.c_uint8 * len(text)).from_buffer_copy(text)


def _keys() -> Tuple[int, int]:
    """The secret of a coordinator's maps."""
    return secrets.randbits(64), secrets.randbits(64)


def _settings(settings: Settings) -> header.relkvanu_settings:
    values = settings.interval, settings.pause, settings.at_once, settings.timeout, settings.tolerable, settings.retained
    return header.relkvanu_settings(*map(_u64, values), settings.keep_on_cancel)


def _name(refusal: int) -> str:
    text = (ctypes.c_uint8 * 32)()
    length = _shared().relkvanu_refusal_text(refusal, text, len(text))
    return bytes(text[:length]).decode() or f"Unknown {refusal}"


def _done(answer: header.relkvanu_answer) -> header.relkvanu_answer:
    if answer.code == header.DONE:
        return answer
    if answer.code == header.REFUSED:
        raise Refused(_name(answer.what), answer.a if answer.what in (header.NAME_TAKEN, header.FILE_GONE) else None)
    if answer.code == header.NO_MEMORY:
        raise OutOfMemory
    if answer.code == header.CLOSED:
        raise Closed
    name = NAMES.get(answer.code, {}).get(answer.what)
    if answer.code == header.BAD_LINE and name is not None:
        raise BadLine(name)
    if answer.code == header.BAD_ARGUMENT and name is not None:
        raise BadArgument(name)
    if answer.code == header.FENCED and name is not None:
        raise Fenced(name, answer.a if answer.what in (header.SPENT, header.NEVER_RESERVED) else None)
    raise Unknown(answer.code, answer.what)


def _made(answer: header.relkvanu_answer) -> Reply:
    """The reply of an answer that is done."""
    if answer.what not in MADE:
        raise Unknown(answer.code, answer.what)
    return MADE[answer.what](answer.a, answer.b)


def _known(kind: Callable[[int], T], answer: header.relkvanu_answer) -> T:
    """The enumeration's member for what an answer says."""
    try:
        return kind(_done(answer).what)
    except ValueError:
        raise Unknown(answer.code, answer.what) from None


def _told(answer: header.relkvanu_answer, what: int) -> header.relkvanu_answer:
    """The answer of a call that has this reply only."""
    if _done(answer).what != what:
        raise Unknown(answer.code, answer.what)
    return answer


def _filled(kind: Any, places: int, write: Callable[[Any, int], Any]) -> Tuple[header.relkvanu_answer, Sequence[int]]:
    """Lets the library write into a buffer that is long enough. Returns the answer, and what is written."""
    while True:
        buffer = (kind * places)()
        answer = write(buffer, places)
        if answer.code != header.TOO_SHORT:
            return _done(answer), buffer[: answer.a]
        places = answer.a


def _written(write: Callable[[Any, int], Any]) -> str:
    return bytes(_filled(ctypes.c_uint8, 256, write)[1]).decode()


def _shown(line: bytes) -> Optional[int]:
    """The record of a show line, or None for another line."""
    call = header.relkvanu_call()
    _shared().relkvanu_line_call(_text(line), len(line), ctypes.byref(call), None, 0, None, 0)
    return call.number if call.kind == header.CALL_SHOW else None


def _live(answer: header.relkvanu_answer) -> Optional[Live]:
    live = _done(answer)
    if live.what not in (*LIVE, header.LIVE_NONE):
        raise Unknown(live.code, live.what)
    return Live(live.a, LIVE[live.what], live.b == 1) if live.what in LIVE else None


def version() -> str:
    """The version of the loaded library: three numbers, such as "1.2.3"."""
    text: bytes = _shared().relkvanu_version()
    return text.decode()


class Coordinator(ContextManager["Coordinator"]):
    """The checkpoint coordinator of one job. Threads may share it: its own lock admits one call at a time. To make several
    calls with no other thread's call between them, use `with job.locked():`.

    Each call raises Refused if it is refused, OutOfMemory if memory runs out, Closed after close(), and OutOfRange if a
    number does not fit. Then nothing has changed. A coordinator with names raises Fenced too.

    A moment that is far ahead would stop the job's checkpoints until then. So a call is refused with MomentTooLarge if its moment
    is more than `most_ahead` milliseconds beyond the greatest moment so far, and beyond what a timer waits for. That is a day,
    unless an engine sets it, which it does if a longer time may pass without a call. Lines of a log are not checked.
    """

    most_ahead: int = DAY

    def __init__(self, settings: Settings, shape: Sequence[int], now: int, first: int = 1) -> None:
        """Opens it at the moment `now`. The shape is the number of subtasks of each vertex. The first record has the number
        `first`: 1 for a new job, otherwise one above all earlier numbers. Raises BadArgument for the settings first, then for
        the shape, the moment and the first number."""
        self._begin()
        values = _settings(settings)
        _done(self._call("open", ctypes.byref(values), _words(shape), len(shape), _u64(now), _u64(first), *_keys()))

    @classmethod
    def open_saved(cls, image: Union[str, bytes]) -> "Coordinator":
        """Opens the coordinator that an image describes, which save() returned (docs/LOGS.md). It answers every list of calls as
        the saved one would. Raises BadArgument if the text is not an image, or if the state is not sound, or no coordinator could be opened so."""
        text = image.encode() if isinstance(image, str) else image
        return cls._opened("open_saved", _text(text), len(text))

    @classmethod
    def open_fenced(cls, settings: Settings, shape: Sequence[int], now: int, first: int, first_name: int) -> "Coordinator":
        """Opens a coordinator with names, in term 1. The first name that it gives out is `first_name`: all numbers of files that were
        used before are below it. ack() and decline() raise Fenced then: its tasks call ack_in() and decline_in(). Raises BadArgument
        for the settings first, then for the shape, the first name, the moment and the first number."""
        return cls._opened(
            "open_fenced", ctypes.byref(_settings(settings)), _words(shape), len(shape), _u64(now), _u64(first), _u64(first_name))

    @classmethod
    def _opened(cls, name: str, *words: Any) -> "Coordinator":
        opened = cls.__new__(cls)
        opened._begin()
        _done(opened._call(name, *words, *_keys()))
        return opened

    def _begin(self) -> None:
        self._lock = threading.Condition(threading.RLock())
        self._calls = 0
        self._handle = header.relkvanu(None)

    def _call(self, name: str, *arguments: Any) -> Any:
        function = getattr(_shared(), f"relkvanu_{name}")
        with self._lock:
            return function(ctypes.byref(self._handle), *arguments)

    def _replied(self, name: str, *arguments: Any) -> Reply:
        return _made(_done(self._call(name, *arguments)))

    def _moved(self, name: str, *arguments: Any) -> Reply:
        """A call that may change what a timer waits for."""
        with self._lock:
            self._calls += 1
            self._lock.notify_all()
            return self._replied(name, *arguments)

    def _timed(self, name: str, now: int, *arguments: Any, term: Optional[int] = None) -> Reply:
        """A call at a moment, and in a term if there is one."""
        terms = () if term is None else (_u64(term),)
        with self._lock:
            if _u64(now) <= LAST_MOMENT and self._is_ahead(now):
                raise Refused("MomentTooLarge", None)
            return self._moved(name, *terms, now, *arguments)

    def _is_ahead(self, now: int) -> bool:
        past = now - self.most_ahead
        return past > self.moment() and past > self.due() and past > (self.oldest_expiry() or 0)

    @contextlib.contextmanager
    def locked(self) -> Iterator[None]:
        """Keeps other threads' calls out. Delete, send and wait outside of it."""
        with self._lock:
            yield

    def calls(self) -> int:
        """The number of calls that may have changed what a timer waits for."""
        with self._lock:
            return self._calls

    def wait_for_call(self, seen: int, timeout: Optional[float] = None) -> None:
        """Waits until calls() is above `seen`, or this many seconds are over. None sets no limit."""
        with self._lock:
            self._lock.wait_for(lambda: self._calls > seen, timeout)

    def __reduce__(self) -> NoReturn:
        """Neither copies nor pickles it: two owners would free the same state."""
        raise TypeError("a Coordinator can't be copied or pickled: save() and open_saved() make another one")

    def close(self) -> None:
        """Closes the coordinator. A closed one stays closed."""
        with self._lock:
            _shared().relkvanu_close(ctypes.byref(self._handle))

    def __exit__(self, *_: object) -> None:
        self.close()

    def __del__(self) -> None:
        if getattr(self, "_handle", None) is not None:
            self.close()

    # bindings/generate makes the calls of one number
    def tick(self, now: int) -> Reply:
        """Time has passed: records that are too old expire, and a checkpoint is triggered if one is due."""
        return self._timed("tick", now)

    def savepoint(self, now: int) -> Reply:
        """Triggers a savepoint. At most 1000 savepoints are pending or done."""
        return self._timed("savepoint", now)

    def dispose(self, id: int) -> Reply:
        """A user disposes of the completed savepoint id."""
        return self._replied("dispose", _u64(id))

    def cancel(self, now: int) -> Reply:
        """The job ends for good."""
        return self._timed("cancel", now)

    def deleted(self, file: int) -> Reply:
        """A fetched file is deleted: the coordinator forgets it."""
        return self._replied("deleted", _u64(file))

    def undeleted(self, file: int) -> Reply:
        """A fetched file could not be deleted: it waits again, behind all others."""
        return self._replied("undeleted", _u64(file))

    def trigger(self, now: int) -> Reply:
        """Triggers a checkpoint now, whatever the interval and the pause. Nothing expires: make a tick first if records may be
        too old. The interval counts from it, as after a tick that triggers."""
        return self._timed("trigger", now)
    # bindings/generate: end

    def ack(self, now: int, id: int, vertex: int, index: int, fresh: Sequence[int], reused: Sequence[int] = ()) -> Reply:
        """If it is accepted, the fresh files belong to the coordinator. Otherwise the task deletes a file only if no accepted
        acknowledgement ever named it. So it deletes none after AlreadyAcknowledged, the answer to a repeat. After NameTaken
        it deletes no file that it named before."""
        subtask = _within(vertex, 16), _within(index, 16)
        return self._timed("ack", now, _u64(id), *subtask, _words(fresh), len(fresh), _words(reused), len(reused))

    def ack_cut(self, now: int, cut: "Cut", vertex: int, index: int, fresh: Sequence[int], reused: Sequence[int] = ()) -> Reply:
        """ack() of the record that a task has cut, as its Aligner says."""
        return self.ack(now, cut.id, vertex, index, fresh, reused)

    def decline(self, now: int, id: int, vertex: int, index: int) -> Reply:
        return self._timed("decline", now, _u64(id), _within(vertex, 16), _within(index, 16))

    # Terms and names. Each accepted restore and cancel ends the term. What a task of an ended term sends raises Fenced("OldTerm"), and
    # changes nothing. A coordinator without names raises Fenced("NoNames") for each of these calls, except fence().

    def fence(self, first_name: int) -> None:
        """Gives the coordinator names, from `first_name` on, in term 1. All numbers of files that were used before are below it, those
        of files that nobody acknowledged too. Make the call between the end of all tasks and their restart. Raises Fenced with
        HasNames, or with NameInUse if a known file has this number or a greater one, and BadArgument with BadName."""
        _told(self._call("fence", _u64(first_name)), header.NAMED)

    def term(self) -> RunningTerm:
        """The term that runs, and the next name that is given out. Whoever restarts the tasks reads it after the restore, and tells
        each of them once the restore is in the durable log. A task never asks for it: one that should be dead would learn the new term."""
        answer = _told(self._call("term"), header.TERM)
        return RunningTerm(answer.a, answer.b)

    def reserve(self, term: int, count: int) -> range:
        """A task of this term reserves 1 to 65536 names for files that it will write. The reservation is in the durable log before the
        task uses one of them."""
        answer = _told(self._call("reserve", _u64(term), _u64(count)), header.RESERVED)
        return range(answer.a, answer.a + answer.b)

    def forfeit(self, term: int, names: Sequence[int]) -> None:
        """A task of this term gives up names that it will not acknowledge, such as those of a failed upload: their files are garbage
        then. Names that the term does not hold are passed over, so the call can be repeated."""
        _told(self._call("forfeit", _u64(term), _words(names), len(names)), header.FORFEITED)

    def advance(self, now: int, term: int, first_name: int) -> Reply:
        """Restores a job that goes on from an older image, from its latest record, in a term above `term`, the greatest that any task was
        told, and with names from `first_name` on, above each that was given out. It is the first call of such a job."""
        return self._timed("advance", now, _u64(term), _u64(first_name))

    def ack_in(
        self, term: int, now: int, id: int, vertex: int, index: int, fresh: Sequence[int], reused: Sequence[int] = ()
    ) -> Reply:
        """ack() of a task of this term. If it is accepted, it spends the names of the fresh files. The same acknowledgement once more
        raises Fenced with Spent, if it has fresh files: a task deletes no file for that answer."""
        call = _u64(id), _within(vertex, 16), _within(index, 16), _words(fresh), len(fresh), _words(reused), len(reused)
        return self._timed("ack_in", now, *call, term=term)

    def ack_cut_in(
        self, term: int, now: int, cut: "Cut", vertex: int, index: int, fresh: Sequence[int], reused: Sequence[int] = ()
    ) -> Reply:
        """ack_in() of the record that a task has cut, as its Aligner says."""
        return self.ack_in(term, now, cut.id, vertex, index, fresh, reused)

    def decline_in(self, term: int, now: int, id: int, vertex: int, index: int) -> Reply:
        """decline() of a task of this term."""
        return self._timed("decline_in", now, _u64(id), _within(vertex, 16), _within(index, 16), term=term)

    def garbage(self, files: Sequence[int]) -> Garbage:
        """Of these files, in their order: those that are garbage, which may be deleted at any time, also while tasks run; and those
        whose names were not given out, which nobody deletes. Changes nothing. Ask a coordinator whose calls are durable."""
        length = len(files)
        garbage, unissued = (U64 * length)(), (U64 * length)()
        answer = _told(self._call("garbage", _words(files), length, garbage, length, unissued, length), header.GARBAGE)
        return Garbage(tuple(garbage[: answer.a]), tuple(unissued[: answer.b]))

    def restore(self, now: int, savepoint: Optional[int] = None, shape: Optional[Sequence[int]] = None) -> Reply:
        """Restores the job from a savepoint, or from the latest record if none is given. `shape` may give a new shape. An
        empty or bad shape is a BadArgument, before any refusal."""
        check_restore(savepoint, shape)
        return self._timed("restore", now, _u64(savepoint or 0), _words(shape or ()), len(shape or ()))

    def configure(self, now: int, settings: Settings) -> Reply:
        """The job has these settings from now on. Done checkpoints above the new number retained are dropped at once. Settings
        outside their limits are a BadArgument, before any refusal."""
        return self._timed("configure", now, ctypes.byref(_settings(settings)))

    def take(self, most: int) -> Taken:
        """Fetches at most `most` files that wait for deletion. Report each by deleted() or undeleted(). A repeated
        acknowledgement that comes late may hand out a file that no longer exists: report it as deleted."""
        files = (U64 * _u64(most))()
        answer = _told(self._call("take", files, most), header.TAKEN)
        return Taken(tuple(files[: answer.a]))

    def show(self, id: int) -> Shown:
        """The metadata of a live record."""
        return Shown(_written(lambda text, length: self._call("show", _u64(id), text, length)))

    def save(self) -> str:
        """The image of the coordinator, as JSON (docs/LOGS.md): all of its state."""
        return _written(lambda text, length: self._call("save", text, length))

    def count(self, file: int) -> Reply:
        return self._replied("count", _u64(file))

    def line(self, line: bytes, most: int = 4096) -> Optional[Reply]:
        """Makes the call of a script's line (docs/SCRIPT.md): the bytes before its newline. Returns None if it has no words or is a
        comment. Raises BadLine if it can't be read or makes no call, and what the call raises. A take line fetches at most
        `most` files. If it would fetch more, it raises TooShort, and nothing has changed."""
        files = (U64 * _u64(most))()
        text = _text(line)
        with self._lock:
            self._calls += 1
            self._lock.notify_all()
            answer = self._call("line", text, len(line), files, most)
            if answer.code == header.TOO_SHORT:
                shown = _shown(line)
                if shown is not None:
                    return self.show(shown)
                raise TooShort(answer.a)
        if _done(answer).what == header.SKIPPED:
            return None
        return Taken(tuple(files[: answer.a])) if answer.what == header.TAKEN else _made(answer)

    # Reads: none takes memory or changes anything. Each raises Closed after close(), and nothing else.

    def mode(self) -> Mode:
        return _known(Mode, self._call("mode"))

    def moment(self) -> int:
        """The greatest moment that the coordinator has seen. It takes an earlier one for this one."""
        return int(_done(self._call("moment")).a)

    def due(self) -> int:
        """The moment before which no tick triggers a checkpoint. Calls move it."""
        return int(_done(self._call("due")).a)

    def next_tick(self, ticked: Optional[Reply]) -> Optional[int]:
        """The moment of the next tick after a tick with this reply (None: it raised), unless another call comes first: when a
        checkpoint is due or a pending record expires. While as many are pending as may be, it is the expiry, because due() has
        passed. None if nothing changes before the next call, for example while the job has failed. After a tick that ran out of
        memory it has passed: wait for a second instead."""
        with self._lock:
            if self.mode() != Mode.RUNNING:
                return None
            expiry, due = self.oldest_expiry(), self.due()
        if isinstance(ticked, HeldAtOnce):
            return expiry
        return due if expiry is None else min(due, expiry)

    def oldest_expiry(self) -> Optional[int]:
        """The moment from which a pending record is expired, or None if none is pending."""
        answer = _done(self._call("oldest_expiry"))
        return answer.a if answer.what == header.EXPIRES else None

    def choice(self) -> Optional[Chosen]:
        """The record that a restore of the latest would begin from, or None if it would begin from nothing."""
        answer = _done(self._call("choice"))
        if answer.what not in (*CHOSEN, header.CHOICE_FRESH):
            raise Unknown(answer.code, answer.what)
        return Chosen(answer.a, CHOSEN[answer.what]) if answer.what in CHOSEN else None

    def live(self, place: int) -> Optional[Live]:
        """The live record at this place, from 0, in order of their numbers, or None past the last. Its time grows with the
        place."""
        return _live(self._call("live", _u64(place)))

    def live_from(self, id: int) -> Optional[Live]:
        """The live record with the least number that is at least `id`, or None."""
        return _live(self._call("live_from", _u64(id)))

    def standing(self, id: int) -> Standing:
        """What a number is."""
        return _known(Standing, self._call("standing", _u64(id)))

    def files_of(self, id: int, vertex: int, index: int) -> Optional[Tuple[int, ...]]:
        """The files that a subtask acknowledged in a live record, ascending, or None if it has not acknowledged in one."""
        return self._files("files_of", _u64(id), _within(vertex, 16), _within(index, 16))

    def pins_of(self, id: int) -> Tuple[int, ...]:
        """The files that a pending record keeps beside those of its acknowledgements, ascending. Raises OutOfMemory too."""
        return self._files("pins_of", _u64(id)) or ()

    def waiting_file(self, place: int) -> Optional[int]:
        """The file at this place among those that wait for deletion, the next to be fetched first, or None past the last."""
        answer = _done(self._call("waiting_file", _u64(place)))
        return answer.a if answer.what == header.WAITING else None

    def taken_files(self) -> Tuple[int, ...]:
        """The files that were fetched and are not yet reported, ascending. Raises OutOfMemory too."""
        return self._files("taken_files") or ()

    def _files(self, name: str, *arguments: Any) -> Optional[Tuple[int, ...]]:
        answer, files = _filled(U64, 64, lambda files, places: self._call(name, *arguments, files, places))
        return tuple(files) if answer.what == header.FILES else None

    def missing(self, id: int) -> Optional[int]:
        """How many subtasks of this record have not acknowledged, or None if no such record is pending."""
        answer = _done(self._call("missing", _u64(id)))
        return answer.a if answer.what == header.MISSING else None

    def file_counts(self) -> FileCounts:
        counts = self._call("file_counts")
        if counts.code == header.CLOSED:
            raise Closed
        return FileCounts(counts.in_use, counts.waiting, counts.taken)
