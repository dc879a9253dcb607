"""Lines of a script (docs/SCRIPT.md): a log of calls, which the library writes and reads. Coordinator.line makes the call of one."""
import ctypes
import dataclasses
from dataclasses import dataclass
from typing import Optional, Sequence, Tuple, Union

from relkvanu import header
from relkvanu.coordinator import U64, Settings, Unknown, _filled, _settings, _shared, _text, _u64, _within, _words, _written
from relkvanu.errors import check_restore


@dataclass(frozen=True)
class Skip:
    """A line without words, or a comment."""


@dataclass(frozen=True)
class Job:
    """The parallelism of each vertex."""

    shape: Tuple[int, ...]


@dataclass(frozen=True)
class Start:
    now: int


@dataclass(frozen=True)
class Call:
    """A line that makes a call."""


@dataclass(frozen=True)
class All:
    now: int
    id: int
    threads: int
    first: int


Line = Union[Skip, Settings, Job, Start, Call, All]


def line_says(line: bytes) -> Line:
    """Which line it is, with the numbers of one that makes no call. Raises BadLine. Checks no number against the limits of a
    job."""
    text = _text(line)
    answer, of = _filled(U64, 8, lambda numbers, places: _shared().relkvanu_line_says(text, len(line), numbers, places))
    if answer.what == header.LINE_CONFIG:
        return settings_of(of)
    if answer.what == header.LINE_JOB:
        return Job(tuple(of))
    if answer.what == header.LINE_START:
        return Start(*of)
    if answer.what == header.LINE_ALL:
        return All(*of)
    if answer.what not in (header.LINE_SKIP, header.LINE_CALL):
        raise Unknown(answer.code, answer.what)
    return Skip() if answer.what == header.LINE_SKIP else Call()


def settings_of(numbers: Sequence[int]) -> Settings:
    """The settings of seven numbers, in the order of their fields; the last is 0 or 1."""
    interval, pause, at_once, timeout, tolerable, retained, keep = numbers
    return Settings(interval, pause, at_once, timeout, tolerable, retained, bool(keep))


def opening_lines(settings: Settings, shape: Sequence[int], now: int) -> str:
    """The lines config, job and start of a coordinator whose first record has the number 1, each with its newline. Raises
    BadArgument."""
    values, words = _settings(settings), _words(shape)
    return _written(lambda text, length: _shared().relkvanu_opening_lines(ctypes.byref(values), words, len(shape), _u64(now), text, length))


def _line(
    kind: int, now: int = 0, number: int = 0, subtask: Tuple[int, int] = (0, 0), first: Sequence[int] = (), second: Sequence[int] = (),
    term: int = 0
) -> str:
    vertex, index = subtask
    call = header.relkvanu_call(kind, _within(vertex, 16), _within(index, 16), _u64(now), _u64(number), _u64(term))
    lists = _words(first), len(first), _words(second), len(second)
    return _written(lambda text, length: _shared().relkvanu_call_line(ctypes.byref(call), *lists, text, length))


# The line of each call, without a newline. It reads back as that call. Each raises BadLine if the line would be too long: none is
# cut. The term is that of the caller, 0 for none (docs/LOGS.md).


# bindings/generate makes the lines of calls of one number
def tick_line(now: int, term: int = 0) -> str:
    return _line(header.CALL_TICK, now, term=term)


def savepoint_line(now: int, term: int = 0) -> str:
    return _line(header.CALL_SAVEPOINT, now, term=term)


def dispose_line(id: int, term: int = 0) -> str:
    return _line(header.CALL_DISPOSE, number=id, term=term)


def cancel_line(now: int, term: int = 0) -> str:
    return _line(header.CALL_CANCEL, now, term=term)


def deleted_line(file: int, term: int = 0) -> str:
    return _line(header.CALL_DELETED, number=file, term=term)


def undeleted_line(file: int, term: int = 0) -> str:
    return _line(header.CALL_UNDELETED, number=file, term=term)


def trigger_line(now: int, term: int = 0) -> str:
    return _line(header.CALL_TRIGGER, now, term=term)
# bindings/generate: end


def ack_line(now: int, id: int, vertex: int, index: int, fresh: Sequence[int], reused: Sequence[int] = (), term: int = 0) -> str:
    return _line(header.CALL_ACK, now, id, (vertex, index), fresh, reused, term)


def decline_line(now: int, id: int, vertex: int, index: int, term: int = 0) -> str:
    return _line(header.CALL_DECLINE, now, id, (vertex, index), term=term)


def restore_line(now: int, savepoint: Optional[int] = None, shape: Optional[Sequence[int]] = None, term: int = 0) -> str:
    check_restore(savepoint, shape)
    return _line(header.CALL_RESTORE, now, savepoint or 0, first=shape or (), term=term)


def configure_line(now: int, settings: Settings, term: int = 0) -> str:
    return _line(header.CALL_CONFIGURE, now, first=[int(it) for it in dataclasses.astuple(settings)], term=term)


def take_line(most: int, term: int = 0) -> str:
    return _line(header.CALL_TAKE, number=most, term=term)


def fence_line(first_name: int) -> str:
    return _line(header.CALL_FENCE, number=first_name)


def reserve_line(term: int, count: int) -> str:
    return _line(header.CALL_RESERVE, number=count, term=term)


def forfeit_line(term: int, names: Sequence[int]) -> str:
    return _line(header.CALL_FORFEIT, first=names, term=term)


def advance_line(now: int, term: int, first_name: int) -> str:
    return _line(header.CALL_ADVANCE, now, first_name, term=term)
