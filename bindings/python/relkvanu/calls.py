"""Calls as values: what a line of a log says (docs/SCRIPT.md, docs/LOGS.md), and the line of each. The term is that of the caller, 0 for none."""
import ctypes
import enum
from dataclasses import dataclass
from typing import Callable, Dict, Optional, Tuple, Union

from relkvanu import header, lines
from relkvanu.coordinator import U64, Settings, Unknown, _done, _shared, _text
from relkvanu.lines import _line, settings_of


# bindings/generate makes the kinds
class CallKind(enum.IntEnum):
    """Which call it is."""

    TICK = header.CALL_TICK
    SAVEPOINT = header.CALL_SAVEPOINT
    ACK = header.CALL_ACK
    DECLINE = header.CALL_DECLINE
    DISPOSE = header.CALL_DISPOSE
    RESTORE = header.CALL_RESTORE
    CANCEL = header.CALL_CANCEL
    TAKE = header.CALL_TAKE
    DELETED = header.CALL_DELETED
    UNDELETED = header.CALL_UNDELETED
    SHOW = header.CALL_SHOW
    COUNT = header.CALL_COUNT
    FENCE = header.CALL_FENCE
    RESERVE = header.CALL_RESERVE
    FORFEIT = header.CALL_FORFEIT
    TRIGGER = header.CALL_TRIGGER
    CONFIGURE = header.CALL_CONFIGURE
    ADVANCE = header.CALL_ADVANCE
# bindings/generate: end


class _OfOneNumber:
    """Its fields are the term, and a moment or another number, if it has one."""

    def line(self) -> str:
        fields = {name if name in ("now", "term") else "number": it for name, it in vars(self).items()}
        return _line(CallKind[type(self).__name__.upper()], **fields)


# bindings/generate makes the calls of one number
@dataclass(frozen=True)
class Tick(_OfOneNumber):
    now: int
    term: int = 0


@dataclass(frozen=True)
class Savepoint(_OfOneNumber):
    now: int
    term: int = 0


@dataclass(frozen=True)
class Dispose(_OfOneNumber):
    id: int
    term: int = 0


@dataclass(frozen=True)
class Cancel(_OfOneNumber):
    now: int
    term: int = 0


@dataclass(frozen=True)
class Deleted(_OfOneNumber):
    file: int
    term: int = 0


@dataclass(frozen=True)
class Undeleted(_OfOneNumber):
    file: int
    term: int = 0


@dataclass(frozen=True)
class Count(_OfOneNumber):
    file: int
    term: int = 0


@dataclass(frozen=True)
class Trigger(_OfOneNumber):
    now: int
    term: int = 0
# bindings/generate: end


class _OfFields:
    def line(self) -> str:
        """What the function of relkvanu.lines that has the call's name makes of its fields, in their order."""
        return str(getattr(lines, f"{type(self).__name__.lower()}_line")(*vars(self).values()))


@dataclass(frozen=True)
class Ack(_OfFields):
    """The files that a line says are in ascending order."""

    now: int
    id: int
    vertex: int
    index: int
    fresh: Tuple[int, ...]
    reused: Tuple[int, ...] = ()
    term: int = 0


@dataclass(frozen=True)
class Decline(_OfFields):
    now: int
    id: int
    vertex: int
    index: int
    term: int = 0


@dataclass(frozen=True)
class Restore(_OfFields):
    """From a savepoint, or from the latest record; in a new shape, or in the current one."""

    now: int
    savepoint: Optional[int] = None
    shape: Optional[Tuple[int, ...]] = None
    term: int = 0


@dataclass(frozen=True)
class Configure(_OfFields):
    now: int
    settings: Settings
    term: int = 0


@dataclass(frozen=True)
class Take(_OfOneNumber):
    most: int
    term: int = 0


@dataclass(frozen=True)
class Show(_OfOneNumber):
    id: int
    term: int = 0


@dataclass(frozen=True)
class Fence(_OfFields):
    """From here on names are given out, from this one on."""

    first_name: int


@dataclass(frozen=True)
class Reserve(_OfFields):
    term: int
    count: int


@dataclass(frozen=True)
class Forfeit(_OfFields):
    term: int
    names: Tuple[int, ...]


@dataclass(frozen=True)
class Advance(_OfFields):
    """The job begins again in a term above this one, the greatest that any task was told. Names are given out from first_name on."""

    now: int
    term: int
    first_name: int


# bindings/generate makes what a call is
Call = Union[
    Tick, Savepoint, Ack, Decline, Dispose, Restore, Cancel, Take, Deleted, Undeleted, Show, Count, Fence, Reserve, Forfeit,
    Trigger, Configure, Advance,
]

OF_A_MOMENT: Dict[int, Callable[[int, int], Call]] = {
    CallKind.TICK: Tick,
    CallKind.SAVEPOINT: Savepoint,
    CallKind.CANCEL: Cancel,
    CallKind.TRIGGER: Trigger,
}
OF_A_NUMBER: Dict[int, Callable[[int, int], Call]] = {
    CallKind.DISPOSE: Dispose,
    CallKind.DELETED: Deleted,
    CallKind.UNDELETED: Undeleted,
    CallKind.COUNT: Count,
}
# bindings/generate: end
OF_A_NUMBER.update({CallKind.TAKE: Take, CallKind.SHOW: Show})
OTHERS: Dict[int, Callable[[header.relkvanu_call, Tuple[int, ...], Tuple[int, ...]], Call]] = {
    CallKind.ACK: lambda it, fresh, reused: Ack(it.now, it.number, it.vertex, it.index, fresh, reused, it.term),
    CallKind.DECLINE: lambda it, *_: Decline(it.now, it.number, it.vertex, it.index, it.term),
    CallKind.RESTORE: lambda it, shape, _: Restore(it.now, it.number or None, shape or None, it.term),
    CallKind.CONFIGURE: lambda it, numbers, _: Configure(it.now, settings_of(numbers), it.term),
    CallKind.FENCE: lambda it, *_: Fence(it.number),
    CallKind.RESERVE: lambda it, *_: Reserve(it.term, it.number),
    CallKind.FORFEIT: lambda it, names, _: Forfeit(it.term, names),
    CallKind.ADVANCE: lambda it, *_: Advance(it.now, it.term, it.number),
}


def line_call(line: bytes) -> Optional[Call]:
    """The call that a line says: the bytes before its newline. None for a line without words and a comment.

    Raises BadLine for a line that makes no call, BadArgument for a restore in a bad shape and for bad settings, and Refused for a restore to savepoint 0,
    which no savepoint has."""
    text, call = _text(line), header.relkvanu_call()
    fresh = reused = 0
    while True:
        first, second = (U64 * fresh)(), (U64 * reused)()
        answer = _shared().relkvanu_line_call(text, len(line), ctypes.byref(call), first, fresh, second, reused)
        if answer.code != header.TOO_SHORT:
            break
        fresh, reused = answer.a, answer.b
    if _done(answer).what == header.SKIPPED:
        return None
    if answer.what != header.LINE_CALL:
        raise Unknown(answer.code, answer.what)
    return _call(call, tuple(first[: answer.a]), tuple(second[: answer.b]))


def _call(it: header.relkvanu_call, first: Tuple[int, ...], second: Tuple[int, ...]) -> Call:
    if it.kind in OF_A_MOMENT:
        return OF_A_MOMENT[it.kind](it.now, it.term)
    if it.kind in OF_A_NUMBER:
        return OF_A_NUMBER[it.kind](it.number, it.term)
    if it.kind not in OTHERS:
        raise Unknown(header.DONE, header.LINE_CALL)
    return OTHERS[it.kind](it, first, second)
