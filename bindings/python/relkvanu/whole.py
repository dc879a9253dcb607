"""A complete record as a whole, and the history of records: what Store.load(), Store.restore_whole() and Store.history() return."""
import ctypes
import enum
from dataclasses import dataclass
from typing import Any, List, NamedTuple, Optional, Tuple

from relkvanu import store_header
from relkvanu.reads import Kind

KINDS = {store_header.CHECKPOINT: Kind.CHECKPOINT, store_header.SAVEPOINT: Kind.SAVEPOINT}


@dataclass(frozen=True)
class Part:
    """What a subtask has in a record: its files, in the order in which its acknowledgement gave them, its payload, and its figures."""

    vertex: int
    index: int
    files: Tuple[int, ...] = ()
    payload: bytes = b""
    bytes: int = 0
    millis: int = 0


class Origin(NamedTuple):
    """From which job a record was carried, and its number there. What a sink's state lists in it was prepared in the target of that job."""

    job: str
    record: int


@dataclass(frozen=True)
class Whole:
    """A complete record. Its parts are in the order of their subtasks. The term is the one that ran when it was read. It has an origin if the job was made of
    it by an import or a claim, and has not made it itself."""

    id: int
    kind: Kind
    shape: Tuple[int, ...]
    parts: Tuple[Part, ...]
    term: int = 0
    origin: Optional[Origin] = None

    def part(self, vertex: int, index: int) -> Part:
        """The part of a subtask; an empty one if the record has no such subtask, as after a restore in another shape."""
        return next((it for it in self.parts if (it.vertex, it.index) == (vertex, index)), Part(vertex, index))

    def files_of(self, vertex: int, index: int) -> Tuple[int, ...]:
        return self.part(vertex, index).files

    def payload_of(self, vertex: int, index: int) -> bytes:
        return self.part(vertex, index).payload


class Restored(NamedTuple):
    """Where the job begins: the term of its tasks, and the record of their states. None: it begins fresh."""

    term: int
    record: Optional[Whole]


class Ending(enum.Enum):
    """What became of a record."""

    COMPLETED = store_header.COMPLETED
    DECLINED = store_header.DECLINED  # a subtask has declined it
    EXPIRED = store_header.EXPIRED
    DROPPED = store_header.DROPPED  # it was pending at a restore or a cancel, when the job failed, or when a later checkpoint completed


@dataclass(frozen=True)
class Past:
    """A record of the history. The times of acknowledgements are ms since its trigger, by the store's clock, of those since the opening."""

    id: int
    kind: Kind
    ending: Ending
    triggered: int
    ended: int
    acks: int
    first: int
    median: int
    p99: int
    slowest: int
    bytes: int  # the sum of what the tasks told
    millis: int  # the greatest that a task told
    reason: str  # of the decline


def _part(it: Any) -> Part:
    payload = ctypes.string_at(it.payload, it.payload_len) if it.payload_len else b""
    return Part(it.vertex, it.index, tuple(it.files[: it.files_len]), payload, it.bytes, it.millis)


def _whole(found: Any, parts: List[Part], origin: str) -> Optional[Whole]:
    if found.kind == 0:
        return None
    shape, carried = tuple(found.shape[: found.shape_len]), Origin(origin, found.id) if origin else None
    return Whole(found.id, KINDS[found.kind], shape, tuple(parts), found.term, carried)


def _past(it: Any) -> Past:
    numbers = {name: getattr(it, name) for name in ("id", "triggered", "ended", "acks", "first", "median", "p99", "slowest", "bytes", "millis")}
    return Past(kind=KINDS[it.kind], ending=Ending(it.outcome), reason=it.reason.decode(errors="replace"), **numbers)
