"""The coordinator of a job, as the runner and Dask ask it: its calls as values, what they answer, and a protocol. A relkvanu.store.Store is such a Job, and
relkvanu.job_of_service makes one of a job of the service. It needs no library."""
import dataclasses
import enum
from dataclasses import dataclass, field
from typing import TYPE_CHECKING, Any, Callable, Container, Dict, List, Optional, Protocol, Sequence, Tuple, Type, TypeVar, Union

from relkvanu import header
from relkvanu.errors import Error, check_restore
from relkvanu.nexts import Next
from relkvanu.reads import Chosen, FileCounts, Garbage, Kind, Live, Mode, RunningTerm
from relkvanu.replies import (
    AckCompleted, AckLate, AckPending, Cancelled, DeclineAborted, DeclineFailed, DeclineLate, Disposed, Reply, RestoredCheckpoint, RestoredFresh, RestoredSavepoint,
    SavepointTriggered, Triggered,
)
from relkvanu.storage import Marker
from relkvanu.whole import Past, Whole

if TYPE_CHECKING:  # these need the library
    from relkvanu.coordinator import Settings

LONGEST = 1 << 40  # milliseconds, of an interval
# How an answer of the service has a reply: the word of the call, and how it ended. Its members have the names of the reply's fields.
ANSWERS: Dict[Type[Reply], Tuple[str, str]] = {
    AckPending: ("ack", "pending"), AckCompleted: ("ack", "completed"), AckLate: ("ack", "late"), DeclineAborted: ("decline", "aborted"),
    DeclineFailed: ("decline", "failed"), DeclineLate: ("decline", "late"), Triggered: ("tick", "triggered"), SavepointTriggered: ("savepoint", "triggered"),
    RestoredCheckpoint: ("restore", "checkpoint"), RestoredSavepoint: ("restore", "savepoint"), RestoredFresh: ("restore", "fresh"),
    Cancelled: ("cancel", "cancelled"), Disposed: ("dispose", "disposed"),
}
T = TypeVar("T")


class Superseded(Error):
    """This process has lost its job: another one has begun it, or a backup of the service was restored. The process ends. What it does from here on has no
    effect on the job."""


class Stopped(Error):
    """The job has stopped at the savepoint of this number: this program has stopped it, or has found it so. The outputs have all that the savepoint
    completed. The program ends."""

    def __init__(self, savepoint: int, or_else: str = "") -> None:
        super().__init__(f"the job has stopped at savepoint {savepoint}: start its program with begin=True{or_else}, and it goes on from there")
        self.savepoint = savepoint


def with_fields(of: Type[T], /, **fields: Any) -> T:
    """A frozen dataclass with these fields, which are all of it. Its __init__ sets each of them by a call of its own, and takes three times as long."""
    made = object.__new__(of)
    object.__setattr__(made, "__dict__", fields)
    return made


def subtasks_of(shape: Sequence[int]) -> List[Tuple[int, int]]:
    """The vertex and the index of each."""
    return [(vertex, index) for vertex, count in enumerate(shape) for index in range(count)]


def lists_of(items: Sequence[T], most: int) -> List[Sequence[T]]:
    """The same in lists of at most so many."""
    return [items[begin:begin + most] for begin in range(0, len(items), most)]


class StoreError(Error):
    """A store was not opened, or a call was not made. `name` says why, such as "InUse", and `message` says where. If `closes` is true, a
    commit failed: the store is closed, and its calls may or may not be in the log. Nobody may act on them. Open the store again, or end
    the process. `errno` is what the system has said, if it has: after "NotPut" and "NotDone", and of an opening."""

    def __init__(self, name: str, message: str, closes: bool, errno: int = 0) -> None:
        super().__init__(name, message, closes)
        self.name = name
        self.message = message
        self.closes = closes
        self.errno = errno

    def __str__(self) -> str:
        return f"{self.name}: {self.message}" if self.message else self.name


class Step(enum.Enum):
    """What an engine has to do after an opening, in the order of the report."""

    END_TASKS = 1  # tell the earlier tasks to end, and wait for none
    RESTORE = 2  # call restore(): its reply says where the job begins again
    SWEEP = 3  # call sweep(), or delete the files of the storage that garbage() says are garbage
    START_TASKS = 4  # start tasks, a timer (await_tick) and a discarder (discard)
    DISCARD = 5  # start a discarder alone: the job is cancelled, or stopped


class Phase(enum.Enum):
    """The phase of a job."""

    RUNNING = 0  # the job runs, has failed or was cancelled: its mode says which
    STOPPING = 1  # the savepoint of its stop is pending
    STOPPED = 2  # that savepoint is done, and the job goes on from it when it begins


class StopFailed(enum.Enum):
    """Why a stop has failed."""

    EXPIRED = 1  # its savepoint was not done within the timeout
    DECLINED = 2  # a task has declined it
    RESTORED = 3  # the job was restored before, as after a crash
    CANCELLED = 4  # the job was cancelled, before it was stopped or afterwards
    FAILED = 5  # the job has failed


@dataclass(frozen=True)
class JobPhase:
    """The phase of a job, with the savepoint of its stop, and in STOPPED the term that began then. In RUNNING
    stop_failed says why the last stop has failed, until the next one."""

    phase: Phase
    savepoint: Optional[int] = None
    term: int = 0
    stop_failed: Optional[StopFailed] = None


@dataclass(frozen=True)
class Call:
    """A call of a list. Without a moment it has that of the store's clock. The term is that of its task."""

    kind: int
    now: Optional[int] = None
    number: int = 0
    vertex: int = 0
    index: int = 0
    first: Sequence[int] = ()
    second: Sequence[int] = ()
    term: int = 0
    payload: bytes = b""  # of an acknowledgement, with its bytes and ms
    figures: Tuple[int, int] = (0, 0)
    reason: str = ""  # of a decline

    # bindings/generate makes the calls of one number
    @classmethod
    def tick(cls, now: Optional[int] = None) -> "Call":
        return cls(header.CALL_TICK, now)

    @classmethod
    def savepoint(cls, now: Optional[int] = None) -> "Call":
        return cls(header.CALL_SAVEPOINT, now)

    @classmethod
    def dispose(cls, id: int) -> "Call":
        return cls(header.CALL_DISPOSE, number=id)

    @classmethod
    def cancel(cls, now: Optional[int] = None) -> "Call":
        return cls(header.CALL_CANCEL, now)

    @classmethod
    def deleted(cls, file: int) -> "Call":
        return cls(header.CALL_DELETED, number=file)

    @classmethod
    def undeleted(cls, file: int) -> "Call":
        return cls(header.CALL_UNDELETED, number=file)

    @classmethod
    def trigger(cls, now: Optional[int] = None) -> "Call":
        return cls(header.CALL_TRIGGER, now)
    # bindings/generate: end

    @classmethod
    def ack(
        cls, id: int, vertex: int, index: int, fresh: Sequence[int] = (), reused: Sequence[int] = (), now: Optional[int] = None, term: int = 0,
        payload: bytes = b"", figures: Tuple[int, int] = (0, 0),
    ) -> "Call":
        """The figures are the bytes of the task's snapshot, and the ms that it took."""
        return with_fields(
            cls, kind=header.CALL_ACK, now=now, number=id, vertex=vertex, index=index, first=fresh, second=reused, term=term, payload=payload, figures=figures,
            reason="")

    @classmethod
    def decline(cls, id: int, vertex: int, index: int, now: Optional[int] = None, term: int = 0, reason: str = "") -> "Call":
        return cls(header.CALL_DECLINE, now, id, vertex, index, term=term, reason=reason)

    @classmethod
    def reserve(cls, term: int, count: int) -> "Call":
        return cls(header.CALL_RESERVE, 0, count, term=term)

    @classmethod
    def forfeit(cls, term: int, names: Sequence[int]) -> "Call":
        return cls(header.CALL_FORFEIT, 0, first=names, term=term)

    @classmethod
    def configure(cls, settings: "Settings", now: Optional[int] = None) -> "Call":
        """For a list of calls. Store.configure() says which value is outside its limits."""
        return cls(header.CALL_CONFIGURE, now, first=[int(it) for it in dataclasses.astuple(settings)])

    @classmethod
    def advance(cls, term: int, first_name: int, now: Optional[int] = None) -> "Call":
        return cls(header.CALL_ADVANCE, now, first_name, term=term)

    @classmethod
    def restore(cls, savepoint: Optional[int] = None, shape: Optional[Sequence[int]] = None, now: Optional[int] = None) -> "Call":
        check_restore(savepoint, shape)
        return cls(header.CALL_RESTORE, now, savepoint or 0, first=shape or ())

    @classmethod
    def take(cls, most: int) -> "Call":
        return cls(header.CALL_TAKE, number=most)


@dataclass(frozen=True)
class Made:
    """A call that was made and committed: its reply, its place in the log (0 if it changed nothing), and after a trigger the record that its
    barrier names beside it. After a restore, cancel or advance: the term that begins. Tasks are started with it. `kind` is that of the record that was
    triggered, acknowledged, declined, disposed of or restored (None: it had ended before), and `ended` are the numbers of records that the call has ended."""

    reply: Reply
    place: int
    choice: Optional[Chosen]
    term: int = 0
    kind: Optional[Kind] = field(default=None, compare=False)
    ended: Tuple[int, ...] = field(default=(), compare=False)


Outcome = Union[Made, Error]


def made_of(outcome: Outcome) -> Made:
    """The call, if it was made."""
    if isinstance(outcome, Error):
        raise outcome
    return outcome


class Opening(enum.Enum):
    """How a job was found."""

    NEW = 1  # its tasks begin fresh, in the term that runs
    OLD = 2  # restore() says where it begins
    BEGUN = 3  # somebody has begun it since: await_next() hands that over
    CANCELLED = 4


class Job(Protocol):
    """The coordinator of a job: a Store, or a job of the service. The calls raise Refused, Fenced and OutOfMemory, and StoreError if it is not known that they
    were made; Superseded if this process has lost the job. Threads may share it."""

    @property
    def identity(self) -> str:
        """32 hexadecimal digits, which no other job has."""

    def storage_marker(self) -> Marker:
        """What a storage has as its marker that the runner opens."""

    def opening(self) -> Opening: ...

    def term(self) -> RunningTerm: ...

    def phase(self) -> JobPhase: ...

    def mode(self) -> Mode: ...

    def choice(self) -> Optional[Chosen]:
        """The record from which a restore would begin."""

    def live(self) -> List[Live]:
        """The records that are pending or done, by their numbers."""

    def shape(self) -> Tuple[int, ...]: ...

    def missing(self, id: int) -> List[Tuple[int, int]]:
        """The subtasks that a pending record lacks."""

    def file_counts(self) -> FileCounts: ...

    def load(self, id: Optional[int] = None) -> Optional[Whole]: ...

    def restore(self, savepoint: Optional[int] = None, shape: Optional[Sequence[int]] = None) -> Made: ...

    def begin_job(self) -> Made: ...

    def stop_job(self) -> Made: ...

    def trigger(self) -> Made: ...

    def savepoint(self) -> Made: ...

    def cancel(self) -> Made: ...

    def calls(self, calls: Sequence[Call]) -> List[Outcome]:
        """Makes calls with no other in between, in as few commits as may be."""

    def call(self, call: Call) -> Made: ...

    def reserve(self, term: int, count: int) -> range: ...

    def forfeit(self, term: int, names: Sequence[int]) -> None: ...

    def garbage(self, files: Sequence[int]) -> Garbage: ...

    def history(self, most: int = 100) -> List[Past]: ...

    def await_next(self, longest: int = 1000) -> Next:
        """Hands over each record that is triggered and each restore, but this process's savepoint() and restore() if `tells_savepoints` is false."""

    @property
    def tells_savepoints(self) -> bool: ...

    def discard_lists(self, delete: Callable[[List[int]], Container[int]], batch: int = 1000) -> None: ...

    def stop(self) -> None:
        """Ends await_next() and discard_lists()."""

    def close(self) -> None: ...
