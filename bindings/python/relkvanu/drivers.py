"""How a driver of Dask takes records with the coordinator of its job: a file of its machine, or a job of the service, with which that machine may be lost. The
driver says when a record is due, and acknowledges for all subtasks at once."""
import contextlib
import functools
import os
from typing import Any, Callable, Dict, Iterable, Iterator, List, NamedTuple, Optional, Sequence, Tuple, TypeVar, cast

from relkvanu.errors import Fenced, Refused
from relkvanu.jobs import LONGEST, Call, Job, Made, Opening, Outcome, Phase, Stopped, StoreError, Superseded, lists_of
from relkvanu.parts import Failed, Place
from relkvanu.reads import Garbage, Kind
from relkvanu.replies import AckCompleted, SavepointTriggered, Taken, Triggered
from relkvanu.storage import NotThere

SUBTASKS = 16  # the first one names the list of the record, and each other one at most MOST_FILES parts
MOST_FILES = 4096
MOST_FORFEITED = 4096  # names that one call gives up
MOST_DELETED = 1000  # files in one request
TOLERABLE = 1000  # failed records in a row; after more a restore goes on, too
INTERVAL = 10  # milliseconds, the least: nobody waits for a tick
F = TypeVar("F", bound=Callable[..., Any])


class Held(NamedTuple):
    """A complete record, and the files of each subtask."""

    id: int
    files: List[Sequence[int]]


class PendingRecord(NamedTuple):
    """A record that is pending. With `stops` it is the savepoint of a stop: once it is complete the job has stopped, in the same commit."""

    id: int
    stops: bool


class Ack(NamedTuple):
    """What a subtask acknowledges: files under names of this term that are new, and files of the last record."""

    fresh: Sequence[int]
    reused: Sequence[int] = ()


@contextlib.contextmanager
def _told(is_service: bool) -> Iterator[None]:
    """What the service does not do is a record that was not taken. What a file does not do ends its store."""
    try:
        yield
    except Fenced as fenced:
        if fenced.name != "OldTerm":
            raise
        raise Superseded("another driver has begun the job, or somebody has restored or cancelled it") from fenced
    except (Refused, StoreError) as why:
        if not is_service:
            raise
        raise Failed(f"the service answers {why}") from why


def _telling(method: F) -> F:
    @functools.wraps(method)
    def told(self: "Driver", *words: Any) -> Any:
        with _told(self.is_service):
            return method(self, *words)

    return cast(F, told)


class Driver:
    """One thread at a time may call, but take(), report(), garbage() and discard() may run beside others."""

    def __init__(self, job: Job, is_service: bool = False) -> None:
        self._job, self.is_service = job, is_service
        self.identity = job.identity
        self.is_whole = job.opening() is Opening.NEW  # no record and no task was before
        self._term = 0 if not self.is_whole else job.term().term
        self._savepoint: Optional[int] = None  # that the job has begun from
        self.stop, self.close = job.stop, job.close

    @_telling
    def begin(self, begins: bool = False) -> Optional[Held]:
        """Begins a new term, and returns the last complete record. Records that are pending end. A job that has stopped begins if `begins` says so, and
        otherwise Stopped is raised."""
        phase = self._job.phase()
        if phase.phase is Phase.STOPPED and not begins:
            raise self._stopped(phase.savepoint)
        if phase.phase is Phase.STOPPED:
            with contextlib.suppress(StoreError):  # somebody else may begin it meanwhile
                self._job.begin_job()
        self._term = self._job.restore().term
        held = self.held()
        olds = [it.id for it in self._job.live() if it.kind is Kind.SAVEPOINT and it.done and (held is None or it.id != held.id)]
        self._calls([Call.dispose(it) for it in olds])  # of stops before the last record, if the process was killed after that was complete
        return held

    def _stopped(self, savepoint: Optional[int]) -> Stopped:
        name = getattr(self._job, "name", "")
        return Stopped(savepoint or 0, f", or run `relkvanu begin {name}` before" if name else "")

    @_telling
    def held(self) -> Optional[Held]:
        """The last complete record, of a job that goes on as it is."""
        record = self._job.load()
        self._savepoint = record.id if record is not None and record.kind is Kind.SAVEPOINT else None
        return None if record is None else Held(record.id, [record.files_of(0, it) for it in range(SUBTASKS)])

    @_telling
    def reserve(self, count: int) -> Sequence[int]:
        return self._job.reserve(self._term, count)

    @_telling
    def garbage(self, files: Sequence[int]) -> Garbage:
        return self._job.garbage(files)

    @_telling
    def trigger(self, last: int, stops: bool = False) -> PendingRecord:
        """Begins a record after the one that this process knows as the last, 0 for none. It is the savepoint of a stop if `stops` says so, or if somebody else
        stops the job. A checkpoint that somebody else has triggered, as a driver that should have ended, is this one: complete() looks at the term."""
        asked = self._asked(stops)
        live = self._job.live()  # first: it raises Superseded if the service has another log
        choice, phase = self._job.choice(), self._job.phase()
        if (choice.id if choice is not None else 0) != last:
            raise Failed("another record is the last one")
        stop = phase.savepoint if phase.phase is Phase.STOPPING else None
        pending = [it for it in live if not it.done and it.id != stop]
        others = [it.id for it in pending if it.kind is Kind.SAVEPOINT]
        self._calls([Call.decline(it, 0, 0, term=self._term) for it in others])  # its outputs could not be taken back
        found = [it.id for it in pending if it.kind is Kind.CHECKPOINT and asked in (None, it.id)]
        if stop is not None:
            return PendingRecord(stop, True)
        if stops or not found:
            raise Failed("the record that was triggered has ended")
        return PendingRecord(found[0], False)

    def _asked(self, stops: bool) -> Optional[int]:
        """Asks for a record. Its number, or None if it is the one that somebody else has asked for, or the savepoint of a stop."""
        try:
            made = self._job.stop_job() if stops else self._job.trigger()
        except (Refused, StoreError) as refusal:
            if refusal.name == "Stopped":
                raise self._stopped(self._job.phase().savepoint) from refusal
            if refusal.name not in ("AtOnce", "Stopping", "NotNow"):
                raise
            return None
        if not isinstance(made.reply, (Triggered, SavepointTriggered)):
            raise Failed(f"no record is triggered: {made.reply!r}")
        return made.reply.id

    @_telling
    def complete(self, id: int, acks: Sequence[Ack], spare: Sequence[int]) -> None:
        """Gives names up, and acknowledges for all subtasks. When it returns, the record is complete. The savepoint that the job has begun from is disposed of
        with it: otherwise its files would stay, and a job has at most 1000 savepoints."""
        calls = [Call.forfeit(self._term, some) for some in lists_of(spare, MOST_FORFEITED)]
        calls += [Call.ack(id, 0, index, it.fresh, it.reused, term=self._term) for index, it in enumerate(acks)]
        after = [] if self._savepoint is None else [Call.dispose(self._savepoint)]
        last = self._calls([*calls, *after])[len(calls) - 1]
        if not isinstance(last, Made) or not isinstance(last.reply, AckCompleted):
            raise Failed(f"record {id} was not completed: {last!r}")
        self._savepoint = None

    @_telling
    def give_up(self, id: Optional[int], names: Sequence[int]) -> None:
        """Declines a record, and gives its names up. If this raises, begin() does so too."""
        calls = [Call.forfeit(self._term, some) for some in lists_of(names, MOST_FORFEITED)]
        self._calls(calls if id is None else [*calls, Call.decline(id, 0, 0, term=self._term)])

    @_telling
    def counts(self) -> Tuple[int, int]:
        """How many files are in use, and how many wait for deletion."""
        counts = self._job.file_counts()
        return counts.in_use, counts.waiting + counts.taken

    @_telling
    def take(self) -> Sequence[int]:
        """Files that are to be deleted, at most MOST_DELETED."""
        reply = self._job.call(Call.take(MOST_DELETED)).reply
        return reply.files if isinstance(reply, Taken) else ()

    @_telling
    def report(self, files: Iterable[int], failed: Dict[int, str]) -> None:
        """Of files that were taken: those that may be there still, and that the others are gone. A report is refused if another driver has made it."""
        self._calls([Call.undeleted(it) if it in failed else Call.deleted(it) for it in files])

    def discard(self, delete: Any) -> None:
        """Deletes what is released, until stop()."""
        with contextlib.suppress(StoreError):  # the next call of the caller's thread raises it too
            self._job.discard_lists(delete, MOST_DELETED)

    def _calls(self, calls: Sequence[Call]) -> List[Outcome]:
        """The outcomes of calls, of which none is refused for its term."""
        outcomes = self._job.calls(calls) if calls else []
        for it in outcomes:
            if isinstance(it, Fenced) and it.name == "OldTerm":
                raise it
        return outcomes


def opened_driver(coordinator: Any, place: Place, create: bool) -> Tuple[Driver, Place]:
    """The coordinator, and the place with the marker that the job has there. A new job of a file has its place first: it has to be one without files, beside
    which a log is missing."""
    if not isinstance(coordinator, (str, os.PathLike)):
        return _of_service(coordinator, place, create)
    from relkvanu.coordinator import Settings
    from relkvanu.store import Store

    settings = Settings(interval=INTERVAL, timeout=LONGEST, tolerable=TOLERABLE)
    try:
        store = Store(coordinator, settings, [SUBTASKS])
    except StoreError as error:
        if error.name != "Absent" or not create:
            raise
        place.open(is_new=True)
        store = Store(coordinator, settings, [SUBTASKS], create=True)
    return Driver(store), place


def _of_service(coordinator: Any, place: Place, create: bool) -> Tuple[Driver, Place]:
    from relkvanu.job_of_service import ServiceJob, answers

    with _told(True), answers():
        if create:
            coordinator.open({"interval": LONGEST, "timeout": LONGEST, "tolerable": TOLERABLE}, [SUBTASKS])
        job = ServiceJob(coordinator)
        driver, marker, choice = Driver(job, is_service=True), job.storage_marker(), job.choice()
        is_new = choice is None and driver.counts() == (0, 0)
    found = place._replace(marker=(marker.name, marker.text))
    try:
        found.open()
    except NotThere:
        if not create or not is_new:
            raise
        found.open(is_new=True)
    return driver, found
