"""Records whose parts are values on the workers of a Dask cluster, or of this process. This process has the coordinator (relkvanu.store). Workers
write the parts into a storage that all of them reach: a folder, or a bucket of S3. A part whose bytes the last record has is named again, and not
written. What is released is deleted by a thread, and garbage is swept each hour by another.
"""
import asyncio
import concurrent.futures
import contextlib
import logging
import os
import pathlib
import pickle
import threading
import time
from dataclasses import dataclass
from typing import Any, Callable, Dict, Iterator, List, Mapping, NamedTuple, Optional, Sequence, Tuple, TypeVar, Union

from distributed import Client, Future, wait

from relkvanu.drivers import MOST_FILES, SUBTASKS, Ack, Held, opened_driver
from relkvanu.errors import Error
from relkvanu.jobs import Stopped, Superseded
from relkvanu.parts import Dumps, Failed, Loads, Part, PartError, Place, digest_of, get_part, opened, pickled, pickled_in_pieces, place_of, put_part
from relkvanu.sweep import Swept, sweep

AHEAD = 8  # records for which names are reserved
MOST_PARTS = (SUBTASKS - 1) * MOST_FILES
MOST_NAMES = 1 << 16  # that one call reserves
SWEEP_EVERY = 3600.0  # seconds
PAUSE = 0.5  # seconds before a program goes on from its last record
HEAD = b"relkvanu.records 1 "
LOST = (asyncio.CancelledError, concurrent.futures.CancelledError)  # the first is no Exception

T = TypeVar("T")
R = TypeVar("R", bound="Resumable")
Watch = Callable[[List[Future]], Any]
Path = Union[str, "os.PathLike[str]"]
Coordinator = Union[Path, Any]  # a file, or a job of the service (relkvanu_service.Job)


class Record(NamedTuple):
    """What restore() finds: a complete record, the caller's own words about it, and its parts."""

    id: int
    meta: Any
    parts: Dict[str, List[Part]]


class Origin(NamedTuple):
    """The last record of a job whose coordinator is lost, and that job's identity."""

    identity: str
    record: Record


class Saved(NamedTuple):
    """A complete record: its number, how many parts were written and named again, and the bytes of those that were written."""

    id: int
    written: int
    reused: int
    size: int


@dataclass
class _Plan:
    """A part of the record that is being taken: what it is, and what was in its place in the last record."""

    name: str
    value: Any
    before: Optional[Part]


def _unpacked(data: bytes, what: str) -> Optional[Origin]:
    """What a list says, or None if the file is not one."""
    head, _, body = data.partition(b"\n")
    if not head.startswith(HEAD):
        return None
    if head != HEAD + digest_of(body).encode():
        raise PartError(f"{what} is damaged")
    identity, id, meta, parts = pickle.loads(body)
    return Origin(identity, Record(id, meta, {name: [Part(*it) for it in some] for name, some in parts.items()}))


def origin_of(place: Place) -> Origin:
    """The last record by the lists in a storage, which nobody changes here. A list has a greater name than all files before it. That
    of a record whose acknowledgement was lost with the coordinator is as good: its parts were durable before it."""
    storage = place.open()
    there = {file for page in storage.pages() for file in page}
    for file in sorted(there, reverse=True):
        with contextlib.suppress(PartError):  # a damaged list: the one before
            found = _unpacked(storage.get(file), f"file {file}")
            if found is not None and there.issuperset(it.file for some in found.record.parts.values() for it in some):
                return found
    raise PartError(f"{place.url} has no record whose files are all there")


@contextlib.contextmanager
def losses() -> Iterator[None]:
    """Dask says Cancelled of what was lost, which asyncio makes to its own. That is no Exception, and would end the driver without a word."""
    try:
        yield
    except LOST as fault:
        raise Failed(f"lost with a worker or the scheduler: {fault}") from None


class Records:
    """The records of a job. One thread at a time may call. After an exception of save() only restore() goes on."""

    def __init__(self, client: Optional[Client], storage: Union[Path, Place], coordinator: Coordinator, *, create: bool = False, patience: float = 300,
                 dumps: Dumps = pickled_in_pieces, loads: Loads = pickle.loads, watch: Optional[Watch] = None, begin: bool = False) -> None:
        """Opens the coordinator's file or its job in the service, or makes it if `create` says so. A job that has stopped begins if `begin` says so. A storage that is given by its address is that
        of the job with the name of this file, or of that job. `patience` is how many seconds a record may take: workers may all be gone. `watch` is given the futures of the
        writes, as distributed.progress. By default parts are pickled, so nobody else may write to the storage."""
        self._client, self._patience, self._dumps, self._loads, self._watch = client, patience, dumps, loads, watch
        name = pathlib.Path(coordinator).stem if isinstance(coordinator, (str, os.PathLike)) else coordinator.name
        self._job, self._place = opened_driver(coordinator, place_of(storage, name), create)
        try:
            self.storage = opened(self._place)
        except BaseException:
            self._job.close()
            raise
        self.identity = self._job.identity
        self.taken = 0  # records, since it was opened
        self.stops = False  # the next record is the savepoint of a stop
        self._begins = begin
        self._stopped: Optional[int] = None  # the savepoint with which this process has stopped the job
        self._whole = self._sweeps = self._job.is_whole
        self._last = Record(0, None, {})
        self._names: List[int] = []  # that are reserved, and that no put was given
        self._ends = threading.Event()
        works: Sequence[Callable[[], None]] = (lambda: self._job.discard(self.storage.delete), self._sweep_by_itself)
        self._threads = [threading.Thread(target=it, daemon=True) for it in works]
        for it in self._threads:
            it.start()

    def close(self) -> None:
        """Deletes what waits, sweeps once more, and closes it. It takes no record."""
        self._ends.set()
        self._job.stop()
        for it in self._threads:
            it.join()
        with contextlib.suppress(Error, OSError):
            while self._delete_waiting():
                pass
            if self._sweeps:
                self.sweep()
        self._job.close()

    def restore(self) -> Optional[Record]:
        """Goes back to the last complete record, or returns None if there is none. All files are looked for before anything is deleted. Raises Stopped
        if the job has stopped, and was not opened to begin: it begins once."""
        self._whole, self._names = False, []
        held = self._job.begin(self._begins)
        self._begins, self._stopped = False, None
        found = self._found(held)
        self._last, self._sweeps = found or Record(0, None, {}), True
        self.sweep()
        self._whole = True
        return found

    def last(self) -> Optional[Record]:
        """The last complete record, of a job that has stopped and stays so."""
        return self._found(self._job.held())

    def check_stopped(self) -> None:
        """Raises Stopped if this process has stopped the job."""
        if self._stopped is not None:
            raise Stopped(self._stopped)

    def load(self, parts: Sequence[Part], place: Optional[Place] = None) -> List[Future]:
        """Futures of parts, which workers read, of this job or of one in another place."""
        assert self._client is not None
        return [self._client.submit(get_part, place or self._place, it, self._loads, pure=False) for it in parts]

    def value(self, part: Part, place: Optional[Place] = None) -> Any:
        """A part in the memory of this process."""
        return get_part(place or self._place, part, self._loads)

    def save(self, meta: Any, parts: Mapping[str, Sequence[Union[Future, Any]]]) -> Saved:
        """Takes a record of these parts: those that are futures are written by workers, others by this process. `meta` is what the caller adds, or a function that
        makes it of the record's number. It is complete when this returns. If it raises, the record before stands, and the caller has to restore(). If `stops` was
        set, or somebody stops the job of the service, it is the savepoint of that stop: then check_stopped() raises."""
        self.check_stopped()
        if not self._whole:
            raise Failed("restore() first")
        self._whole = False
        with losses():
            plans = self._plans(parts)
            names = self._taken_names(len(plans) + 1)
            id = None
            try:
                puts = self._put(plans, names)
                id, is_stop = self._job.trigger(self._last.id, self.stops)  # while workers write
                self._reserve(len(names))  # for the next record, which then need not wait for it
                done = self._written(plans, names, puts)
                meta = meta(id) if callable(meta) else meta
                record = Record(id, meta, self._listed(id, meta, done, names[-1]))
                self._acknowledge(id, done, names)
            except BaseException:
                self._give_up(id, names)
                raise
        self._last, self._whole, self.taken = record, not is_stop, self.taken + 1
        self._stopped, self.stops = (id, False) if is_stop else (None, self.stops)
        fresh = set(names)
        wrote = {it.file: it.size for _, it in done if it.file in fresh}
        return Saved(id, len(wrote), sum(it.file not in fresh for _, it in done), sum(wrote.values()))

    def sweep(self) -> Swept:
        """Deletes what nobody can acknowledge any more, at any time after the files of the last record were found. If some are not there, a backup of
        the coordinator may have been restored: then later records may be all that is left, and what they have would be garbage."""
        if not self._sweeps:
            raise Failed("restore() first")
        return sweep(self.storage, self._job.garbage, True)

    def counts(self) -> Tuple[int, int]:
        """How many files the last record uses, and how many wait for deletion."""
        return self._job.counts()

    # A record.

    def _plans(self, parts: Mapping[str, Sequence[Any]]) -> List[_Plan]:
        found = []
        for name, values in parts.items():
            last = self._last.parts.get(name, [])
            found += [_Plan(name, value, last[index] if index < len(last) else None) for index, value in enumerate(values)]
        if len(found) > MOST_PARTS:
            raise Failed(f"a record has at most {MOST_PARTS} parts")
        return found

    def _taken_names(self, count: int) -> List[int]:
        """Names that no put was given before. They are reserved ahead, so that most records need no commit for it."""
        self._reserve(count)
        names, self._names = self._names[:count], self._names[count:]
        return names

    def _reserve(self, count: int) -> None:
        while len(self._names) < count:
            self._names += self._job.reserve(min(AHEAD * count, MOST_NAMES))

    def _put(self, plans: Sequence[_Plan], names: Sequence[int]) -> Dict[str, Future]:
        """Lets workers write the parts that are futures. One that is in two places is written once."""
        puts: Dict[str, Future] = {}
        for plan, name in zip(plans, names):
            if isinstance(plan.value, Future) and plan.value.key not in puts:
                assert self._client is not None
                puts[plan.value.key] = self._client.submit(
                    put_part, self._place, name, plan.value, plan.before, self._dumps, pure=False, retries=0)
        return puts

    def _written(self, plans: Sequence[_Plan], names: Sequence[int], puts: Dict[str, Future]) -> List[Tuple[_Plan, Part]]:
        """Each part with its file."""
        told = dict(zip(puts, self._awaited(list(puts.values()))))
        return [(plan, told[plan.value.key] if isinstance(plan.value, Future) else
                 put_part(self._place, name, plan.value, plan.before, self._dumps)) for plan, name in zip(plans, names)]

    def _awaited(self, puts: List[Future]) -> List[Part]:
        """What workers say that they have written. If one fails, the others need not go on."""
        if not puts:
            return []
        assert self._client is not None
        try:
            if self._watch is not None:
                self._watch(puts)
            wait(puts, timeout=self._patience)
            found: List[Part] = self._client.gather(puts)
            return found
        except BaseException:
            with contextlib.suppress(Exception):
                self._client.cancel(puts, asynchronous=False)
            raise

    def _listed(self, id: int, meta: Any, done: Sequence[Tuple[_Plan, Part]], name: int) -> Dict[str, List[Part]]:
        """Writes what the files of the record are, into one more file."""
        parts: Dict[str, List[Part]] = {}
        for plan, part in done:
            parts.setdefault(plan.name, []).append(part)
        body = pickled((self.identity, id, meta, {name: [tuple(it) for it in some] for name, some in parts.items()}))
        self.storage.put(name, HEAD + digest_of(body).encode() + b"\n" + body)
        return parts

    def _acknowledge(self, id: int, done: Sequence[Tuple[_Plan, Part]], names: Sequence[int]) -> None:
        """One commit, in which all subtasks acknowledge. Names of parts that have not changed are given up, so those of lists ascend."""
        used, fresh = sorted({part.file for _, part in done}), set(names)
        acks = [Ack([names[-1]])]
        for index in range(1, SUBTASKS):
            some = used[(index - 1) * MOST_FILES:index * MOST_FILES]
            acks.append(Ack([it for it in some if it in fresh], [it for it in some if it not in fresh]))
        self._job.complete(id, acks, sorted(fresh - set(used) - {names[-1]}))

    def _give_up(self, id: Optional[int], names: Sequence[int]) -> None:
        """The record is declined, if it was triggered, and nobody acknowledges these names any more."""
        with contextlib.suppress(Error):
            self._job.give_up(id, names)

    def _found(self, held: Optional[Held]) -> Optional[Record]:
        """A complete record. Raises PartError if one of its files is not there."""
        if held is None:
            return None
        lost = {it for some in held.files for it in some} - {it for page in self.storage.pages() for it in page}
        if lost:
            raise PartError(f"record {held.id} lacks {len(lost)} of its files, such as {min(lost)}")
        what = f"file {held.files[0][0]}, the list of record {held.id},"
        found = _unpacked(self.storage.get(held.files[0][0]), what)
        if found is None or (found.identity, found.record.id) != (self.identity, held.id):
            raise PartError(f"{what} is damaged")
        return found.record

    # What is released.

    def _sweep_by_itself(self) -> None:
        """Where a put came to its end after the sweep of a restore, a file is garbage."""
        while not self._ends.wait(SWEEP_EVERY):
            with contextlib.suppress(Error, OSError):  # also before a restore()
                self.sweep()

    def _delete_waiting(self) -> bool:
        """Deletes files that wait. Returns whether there may be more."""
        files = self._job.take()
        if not files:
            return False
        failed = self.storage.delete(files)
        self._job.report(files, failed)
        return not failed


class Resumable:
    """What checkpoints of collections and of graphs have in common: their records, and how a program goes on from the last one."""

    _records: Records
    _client: Optional[Client]

    def __enter__(self: R) -> R:
        return self

    def __exit__(self, *_: object) -> None:
        self.close()

    def close(self) -> None:
        """It takes no checkpoint."""
        self._records.close()

    def counts(self) -> Tuple[int, int]:
        """How many files are in use, and how many wait for deletion."""
        return self._records.counts()

    def ask_to_stop(self) -> None:
        """Any thread calls it, or the handler of a signal: the next checkpoint, which comes with the next element or step, stops the job."""
        self._records.stops = True

    def _resumed(self, work: Callable[[bool], T], failures: int) -> T:
        """Does work(False). After an exception work(True) goes back to the last checkpoint, `failures` times without a new one. A driver that has
        lost its job, or its client, or has stopped it, does not."""
        again, left = False, failures
        while True:
            taken = self._records.taken
            try:
                return work(again)
            except (Superseded, Stopped, ImportError):  # a worker without the package has it no later
                raise
            except (Exception, *LOST) as fault:
                again, left = True, (failures if self._records.taken > taken else left) - 1
                if left < 0 or (self._client is not None and self._client.status == "closed"):
                    raise
                logging.getLogger(type(self).__module__).warning("back to the last checkpoint: %r", fault)
                time.sleep(PAUSE)
