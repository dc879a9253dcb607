"""Sinks whose outputs are exactly once, for the runner and for Dask. At its cut a sink prepares what was put out since its last one: an entry. Its state lists the
entries that are not published. They are published once a checkpoint is complete, and again after a restart, which changes nothing then."""
import contextlib
import glob
import hashlib
import json
import os
import pickle
import threading
import time
import uuid
from typing import TYPE_CHECKING, Any, Callable, Dict, List, NamedTuple, Optional, Sequence, Set, Tuple

from relkvanu.errors import Error
from relkvanu.places import sync

if TYPE_CHECKING:
    from relkvanu.inputs import Barrier
    from relkvanu.runner import Runner

ENDED = (1 << 63) - 1  # the record of a job whose place another one has taken
KEPT = 4096  # records, the numbers of which a table keeps: a job retains at most 1000
AGAIN = 0.5  # seconds before an entry is published again, at a start
TOKEN = 20 + 1 + 32  # letters: a record, and digits that no other file has


class OutputError(Error):
    """The target has another entry of this number, or none where it was prepared: a backup of the coordinator was restored, another job has taken the place of
    this one, or files of the target are lost. Nothing was published."""


class SinkFailed(Error):
    """An entry could not be published for the sink's patience. It is in the state: the next process publishes it."""


class Entry(NamedTuple):
    """What the sink of this name has prepared for a record of a job, and what its state keeps of it."""

    id: int
    job: str
    name: str
    kept: bytes


class Sink:
    """A sink gathers rows: `sink(row)`. A subclass says how its target prepares, publishes and gives up; this class says when. Each sink of a target has a name of
    its own. `patience` is how many seconds a publication may fail."""

    def __init__(self, name: str, patience: float = 60.0) -> None:
        self.name, self.patience = name, patience
        self.rows: List[Any] = []
        self._job = ""
        self._entries: Dict[int, Entry] = {}
        self._lock = threading.Lock()
        self._fails: Optional[float] = None  # since when

    def __call__(self, row: Any) -> None:
        self.rows.append(row)

    # What a target does. Each call may come twice.

    def prepare(self, job: str, id: int, rows: Sequence[Any]) -> bytes:
        """Makes the rows durable and invisible, and returns what the state keeps. Or the state keeps the rows: then there is nothing to prepare."""
        raise NotImplementedError

    def publish(self, entry: Entry) -> None:
        """The record is complete. Raises OutputError if the target has other rows of this number."""
        raise NotImplementedError

    def give_up(self, job: str, name: str) -> None:
        """What a sink of this name has prepared and not published is in no state."""

    def end(self, job: str) -> None:
        """Another job has taken the place of this one, also if its process should still run. It may be told so again."""

    # When.

    def begin(self, job: str, *states: Optional[bytes]) -> None:
        """At a start, and when the job is stopped: publishes what these states list, and gives up all else that these sinks have prepared. All sinks do it before
        one is given a row. After a restore in another shape one of them takes the states of those that are no more. `job` is the identity of the job: an
        imported record lists entries of another one."""
        found = [pickle.loads(state) for state in states if state]
        with self._lock:
            self._job, self.rows, self._entries = job, [], {}
            for _, entries in found:
                for entry in entries:
                    self._publish_or_raise(Entry(*entry))
            for name in {self.name, *(name for name, _ in found)}:
                self.give_up(job, name)

    def cut(self, id: int) -> bytes:
        """At the cut of a record: prepares what was put out since the last one, and returns the sink's state. If it raises, the task declines the record, and the
        rows go with the next one."""
        with self._lock:
            if id not in self._entries:
                kept = self.prepare(self._job, id, self.rows)
                self._entries[id], self.rows = Entry(id, self._job, self.name, kept), []
            return pickle.dumps((self.name, [tuple(it) for it in self._entries.values()]))

    def acknowledge(self, runner: "Runner", barrier: "Barrier", vertex: int, index: int) -> bool:
        """The same, and acknowledges with the state. Returns false if the record was declined."""
        try:
            state = self.cut(barrier.id)
        except OSError as why:
            runner.decline(barrier.term, barrier.id, vertex, index, str(why)[:50])
            return False
        return runner.ack_state(barrier, vertex, index, state)

    def complete(self, id: int, at_once: bool = False) -> None:
        """A checkpoint is complete: publishes the entries up to it, also those of records that failed. What can't be published now is so with the next one, for
        the sink's patience, and then SinkFailed is raised; it is at once if `at_once` says so."""
        with self._lock:
            for entry in sorted(it for it in self._entries.values() if it.id <= id):
                try:
                    self._publish(entry)
                except OutputError:
                    raise
                except Exception as why:
                    self._fails = self._fails or time.monotonic()
                    if at_once or time.monotonic() - self._fails > self.patience:
                        raise SinkFailed(f"{self.name} has not published record {entry.id}: {why}") from why
                    return

    def _publish(self, entry: Entry) -> None:
        self.publish(entry)
        self._entries.pop(entry.id, None)
        self._fails = None

    def _publish_or_raise(self, entry: Entry) -> None:
        until = time.monotonic() + self.patience
        while True:
            try:
                return self._publish(entry)
            except OutputError:
                raise
            except Exception as why:
                if time.monotonic() >= until:
                    raise SinkFailed(f"{self.name} has not published record {entry.id}: {why}") from why
            time.sleep(min(AGAIN, self.patience))


class Table(Sink):
    """Rows of a table of SQLite, PostgreSQL or another database with DB-API. The state keeps the rows. An entry is one transaction, which also writes its number
    into the table relkvanu_entries of the same database."""

    def __init__(self, connect: Callable[[], Any], insert: str, name: str = "table", mark: str = "?", patience: float = 60.0) -> None:
        """`insert` is the statement for a row, as "INSERT INTO words VALUES (?, ?)". `mark` is how the database writes a value: %s in psycopg2."""
        super().__init__(name, patience)
        self._connect, self._insert, self._mark = connect, insert, mark
        with contextlib.closing(connect()) as database:
            database.cursor().execute(
                "CREATE TABLE IF NOT EXISTS relkvanu_entries "
                "(output VARCHAR(200), job CHAR(32), record BIGINT, digest VARCHAR(64), PRIMARY KEY (output, job, record))")
            database.commit()

    def prepare(self, job: str, id: int, rows: Sequence[Any]) -> bytes:
        return pickle.dumps(list(rows))

    def publish(self, entry: Entry) -> None:
        id, job, name, kept = entry
        digest = hashlib.sha256(kept).hexdigest()
        with contextlib.closing(self._connect()) as database:  # what is not committed is rolled back
            at = database.cursor()
            is_new = self._noted(at, entry, digest)  # a second process waits here for the transaction of the first
            self._ask(at, "SELECT max(record) FROM relkvanu_entries WHERE output = ? AND job = ?", name, job)
            [last] = at.fetchone()
            if last - id > KEPT:
                raise OutputError(f"{name} has the record {last} of the job {job}, so it takes no record {id}")
            if not is_new:
                return self._check(at, entry, digest)
            at.executemany(self._insert, pickle.loads(kept))
            self._ask(at, "DELETE FROM relkvanu_entries WHERE output = ? AND job = ? AND record < ?", name, job, id - KEPT)
            database.commit()

    def end(self, job: str) -> None:
        """No record of the job is taken any more."""
        with contextlib.closing(self._connect()) as database:
            self._noted(database.cursor(), Entry(ENDED, job, self.name, b""), "")
            database.commit()

    def _noted(self, at: Any, entry: Entry, digest: str) -> bool:
        """Whether the number was not there."""
        self._ask(at, "INSERT INTO relkvanu_entries VALUES (?, ?, ?, ?) ON CONFLICT DO NOTHING", entry.name, entry.job, entry.id, digest)
        return bool(at.rowcount)

    def _check(self, at: Any, entry: Entry, digest: str) -> None:
        """Whether what is there already is this entry."""
        self._ask(at, "SELECT digest FROM relkvanu_entries WHERE output = ? AND job = ? AND record = ?", entry.name, entry.job, entry.id)
        if at.fetchone() != (digest,):
            raise OutputError(f"{entry.name} has other rows of the record {entry.id} of the job {entry.job}")

    def _ask(self, at: Any, statement: str, *values: Any) -> None:
        at.execute(statement.replace("?", self._mark), values)


class Files(Sink):
    """A file of JSON lines for each record that has rows, JOB-RECORD.jsonl in a folder. It has this name once it is published; before that it is a hidden
    one, and durable. A sink with another name than "files" has it in the names of its files."""

    def __init__(self, folder: str, name: str = "files", patience: float = 60.0) -> None:
        super().__init__(name, patience)
        self._folder = folder
        self._left: Set[Tuple[str, str]] = set()  # jobs and names of which files go at the next cut

    def _path(self, job: str, name: str, end: str) -> str:
        return os.path.join(self._folder, f"{job}-{end}" if name == "files" else f"{job}-{name}-{end}")

    def _hidden(self, job: str, name: str, token: str) -> str:
        return os.path.join(self._folder, f".{os.path.basename(self._path(job, name, token))}.prepared")

    def prepare(self, job: str, id: int, rows: Sequence[Any]) -> bytes:
        self._drop_before(id)
        if not rows:
            return b""
        token, data = f"{id:020}-{uuid.uuid4().hex}", "".join(json.dumps(it) + "\n" for it in rows).encode()
        with open(self._hidden(job, self.name, token), "xb") as to:
            to.write(data)
            to.flush()
            os.fsync(to.fileno())
        sync(self._folder)
        return f"{token} {hashlib.sha256(data).hexdigest()}".encode()

    def publish(self, entry: Entry) -> None:
        """Entries of another job whose target was another folder are none of this one's."""
        if not entry.kept:
            return
        token, digest = entry.kept.decode().split()
        path, hidden = self._path(entry.job, entry.name, f"{entry.id:020}.jsonl"), self._hidden(entry.job, entry.name, token)
        if os.path.exists(hidden) and not os.path.exists(path):
            with contextlib.suppress(FileNotFoundError):  # a process that has lost the job may publish its last record, too
                os.rename(hidden, path)
        if os.path.exists(path):
            self._check_digest(path, digest)
        elif entry.job == self._job:
            raise OutputError(f"{path} is neither prepared nor published")
        sync(self._folder)  # also where the process that gave it its name was killed before it did

    def _check_digest(self, path: str, digest: str) -> None:
        with open(path, "rb") as there:
            if hashlib.sha256(there.read()).hexdigest() != digest:
                raise OutputError(f"{path} has other rows")

    def give_up(self, job: str, name: str) -> None:
        """At the next cut. A process that slept before it and wakes beside its successor gives up nothing of that: each record of a term has a greater number than
        those of earlier terms."""
        self._left.add((job, name))

    def _drop_before(self, id: int) -> None:
        for job, name in self._left:
            for path in glob.glob(self._hidden(glob.escape(job), glob.escape(name), "?" * TOKEN)):
                record = path[:-len(".prepared")][-TOKEN:][:20]
                if record.isdecimal() and int(record) < id:
                    with contextlib.suppress(FileNotFoundError):
                        os.unlink(path)
        self._left.clear()
