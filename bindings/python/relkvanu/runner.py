"""The loop of an engine over the coordinator of a job: what an opening, a tick, a failure, a stop and an end ask of it, in the right order. An engine says how
its tasks start, how a barrier reaches them, and what its sinks are told."""
import collections
import contextlib
import os
import signal
import threading
import time
from concurrent.futures import Future
from dataclasses import dataclass
from enum import Enum
from typing import Any, Callable, Deque, Dict, Iterator, List, Optional, Protocol, Sequence, Set, Tuple, TypeVar, Union

from relkvanu import unaligned
from relkvanu.errors import Error, Fenced, OutOfMemory, Refused
from relkvanu.inputs import Barrier, Inputs, InputsClosed
from relkvanu.jobs import Call, Job, Made, Opening, Outcome, Phase, StoreError, Superseded, made_of, subtasks_of
from relkvanu.nexts import Next, NextBarrier, NextBegun, NextCancelled, NextEnded, NextFailed, NextIdle, NextNotStopped, NextStopped
from relkvanu.reads import Chosen, Kind, Mode
from relkvanu.replies import AckCompleted, SavepointTriggered, Triggered
from relkvanu.state import FileLost, Files, Lineage, StorageFiles, StoreFiles, Unreadable, read_again, storage_of
from relkvanu.storage import Storage
from relkvanu.store_header import MOST_HISTORY, MOST_PAYLOAD
from relkvanu.whole import Ending, Part, Whole as Record

__all__ = [
    "Ack", "Barrier", "Ended", "Ending", "Engine", "FileLost", "FilesLeft", "Inputs", "InputsClosed", "Lineage", "Part", "Record", "Runner", "SavepointFailed",
    "Stuck", "Superseded", "Unreadable",
]

LOOKS_AGAIN = 200  # ms after which the loop looks whether it shall end or restart
LEAST_FAILURES = 3  # in a row, before a job is stuck
T = TypeVar("T")


class Stuck(Error):
    """The job has failed again and again, and for the runner's patience no checkpoint was complete. It says which subtasks have not acknowledged the last one.
    Nothing is lost: the next process begins with the last record."""


class FilesLeft(Error):
    """At an end of the job, released files could not be deleted for the runner's patience. Nothing is lost: the next process deletes them."""


class SavepointFailed(Error):
    """What Runner.savepoint() has asked for is not complete. `ending` says what became of it, and `reason` why a task has declined it. Without an `ending`
    run() has returned or failed before that was known, and without an `id` before it was triggered."""

    def __init__(self, id: Optional[int], ending: Optional[Ending], reason: str = "") -> None:
        super().__init__(id, ending, reason)
        self.id, self.ending, self.reason = id, ending, reason

    def __str__(self) -> str:
        if self.id is None:
            return "run() has ended, and no savepoint was triggered"
        words = f"was {self.ending.name.lower()}" if self.ending is not None else "was pending when run() ended"
        return f"savepoint {self.id} {words}" + (f": {self.reason}" if self.reason else "")


class Ended(Enum):
    """Why Runner.run() has returned."""

    CLOSED = 1  # Runner.close() was called: the next process goes on
    STOPPED = 2  # the job is stopped with a savepoint, and goes on from it once Store.begin_job() was called
    CANCELLED = 3  # the job has ended for good. One sweep was made, and all that it and the job's records gave up is deleted
    FINISHED = 4  # as CANCELLED, by Runner.finish(): all is published


@dataclass(frozen=True)
class Ack:
    """An acknowledgement, as Runner.ack() makes it: for a list."""

    barrier: Barrier
    vertex: int
    index: int
    fresh: Sequence[int] = ()
    reused: Sequence[int] = ()
    payload: bytes = b""
    bytes: int = 0
    millis: int = 0


@dataclass
class _Finished:
    """The last state of a task that has ended."""

    payload: bytes
    contents: Dict[int, bytes]  # of its files, under their first names
    fresh: List[int]  # names that were in no acknowledgement so far
    lineage: "Lineage[int]"  # by the first name


ENDS: Dict[type, Ended] = {NextStopped: Ended.STOPPED, NextCancelled: Ended.CANCELLED, NextEnded: Ended.CLOSED}


class Engine(Protocol):
    """What an engine does. All of these are called by the thread of Runner.run(), one at a time, but `complete`. An engine may also have
    stopped(record) and aborted(ids): see Runner."""

    def start(self, term: int, record: Optional[Record]) -> None:
        """Starts all tasks with this term. They begin with the state that is in the record's files, or from nothing. Before it writes, a sink publishes
        what its state lists, and gives up all else that was prepared."""

    def barrier(self, barrier: Barrier) -> None:
        """Sends a barrier to the sources."""

    def complete(self, id: int) -> None:
        """Says, while tasks run, that the job would begin again from this record: sinks publish what they prepared for it and for records before it. The
        numbers rise within a term. Called by a thread that acknowledges, or by run() once the job is stopped and tasks hold. It makes no ack() and no
        decline(), and waits for none."""

    def go_on(self) -> None:
        """A stop of the job has failed: tasks that hold go on."""

    def end(self) -> None:
        """Tells all tasks to end, closes their Inputs, and waits for none that hangs. What they send after a restore, a stop or a cancel is refused. After
        Runner.close() their term goes on: until the store is closed they may still acknowledge, and `complete` may be called."""


def _with_memory(call: Callable[[], T]) -> T:
    """Makes a call until memory suffices: without memory nothing has changed."""
    while True:
        try:
            return call()
        except OutOfMemory:
            time.sleep(1)


class Runner:
    """Runs an engine over a job: a Store, or a job of the service (relkvanu_service.Job). `files` has its state files: a folder or s3://BUCKET/PREFIX, or any
    Storage; without it they are in the storage folder of the Store. Tasks call `ack`, `decline`, `reserve` and `forfeit` of the runner, and put and get of
    `files`, each with the term that they were started with. Any thread may call trigger(), stop_job(), configure(), restore() or go_back() of the job: the engine
    sees the barrier or the restart that it brings. A savepoint is asked of the runner.

    An engine that has stopped(record) is told that the job is stopped with this record, while no task runs: when a stop has ended, after Engine.end(), and
    when run() finds the job stopped. Its sinks publish what the record's state lists, as at a start: the process may have died before they did.

    An engine that has aborted(ids) is told which records have ended whose barriers were sent, and which are not complete: tasks drop what they keep for them
    alone. Sinks keep what they prepared for them: the next checkpoint publishes it. Called as `complete`; not for what a restore ends.

    Each `sweep_interval` milliseconds the loop sweeps: files whose names tasks have forfeited go. For `patience` seconds a job may fail without a complete
    checkpoint (Stuck), a file may be unreadable (Unreadable), and files may stay at an end (FilesLeft). `commands` is the path of a unix socket at which
    operators reach the job of a Store: see relkvanu.commands. With `waits` a job that has stopped waits there until somebody begins it."""

    def __init__(self, job: Any, engine: Engine, files: Union[Storage, str, "os.PathLike[str]", None] = None, *, sweep_interval: int = 600_000,
                 patience: float = 600.0, commands: Union[str, "os.PathLike[str]", None] = None, waits: bool = False) -> None:
        self.job: Job = _job_of(job)
        self.files = _files_of(self.job, files)
        self.engine, self.sweep_interval, self.patience, self.commands, self.waits = engine, sweep_interval, patience, commands, waits
        self.term, self.told = self.job.term().term, 0
        self._turn = threading.Lock()  # of what tasks are told
        self._teller: Optional[int] = None  # the thread that has the turn
        self._pending: Dict[int, Set[Tuple[int, int]]] = {}  # records whose barriers were sent, and who has acknowledged
        self._lost: Set[int] = set()  # terms of which a task has died
        self._swept = self._progressed = time.monotonic()
        self._failures, self._reason = 0, ""  # since the last complete checkpoint, and why a record was declined
        self._last_failed: Tuple[int, Set[Tuple[int, int]]] = 0, set()  # and who had acknowledged it
        self._holds = False  # tasks wait for the end of a stop
        self._drained = False  # they have put out what they keep
        self._begun = 0  # the last term in which tasks were started
        self._closes = threading.Event()
        self._last: Optional[int] = None  # the record after which it closes
        self._stops = self._drains = self._finishes = self._is_at_end = False  # no Event: the handler of a signal sets it
        self._loop: Optional[int] = None  # the thread of run()
        self._asking = threading.Lock()
        self._is_over = False
        self._asked: Deque[Tuple["Future[int]", "Future[int]", Kind, bool]] = collections.deque()  # records that are to be triggered
        self._savepoints: Dict[int, Tuple["Future[int]", Optional[Chosen]]] = {}  # and those that were, each with the base of its barrier
        self._restores: Deque[Tuple["Future[Made]", Optional[int], Optional[Sequence[int]]]] = collections.deque()
        self._full: Set[int] = set()  # checkpoints that have no base
        self._ended_tasks: Dict[Tuple[int, int], _Finished] = {}
        self._failed: Optional[BaseException] = None  # what was raised first in another thread
        self._discarder: Optional[threading.Thread] = None

    @property
    def store(self) -> Any:
        """The job under the name that a Store has."""
        return self.job

    def reserve(self, term: int, count: int) -> range:
        """Names for files that no file ever had."""
        return self.job.reserve(term, count)

    def forfeit(self, term: int, names: Sequence[int]) -> None:
        """Gives up names that the task will not acknowledge, as after a put that failed."""
        self.job.forfeit(term, names)

    def state(self, record: Optional[Record], vertex: int, index: int) -> Optional[bytes]:
        """What ack_state() has kept for a subtask, or None if the record has no such subtask. Raises Unreadable."""
        found = [it for it in record.parts if (it.vertex, it.index) == (vertex, index)] if record is not None else []
        if not found:
            return None
        files = ((it, read_again(self.files.get, it, self.patience)) for it in found[0].files)
        return b"".join(contents for it, contents in files if not unaligned.is_recorded(it, contents)) or found[0].payload

    def ack_state(self, barrier: Barrier, vertex: int, index: int, state: bytes) -> bool:
        """Acknowledges with a state of any size: in the acknowledgement, or in a file if it has more than 4096 bytes. Returns false if the file could not be
        written: then the record is declined, and the reason is in the history."""
        if len(state) <= MOST_PAYLOAD:
            self.ack_payload(barrier, vertex, index, state)
            return True
        [name] = self.reserve(barrier.term, 1)
        try:
            self.files.put(name, state)
        except (StoreError, OSError) as why:
            self.forfeit(barrier.term, [name])
            self.decline(barrier.term, barrier.id, vertex, index, _reason(why))
            return False
        self.ack(barrier.term, barrier.id, vertex, index, [name], bytes=len(state))
        return True

    def ack(
        self, term: int, id: int, vertex: int, index: int, fresh: Sequence[int] = (), reused: Sequence[int] = (), *, payload: bytes = b"",
        bytes: int = 0, millis: int = 0
    ) -> Made:
        """Acknowledges, with a payload if the task's state is small, and tells the sinks if the record of a checkpoint is complete. Raises as Store.ack_in,
        and StoreError("NotNow") inside complete() and aborted(). What the engine raises ends run(), and not the task."""
        [outcome] = self._made([Call.ack(id, vertex, index, fresh, reused, None, term, payload, (bytes, millis))])
        return made_of(outcome)

    def acks(self, acks: Sequence[Ack]) -> List[Outcome]:
        """The same for 1 to 4096 subtasks of one process, in one commit. Returns for each what was made, or the refusal. Raises Fenced("OldTerm")."""
        outcomes = self._made([Call.ack(
            it.barrier.id, it.vertex, it.index, it.fresh, it.reused, None, it.barrier.term, it.payload, (it.bytes, it.millis)) for it in acks])
        for outcome in outcomes:
            if isinstance(outcome, Fenced) and outcome.name == "OldTerm":
                raise outcome
        return outcomes

    def _made(self, calls: List[Call]) -> List[Outcome]:
        """Makes acknowledgements, and tells of what they have completed and ended."""
        self._check_turn()
        outcomes = self.job.calls(calls)
        for call, made in zip(calls, outcomes):
            if isinstance(made, Made):
                self._pending.get(call.number, set()).add((call.vertex, call.index))
                self._heed(call.term, call.number, made)
        return outcomes

    def _heed(self, term: int, id: int, made: Made) -> None:
        if isinstance(made.reply, AckCompleted):
            self._pending.pop(id, None)
            if made.kind == Kind.CHECKPOINT:
                self._progressed, self._failures = time.monotonic(), 0
                self._noting(self._complete, term, id)
        self._abort(term, made.ended)

    def ack_payload(self, barrier: Barrier, vertex: int, index: int, payload: bytes) -> Made:
        """ack() of a task with this barrier whose whole state is the payload, at most 4096 bytes."""
        return self.ack(barrier.term, barrier.id, vertex, index, payload=payload)

    def decline(self, term: int, id: int, vertex: int, index: int, reason: str = "") -> Made:
        """Declines. Raises as Store.decline_in, and StoreError("NotNow") inside complete() and aborted(). If the job has failed by that, the loop restarts
        it."""
        self._check_turn()
        made = self.job.call(Call.decline(id, vertex, index, None, term, reason))
        self._abort(term, made.ended)
        self._reason = f"; {vertex}.{index} has declined record {id}: {reason}"
        return made

    def finished(self, term: int, vertex: int, index: int, files: Sequence[int] = (), payload: bytes = b"") -> None:
        """A task has ended, with this last state: new files of the term, or a payload. From the next barrier on the runner acknowledges for it. The task reads at
        a start in its state that it has ended, and says so again. What it feeds is told by Inputs.end(). Raises Fenced("OldTerm"), and Unreadable."""
        if self.job.term().term != term:
            raise Fenced("OldTerm", None)
        last = _Finished(payload, {it: read_again(self.files.get, it, self.patience) for it in files}, list(files), Lineage())
        with self._turn:
            if term == self.term:
                self._ended_tasks[vertex, index] = last

    def _ack_finished(self, barrier: Barrier) -> None:
        """Acknowledges for the tasks that have ended, in one list."""
        with self._turn:
            ended = list(self._ended_tasks.items()) if barrier.term == self.term else []
        acks = []
        for (vertex, index), last in ended:
            old = last.lineage.reusable(barrier.base)
            try:
                new = {it: self._again(last, barrier.term, it) for it in last.contents if it not in old}
            except (StoreError, OSError) as why:
                self.decline(barrier.term, barrier.id, vertex, index, _reason(why))
                return
            acks.append(Ack(barrier, vertex, index, list(new.values()), list(old.values()), last.payload))
            last.lineage.acked(barrier.id, {**old, **new})
        if acks:
            self.acks(acks)

    def _again(self, last: _Finished, term: int, file: int) -> int:
        """The name of a file for an acknowledgement: its first one, or that of a copy, if the record that had the first one may have failed."""
        if file in last.fresh:
            last.fresh.remove(file)
            return file
        [name] = self.reserve(term, 1)
        self.files.put(name, last.contents[file])
        return name

    def restart(self, term: Optional[int] = None) -> None:
        """A task of this term has died or was lost: the loop ends all tasks, restores the job and starts them again, unless it was stopped or cancelled. A
        report about an earlier term is ignored. Without a term it is about the tasks that run. May be called by any thread."""
        self._lost.add(self.term if term is None else term)

    def spawn(self, task: Callable[..., Any], *words: Any) -> threading.Thread:
        """Starts a thread of a task of the term that runs, which ends with the process. What the task raises ends run(). But once its term has ended, or its
        Inputs are closed, that only ends the task: the job was restored, stopped or cancelled meanwhile, and a sweep may have taken the file that it wrote."""
        thread = threading.Thread(target=self._noting, args=(self._of_term, self.term, task, *words), daemon=True)
        thread.start()
        return thread

    def _of_term(self, term: int, task: Callable[..., Any], *words: Any) -> None:
        """Makes the calls of a task of this term."""
        try:
            self._in_term(task, *words)
        except InputsClosed:
            pass
        except Exception:
            if not self._has_ended(term):
                raise

    def _has_ended(self, term: int) -> bool:
        """Whether it is known that this term has ended. The runner's own changes later: a restart sweeps before it begins."""
        try:
            return self.job.term().term != term
        except Error:
            return False

    def _in_term(self, call: Callable[..., Any], *words: Any) -> None:
        """Makes a call of the engine that may acknowledge in a term which somebody has just ended: then the loop is about to see that."""
        try:
            call(*words)
        except Fenced as fenced:
            if fenced.name != "OldTerm":
                raise

    def close(self) -> None:
        """Lets run() return once all tasks were told to end. May be called by any thread."""
        self._closes.set()

    def close_after(self, id: int) -> None:
        """As close(), once a checkpoint with this number or a greater one is complete and published, or the job has begun from such a record. Call it
        before run()."""
        self._last = id

    def ask_to_stop(self, drain: bool = False) -> None:
        """Lets run() stop the job with a savepoint, and return Ended.STOPPED. A stop that fails is tried again, as long as run() goes on. To `drain` is to stop
        for good: the barrier `drains`, and before its cut a task puts out what it keeps, since nothing follows. May be called by any thread, and by the
        handler of a signal."""
        self._drains = self._drains or drain
        self._stops = True

    def finish(self) -> None:
        """The job is at its end: it is drained, its sinks publish the last savepoint in stopped(), and then it is cancelled, which keeps savepoints, and the
        checkpoints that its settings say. run() returns Ended.FINISHED. A process that is killed in between leaves a job that is stopped, or cancelled: an
        engine whose stopped() finds in the record that its sources are at their end calls this there. If somebody else has stopped the job meanwhile, it is
        not drained: run() returns Ended.STOPPED, and once it begins again its engine calls this again. May be called by any thread."""
        self._finishes = True
        self._is_at_end = self._is_at_end or self._loop == threading.get_ident()
        self.ask_to_stop(drain=True)

    def stop_at_signals(self, *numbers: int) -> None:
        """Lets SIGTERM and SIGINT (Ctrl-C), or these signals, ask to stop. Whichever comes next has the effect that it had before: it ends a process that takes
        too long. One that is ignored stays so. The main thread calls this, before run()."""
        given = {number: signal.getsignal(number) for number in numbers or (signal.SIGTERM, signal.SIGINT)}
        before = {number: handler or signal.SIG_DFL for number, handler in given.items() if handler is not signal.SIG_IGN}

        def asked(number: int, _: object) -> None:
            for it, handler in before.items():
                signal.signal(it, handler)
            if self._is_over:
                signal.raise_signal(number)
            self.ask_to_stop()

        for number in before:
            signal.signal(number, asked)

    def begin_job(self) -> None:
        """Begins the job if it is stopped: call it before run()."""
        if self.job.phase().phase == Phase.STOPPED:
            _with_memory(self.job.begin_job)

    def savepoint(self) -> int:
        """Takes a savepoint, and returns its number once it is complete. Its barrier goes the way of a checkpoint's. Any thread may call it but a task: one
        that is to acknowledge would wait for itself. Raises SavepointFailed if it is not completed, and Refused, as Store.savepoint, if it is not triggered, as
        while the job is being stopped. In the thread of run(), and inside complete() and aborted(), it is StoreError("NotNow")."""
        return self._ask(Kind.SAVEPOINT)[1].result()

    def checkpoint(self, full: bool = False) -> int:
        """Triggers a checkpoint now, and returns its number. The barrier of a `full` one has no base: all is written anew. Raises as savepoint(), of what is not
        triggered."""
        return self._ask(Kind.CHECKPOINT, full)[0].result()

    def trigger_savepoint(self) -> int:
        """Triggers a savepoint, and returns its number at once."""
        return self._ask(Kind.SAVEPOINT)[0].result()

    def restore(self, savepoint: Optional[int] = None, shape: Optional[Sequence[int]] = None) -> Made:
        """Begins the job again from its last record, or from a savepoint, in another shape if one is given: all tasks end and start. Raises as Store.restore, and
        then nothing has changed. Any thread may call it but a task."""
        restored: "Future[Made]" = Future()
        self._append(self._restores, (restored, savepoint, shape))
        return restored.result()

    def _append(self, asked: Deque[Any], what: Any) -> None:
        """Something that the loop is to do."""
        if threading.get_ident() in (self._loop, self._teller):
            raise StoreError("NotNow", "this thread would wait for itself: ask in another one", False)
        with self._asking:
            if self._is_over:
                raise SavepointFailed(None, None)
            asked.append(what)

    def _ask(self, kind: Kind, full: bool = False) -> Tuple["Future[int]", "Future[int]"]:
        """The loop triggers a record. The number comes in the first, and in the second once it is complete."""
        triggered: "Future[int]" = Future()
        completed: "Future[int]" = Future()
        self._append(self._asked, (triggered, completed, kind, full))
        return triggered, completed

    def run(self) -> Ended:
        """Runs the job until it is closed, stopped or cancelled. Raises FileLost if a file of the record is missing, and what the store, the engine and its
        tasks raise: then the process ends, and the next one recovers the job."""
        self._loop = threading.get_ident()
        try:
            with self._served():
                return self._run()
        finally:
            self._loop = None
            self._end_savepoints()

    @contextlib.contextmanager
    def _served(self) -> Iterator[None]:
        """Operators reach the job meanwhile."""
        if self.commands is None:
            yield
            return
        from relkvanu.commands import Commands

        with Commands(self, self.commands):
            yield

    def _run(self) -> Ended:
        ended = self._opened()
        while True:
            while ended is None:
                ended = self._turn_once()
            ended = self._ended(ended)
            if ended != Ended.STOPPED or not self.waits or self._closes.is_set():
                break
            ended = self._rest()
        self.job.stop()
        if self._discarder is not None:
            self._discarder.join()
        return ended

    def _opened(self) -> Optional[Ended]:
        if self.job.phase().phase == Phase.STOPPED:
            return Ended.STOPPED
        opening = self.job.opening()
        if opening is Opening.CANCELLED:
            return Ended.CANCELLED
        if opening is Opening.OLD:
            return self._restore()
        if opening is Opening.NEW:
            self._begin(self.term)
        return None  # otherwise the first tick hands over who has begun it

    def _rest(self) -> Optional[Ended]:
        """Waits until somebody begins the job."""
        self._stops = self._drains = False
        while not self._closes.is_set():
            before = self.term
            self._look_at_commands()  # which refuses triggers, and says what became of savepoints
            if self.term != before:  # somebody has restored the job
                return self._over()
            it = _with_memory(lambda: self.job.await_next(LOOKS_AGAIN))
            if not isinstance(it, (NextStopped, NextIdle)):
                return self._act(it)
            time.sleep(LOOKS_AGAIN / 1000)
        return Ended.CLOSED

    def _turn_once(self) -> Optional[Ended]:
        """A turn of the loop. Returns why it is the last one."""
        self._look_at_faults()
        if self._closes.is_set():
            return Ended.CLOSED
        if self.term in self._lost:
            return self._over() or self._restore()
        self._sweep_again()
        self._look_at_commands()
        it = _with_memory(lambda: self.job.await_next(LOOKS_AGAIN))
        self._abort(self.term, it.ended)
        return self._act(it)

    def _look_at_commands(self) -> None:
        """What other threads have asked for."""
        while self._restores:
            self._restore_to(*self._restores.popleft())
        while self._asked and self._is_triggered(*self._asked[0]):
            self._asked.popleft()
        self._answer_savepoints()
        if self._stops and self.job.phase().phase == Phase.RUNNING:
            self._stop_job()

    def _restore_to(self, restored: "Future[Made]", savepoint: Optional[int], shape: Optional[Sequence[int]]) -> None:
        try:
            made = _with_memory(lambda: self.job.restore(savepoint, shape))
        except Error as why:
            restored.set_exception(why)
            return
        restored.set_result(made)
        self.engine.end()
        self._begin(made.term)

    def _is_triggered(self, triggered: "Future[int]", completed: "Future[int]", kind: Kind, full: bool) -> bool:
        """Whether the record is triggered, or was refused. A job that has failed is restored first."""
        try:
            made = _with_memory(self.job.savepoint if kind == Kind.SAVEPOINT else self.job.trigger)
        except (Refused, StoreError) as refused:
            if refused.name == "NotRunning" and self.job.mode() == Mode.FAILED:
                return False
            if isinstance(refused, StoreError) and refused.closes:
                raise
            for it in (triggered, completed):
                it.set_exception(refused)
            return True
        assert isinstance(made.reply, (SavepointTriggered, Triggered)), made
        self._full.update([made.reply.id] if full else [])
        if kind == Kind.SAVEPOINT:
            self._savepoints[made.reply.id] = completed, made.choice
            if not self.job.tells_savepoints:
                self._send(made.reply.id, Kind.SAVEPOINT, made.choice, False)
        triggered.set_result(made.reply.id)
        return True

    def _answer_savepoints(self) -> None:
        """Those that have ended."""
        if not self._savepoints:
            return
        for past in _with_memory(lambda: self.job.history(MOST_HISTORY)):
            if past.id not in self._savepoints:
                continue
            asked, _ = self._savepoints.pop(past.id)
            if past.ending == Ending.COMPLETED:
                asked.set_result(past.id)
            else:
                asked.set_exception(SavepointFailed(past.id, past.ending, past.reason))

    def _end_savepoints(self) -> None:
        """No answer comes any more."""
        with self._asking:
            self._is_over = True
        for id, (asked, _) in self._savepoints.items():
            asked.set_exception(SavepointFailed(id, None))
        for it in [it for triggered, completed, *_ in self._asked for it in (triggered, completed)] + [it for it, *_ in self._restores]:
            if not it.done():
                it.set_exception(SavepointFailed(None, None))

    def _stop_job(self) -> None:
        """A failed job is restored first. Somebody else may be faster."""
        try:
            _with_memory(self.job.stop_job)
        except (Refused, StoreError) as why:
            if (type(why), why.name) not in ((Refused, "NotRunning"), (StoreError, "NotNow")):
                raise

    def _act(self, it: Next) -> Optional[Ended]:
        """What the timer asks of the engine."""
        if isinstance(it, NextBarrier):
            self._send(it.id, it.kind, it.base, it.kind == Kind.SAVEPOINT and self._is_stop(it.id))
        elif isinstance(it, NextBegun):
            self._begin_elsewhere(it.term)
        elif isinstance(it, NextFailed):
            self._look_at_progress()
            return self._restore()
        elif isinstance(it, NextNotStopped) or (isinstance(it, NextIdle) and self._holds and self.job.phase().phase == Phase.RUNNING):
            self._go_on()
        elif isinstance(it, NextIdle):
            self._look_at_term()
        elif isinstance(it, NextStopped):
            self._tell_of_stop()
        return ENDS.get(type(it))

    def _look_at_term(self) -> None:
        """Whether another thread has called restore() of a store, which is not handed over."""
        term = self._begun if self.job.tells_savepoints else self.job.term().term
        if term != self._begun and self._over() is None:
            self._begin_elsewhere(term)

    def _begin_elsewhere(self, term: int) -> None:
        """Somebody else has restored the job: tasks begin in this term, but not twice, or nothing would refuse the first ones."""
        if term != self._begun:
            self.engine.end()
            self._begin(term)

    def _is_stop(self, id: int) -> bool:
        phase = self.job.phase()
        return phase.phase != Phase.RUNNING and phase.savepoint == id

    def _look_at_progress(self) -> None:
        """A job that fails again and again is given up. Its next process tries again."""
        self._failures += 1
        silent = time.monotonic() - self._progressed
        if self._failures >= LEAST_FAILURES and silent > self.patience:
            id, acked = self._last_failed
            missing = ", ".join("%d.%d" % it for it in subtasks_of(self.job.shape()) if it not in acked)
            raise Stuck(f"no checkpoint was complete for {silent:.0f} s, and the job has failed {self._failures} times: record {id} has no acknowledgement "
                        f"of {missing}{self._reason}")

    def _send(self, id: int, kind: Kind, base: Optional[Chosen], holds: bool) -> None:
        self._go_on()  # nobody may have said that the stop has failed for which tasks hold
        if self.term in self._lost:
            return  # the tasks start again, and the record ends
        self._pending[id] = set()
        self._holds, self._drained = holds, holds and self._drains
        barrier = Barrier(id, kind, None if id in self._full else base, self.term, holds, self._drained)
        self._in_term(self.engine.barrier, barrier)
        self._in_term(self._ack_finished, barrier)

    def _over(self) -> Optional[Ended]:
        """Whether the job was stopped or cancelled."""
        if self.job.phase().phase == Phase.STOPPED:
            return Ended.STOPPED
        return Ended.CANCELLED if self.job.mode() == Mode.CANCELLED else None

    def _go_on(self) -> None:
        if self._holds and self._drained:  # tasks have put out what they keep, so they can't go on
            self.restart()
        elif self._holds:
            self.engine.go_on()
        self._holds = False

    def _restore(self) -> Optional[Ended]:
        """Ends all tasks and starts them again, unless the job was stopped or cancelled: somebody else may be faster."""
        self.engine.end()
        try:
            term = _with_memory(self.job.restore).term
        except Refused:  # of a job that was cancelled
            ended = self._over()
            if ended is None:
                raise
            return ended
        ended = self._over()
        if ended is None:
            self._begin(term)
        return ended

    def _begin(self, term: int) -> None:
        """Looks that the record is whole, sweeps, and starts the tasks."""
        record = _with_memory(self.files.load)
        unaligned.check(self, record)
        self._sweep()
        self._holds = self._drained = False
        self._begun = term
        with self._turn:
            self.term, self.told = term, 0
            self._pending.clear()
            self._ended_tasks.clear()
        self._lost.clear()  # no task of this term has begun
        self._discard()
        self.engine.start(term, record)
        self._close_at(record.id if record is not None else 0)
        self._answer_savepoints()
        for id, (_, base) in self._savepoints.items() if not self.job.tells_savepoints else ():
            self._send(id, Kind.SAVEPOINT, base, False)  # the earlier tasks had this barrier, in a term that had just ended

    def _close_at(self, id: int) -> None:
        if self._last is not None and id >= self._last:
            self.close()

    def _sweep(self) -> None:
        _with_memory(self.files.sweep)
        self._swept = time.monotonic()

    def _sweep_again(self) -> None:
        """Now and then. What could not be read or synced now is tried at the next time."""
        if (time.monotonic() - self._swept) * 1000 < self.sweep_interval:
            return
        self._swept = time.monotonic()
        try:
            self._sweep()
        except StoreError as why:
            if why.name != "NotDone":
                raise

    def _tell_of_stop(self) -> None:
        """Tasks hold for this savepoint. Another record may be the choice by now, by a way back: its number says nothing of what is prepared."""
        chosen = self.job.choice()
        if chosen is not None and chosen.id == self.job.phase().savepoint:
            self._tell(self.term, chosen.id)

    def _complete(self, term: int, id: int) -> None:
        """A checkpoint is complete."""
        self._tell(term, id)
        if term == self.term:
            self._close_at(id)

    @contextlib.contextmanager
    def _in_turn(self) -> Iterator[None]:
        """One thread at a time tells tasks something. It would wait for itself if it acknowledged meanwhile."""
        with self._turn:
            self._teller = threading.get_ident()
            try:
                yield
            finally:
                self._teller = None

    def _check_turn(self) -> None:
        if self._teller == threading.get_ident():
            raise StoreError("NotNow", "this thread is in complete() or aborted(): acknowledge and decline when it has returned", False)

    def _tell(self, term: int, id: int) -> None:
        """Two threads may come here in another order than their records were completed."""
        with self._in_turn():
            if term == self.term and id > self.told:
                self.told = id
                self.engine.complete(id)

    def _abort(self, term: int, ended: Tuple[int, ...]) -> None:
        if not ended:
            return  # and waits for no sink
        with self._in_turn():
            aborted = [it for it in ended if it in self._pending] if term == self.term else []
            for id in aborted:
                self._last_failed, self._reason = (id, self._pending.pop(id)), ""
            if aborted and hasattr(self.engine, "aborted"):
                self._noting(self.engine.aborted, aborted)

    def _noting(self, call: Callable[..., Any], *words: Any) -> None:
        """Makes a call whose fault ends run(), in whatever thread it is raised."""
        try:
            call(*words)
        except BaseException as fault:
            if self._failed is None:
                self._failed = fault

    def _look_at_faults(self) -> None:
        if self._failed is not None:
            raise self._failed

    def _ended(self, ended: Ended) -> Ended:
        """Ends the tasks, and publishes what a stop has. Then one sweep, and all deletions that are due: a task that still writes may leave a file, which a
        later sweep deletes."""
        self.engine.end()
        self._answer_savepoints()
        if ended == Ended.STOPPED:
            self._is_at_end = False
            self._stopped()
            if self._finishes and (self._drained or self._is_at_end):
                _with_memory(self.job.cancel)
                ended = Ended.FINISHED
        if ended != Ended.CLOSED:
            self._discard()
            self._sweep()
            self._await_deletions()
        return ended

    def _await_deletions(self) -> None:
        until = time.monotonic() + self.patience
        while self._has_files():
            self._look_at_faults()
            if time.monotonic() > until:
                raise FilesLeft(f"{self.job.file_counts()} after {self.patience} s")
            time.sleep(LOOKS_AGAIN / 1000)

    def _stopped(self) -> None:
        with self._turn:
            self.term = 0  # `complete` is not called any more, by whatever comes late
        record = _with_memory(self.files.load)
        if record is not None and hasattr(self.engine, "stopped"):
            self.engine.stopped(record)

    def _has_files(self) -> bool:
        counts = self.job.file_counts()
        return counts.waiting + counts.taken > 0 and not self._closes.is_set()

    def _discard(self) -> None:
        if self._discarder is None:
            self._discarder = threading.Thread(target=self._noting, args=(self.files.discard,), name="relkvanu discarder", daemon=True)
            self._discarder.start()


def _reason(why: BaseException) -> str:
    """At most 200 bytes."""
    return str(why).encode()[:200].decode(errors="ignore")


def _job_of(job: Any) -> Job:
    """A Store, or a job of the service."""
    if hasattr(job, "await_next"):
        found: Job = job
        return found
    from relkvanu.job_of_service import ServiceJob

    return ServiceJob(job)


def _files_of(job: Job, files: Any) -> Files:
    if files is None:
        return StoreFiles(job)
    return StorageFiles(job, storage_of(job, files) if isinstance(files, (str, os.PathLike)) else files)
