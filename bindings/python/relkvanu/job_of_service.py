"""A job of the service (relkvanu_service.Job) as a relkvanu.jobs.Job: any machine may run its engine, and one at a time does. Whoever restores the job ends the
term of the tasks before, whose calls are refused from then on. It needs no library."""
import collections
import contextlib
import dataclasses
import importlib
import itertools
import threading
from typing import Any, Callable, Container, Deque, Dict, Iterator, List, Optional, Sequence, Tuple

from relkvanu import header
from relkvanu.errors import Error, Fenced, OutOfMemory, Refused
from relkvanu.jobs import ANSWERS, Call, JobPhase, Made, Opening, Outcome, Phase, StopFailed, StoreError, Superseded, lists_of, made_of
from relkvanu.nexts import Next, NextBarrier, NextCancelled, NextEnded, NextFailed, NextIdle, NextStopped
from relkvanu.reads import Chosen, FileCounts, Garbage, Kind, Live, Mode, RunningTerm
from relkvanu.replies import Deleted, Forfeited, Reply, Reserved, Taken, Undeleted
from relkvanu.service_manifests import identity_of
from relkvanu.storage import Marker
from relkvanu.whole import Ending, Part, Past, Whole

service: Any = importlib.import_module("relkvanu_service")
LOST = importlib.import_module("requests").RequestException
IDLE = 60.0  # seconds until the discarder looks again, if no record ends meanwhile
MOST_CALLS, MOST_FORFEITED = 1000, 4096  # of a request, and of a call
RESERVED = 1000  # names that are reserved at once
Answer = Dict[str, Any]


@contextlib.contextmanager
def answers() -> Iterator[None]:
    """What the client raises, as this package says it."""
    try:
        yield
    except service.OtherLog as error:
        raise Superseded(f"a backup of the service was restored: {error}") from error
    except service.Refused as refused:
        raise Refused(refused.name, refused.file) from refused
    except service.Fenced as fenced:
        raise Fenced(fenced.name, fenced.file) from fenced
    except service.Failed as error:
        if error.status == 507:
            raise OutOfMemory from error
        raise StoreError("Absent" if error.status == 404 else "NotDone", f"the service answers {error}", False) from error
    except LOST as error:
        raise StoreError("NotDone", f"the service does not answer: {error}", False) from error


def _body(call: Call) -> Answer:
    """A call as the service takes it."""
    subtask, term = f"{call.vertex}.{call.index}", call.term or None
    bodies: Dict[int, Callable[[], Any]] = {
        header.CALL_ACK: lambda: service.ack(  # with a figure the record keeps the order of the files
            call.number, subtask, call.first, call.second, term=term, payload=call.payload or None, size=call.figures[0], millis=call.figures[1]),
        header.CALL_DECLINE: lambda: service.decline(call.number, subtask, term, call.reason or None),
        header.CALL_RESERVE: lambda: service.reserve(call.term, call.number),
        header.CALL_FORFEIT: lambda: service.forfeit(call.term, call.first),
        header.CALL_RESTORE: lambda: service.restore(call.number or "latest", list(call.first) or None),
        header.CALL_SAVEPOINT: service.savepoint,
        header.CALL_TRIGGER: service.trigger,
        header.CALL_CANCEL: service.cancel,
        header.CALL_DISPOSE: lambda: service.dispose(call.number),
        header.CALL_DELETED: lambda: service.deleted(call.number),
        header.CALL_UNDELETED: lambda: service.undeleted(call.number),
        header.CALL_TAKE: lambda: service.take(call.number),
    }
    body: Answer = bodies[call.kind]()
    return body


OTHERS: Dict[str, Callable[[Answer], Reply]] = {  # whose answers have a number there
    "first": lambda it: Reserved(int(it["first"]), it["count"]),
    "files": lambda it: Taken(tuple(map(int, it["files"]))),
    "deleted": lambda it: Deleted(int(it["deleted"])),
    "undeleted": lambda it: Undeleted(int(it["undeleted"])),
}


def _reply(answer: Answer) -> Reply:
    for kind, (word, how) in ANSWERS.items():
        if answer.get(word) == how:
            members = {"released": 0, "handed_out": 0, **answer}  # declines, and late acknowledgements, need not have these
            return kind(**{it.name: members[it.name] for it in dataclasses.fields(kind)})
    make = next((make for word, make in OTHERS.items() if word in answer), lambda _: Forfeited())
    return make(answer)


def _outcome(answer: Answer) -> Outcome:
    file = None if answer.get("file") is None else int(answer["file"])
    if "refused" in answer:
        return Refused(answer["refused"], file)
    if "fenced" in answer:
        return Fenced(answer["fenced"], file)
    if answer.get("no_memory"):
        return OutOfMemory()
    kind = Kind(answer["kind"]) if answer.get("kind") in ("checkpoint", "savepoint") else None
    return Made(_reply(answer), answer.get("seq", 0), None, answer.get("term", 0), kind, tuple(answer.get("ended", ())))


def _chosen(choice: Optional[Answer]) -> Optional[Chosen]:
    return Chosen(choice["id"], Kind(choice["kind"])) if choice is not None and "id" in choice else None


def _part(subtask: str, told: Answer) -> Part:
    vertex, index = map(int, subtask.split("."))
    return Part(vertex, index, tuple(told["files"]), told["payload"], told["bytes"], told["millis"])


def _past(told: Answer) -> Past:
    endings = {"completed": Ending.COMPLETED, "declined": Ending.DECLINED, "expired": Ending.EXPIRED}
    figures = {name: told[name] or 0 for name in ("acks", "first", "median", "p99", "slowest", "bytes", "millis")}
    return Past(told["id"], Kind(told["kind"]), endings.get(told["how"], Ending.DROPPED), told["triggered"], told["ended"], reason=told["reason"] or "", **figures)


class ServiceJob:
    """A relkvanu.jobs.Job, of a relkvanu_service.Job that is open. Requests are made again for the patience of its client, under the same key."""

    tells_savepoints = True

    def __init__(self, job: Any) -> None:
        self._job, self.name = job, str(job.name)
        with answers():
            self._marker = Marker(*job.marker())
        self.identity = identity_of(self._marker.text.encode())
        self._follower: Any = None  # of the events since this process has begun the job
        self._events: Deque[Answer] = collections.deque()
        self._awaits = False  # somebody takes them
        self._lock = threading.Lock()  # of the names
        self._names = range(0)  # that are reserved, of this term
        self._term = 0
        self._ends, self._due = threading.Event(), threading.Event()

    def storage_marker(self) -> Marker:
        return self._marker

    def opening(self) -> Opening:
        return Opening.CANCELLED if self.mode() is Mode.CANCELLED else Opening.OLD

    # What is committed.

    def state(self) -> Answer:
        with answers():
            state: Answer = self._job.state()
        return state

    def term(self) -> RunningTerm:
        with answers():
            told = self._job.term()
        return RunningTerm(told["term"], told["next_name"])

    def phase(self) -> JobPhase:
        state = self.state()
        stop = state.get("stop") or {"savepoint": None, "failed": None}
        failed = StopFailed[stop["failed"].upper()] if stop["failed"] else None
        return JobPhase(Phase[state["phase"].upper()], stop["savepoint"], 0, failed)

    def mode(self) -> Mode:
        return Mode[self.state()["mode"].upper()]

    def choice(self) -> Optional[Chosen]:
        return _chosen(self.state()["choice"])

    def live(self) -> List[Live]:
        """Raises Superseded if a backup of the service was restored since this process has begun the job."""
        if self._follower is not None:
            with answers():
                told = self._follower.next(0)
            self._events.extend(told if self._awaits else ())
        return [Live(it["id"], Kind(it["kind"]), it["done"]) for it in self.state()["live"]]

    def shape(self) -> Tuple[int, ...]:
        return tuple(self.state()["shape"])

    def missing(self, id: int) -> List[Tuple[int, int]]:
        with answers():
            told = self._job.record(id)
        missing = told["missing"] or (told["history"] or {}).get("missing", [])
        return [(int(vertex), int(index)) for vertex, index in (it.split(".") for it in missing)]

    def file_counts(self) -> FileCounts:
        files = self.state()["files"]
        return FileCounts(files["in_use"], files["waiting"], files["taken"])

    def load(self, id: Optional[int] = None) -> Optional[Whole]:
        """A restore by somebody else may end the record meanwhile: then there is another choice."""
        choice = self.choice() if id is None else None
        while id is not None or choice is not None:
            try:
                return self._loaded(choice.id if choice is not None else id)
            except StoreError as why:
                before, choice = choice, self.choice() if id is None else None
                if why.name != "Absent" or id is not None or before == choice:
                    raise
        return None

    def _loaded(self, id: Optional[int]) -> Whole:
        with answers():
            told = self._job.load(id)
        parts = sorted((_part(*it) for it in told["subtasks"].items()), key=lambda it: (it.vertex, it.index))
        return Whole(told["id"], Kind(told["kind"]), tuple(told["shape"]), tuple(parts), self._term)

    def history(self, most: int = 100) -> List[Past]:
        """The service may be a moment behind."""
        with answers():
            return [_past(it) for it in self._job.history(most)]

    def garbage(self, files: Sequence[int]) -> Garbage:
        with answers():
            garbage, unissued = self._job.garbage(files)
        return Garbage(tuple(garbage), tuple(unissued))

    # Calls.

    def calls(self, calls: Sequence[Call]) -> List[Outcome]:
        """More than a thousand are made in several requests."""
        with answers():
            told = [self._job.made([_body(it) for it in some]) for some in lists_of(calls, MOST_CALLS)]
        outcomes = [_outcome(answer) for some in told for answer in some["answers"]]
        if any(isinstance(it, Made) and it.ended for it in outcomes):
            self._due.set()  # files may be released
        return outcomes

    def call(self, call: Call) -> Made:
        [outcome] = self.calls([call])
        return made_of(outcome)

    def _verb(self, verb: Callable[[], Answer], *names: str) -> Made:
        """A refusal with one of these names says that somebody else was faster."""
        try:
            with answers():
                return made_of(_outcome(verb()))
        except Refused as refused:
            if refused.name in names:
                raise StoreError("NotNow", refused.name, False) from refused
            raise

    def restore(self, savepoint: Optional[int] = None, shape: Optional[Sequence[int]] = None) -> Made:
        """It also reserves names, in the same commit: by that another process that still follows the job sees that this one has tasks."""
        names = Call.reserve(self.term().term + 1, RESERVED)
        with answers():
            told = self._job.made([_body(Call.restore(savepoint, shape)), _body(names)])
            made, reserved = made_of(_outcome(told["answers"][0])), _outcome(told["answers"][1])
            self._follower = self._job.follower(made.place, told.get("log"))
        self._events.clear()
        with self._lock:
            self._term, self._names = made.term, made_of_reserved(reserved) if isinstance(reserved, Made) else range(0)
        if not self._names:  # somebody has restored it since the term was read
            with contextlib.suppress(Fenced):  # and since then, which the events tell
                self._reserve(1)
        self._due.set()
        return made

    def begin_job(self) -> Made:
        return self._verb(self._job.begin_job, "NotStopped")

    def stop_job(self) -> Made:
        return self._verb(self._job.stop_job, "Stopping", "Stopped")

    def trigger(self) -> Made:
        return self._verb(self._job.checkpoint)

    def savepoint(self) -> Made:
        return self.call(Call.savepoint())

    def cancel(self) -> Made:
        return self.call(Call.cancel())

    def reserve(self, term: int, count: int) -> range:
        with self._lock:
            if term != self._term:
                return made_of_reserved(self.call(Call.reserve(term, count)))
            if len(self._names) < count:
                self._reserve(count)
            names, self._names = self._names[:count], self._names[count:]
            return names

    def _reserve(self, count: int) -> None:
        self._names = made_of_reserved(self.call(Call.reserve(self._term, max(count, RESERVED))))

    def forfeit(self, term: int, names: Sequence[int]) -> None:
        for outcome in self.calls([Call.forfeit(term, some) for some in lists_of(names, MOST_FORFEITED)]):
            made_of(outcome)

    # What happens.

    def await_next(self, longest: int = 1000) -> Next:
        """Waits for a second at least, if nothing happens: the service counts them so."""
        self._awaits = True
        if self._ends.is_set():
            return NextEnded()
        if self._follower is None:  # stopped when it was found, or begun by nobody here
            self._ends.wait(longest / 1000)
            return NextStopped() if self.phase().phase is Phase.STOPPED else NextFailed()
        if not self._events:
            with answers():
                self._events.extend(self._follower.next(max(1, longest // 1000)))
        return self._next_of(self._events.popleft()) if self._events else NextIdle()

    def _next_of(self, event: Answer) -> Next:
        ended, word = tuple(event["ended"]), event["event"]
        if ended or word == "completed":
            self._due.set()
        if word == "triggered":
            return NextBarrier(event["id"], Kind(event["kind"]), _chosen(event.get("base")), ended)
        if word in ("restored", "missed"):
            return self._begun(event)
        return NextFailed(ended) if word == "failed" else NextCancelled(ended) if word == "cancelled" else NextIdle(ended)

    def _begun(self, event: Answer) -> Next:
        """Somebody has restored the job: an operator, or its stop is complete. Raises Superseded if it was another engine: that has reserved names. Where calls
        were missed, names behind the last event may be this one's own."""
        self._events.clear()
        if self.phase().phase is Phase.STOPPED:
            return NextStopped(tuple(event["ended"]))
        if self.mode() is Mode.CANCELLED:
            return NextCancelled(tuple(event["ended"]))
        with answers():
            behind = list(itertools.islice(self._job.log(event["seq"]), MOST_CALLS))
        if event["event"] == "restored" and any(it["line"].startswith("reserve ") for it in behind):
            raise Superseded("another process has begun the job")
        return NextFailed(tuple(event["ended"]))

    def discard_lists(self, delete: Callable[[List[int]], Container[int]], batch: int = 1000) -> None:
        is_first = True
        while not self._ends.is_set():
            with contextlib.suppress(Error, OSError):  # the caller's next call raises what lasts
                self._discard_some(delete, self._left() if is_first or not self._due.is_set() else [], batch)
                is_first = False
            if not self._ends.is_set():  # stop() may have come before clear()
                self._due.wait(IDLE)

    def _discard_some(self, delete: Callable[[List[int]], Container[int]], files: List[int], batch: int) -> None:
        self._due.clear()
        while files := files or self._taken(batch):
            failed = delete(files)
            kinds = ((header.CALL_UNDELETED if it in failed else header.CALL_DELETED, it) for it in files)
            self.calls([Call(kind, number=it) for kind, it in kinds])  # a report is refused if another process has made it
            if any(it in failed for it in files):
                return
            files = []

    def _taken(self, most: int) -> List[int]:
        with answers():
            found: List[int] = self._job.take(most)
        return found

    def _left(self) -> List[int]:
        """What a process had taken and not reported when it was killed. A file may be deleted twice."""
        with answers():
            return [int(it["file"]) for it in self._job.files(1000)["taken"]]

    def stop(self) -> None:
        self._ends.set()
        self._due.set()

    def close(self) -> None:
        """The service goes on with the job."""
        self.stop()


def made_of_reserved(made: Made) -> range:
    assert isinstance(made.reply, Reserved), made
    return made.reply.names
