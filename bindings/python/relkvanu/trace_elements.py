"""The elements of a trace: which a source read, what a channel brought, and what a sink prepared, published and gave up. Judges the rules 11 to
15 of docs/PROTOCOL.md, which are about a cut, sinks, a stop and a way back, and looks for elements that are lost or come out twice."""
from dataclasses import dataclass, field
from typing import Callable, Dict, Iterable, Iterator, List, Optional, Set, Tuple

from relkvanu.coordinator import Coordinator
from relkvanu.trace import Event, Task

Element = Tuple[str, int]  # the subtask whose source has it, and its number


@dataclass
class Snapshot:
    """What a task has: of each source, or channel from one, how many elements it has taken, and what its sink has prepared and not published."""

    taken: Dict[str, int] = field(default_factory=dict)
    prepared: Set[int] = field(default_factory=set)

    def copy(self) -> "Snapshot":
        return Snapshot(dict(self.taken), set(self.prepared))


@dataclass
class Work:
    """What a task does since it started."""

    now: Snapshot
    written: Set[Element] = field(default_factory=set)  # since its last cut
    cuts: Dict[int, Snapshot] = field(default_factory=dict)  # by record
    arrived: Dict[str, int] = field(default_factory=dict)  # by channel the record whose barrier has come, before its cut
    told: int = 0  # the record whose barrier the process has told it last
    has_gone_on: bool = False

    def begun(self) -> int:
        return max(self.cuts, default=0)


@dataclass
class Target:
    """Where a sink publishes: what is prepared for each record, what was published, and what of that since the last way back."""

    prepared: Dict[int, Set[Element]] = field(default_factory=dict)
    shown: Set[Element] = field(default_factory=set)
    published: Set[Element] = field(default_factory=set)
    closed: Set[int] = field(default_factory=set)


class Elements:
    """Reads the events of tasks one by one. `broken` takes a rule and what was done against it, `came` what came of it."""

    def __init__(self, broken: Callable[[int, str], None], came: Callable[[str], None], running: Dict[str, Task]) -> None:
        self.broken, self.came, self.running = broken, came, running
        self.inputs: Dict[str, List[str]] = {}  # by subtask, those whose channels end there
        self.work: Dict[Task, Work] = {}
        self.targets: Dict[str, Target] = {}  # by subtask
        self.parts: Dict[int, Dict[str, Snapshot]] = {}  # of acknowledgements that were accepted, by record
        self.restored = 0  # the record that the job was restored to last, or 0
        self.completed = 0  # the greatest checkpoint that is complete
        self.stop = 0  # the savepoint of a stop that has not failed, or 0
        self.backs: Dict[int, int] = {}  # the savepoints of ways back, and the checkpoint of each

    # What calls say.

    def channel(self, event: Event) -> None:
        self.inputs.setdefault(event.word, []).append(event.source)

    def accepted(self, sender: Optional[Task], subtask: str, record: int) -> None:
        """An acknowledgement was accepted for a record: of a task, or of a way back by what the checkpoint has."""
        if sender is not None and sender in self.work:
            part: Optional[Snapshot] = self.work[sender].cuts.get(record)
        else:
            part = self.parts.get(self.backs.get(record, 0), {}).get(subtask)
        if part is not None:
            self.parts.setdefault(record, {})[subtask] = part

    def was_restored(self, record: int, is_chosen: bool) -> None:
        """`is_chosen`: somebody chose this savepoint. What was published for later records comes again then."""
        self.restored = record
        if is_chosen and record != self.stop:
            for target in self.targets.values():
                target.published = {(source, number) for source, number in target.published if number <= self.offset(record, source)}

    def offset(self, record: int, source: str) -> int:
        return self.parts.get(record, {}).get(source, Snapshot()).taken.get(source, 0)

    def stopped(self, core: Coordinator) -> None:
        """A stop fails when its savepoint is dropped."""
        live = core.live_from(self.stop)
        if live is None or live.id != self.stop:
            self.stop = 0

    # What tasks do.

    def starts(self, task: Task) -> None:
        self.work[task] = Work(self.parts.get(self.restored, {}).get(task.subtask, Snapshot()).copy())

    def tells_barrier(self, task: Task, record: int) -> None:
        if record in self.backs:
            self.broken(15, f"the barrier of record {record}, by which the job goes back to record {self.backs[record]}, is sent to {task}")
        if task in self.work:
            self.work[task].told = record

    def goes_on(self, task: Task, what: str) -> Optional[Work]:
        """The task does more than to wait: it may not be one that holds, and a sink has given up what is not its own."""
        work = self.work.get(task)
        if work is None:
            return None
        if self.stop in work.cuts and self.running.get(task.subtask) == task:
            self.broken(14, f"{task} {what} after its snapshot for record {self.stop}, with which the job stops")
        if not work.has_gone_on and self.running.get(task.subtask) == task:
            work.has_gone_on = True
            prepared = self.targets.get(task.subtask, Target()).prepared
            for record in sorted(it for it, elements in prepared.items() if elements):
                self.broken(12, f"{task} {what}, and has not given up what was prepared for record {record}")
        return work

    def reads(self, event: Event) -> None:
        self.take(event.who, event.who.subtask, event.number, "reads")

    def takes(self, event: Event) -> None:
        work = self.work.get(event.who)
        record = work.arrived.get(event.source, 0) if work else 0
        if work and record and record >= work.told:
            self.broken(11, f"{event.who} takes element {event.number} from {event.source}, which is behind the barrier of record {record}")
        self.take(event.who, event.source, event.number, "takes")

    def take(self, task: Task, source: str, number: int, verb: str) -> None:
        work = self.goes_on(task, f"{verb} element {number}")
        if work is not None:
            work.now.taken[source] = number
            work.written.add((source, number))

    def takes_barrier(self, event: Event) -> None:
        work = self.goes_on(event.who, f"takes the barrier of record {event.number}")
        if work is not None and event.number > work.begun():
            work.arrived[event.source] = event.number

    def begins(self, task: Task, record: int) -> None:
        work = self.goes_on(task, f"begins record {record}")
        if work is None:
            return
        for source in self.inputs.get(task.subtask, ()):
            if work.arrived.get(source) != record:
                self.broken(11, f"{task} begins record {record}, and its barrier has not come from {source}")
        work.arrived = {}
        work.cuts[record] = work.now.copy()

    # What sinks do in their target.

    def target(self, task: Task, what: str) -> Target:
        if self.running.get(task.subtask) != task:
            self.broken(3, f"the target lets {task} {what}, which was replaced")
        return self.targets.setdefault(task.subtask, Target())

    def prepares(self, event: Event) -> None:
        target, record = self.target(event.who, f"prepare record {event.number}"), event.number
        work = self.work.setdefault(event.who, Work(Snapshot()))
        target.prepared[record] = set() if record in target.closed else work.written
        work.written = set()
        work.now.prepared.add(record)
        if record in work.cuts:
            work.cuts[record].prepared.add(record)

    def publishes(self, event: Event) -> None:
        for record in event.files:
            target = self.target(event.who, f"publish record {record}")
            work = self.work.setdefault(event.who, Work(Snapshot()))
            if record not in work.now.prepared:
                self.broken(12, f"{event.who} publishes what was prepared for record {record}, and its snapshot does not have that")
            if record > max(self.completed, self.restored):
                self.broken(13, f"{event.who} publishes record {record}: no checkpoint from there on is complete, and the job was not restored to it")
            self.publish(target, record)
            work.now.prepared.discard(record)

    def publish(self, target: Target, record: int) -> None:
        elements = target.prepared.pop(record, set())
        for source, number in sorted(elements & target.published):
            self.came(f"element {number} of {source} is published twice")
        target.published |= elements
        target.shown |= elements
        target.closed |= {record} if elements else set()

    def drops(self, event: Event) -> None:
        target = self.target(event.who, "give up what was prepared")
        for record in event.files:
            target.prepared.pop(record, None)

    # What came of it.

    def look(self, core: Coordinator) -> None:
        """Elements that the source has left behind in the record that a restore would begin from, and that no sink has."""
        chosen = core.choice()
        parts = self.parts.get(chosen.id, {}) if chosen else {}
        for subtask, target in self.targets.items():
            kept = target.shown.union(*(target.prepared.get(it, set()) for it in parts.get(subtask, Snapshot()).prepared))
            for source, number in self.left_behind(subtask, parts):
                if (source, number) not in kept:
                    self.came(f"element {number} of {source} is lost: record {chosen.id if chosen else 0} is behind it")

    def left_behind(self, sink: str, parts: Dict[str, Snapshot]) -> Iterator[Element]:
        sources: Iterable[str] = self.inputs.get(sink, [sink])
        for source in sources:
            last = parts.get(source, Snapshot()).taken.get(source, 0)
            yield from ((source, number) for number in range(1, last + 1))
