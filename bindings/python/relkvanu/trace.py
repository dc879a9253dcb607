"""A trace of a job: what its processes, tasks, discarders and storage did, one line each, in the order in which it happened.
docs/PROTOCOL.md has the lines. World replays them: it makes the calls of the log again, and keeps what the storage holds."""
import re
from dataclasses import dataclass, field
from typing import Dict, FrozenSet, Iterable, Iterator, List, Optional, Sequence, Set, Tuple

from relkvanu import lines
from relkvanu.coordinator import Coordinator, Error, Fenced, Refused, Settings
from relkvanu.replies import Reply

Files = Tuple[int, ...]


class NoTrace(Exception):
    """A line is not one of a trace, or the library answers its call in another way."""


@dataclass(frozen=True)
class Task:
    """Task("0.0", 2) has replaced Task("0.0", 1)."""

    subtask: str
    start: int

    def __str__(self) -> str:
        return f"task {self.subtask} {self.start}"


@dataclass(frozen=True)
class Event:
    """A line. `verb` says what it is, and the fields that it needs are set."""

    verb: str
    task: Optional[Task] = None
    number: int = 0  # of a process or a record
    files: Files = ()  # of a message, the fresh ones
    reused: Files = ()
    word: str = ""  # how an answer was, or who deletes
    line: str = ""  # of the log
    other: int = 0  # of a record, beside `number`
    source: str = ""  # a subtask that sends

    @property
    def who(self) -> Task:
        assert self.task is not None
        return self.task


NUMBER, OTHER, FILE = (rf"(?P<{field}>[0-9]{{1,19}})" for field in ("number", "other", "files"))
SOURCE, SUBTASK, TASK = r"(?P<source>[0-9]+\.[0-9]+)", r"(?P<word>[0-9]+\.[0-9]+)", r"(?P<subtask>[0-9]+\.[0-9]+) (?P<start>[0-9]{1,19})"
FILES, SIGNED = r"(?P<files>(?: [0-9]{1,19})*)", r"(?P<signed>(?: [+=][0-9]{1,19})*)"
# The forms of lines, whose groups are fields of an event. What a process does is a verb with that word before it.
FORMS = (
    rf"process {NUMBER} (?P<process>starts|looks|ends|goes on)",
    rf"process {NUMBER} (?P<process>recovers) {OTHER}",
    r"(?P<verb>log synced|log cut|log copied|log put back|log lost|log comes back|folder synced|begin)",
    rf"(?P<verb>manifest|stop with) {NUMBER}",
    rf"(?P<verb>barrier|complete) {NUMBER} to {TASK}",
    rf"(?P<verb>answer) to {TASK} (?P<word>accepted|late|refused)",
    rf"(?P<verb>from) {TASK}",
    r"(?P<verb>dropped|refused) (?P<line>.+)",
    rf"task {TASK} (?P<verb>starts|ends)",
    rf"task {TASK} (?P<verb>begins|gives up|sends decline|reads|prepares) {NUMBER}",
    rf"task {TASK} (?P<verb>writes|syncs) {FILE}",
    rf"task {TASK} (?P<verb>keeps|unlinks|publishes|drops){FILES}",
    rf"task {TASK} (?P<verb>sends ack) {NUMBER}{SIGNED}",
    rf"task {TASK} (?P<verb>takes|takes barrier) {NUMBER} from {SOURCE}",
    rf"(?P<word>discarder|sweeper) (?P<verb>unlinks){FILES}",
    rf"sweeper (?P<verb>lists){FILES}",
    rf"storage (?P<verb>lacks){FILES}",
    r"(?P<verb>storage) (?P<word>away|back|loses power)",
    rf"(?P<verb>term) {NUMBER} of {TASK}",
    rf"(?P<verb>channel) {SOURCE} to {SUBTASK}",
    rf"(?P<verb>back) to {OTHER} with {NUMBER}",
)
COMPILED = tuple(re.compile(form) for form in FORMS)
# bindings/generate makes the first words of calls
_CALLS = "tick|savepoint|ack|decline|dispose|restore|cancel|take|deleted|undeleted|fence|reserve|forfeit|trigger|configure|advance"
# bindings/generate: end
LOGGED = re.compile(rf"(config|job|start|in|{_CALLS})( .*)?")  # the library says what is missing


def _event(of: Dict[str, str]) -> Event:
    verb = of["verb"] if "verb" in of else f"process {of['process']}"
    signed = of.get("signed", "").split()
    task = Task(of["subtask"], int(of["start"])) if "start" in of else None
    files, reused = of.get("files", "").split() + [it[1:] for it in signed if it[0] == "+"], [it[1:] for it in signed if it[0] == "="]
    return Event(verb, task, int(of.get("number", 0)), tuple(map(int, files)), tuple(map(int, reused)), of.get("word", ""), of.get("line", ""),
                 int(of.get("other", 0)), of.get("source", ""))


def read(text: str) -> Optional[Event]:
    """The event of a line; None for a comment or an empty line. Raises NoTrace."""
    if text.strip() == "" or text.startswith("#"):
        return None
    for form in COMPILED:
        found = form.fullmatch(text)
        if found:
            return _event(found.groupdict())
    if LOGGED.fullmatch(text):
        return Event("call", line=text)
    raise NoTrace(f"not a line of a trace: {text}")


@dataclass
class Storage:
    """What the storage shows, and what a loss of power leaves of it: each file with the task that wrote it last."""

    shown: Dict[int, Task] = field(default_factory=dict)
    kept: Dict[int, Task] = field(default_factory=dict)
    is_away: bool = False
    lacking: Set[int] = field(default_factory=set)  # files that somebody else deleted

    def shows(self, file: int) -> bool:
        return file in self.shown and not self.is_away

    def lack(self, files: Iterable[int]) -> None:
        for file in files:
            self.shown.pop(file, None)
            self.kept.pop(file, None)
            self.lacking.add(file)

    def write(self, task: Task, file: int) -> None:
        if not self.is_away:
            self.shown[file] = task

    def sync(self, file: int) -> None:
        if file in self.shown and not self.is_away:
            self.kept[file] = self.shown[file]

    def unlink(self, files: Iterable[int]) -> None:
        for file in files:
            if not self.is_away:
                self.shown.pop(file, None)

    def sync_folder(self) -> None:
        self.kept = {file: task for file, task in self.kept.items() if file in self.shown}

    def lose_power(self) -> None:
        self.shown = dict(self.kept)


@dataclass
class Log:
    lines: List[str] = field(default_factory=list)
    synced: int = 0
    copied: Optional[int] = None  # how many lines the last copy has
    first: int = 1  # the number of its first record


class World:
    """The job at a line of the trace."""

    def __init__(self) -> None:
        self.log = Log()
        self.storage = Storage()
        self.processes: Dict[int, Optional[Coordinator]] = {}  # those that have not ended; None until its opening
        self.newest = self.speaker = 0  # the process that started last, and the one whose calls come
        self.opening: List[str] = []
        self.sender: Optional[Task] = None  # whose message the next call is made for
        self.accepted: Dict[int, Task] = {}  # the files of accepted acknowledgements, and whose each was first
        self.running: Dict[str, Task] = {}
        self.has_names = False  # the job gives out the names of files

    def core(self) -> Coordinator:
        """That of the newest process."""
        core = self.processes.get(self.newest)
        if core is None:
            raise NoTrace("no process has opened the job")
        return core

    def start_process(self, number: int) -> None:
        self.processes[number] = self.replayed(len(self.log.lines)) if self.log.lines else None
        self.newest = self.speaker = number

    def recover(self, number: int, record: int) -> None:
        """A process makes the job again in a new log, whose first record is this one."""
        self.log = Log(first=record)
        self.opening, self.has_names = [], False
        self.start_process(number)

    def replayed(self, count: int) -> Coordinator:
        """A coordinator that makes the calls of so many lines of the log."""
        core = self._opened(self.log.lines[:3])
        for line in self.log.lines[3:count]:
            core.line(line.encode())
        return core

    def not_garbage(self, files: Sequence[int]) -> Set[int]:
        """Those of the files that nobody may delete, as the durable lines of the log say."""
        core = self.processes.get(self.newest)
        if core is not None and self.log.synced == len(self.log.lines):
            return set(files) - set(core.garbage(files).garbage)
        with self.replayed(self.log.synced) as durable:
            return set(files) - set(durable.garbage(files).garbage)

    def _opened(self, opening: List[str]) -> Coordinator:
        settings, shape, start = (lines.line_says(line.encode()) for line in opening)
        if not (isinstance(settings, Settings) and isinstance(shape, lines.Job) and isinstance(start, lines.Start)):
            raise NoTrace("a log begins with the lines config, job and start")
        return Coordinator(settings, shape.shape, start.now, self.log.first)

    def call(self, line: str) -> Optional[Reply]:
        """Makes a call, as the process did, and appends it to the log. Raises NoTrace if the library refuses it."""
        if self.speaker not in self.processes:
            raise NoTrace(f"no process runs that makes this call: {line}")
        self.log.lines.append(line)
        core = self.processes[self.speaker]
        if core is None:
            self.opening.append(line)
            if len(self.opening) == 3:
                self.processes[self.speaker] = self._opened(self.opening)
            return None
        try:
            reply = core.line(line.encode())
        except Error as fault:
            raise NoTrace(f"the library does not take this call: {line}: {fault}") from fault
        self.has_names = self.has_names or line.startswith("fence ")
        return reply

    def refuse(self, line: str) -> None:
        """Makes a call that the library refused. Raises NoTrace if it takes it now."""
        core = self.processes.get(self.speaker)
        try:
            reply = core.line(line.encode()) if core else None
        except (Refused, Fenced):
            return
        raise NoTrace(f"the library does not refuse this call: {line}: {reply}")


def live_files(core: Coordinator, subtasks: Iterable[str]) -> Iterator[Tuple[int, FrozenSet[int]]]:
    """The done records and their files."""
    places = [(int(vertex), int(index)) for vertex, index in (it.split(".") for it in subtasks)]
    record = core.live_from(0)
    while record is not None:
        if record.done:
            yield record.id, frozenset(file for it in places for file in core.files_of(record.id, *it) or ())
        record = core.live_from(record.id + 1)


def drained(core: Coordinator) -> Set[int]:
    """The files that a discarder deletes which runs to its end."""
    gone: Set[int] = set()
    while files := core.taken_files() or core.take(64).files:
        gone.update(files)
        for file in files:
            core.deleted(file)
    return gone
