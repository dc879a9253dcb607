"""relkvanu-conform TRACE: reads the trace of a job (docs/PROTOCOL.md), and says which rule was broken at which line, and which file the job lost,
or that the trace obeys the rules. `-` reads the standard input. Its status is 0 (it obeys), 1 (a rule is broken, or a file is lost) or 2 (no trace)."""
import sys
from dataclasses import dataclass, field
from typing import Callable, Dict, Iterable, List, Optional, Sequence, Set, Tuple

from relkvanu.coordinator import Coordinator, Error
from relkvanu.reads import Kind
from relkvanu.replies import (
    AckCompleted, AckLate, AckPending, DeclineLate, Reply, Reserved, RestoredCheckpoint, RestoredFresh, RestoredSavepoint, SavepointTriggered, Taken, Triggered,
)
from relkvanu.storage import unknown
from relkvanu.trace import Event, NoTrace, Task, World, drained, live_files, read
from relkvanu.trace_elements import Elements
from relkvanu.trace_recovery import Recoveries

# As docs/PROTOCOL.md says them: explore/run compares.
RULES = {
    1: "sync the log before anybody acts on the answer of a call",
    2: "a task syncs a file and its folder before it acknowledges the file",
    3: "accept no message of a task that was replaced",
    4: "start a task anew only with a restore",
    5: "one process at a time appends to the log",
    6: "a task deletes no file that it has acknowledged",
    7: "give a file's name to no other file",
    8: "sweep after a restore and before tasks start",
    9: "report a file as deleted when that is durable, in a storage that is there",
    10: "write only into the storage of the job",
    11: "a task takes its snapshot when the barrier has come on each input",
    12: "a sink that starts publishes what the restored record has prepared, and gives up all else",
    13: "a sink publishes up to a completed checkpoint, or what the record has that the job was restored to",
    14: "a task holds after its snapshot for the savepoint of a stop",
    15: "a way back looks for its record's files first, and its savepoint reaches no task",
    16: "write a record's manifest after its commit, and before anybody is told",
    17: "a recovery begins from the newest choice, with numbers, terms and names above all that were told",
    18: "a log that was lost is refused if it comes back, by a marker that is looked at and written under one lock",
}
# Of a job with names these rules are others.
NAMED_RULES = {
    8: "a sweep deletes only garbage, and a task gives up the names that it will not acknowledge",
    9: "report a file as deleted when that is durable, in a storage that is there, or let a sweep delete it",
}


@dataclass(frozen=True)
class Finding:
    """What is wrong at a line. Without a rule it is what came of it."""

    line: int
    rule: Optional[int]
    what: str
    has_names: bool = False

    def __str__(self) -> str:
        if self.rule is None:
            return f"line {self.line}: {self.what}"
        words = NAMED_RULES.get(self.rule, RULES[self.rule]) if self.has_names else RULES[self.rule]
        return f"line {self.line}: rule {self.rule}: {words}: {self.what}"


@dataclass
class Dropped:
    """Files that a task will not acknowledge: from this line on it has to give up their names, in a job with names. After a refusal it may
    not have read the answer yet: `is_over` says that it has gone on since."""

    line: int
    what: str
    files: Set[int]
    is_over: bool = True


@dataclass
class Durable:
    """What the log's lines say: so far, and of those that are synced."""

    logged: Set[Tuple[str, object]] = field(default_factory=set)
    synced: Set[Tuple[str, object]] = field(default_factory=set)

    def sync(self) -> None:
        self.synced |= self.logged
        self.logged = set()


class Checker:
    """Reads the events of a trace one by one."""

    def __init__(self) -> None:
        self.world = World()
        self.findings: List[Finding] = []
        self.line = 0
        self.durable = Durable()
        self.clean: Set[Tuple[Task, int]] = set()  # files that their task has synced since it wrote them
        self.writers: Dict[int, Task] = {}
        self.named: Dict[int, Tuple[Task, int]] = {}  # the first message that named a file as fresh: its task and record
        self.under_way: Dict[Tuple[Task, int], int] = {}  # messages with a file that have no answer
        self.restored_since: Dict[str, bool] = {}  # by subtask: since its task started
        self.may_sweep = False
        self.mixed: Set[int] = set()  # pending or done records with a part of a task that was replaced
        self.told: Set[str] = set()  # what came of it, each once
        self.record_of: Dict[Task, int] = {}  # that it began last
        self.written_for: Dict[int, Optional[int]] = {}  # that record when the file was written; None: any, as of a file that a task keeps
        self.dropped: Dict[Task, List[Dropped]] = {}  # with names
        self.refused: Dict[Task, Set[int]] = {}  # the files of the message that was refused last
        self.early: Dict[int, int] = {}  # with names: files that were reported while they were there, and the line
        self.elements = Elements(self.broken, self.came, self.world.running)
        self.recoveries = Recoveries(self.broken, self.world)
        for verb in ("channel", "reads", "takes", "takes_barrier", "prepares", "publishes", "drops"):
            setattr(self, f"on_{verb}", getattr(self.elements, verb))

    def broken(self, rule: int, what: str, line: Optional[int] = None) -> None:
        self.findings.append(Finding(self.line if line is None else line, rule, what, self.world.has_names))

    def rests_on(self, kind: str, it: object, what: str) -> None:
        """Rule 1: somebody acts on what a call said."""
        if (kind, it) not in self.durable.synced:
            self.broken(1, what)

    def take(self, event: Event) -> None:
        name = "on_" + event.verb.replace(" ", "_")
        method: Callable[[Event], None] = getattr(self, name)
        method(event)
        if event.verb in ("call", "unlinks", "writes", "storage", "lacks", "log cut", "process starts", "prepares", "publishes", "drops"):
            self.look()

    # The process and its log.

    def on_process_starts(self, event: Event) -> None:
        others = [it for it in self.world.processes if it != event.number]
        if others:
            self.broken(5, f"process {event.number} starts, and process {others[-1]} has not ended")
        try:
            self.world.start_process(event.number)
        except Error as fault:
            raise NoTrace(f"the log can't be replayed: {fault}") from fault
        self.recoveries.process_starts(event.number)
        self.may_sweep = False

    def on_process_looks(self, event: Event) -> None:
        self.recoveries.looked.add(event.number)

    def on_process_ends(self, event: Event) -> None:
        self.world.processes.pop(event.number, None)

    def on_process_goes_on(self, event: Event) -> None:
        if event.number not in self.world.processes:
            raise NoTrace(f"process {event.number} has ended")
        self.world.speaker = event.number

    def on_log_synced(self, _: Event) -> None:
        self.world.log.synced = len(self.world.log.lines)
        self.durable.sync()
        self.recoveries.note_choice()

    def on_log_cut(self, _: Event) -> None:
        del self.world.log.lines[self.world.log.synced:]
        self.durable.logged = set()

    def on_log_copied(self, _: Event) -> None:
        self.world.log.copied = self.world.log.synced

    def on_log_put_back(self, _: Event) -> None:
        log = self.world.log
        if log.copied is None:
            raise NoTrace("the log was not copied")
        lost = log.synced - log.copied
        if lost > 0:
            self.broken(1, f"a log is put back that lacks the last {lost} synced lines")
        del log.lines[log.copied:]
        log.synced, self.durable.logged = log.copied, set()

    def on_manifest(self, event: Event) -> None:
        self.recoveries.manifest(event.number, ("complete", event.number) in self.durable.synced)

    def on_log_lost(self, _: Event) -> None:
        self.recoveries.lose_log()
        self.durable.logged = set()

    def on_process_recovers(self, event: Event) -> None:
        self.recoveries.recover(event.number, event.other)
        self.elements.stop = 0  # a recovered job runs

    def on_log_comes_back(self, _: Event) -> None:
        self.recoveries.put_back()
        self.durable.logged = set()

    def on_call(self, event: Event) -> None:
        sender, self.world.sender = self.world.sender, None
        word, *rest = event.line.split()
        if word == "deleted":
            self.reported(int(rest[0]))
        reply = self.world.call(event.line)
        if sender is not None and self.world.running.get(sender.subtask) != sender:
            self.broken(3, f"{event.line} came from {sender}, which was replaced")
        if word == "start":
            self.durable.logged.add(("restore", 0))
        if word == "in":
            _, word, *rest = rest
        self.note(reply, sender, rest)
        if isinstance(reply, (RestoredCheckpoint, RestoredSavepoint, RestoredFresh)):
            is_chosen = word == "restore" and rest[1:2] not in ([], ["latest"])
            if is_chosen and isinstance(reply, RestoredSavepoint):
                self.goes_back(reply.id)
            self.elements.was_restored(getattr(reply, "id", 0), is_chosen)
        if self.elements.stop:
            self.elements.stopped(self.world.core())

    def goes_back(self, record: int) -> None:
        """The job is restored to a record by its number. That of a stop is no way back: it was completed just now."""
        files = dict(live_files(self.world.core(), self.world.running)).get(record, frozenset())
        for file in sorted(files) if record != self.elements.stop else ():
            if not self.world.storage.shows(file):
                self.broken(15, f"the job goes back to record {record}, and file {file} of it is not in the storage")

    def note(self, reply: Optional[Reply], sender: Optional[Task], words: List[str]) -> None:
        """What the answer of a call entitles others to."""
        if isinstance(reply, Reserved):
            self.durable.logged |= {("name", name) for name in reply.names}
            self.recoveries.gives_names(reply.names)
        elif isinstance(reply, (Triggered, SavepointTriggered)):
            self.durable.logged.add(("record", reply.id))
            self.mixed.discard(reply.id)
        elif isinstance(reply, Taken):
            self.durable.logged |= {("taken", file) for file in reply.files}
        elif isinstance(reply, (RestoredCheckpoint, RestoredSavepoint, RestoredFresh)):
            self.durable.logged.add(("restore", 0))
            self.durable.synced.discard(("restore", 0))
            self.may_sweep = True
            self.restored_since = dict.fromkeys(self.restored_since, True)
        elif sender is not None and len(words) >= 3 and not isinstance(reply, DeclineLate):
            self.durable.logged.add(("message", sender))
            self.durable.synced.discard(("message", sender))
            self.accept(sender, int(words[1]), [int(it[1:]) for it in words[3:] if it[0] == "+"], isinstance(reply, AckLate))
        if isinstance(reply, (AckPending, AckCompleted)):
            self.elements.accepted(sender, words[2], int(words[1]))
        if isinstance(reply, AckCompleted):
            self.complete(int(words[1]))

    def accept(self, sender: Task, record: int, fresh: Iterable[int], is_late: bool) -> None:
        for file in fresh:
            self.world.accepted.setdefault(file, sender)
        if not is_late and self.world.running.get(sender.subtask) != sender:
            self.mixed.add(record)

    def complete(self, record: int) -> None:
        self.durable.logged.add(("complete", record))
        live = self.world.core().live_from(record)
        if live is not None and live.kind is Kind.CHECKPOINT:
            self.elements.completed = max(self.elements.completed, record)

    def on_from(self, event: Event) -> None:
        self.world.sender = event.task

    def on_dropped(self, _: Event) -> None:
        self.world.sender = None

    def on_refused(self, event: Event) -> None:
        sender, self.world.sender = self.world.sender, None
        self.world.refuse(event.line)
        if sender is not None:
            self.refused[sender] = {int(it[1:]) for it in event.line.split() if it.startswith("+")}

    def on_barrier(self, event: Event) -> None:
        self.rests_on("record", event.number, f"the barrier of record {event.number} is sent")
        self.elements.tells_barrier(event.who, event.number)
        self.recoveries.acts(f"the barrier of record {event.number} is sent")
        self.recoveries.tells_record(event.number)

    def on_answer(self, event: Event) -> None:
        if event.word != "refused":
            self.rests_on("message", event.who, f"{event.who} is told")
            self.recoveries.acts(f"{event.who} is told")
        else:
            self.drop(event.who, f"{event.who} is refused", self.refused.pop(event.who, set()), is_over=False)
        for key in [it for it in self.under_way if it[0] == event.who]:
            self.under_way[key] -= 1

    # Tasks.

    def on_starts(self, event: Event) -> None:
        subtask = event.who.subtask
        if not self.restored_since.get(subtask, True):
            self.broken(4, f"{event.who} starts without a restore")
        else:
            self.rests_on("restore", 0, f"{event.who} starts")
        self.restored_since[subtask] = False
        self.world.running[subtask] = event.who
        self.recoveries.task_starts(event.who)
        self.may_sweep = False
        self.elements.starts(event.who)

    def on_ends(self, _: Event) -> None:
        """It does nothing more. Only what it sent may still arrive."""

    def on_begins(self, event: Event) -> None:
        self.record_of[event.who] = event.number
        for it in self.dropped.get(event.who, ()):
            it.is_over = True
        self.elements.begins(event.who, event.number)

    def on_lists(self, _: Event) -> None:
        """Nothing is judged by it."""

    on_term = on_begin = on_lists

    # Elements, sinks, and what an operator asks for.

    def on_complete(self, event: Event) -> None:
        self.rests_on("complete", event.number, f"{event.task} is told that record {event.number} is complete")
        self.recoveries.acts(f"{event.task} is told that record {event.number} is complete")

    def on_stop_with(self, event: Event) -> None:
        self.elements.stop = event.number

    def on_back(self, event: Event) -> None:
        self.elements.backs[event.number] = event.other

    def on_gives_up(self, event: Event) -> None:
        self.drop(event.who, f"{event.who} gives up record {event.number}", self.written_by(event.who, event.number))

    def on_sends_decline(self, event: Event) -> None:
        self.drop(event.who, f"{event.who} declines record {event.number}", self.written_by(event.who, event.number))

    def on_keeps(self, event: Event) -> None:
        """It will acknowledge the files in a later record."""
        self.take_up(event.task, event.files)
        self.written_for.update(dict.fromkeys(event.files))

    def written_by(self, task: Task, record: int) -> Set[int]:
        """The files that the task wrote for the record, or keeps."""
        return {file for file, writer in self.writers.items() if writer == task and self.written_for[file] in (record, None)}

    def drop(self, task: Task, what: str, files: Set[int], is_over: bool = True) -> None:
        self.dropped.setdefault(task, []).append(Dropped(self.line, what, files, is_over))

    def take_up(self, task: Optional[Task], files: Iterable[int]) -> None:
        for it in self.dropped.get(task, ()) if task is not None else ():
            it.files -= set(files)

    def on_writes(self, event: Event) -> None:
        (file,) = event.files
        if self.world.storage.is_away:
            self.broken(10, f"{event.who} writes file {file}, and the storage is away")
        if self.world.has_names:
            self.rests_on("name", file, f"{event.who} writes file {file}")
        if self.writers.setdefault(file, event.who) != event.who:
            self.broken(7, f"{event.who} writes file {file}, which {self.writers[file]} wrote")
        self.written_for.setdefault(file, self.record_of.get(event.who))
        self.clean.discard((event.who, file))
        self.world.storage.write(event.who, file)

    def on_syncs(self, event: Event) -> None:
        (file,) = event.files
        self.clean.add((event.who, file))
        self.world.storage.sync(file)

    def on_sends_ack(self, event: Event) -> None:
        self.take_up(event.who, event.files)
        for file in event.files:
            if (event.who, file) not in self.clean:
                self.broken(2, f"{event.who} acknowledges file {file}, which it has not synced")
            first = self.named.setdefault(file, (event.who, event.number))
            if first != (event.who, event.number) and not self.world.has_names:  # else its name is spent, and the message is refused
                self.broken(7, f"{event.who} names file {file} as fresh in record {event.number}, and %s named it in record %d" % first)
            self.under_way[event.who, file] = self.under_way.get((event.who, file), 0) + 1

    # Deletions, and the storage.

    def on_unlinks(self, event: Event) -> None:
        if event.task is not None:
            self.deleted_by_task(event.task, event.files)
        elif event.word == "discarder":
            for file in event.files:
                self.rests_on("taken", file, f"a discarder deletes file {file}")
                self.recoveries.acts(f"a discarder deletes file {file}")
        elif self.world.has_names:
            self.deleted_as_garbage(event.files)
            for file in event.files:
                self.early.pop(file, None)
        elif not self.may_sweep:
            self.broken(8, "a sweeper deletes" + "".join(f" {file}" for file in event.files))
        self.world.storage.unlink(event.files)

    def deleted_as_garbage(self, files: Sequence[int]) -> None:
        """With names a sweep needs no restore, but what it deletes has to be garbage by the lines that are durable."""
        try:
            wrong = self.world.not_garbage(files)
        except Error:  # the lines of two processes
            wrong = set(files)
        if wrong:
            self.broken(8, "a sweeper deletes what is not garbage:" + "".join(f" {file}" for file in sorted(wrong)))

    def deleted_by_task(self, task: Task, files: Iterable[int]) -> None:
        for file in files:
            if file in self.world.accepted or self.under_way.get((task, file), 0) > 0:
                self.broken(6, f"{task} deletes file {file}")

    def on_folder_synced(self, _: Event) -> None:
        self.world.storage.sync_folder()

    def on_storage(self, event: Event) -> None:
        if event.word == "loses power":
            self.world.storage.lose_power()
        else:
            self.world.storage.is_away = event.word == "away"

    def on_lacks(self, event: Event) -> None:
        self.world.storage.lack(event.files)

    def reported(self, file: int) -> None:
        storage = self.world.storage
        if self.world.has_names:  # a file that is there or comes back is garbage, and a sweep may find it yet
            if file in storage.shown or file in storage.kept:
                self.early.setdefault(file, self.line)
        elif file in storage.shown:
            self.broken(9, f"file {file} is in the storage")
        elif file in storage.kept:
            self.broken(9, f"file {file} comes back with a loss of power")

    # What came of it.

    def came(self, what: str) -> None:
        if what not in self.told:
            self.told.add(what)
            self.findings.append(Finding(self.line, None, what))

    def look(self) -> None:
        """Files that are lost, and records that mix tasks."""
        if self.world.processes.get(self.world.newest) is None:
            return
        storage, chosen = self.world.storage, self.recoveries.choice()
        for record, files in live_files(self.world.core(), self.world.running):
            for file in sorted(files if record == chosen else files - storage.lacking):
                if file not in storage.shown or file not in storage.kept:
                    self.came(f"file {file} is lost: record {record} uses it")
                elif storage.shown[file] != self.world.accepted.get(file):
                    self.came(f"file {file} is overwritten: record {record} uses it")
            if record in self.mixed:
                self.came(f"record {record} is done, and has a part of a task that was replaced")
        self.elements.look(self.world.core())

    def look_at_end(self) -> None:
        """Files that stay although no record uses them, and that no discarder will ever be given."""
        if self.world.processes.get(self.world.newest) is None:
            return
        if self.world.has_names:
            self.look_at_names()
        endings: Tuple[Callable[[Coordinator], Reply], ...] = (lambda core: core.restore(core.moment()), lambda core: core.cancel(core.moment()))
        for ending in endings:
            with Coordinator.open_saved(self.world.core().save()) as core:
                try:
                    ending(core)
                except Error:
                    continue
                for file in sorted(self.left(core, set(self.world.storage.shown) - drained(core))):
                    self.came(f"file {file} is left: no record uses it, and nobody deletes it")

    def look_at_names(self) -> None:
        """Names that tasks hold in the term that runs and will not acknowledge, and files that were reported and are there."""
        core, shown = self.world.core(), set(self.world.storage.shown)
        for task, all_dropped in self.dropped.items():
            under_way = {file for (sender, file), count in self.under_way.items() if sender == task and count > 0}
            for it in all_dropped:
                held = self.left(core, (it.files & shown) - under_way) if it.is_over else set()
                for file in sorted(held):
                    self.broken(8, f"{it.what}, and does not give up the name of file {file}", it.line)
                    self.came(f"file {file} is left: no record uses it, and no sweep deletes it before the next restore")
        for file in sorted(set(core.garbage(sorted(set(self.early) & shown)).garbage)):
            self.broken(9, f"file {file} is reported as deleted, it is in the storage, and no sweep has deleted it since", self.early[file])

    def left(self, core: Coordinator, files: Set[int]) -> Set[int]:
        """Those of the files that no record uses. With names a sweeper deletes the garbage of them. Without, the sweep of the next recovery deletes
        those that no accepted acknowledgement of the job's log named."""
        if self.world.has_names:
            return unknown(core, files) - set(core.garbage(list(files)).garbage)
        return unknown(core, (files & set(self.world.accepted)) - self.recoveries.forgotten)


def check(trace: Iterable[str]) -> List[Finding]:
    """What is wrong with a trace, line by line. Raises NoTrace, with the line's number."""
    checker = Checker()
    for number, text in enumerate(trace, 1):
        checker.line = number
        try:
            event = read(text.rstrip("\n"))
            if event is not None:
                checker.take(event)
        except NoTrace as fault:
            raise NoTrace(f"line {number}: {fault}") from fault
    checker.look_at_end()
    return checker.findings


def main(arguments: Optional[List[str]] = None) -> int:
    given = sys.argv[1:] if arguments is None else arguments
    if len(given) != 1 or given[0] in ("-h", "--help"):
        print(__doc__)
        return 2
    try:
        with (sys.stdin if given[0] == "-" else open(given[0], encoding="utf-8")) as trace:
            findings = check(trace)
    except (NoTrace, OSError, UnicodeDecodeError) as fault:
        print(f"relkvanu-conform: {fault}", file=sys.stderr)
        return 2
    print("\n".join(map(str, findings)) if findings else "the trace obeys the rules")
    return 1 if findings else 0


if __name__ == "__main__":
    sys.exit(main())
