"""The manifests of a trace, logs that are lost, and jobs that are made again from manifests. Judges the rules 16 to 18 of docs/PROTOCOL.md."""
from typing import Callable, Iterable, Optional, Set

from relkvanu.trace import Log, NoTrace, Task, World, live_files


class Recoveries:
    """Reads what the process says of manifests and logs. `broken` takes a rule and what was done against it."""

    def __init__(self, broken: Callable[[int, str], None], world: World) -> None:
        self.broken, self.world = broken, world
        self.manifests: Set[int] = set()  # the records that have had one
        self.chosen = 0  # the newest record that was the choice and has a manifest, or 0
        self.lost: Optional[Log] = None  # the last log that was lost
        self.is_gone = self.was_recovered = self.is_old = False  # the log; since it was lost; whether that log is the job's again
        self.forgotten: Set[int] = set()  # files that acknowledgements named which no log has
        self.looked: Set[int] = set()  # processes that have looked at the marker, and started later
        self.told = 0  # the greatest record that anybody was told of
        self.below_record = self.below_term = self.below_name = 0  # what the lost log has told is below these, or 0

    def choice(self) -> int:
        """The record from which a restart would begin, as the newest process knows it, or 0."""
        core = self.world.processes.get(self.world.newest)
        chosen = core.choice() if core is not None else None
        return chosen.id if chosen else 0

    def note_choice(self) -> None:
        if self.manifests and self.choice() in self.manifests:
            self.chosen = self.choice()

    def manifest(self, record: int, is_committed: bool) -> None:
        if not is_committed:
            self.broken(16, f"the manifest of record {record} is written before the commit that completes the record")
        self.manifests.add(record)
        self.note_choice()

    def acts(self, what: str) -> None:
        """Somebody acts on what the process said. A job has manifests from its first one on."""
        record = self.choice() if self.manifests else 0
        if record and record not in self.manifests:
            self.broken(16, f"{what}, and record {record} has no manifest yet")

    def lose_log(self) -> None:
        log = self.world.log
        with self.world.replayed(log.synced) as lost:
            term = lost.term() if self.world.has_names else None
        self.lost = Log(log.lines[: log.synced], log.synced, first=log.first)
        self.is_gone, self.was_recovered = True, False
        self.below_record = max(self.below_record, self.told + 1)
        self.below_term = max(self.below_term, term.term + 1 if term else 0)
        self.below_name = max(self.below_name, term.next_name if term else 0)

    def recover(self, process: int, record: int) -> None:
        if not self.is_gone:
            raise NoTrace("the log was not lost")
        for other in self.world.processes:
            self.broken(18, f"process {process} recovers the job, and process {other} has not ended")
        if record != self.chosen:
            self.broken(17, f"process {process} recovers the job from record {record}, and the choice was record {self.chosen}")
        self.forgotten = set(self.world.accepted) - self.files(record)
        self.world.recover(process, record)
        self.is_gone, self.was_recovered = False, True

    def files(self, record: int) -> Set[int]:
        with self.world.replayed(self.world.log.synced) as lost:
            return {file for number, files in live_files(lost, self.world.running) for file in files if number == record}

    def put_back(self) -> None:
        if self.lost is None:
            raise NoTrace("the log was not lost")
        self.is_gone, self.is_old = False, self.was_recovered
        self.world.log = self.lost
        self.world.has_names = any(line.startswith("fence ") for line in self.lost.lines)

    def process_starts(self, process: int) -> None:
        if self.is_gone:
            raise NoTrace("the log is lost")
        if self.is_old:
            before = ": it had looked at the marker before" if process in self.looked else ""
            self.broken(18, f"process {process} starts with the log that was lost before the recovery{before}")

    def tells_record(self, record: int) -> None:
        if record < self.below_record and self.was_recovered and not self.is_old:
            self.broken(17, f"the barrier of record {record} is sent, and the lost log has told that number")
        self.told = max(self.told, record)

    def gives_names(self, names: Iterable[int]) -> None:
        for name in names:
            if name < self.below_name and self.was_recovered and not self.is_old:
                self.broken(17, f"the name {name} is given out, and the lost log has told it")

    def task_starts(self, task: Task) -> None:
        core = self.world.core()
        if self.world.has_names and core.term().term < self.below_term and self.was_recovered and not self.is_old:
            self.broken(17, f"{task} starts in term {core.term().term}, and the lost log has told that term")
