"""A second model of the coordinator, in plain Python: a method for each call. It was written from the pages alone (docs/RULES.md, RULES.md,
GLOSSARY.md, SCRIPT.md and LOGS.md), without a look at the definitions that were proved or at the code. second_script.py reads scripts and logs for
it, and tests/compare_models compares it with the proved programs. It counts all uses again at each call, which is slow and easy to check.
A text below a name says which section of a page it follows. R is RULES.md, N RULES.md, S SCRIPT.md and L LOGS.md.

After its first comparisons it was changed in two places where a page left open what is printed: which file `Spent` and `NeverReserved` name, and
whether `BadShape` or `NoNames` comes first in a log. The pages say that now. No answer of the programs differed from a sentence of the pages. Whoever
wrote it is of the same team, and opened the definitions once after it had met both programs."""
import json
from dataclasses import dataclass, field

CHECKPOINT, SAVEPOINT = "checkpoint", "savepoint"
RUNNING, FAILED, CANCELLED = "running", "failed", "cancelled"

# R 9, N "Limits of names": the greatest of each.
MOMENTS = 2**62 - 1
RECORDS = 2**62 - 1
SAVEPOINTS = 1000
FILES = 4096
NAMES = 2**62 - 1
TERMS = 2**62
NAMES_AT_ONCE = 65_536
SETTINGS = [(10, 2**40), (0, 2**40), (1, 64), (1, 2**40), (0, 1000), (1, 1000)]


class Refused(Exception):
    """A call that is refused, by its name and for some a file (R 5, S 6). Whoever raises it has changed nothing yet."""

    def __str__(self):
        return " ".join(["refused", *map(str, self.args)])


class Fenced(Refused):
    """A call that the layer of terms and names refuses (N "Refusals of the layer", L 3)."""

    def __str__(self):
        return " ".join(["fenced", *map(str, self.args)])


@dataclass(frozen=True)
class Config:
    """R 3."""

    interval: int
    pause: int
    at_once: int
    timeout: int
    tolerable: int
    retained: int
    keep: bool

    @property
    def wait(self):
        return max(self.interval, self.pause)

    @property
    def most_pending(self):
        # R 6 "Tick": "only one if `pause` is above 0"
        return 1 if self.pause > 0 else self.at_once


def made_config(values):
    """R 9: the limits of a configuration."""
    for value, (least, greatest) in zip(values, SETTINGS):
        if not least <= value <= greatest:
            raise Refused("BadConfig")
    return Config(*values)


def made_shape(parallelisms):
    """R 9: the limits of a shape."""
    if not 1 <= len(parallelisms) <= 256 or min(parallelisms) < 1 or sum(parallelisms) > 4096:
        raise Refused("BadShape")
    return tuple(parallelisms)


@dataclass
class Record:
    """GLOSSARY 1, "record"."""

    number: int
    kind: str
    shape: tuple
    started: int
    pins: set
    acks: dict = field(default_factory=dict)

    @property
    def missing(self):
        return sum(self.shape) - len(self.acks)

    @property
    def done(self):
        return self.missing == 0

    def has(self, subtask):
        return subtask[0] < len(self.shape) and subtask[1] < self.shape[subtask[0]]

    def subtasks(self):
        return [(vertex, index) for vertex, parallelism in enumerate(self.shape) for index in range(parallelism)]

    def named(self):
        """The files of its acknowledgements, one for each use."""
        return [file for files in self.acks.values() for file in files]

    def metadata(self):
        """S 9."""
        acks = [{"files": sorted(files), "subtask": f"{vertex}.{index}"} for (vertex, index), files in sorted(self.acks.items())]
        told = {"acks": acks, "id": self.number, "kind": self.kind, "missing": self.missing, "shape": self.shape, "started": self.started}
        return json.dumps({**told, "state": "done" if self.done else "pending"}, separators=(",", ":"))


class Coordinator:
    """R 3 to 7: one method for each call, which returns the text of its reply (S 7) or raises its refusal."""

    def __init__(self, config, shape, start):
        # R 3
        if start > MOMENTS:
            raise Refused("MomentTooLarge")
        self.config, self.shape, self.seen = config, shape, start
        self.first = self.next = 1
        self.mode, self.failures, self.base, self.last = RUNNING, 0, None, None
        self.due = start + config.wait
        self.records, self.waiting, self.taken = {}, [], []

    # What the state says.

    def pending(self, *kinds):
        return [it for it in self.records.values() if not it.done and it.kind in (kinds or (CHECKPOINT, SAVEPOINT))]

    def done(self, kind):
        """In ascending order of their numbers."""
        return [it for _, it in sorted(self.records.items()) if it.done and it.kind == kind]

    def choice(self):
        """GLOSSARY 1: the newest done checkpoint, otherwise the base, otherwise nothing."""
        checkpoints = self.done(CHECKPOINT)
        return checkpoints[-1] if checkpoints else self.records.get(self.base)

    def used(self):
        """The files in use: of each live record those that its acknowledgements name, and its pins (R 7)."""
        return {file for record in self.records.values() for file in (*record.named(), *record.pins)}

    def known(self):
        """GLOSSARY 2: in use, waiting or taken."""
        return self.used().union(self.waiting, self.taken)

    # What calls share.

    def moment(self, now):
        """R 6 "Timestamps": the moment at which the call takes place."""
        if now > MOMENTS:
            raise Refused("MomentTooLarge")
        return max(now, self.seen)

    def expect_mode(self, *modes):
        if self.mode not in modes:
            raise Refused("NotRunning")

    def expect_number(self):
        if self.next > RECORDS:
            raise Refused("IdsUsedUp")

    def drop(self, records):
        for record in records:
            del self.records[record.number]
        return len(records)

    def release(self, before):
        """GLOSSARY 1, "released": what was in use before the call and is not now goes to the end of waiting, in one ascending list."""
        released = sorted(before - self.used())
        self.waiting += released
        return len(released)

    def begin_record(self, kind, t):
        """R 7: a record pins each file of the choice at its trigger."""
        choice = self.choice()
        number, self.next = self.next, self.next + 1
        self.records[number] = Record(number, kind, self.shape, t, set(choice.named()) if choice else set())
        return number

    def begin_checkpoint(self, t):
        self.due = t + self.config.wait
        return self.begin_record(CHECKPOINT, t)

    def fail_over(self):
        """R 6 "Failing over"."""
        self.drop(self.pending())
        self.mode = FAILED

    def record_of(self, number):
        """The live record with this number, or None if that has ended (R 5, number 5)."""
        if not self.first <= number < self.next:
            raise Refused("UnknownCheckpoint")
        return self.records.get(number)

    def savepoint_of(self, number):
        """R 5, number 10."""
        record = self.records.get(number)
        if record is None or record.kind != SAVEPOINT or not record.done:
            raise Refused("NoSuchSavepoint")
        return record

    # The calls.

    def tick(self, now):
        """R 6 "Tick"."""
        t = self.moment(now)
        self.expect_mode(RUNNING)
        self.expect_number()
        self.seen, before = t, self.used()
        expired = [it for it in self.pending() if it.started + self.config.timeout <= t]
        failed = sum(it.kind == CHECKPOINT for it in expired)
        self.drop(expired)
        self.failures += failed
        if failed and self.failures > self.config.tolerable:
            self.fail_over()
            end = "failed"
        elif held := self.held(t):
            end = f"held {held}"
        else:
            end = f"triggered {self.begin_checkpoint(t)}"
        self.release(before)
        return f"tick expired {len(expired)} {end}"

    def held(self, t):
        """R 6 "Tick", 3."""
        if t < self.due:
            return "interval"
        if len(self.pending(CHECKPOINT)) >= self.config.most_pending:
            return "at-once"
        if self.last is not None and t < self.last + self.config.pause:
            return "pause"
        return None

    def trigger(self, now):
        """R 6 "Trigger"."""
        t = self.moment(now)
        self.expect_mode(RUNNING)
        self.expect_number()
        if len(self.pending(CHECKPOINT)) >= self.config.most_pending:
            raise Refused("AtOnce")
        self.seen = t
        return f"tick expired 0 triggered {self.begin_checkpoint(t)}"

    def savepoint(self, now):
        """R 6 "Savepoint"."""
        t = self.moment(now)
        self.expect_mode(RUNNING)
        if sum(it.kind == SAVEPOINT for it in self.records.values()) >= SAVEPOINTS:
            raise Refused("TooManySavepoints")
        self.expect_number()
        self.seen = t
        return f"savepoint triggered {self.begin_record(SAVEPOINT, t)}"

    def ack(self, now, number, subtask, fresh, reused):
        """R 6 "Acknowledgement of a pending record"."""
        t = self.moment(now)
        files = fresh + reused
        if len(files) > FILES:
            raise Refused("TooManyFiles")
        if len(set(files)) < len(files):
            raise Refused("RepeatedFile")
        record = self.record_of(number)
        if record is None or record.done:
            return self.late(t, fresh)
        self.expect_missing(record, subtask)
        self.expect_files(fresh, reused)
        self.seen, before = t, self.used()
        record.acks[subtask] = files
        if record.missing:
            return f"ack pending {record.missing}"
        dropped = self.complete(record, t)
        return f"ack completed {dropped} {self.release(before)}"

    def expect_missing(self, record, subtask):
        """R 5, numbers 6 and 7."""
        if not record.has(subtask):
            raise Refused("UnknownSubtask")
        if subtask in record.acks:
            raise Refused("AlreadyAcknowledged")

    def expect_files(self, fresh, reused):
        """R 5, numbers 8 and 9."""
        if taken := self.known().intersection(fresh):
            raise Refused("NameTaken", min(taken))
        if gone := set(reused) - self.used():
            raise Refused("FileGone", min(gone))

    def complete(self, record, t):
        """R 6 "A checkpoint that completes", "A savepoint that completes"."""
        record.pins = set()
        if record.kind == SAVEPOINT:
            return 0
        dropped = self.drop([it for it in self.pending(CHECKPOINT) if it.number < record.number])
        if len(self.done(CHECKPOINT)) > self.config.retained:
            dropped += self.drop(self.done(CHECKPOINT)[:1])
        self.failures, self.last, self.base = 0, t, None
        return dropped

    def late(self, t, fresh):
        """R 6 "Acknowledgement that comes late"."""
        self.seen = t
        handed = sorted(set(fresh) - self.known())
        self.waiting += handed
        return f"ack late {len(handed)}"

    def decline(self, now, number, subtask):
        """R 6 "Decline"."""
        t = self.moment(now)
        record = self.record_of(number)
        if record is None or record.done:
            self.seen = t
            return "decline late"
        if not record.has(subtask):
            raise Refused("UnknownSubtask")
        self.seen, before = t, self.used()
        self.drop([record])
        end = "aborted"
        if record.kind == CHECKPOINT:
            self.failures += 1
            if self.failures > self.config.tolerable:
                self.fail_over()
                end = "failed"
        return f"decline {end} {self.release(before)}"

    def dispose(self, number):
        """R 6 "Dispose"."""
        record = self.savepoint_of(number)
        if number == self.base:
            raise Refused("InUse")
        before = self.used()
        self.drop([record])
        return f"disposed {self.release(before)}"

    def restore(self, now, target, shape=None):
        """R 6 "Restore": the target is None for the latest, or the number of a savepoint."""
        t = self.moment(now)
        self.expect_mode(RUNNING, FAILED)
        if target is not None:
            self.savepoint_of(target)
        self.seen, before = t, self.used()
        self.drop(self.pending())
        if target is not None:
            self.drop(self.done(CHECKPOINT))
            self.base = target
        self.shape = shape or self.shape
        self.mode, self.failures, self.last = RUNNING, 0, None
        self.due = t + self.config.wait
        choice = self.choice()
        begins = f"{choice.kind} {choice.number}" if choice else "fresh"
        return f"restored {begins} {self.release(before)}"

    def configure(self, now, config):
        """R 6 "Configure"."""
        t = self.moment(now)
        self.expect_mode(RUNNING, FAILED)
        if len(self.pending(CHECKPOINT)) > config.most_pending:
            raise Refused("AtOnce")
        self.seen, self.config, before = t, config, self.used()
        self.due = min(self.due, t + config.wait)
        self.failures = min(self.failures, config.tolerable)
        dropped = self.drop(self.done(CHECKPOINT)[: -config.retained])
        return f"configured {dropped} {self.release(before)}"

    def cancel(self, now):
        """R 6 "Cancel"."""
        t = self.moment(now)
        self.expect_mode(RUNNING, FAILED)
        self.seen, before = t, self.used()
        dropped = self.drop(self.pending())
        if not self.config.keep:
            dropped += self.drop(self.done(CHECKPOINT))
        self.base, self.mode = None, CANCELLED
        return f"cancelled {dropped} {self.release(before)}"

    def take(self, most):
        """R 6 "Take, Deleted, Undeleted"."""
        files, self.waiting = self.waiting[:most], self.waiting[most:]
        self.taken += files
        return " ".join(["take", *(map(str, files) if files else ["none"])])

    def deleted(self, file):
        self.expect_taken(file)
        self.taken.remove(file)
        return f"deleted {file}"

    def undeleted(self, file):
        self.expect_taken(file)
        self.taken.remove(file)
        self.waiting.append(file)
        return f"undeleted {file}"

    def expect_taken(self, file):
        if file not in self.taken:
            raise Refused("NotTaken")

    def show(self, number):
        """R 6 "Show, Count"."""
        if number not in self.records:
            raise Refused("NoSuchRecord")
        return self.records[number].metadata()

    def count(self, file):
        uses = sum(record.named().count(file) + (file in record.pins) for record in self.records.values())
        return f"count {file} {uses}"


class Names:
    """N: the term that runs, the next name and the reserved names."""

    def __init__(self, first, known):
        if not 1 <= first <= NAMES + 1:
            raise Refused("BadName")
        if any(file >= first for file in known):
            raise Refused("NameInUse")
        self.term, self.next, self.reserved = 1, first, set()

    def expect_term(self, term):
        if term != self.term:
            raise Fenced("OldTerm")

    def expect_next_term(self):
        if self.term == TERMS:
            raise Fenced("TermsUsedUp")

    def expect_reserved(self, fresh):
        """N, numbers 10 and 11: the least file that is not reserved decides."""
        for file in sorted(fresh):
            if file not in self.reserved:
                raise Fenced("Spent" if file < self.next else "NeverReserved", file)

    def end_term(self, term=0, first=0):
        """N "What accepted calls do to names"."""
        self.term, self.next, self.reserved = max(self.term, term) + 1, max(self.next, first), set()
        return f"term {self.term}"

    def reserve(self, term, count, mode):
        self.expect_term(term)
        if mode == CANCELLED:
            raise Fenced("Ended")
        if not 1 <= count <= NAMES_AT_ONCE:
            raise Fenced("BadCount")
        if self.next + count - 1 > NAMES:
            raise Fenced("NamesUsedUp")
        first, self.next = self.next, self.next + count
        self.reserved.update(range(first, self.next))
        return f"reserved {first}"

    def forfeit(self, term, names):
        self.expect_term(term)
        self.reserved.difference_update(names)
        return "forfeited"
