"""What the reads return."""
import enum
from dataclasses import dataclass
from typing import NamedTuple, Tuple

from relkvanu import header


# bindings/generate makes the modes
class Mode(enum.Enum):
    """What the job is doing."""

    RUNNING = header.MODE_RUNNING  # the job takes checkpoints
    FAILED = header.MODE_FAILED  # too many checkpoints failed in a row: restore the job
    CANCELLED = header.MODE_CANCELLED  # the job has ended for good
# bindings/generate: end


class Kind(enum.Enum):
    CHECKPOINT = "checkpoint"
    SAVEPOINT = "savepoint"


@dataclass(frozen=True)
class Chosen:
    """The record that a restore of the latest would begin from."""

    id: int
    kind: Kind


@dataclass(frozen=True)
class Live:
    """A live record: whether it is done, or pending."""

    id: int
    kind: Kind
    done: bool


# bindings/generate makes the standings
class Standing(enum.Enum):
    """What a number is."""

    PENDING = header.STANDS_PENDING  # a live record has the number, and lacks an acknowledgement
    DONE = header.STANDS_DONE  # a live record has the number, and is complete
    ENDED = header.STANDS_ENDED  # a record had the number, and is no longer live
    NOT_YET = header.STANDS_NOT_YET  # no record has had the number so far
    NEVER = header.STANDS_NEVER  # the number is below the first one of the opening
# bindings/generate: end


@dataclass(frozen=True)
class FileCounts:
    """How many files are in use by live records (each counted once), wait for deletion, and were fetched and not yet reported."""

    in_use: int
    waiting: int
    taken: int


class RunningTerm(NamedTuple):
    """The term that runs, and the next name that is given out."""

    term: int
    next_name: int


class Garbage(NamedTuple):
    """Of some files: those that may be deleted, and those whose names were not given out, which nobody deletes."""

    garbage: Tuple[int, ...]
    unissued: Tuple[int, ...]


CHOSEN = {header.CHOICE_CHECKPOINT: Kind.CHECKPOINT, header.CHOICE_SAVEPOINT: Kind.SAVEPOINT}
LIVE = {header.LIVE_CHECKPOINT: Kind.CHECKPOINT, header.LIVE_SAVEPOINT: Kind.SAVEPOINT}
