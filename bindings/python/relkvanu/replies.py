"""What the calls return."""
import json
from dataclasses import dataclass
from typing import Any, Callable, Dict, Tuple

from relkvanu import header


class Reply:
    """The reply to a call that was made."""


@dataclass(frozen=True)
class Taken(Reply):
    """The files that were fetched, in their order."""

    files: Tuple[int, ...]


@dataclass(frozen=True)
class Shown(Reply):
    """The metadata of a record, as JSON (docs/SCRIPT.md)."""

    json: str

    @property
    def metadata(self) -> Dict[str, Any]:
        metadata: Dict[str, Any] = json.loads(self.json)
        return metadata

    @property
    def files(self) -> Dict[Tuple[int, int], Tuple[int, ...]]:
        """The files of each subtask that has acknowledged, by its vertex and its index."""
        acks = ((ack["subtask"].split("."), ack["files"]) for ack in self.metadata["acks"])
        return {(int(vertex), int(index)): tuple(files) for (vertex, index), files in acks}


# bindings/generate makes the replies
@dataclass(frozen=True)
class Triggered(Reply):
    """A checkpoint was triggered.

    expired: expired records; id: number.
    """

    expired: int
    id: int


@dataclass(frozen=True)
class HeldInterval(Reply):
    """No checkpoint is due yet.

    expired: expired records.
    """

    expired: int


@dataclass(frozen=True)
class HeldAtOnce(Reply):
    """As many checkpoints are pending as may be.

    expired: expired records.
    """

    expired: int


@dataclass(frozen=True)
class HeldPause(Reply):
    """The pause after the last completion has not passed.

    expired: expired records.
    """

    expired: int


@dataclass(frozen=True)
class Failed(Reply):
    """Too many checkpoints failed in a row: restore the job.

    expired: expired records.
    """

    expired: int


@dataclass(frozen=True)
class SavepointTriggered(Reply):
    """A savepoint was triggered.

    id: number.
    """

    id: int


@dataclass(frozen=True)
class AckPending(Reply):
    """The record is not complete yet.

    missing: subtasks missing.
    """

    missing: int


@dataclass(frozen=True)
class AckCompleted(Reply):
    """The record is complete.

    dropped: records dropped; released: files released.
    """

    dropped: int
    released: int


@dataclass(frozen=True)
class AckLate(Reply):
    """The record was done or had ended.

    handed_out: fresh files that this call handed out for deletion.
    """

    handed_out: int


@dataclass(frozen=True)
class DeclineAborted(Reply):
    """The record is dropped.

    released: files released.
    """

    released: int


@dataclass(frozen=True)
class DeclineFailed(Reply):
    """The record is dropped, and the job has failed: restore it.

    released: files released.
    """

    released: int


@dataclass(frozen=True)
class DeclineLate(Reply):
    """The record was done or had ended."""


@dataclass(frozen=True)
class Disposed(Reply):
    """The savepoint is gone.

    released: files released.
    """

    released: int


@dataclass(frozen=True)
class RestoredCheckpoint(Reply):
    """The job begins again from a checkpoint.

    id: number; released: files released.
    """

    id: int
    released: int


@dataclass(frozen=True)
class RestoredSavepoint(Reply):
    """The job begins again from a savepoint.

    id: number; released: files released.
    """

    id: int
    released: int


@dataclass(frozen=True)
class RestoredFresh(Reply):
    """The job begins again from nothing.

    released: files released.
    """

    released: int


@dataclass(frozen=True)
class Cancelled(Reply):
    """The job has ended for good.

    dropped: records dropped; released: files released.
    """

    dropped: int
    released: int


@dataclass(frozen=True)
class Deleted(Reply):
    """The file is forgotten.

    file: file.
    """

    file: int


@dataclass(frozen=True)
class Undeleted(Reply):
    """The file waits again.

    file: file.
    """

    file: int


@dataclass(frozen=True)
class Counted(Reply):
    """The uses by live records.

    file: file; uses: uses.
    """

    file: int
    uses: int


@dataclass(frozen=True)
class Configured(Reply):
    """The job has the new settings.

    checkpoints: checkpoints dropped; released: files released.
    """

    checkpoints: int
    released: int


# How a reply is made of the two numbers of an answer, by its number.
MADE: Dict[int, Callable[[int, int], Reply]] = {
    header.TICK_TRIGGERED: Triggered,
    header.TICK_HELD_INTERVAL: lambda a, b: HeldInterval(a),
    header.TICK_HELD_AT_ONCE: lambda a, b: HeldAtOnce(a),
    header.TICK_HELD_PAUSE: lambda a, b: HeldPause(a),
    header.TICK_FAILED: lambda a, b: Failed(a),
    header.SAVEPOINT_TRIGGERED: lambda a, b: SavepointTriggered(a),
    header.ACK_PENDING: lambda a, b: AckPending(a),
    header.ACK_COMPLETED: AckCompleted,
    header.ACK_LATE: lambda a, b: AckLate(a),
    header.DECLINE_ABORTED: lambda a, b: DeclineAborted(a),
    header.DECLINE_FAILED: lambda a, b: DeclineFailed(a),
    header.DECLINE_LATE: lambda a, b: DeclineLate(),
    header.DISPOSED: lambda a, b: Disposed(a),
    header.RESTORED_CHECKPOINT: lambda a, b: RestoredCheckpoint(b, a),
    header.RESTORED_SAVEPOINT: lambda a, b: RestoredSavepoint(b, a),
    header.RESTORED_FRESH: lambda a, b: RestoredFresh(a),
    header.CANCELLED: Cancelled,
    header.DELETED: lambda a, b: Deleted(a),
    header.UNDELETED: lambda a, b: Undeleted(a),
    header.COUNTED: Counted,
    header.CONFIGURED: Configured,
}
# bindings/generate: end


# The replies of calls on terms and names, of a line or a store.
@dataclass(frozen=True)
class Named(Reply):
    """The job has names from here on, in term 1."""


@dataclass(frozen=True)
class Reserved(Reply):
    """So many names, from the first one on."""

    first: int
    count: int

    @property
    def names(self) -> range:
        return range(self.first, self.first + self.count)


@dataclass(frozen=True)
class Forfeited(Reply):
    """The names are given up: their files are garbage."""


MADE.update({header.NAMED: lambda a, b: Named(), header.RESERVED: Reserved, header.FORFEITED: lambda a, b: Forfeited()})
