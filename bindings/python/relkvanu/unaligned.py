"""Inputs whose checkpoints may overtake: what was on the way to a task when it took its snapshot is recorded, saved with it, and taken again after a restart."""
import json
import os
import time
from dataclasses import dataclass
from typing import Any, Callable, Dict, Iterable, List, Optional, Sequence, Set, Tuple, Union

from relkvanu import aligner
from relkvanu.aligner import Abandon, BadStep, Recorder, Step
from relkvanu.errors import Error
from relkvanu.inputs import Barrier, Inputs, _End
from relkvanu.reads import Kind
from relkvanu.jobs import Made
from relkvanu.whole import Whole

Elements = List[Tuple[int, Any]]


class NotRescalable(Error):
    """The job has another shape than this checkpoint, which has elements that were on the way: which subtask takes them now is not known. Nothing was swept.
    Go back to a savepoint, which is always aligned, or restore the checkpoint in its own shape."""

    def __init__(self, id: int) -> None:
        super().__init__(id)
        self.id = id

    def __str__(self) -> str:
        return f"checkpoint {self.id} is unaligned and has another shape: go back to a savepoint, or restore it in its own shape"


@dataclass(frozen=True)
class Snap:
    """The task takes its snapshot now, sends the barrier on before anything else, and keeps the snapshot until the checkpoint is Recorded."""

    barrier: Barrier


@dataclass(frozen=True)
class Recorded:
    """The task acknowledges the snapshot that it took at this Snap, with these elements, each with its input: acknowledge()."""

    barrier: Barrier
    elements: Elements


class UnalignedInputs(Inputs):
    """Inputs of which a checkpoint may overtake: take() also returns a Snap, and later a Recorded, unless the checkpoint was given up or a later one took its
    place. A checkpoint overtakes if its barrier has waited so many milliseconds on an input (`after`; 0: at once); savepoints stay aligned. Barriers
    come in also where an input is full, and nobody changes an element that was put. What was `recorded` in the checkpoint from which the job began is
    taken before all else."""

    def __init__(self, inputs: int, room: int = 100, *, after: float = 0, recorded: Iterable[Tuple[int, Any]] = ()) -> None:
        self._ahead = [0] * inputs  # the first items of each input of which the recorder was told already
        self._over: Set[int] = set()  # inputs of whose end it was told
        super().__init__(inputs, room)
        self._aligner: Recorder = Recorder(inputs)
        self._after = after / 1000
        self._seen: Dict[int, Tuple[Barrier, float]] = {}  # barriers of records that were not cut, and when the first of each came
        self._recording: Optional[Recorded] = None
        self._whole: Optional[Recorded] = None
        for input, element in recorded:
            self._channels[input].append(element)

    def _has_room_for(self, item: Any) -> bool:
        return isinstance(item, Barrier)

    def _was_put(self, input: int, item: Any) -> None:
        if isinstance(item, Barrier):
            self._seen.setdefault(item.id, (item, time.monotonic()))
        self._read_ahead(input)
        self._filled.notify()

    def give_up(self, id: int) -> bool:
        with self._filled:
            is_open = isinstance(self._aligner.give_up(id), Abandon)
            is_whole = self._whole is not None and self._whole.barrier.id == id
            if is_open or is_whole:
                self._whole = None
                self._begin_anew(id)
            return is_open or is_whole

    def take(self) -> Tuple[int, Any]:
        with self._filled:
            while True:
                self._check_open()
                if self._whole is None and not self._left:
                    raise BadStep("EndedInput")
                self._filled.wait_for(lambda: self._is_closed or self._whole or self._due() or self._open(), (self._next_due() or (None, None))[1])
                self._check_open()
                item = self._turn()
                if item is not None:
                    return self._last, item

    def _turn(self) -> Any:
        """What the task does next, if it is anything: what is about checkpoints comes before elements."""
        if self._whole is not None:
            whole, self._whole = self._whole, None
            return whole
        due = self._due()
        if due is not None:
            return self._overtake(due)
        for self._last in self._open():
            return self._taken()
        return None

    def _taken(self) -> Any:
        channel, was_told = self._channels[self._last], self._ahead[self._last] > 0
        item = channel.popleft()
        self._ahead[self._last] -= was_told
        if len(channel) == self._room - 1:
            self._emptied.notify_all()
        if not isinstance(item, (Barrier, _End)):
            return item
        if was_told:
            if isinstance(item, _End):
                self._left.remove(self._last)
            return None
        return self._barrier if self._is_cut(item) else None

    def _is_cut(self, item: Union[Barrier, _End]) -> bool:
        if isinstance(item, _End):
            self._over.add(self._last)
        is_cut = super()._is_cut(item)
        if is_cut and self._barrier is not None:
            self._begin_anew(self._barrier.id)
        return is_cut

    def _next_due(self) -> Optional[Tuple[Barrier, float]]:
        """The checkpoint that may overtake, and how long that takes. An earlier record comes first, and a savepoint is aligned."""
        if self._recording is not None or not self._seen:
            return None
        barrier, since = self._seen[min(self._seen)]
        return (barrier, max(since + self._after - time.monotonic(), 0)) if barrier.kind == Kind.CHECKPOINT else None

    def _due(self) -> Optional[Barrier]:
        barrier, wait = self._next_due() or (None, 0)
        return None if wait else barrier

    def _overtake(self, barrier: Barrier) -> Optional[Snap]:
        del self._seen[barrier.id]
        if not isinstance(self._aligner.overtake(barrier.id), aligner.Snap):
            return None  # it was cut or given up before
        # what was recorded for an earlier checkpoint, and was not taken since, is on the way to this snapshot too
        ahead = ((it, list(channel)[:self._ahead[it]]) for it, channel in enumerate(self._channels))
        self._recording = Recorded(barrier, [(it, item) for it, items in ahead for item in items if not isinstance(item, (Barrier, _End))])
        for it in range(len(self._channels)):
            self._read_ahead(it)
        return Snap(barrier)

    def _read_ahead(self, input: int) -> None:
        """Records what has come on an input, up to the barrier."""
        channel = self._channels[input]
        while self._recording is not None and self._ahead[input] < len(channel):
            item = channel[self._ahead[input]]
            step = self._told(input, item)
            if step is None or step is Step.PROCESS:
                return  # it comes behind the barrier
            if isinstance(step, Abandon):
                return self._begin_anew(step.id)
            self._ahead[input] += 1
            if step is Step.RECORD:
                self._recording.elements.append((input, item))
            elif isinstance(step, aligner.Complete):
                self._whole = self._recording
                self._begin_anew(step.id)

    def _told(self, input: int, item: Any) -> Any:
        """What the recorder answers; None on an input that has delivered the barrier."""
        try:
            if isinstance(item, Barrier):
                return self._aligner.barrier(input, item.id)
            if not isinstance(item, _End):
                return self._aligner.element(input)
            step = self._aligner.end(input)
            self._over.add(input)
            return step
        except BadStep:
            return None

    def _begin_anew(self, id: int) -> None:
        """This record is cut, whole or given up."""
        self._recording = None
        self._seen = {it: seen for it, seen in self._seen.items() if it > id}
        self._free = self._asked()
        self._filled.notify()

    def _may_take(self, input: int) -> bool:
        """While a checkpoint is recorded elements are taken from each input, and the next barrier or end waits."""
        if self._ahead[input]:
            return True
        return not isinstance(self._channels[input][0], (Barrier, _End)) if self._recording is not None else super()._may_take(input)

    def _asked(self) -> List[int]:
        return [it for it in self._left if it not in self._over and self._aligner.element(it) is Step.PROCESS]


def _line(name: int) -> bytes:
    """The first line of a file of recorded elements. It has the file's own name, so no other file has it."""
    return b"relkvanu recorded %d\n" % name


def is_recorded(name: int, contents: bytes) -> bool:
    """Whether these are the contents, or the first bytes, of a file of recorded elements with this name."""
    return contents.startswith(_line(name))


def _bytes_of(elements: Elements) -> bytes:
    return json.dumps(elements).encode()


def acknowledge(
    runner: Any, recorded: Recorded, vertex: int, index: int, fresh: Sequence[int] = (), reused: Sequence[int] = (), *, payload: bytes = b"",
    dumps: Callable[[Elements], bytes] = _bytes_of
) -> Made:
    """Acknowledges the snapshot of a recorded checkpoint, by a runner's ack(). Its elements are in one more fresh file, if there are any: JSON, or what `dumps`
    makes of them. If that cannot be put, its name is forfeited, the checkpoint is declined, and what put() raised is raised."""
    barrier, files = recorded.barrier, list(fresh)
    if recorded.elements:
        [name] = runner.reserve(barrier.term, 1)
        try:
            runner.files.put(name, _line(name) + dumps(recorded.elements))
        except Error as why:
            runner.forfeit(barrier.term, [name])
            runner.decline(barrier.term, barrier.id, vertex, index, str(why))
            raise
        files.append(name)
    made: Made = runner.ack(barrier.term, barrier.id, vertex, index, files, reused, payload=payload)
    return made


def _contents(store: Any, name: int, first: bool) -> bytes:
    """What a file of the storage of a runner or a Store has, or as much of it as its first line may take."""
    if hasattr(store, "files"):
        found: bytes = store.files.get(name)
        return found[:len(_line(name))] if first else found
    with open(os.open(str(name), os.O_RDONLY, dir_fd=store.folder()), "rb") as file:
        return file.read(len(_line(name)) if first else -1)


def _recorded_file(store: Any, files: Sequence[int]) -> Optional[int]:
    return next((it for it in files if is_recorded(it, _contents(store, it, True))), None)


def load(store: Any, record: Optional[Whole], vertex: int, index: int, *, loads: Callable[[bytes], Any] = json.loads) -> Elements:
    """What was on the way to a subtask in the checkpoint from which the job begins: for UnalignedInputs. `store` is the runner, or a Store with a folder. Its other files are its state's."""
    name = None if record is None else _recorded_file(store, record.files_of(vertex, index))
    if name is None:
        return []
    return [(input, element) for input, element in loads(_contents(store, name, False)[len(_line(name)):])]


def _shape(store: Any) -> Tuple[int, ...]:
    found: Tuple[int, ...] = store.job.shape() if hasattr(store, "files") else store.shape()
    return found


def check(store: Any, record: Optional[Whole]) -> None:
    """Raises NotRescalable if the job has another shape than this record, and a subtask's part of it has elements that were on the way."""
    if record is None or not any(it.files for it in record.parts) or tuple(record.shape) == _shape(store):
        return
    if any(_recorded_file(store, it.files) is not None for it in record.parts):
        raise NotRescalable(record.id)
