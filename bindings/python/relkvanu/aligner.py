"""The alignment of a task with several inputs: when it may take what is next, and when it takes its snapshot."""
import ctypes
import enum
from dataclasses import dataclass
from typing import Dict, Type, Union

from relkvanu import header
from relkvanu.coordinator import BadArgument, Unknown, _shared, _u64, _within
from relkvanu.errors import _Named

MOST_INPUTS = header.MOST_INPUTS


class Step(enum.Enum):
    """What an engine does next, if it is no Cut and no Abandon."""

    PROCESS = header.STEP_PROCESS  # process the element now
    HOLD = header.STEP_HOLD  # leave the element, and all behind it, on its input, until the next cut or abandon
    NOTHING = header.STEP_NOTHING  # nothing is to be done: no record is being aligned
    WAIT = header.STEP_WAIT  # go on: an open input has not delivered the barrier yet
    LATE = header.STEP_LATE  # drop the barrier and go on: the record was cut or given up, or is below one that was begun
    RECORD = header.STEP_RECORD  # of a Recorder: add the element to the record, and process it before what comes behind it


@dataclass(frozen=True)
class Abandon:
    """Decline this record: it can no longer be cut."""

    id: int


class Cut:
    """Take the snapshot for this record now, and then send its barrier on each output, before anything else. Only an Aligner gives one
    out, at the cut. A task that acknowledges by Coordinator.ack_cut() and ack_cut_in() alone acknowledges no record that it has not cut."""

    __slots__ = ("_id",)
    _id: int

    def __init__(self) -> None:
        raise TypeError("an Aligner gives out cuts")

    @property
    def id(self) -> int:
        return self._id

    def __repr__(self) -> str:
        return f"{type(self).__name__}(id={self._id})"


class Complete(Cut):
    """The record whose snapshot was taken at Snap is whole: acknowledge it, with what was recorded. Only a Recorder gives one out."""

    __slots__ = ()


@dataclass(frozen=True)
class Snap:
    """As a Cut of this record, but acknowledge nothing yet: what comes before its barrier is still to be recorded."""

    id: int


Stepped = Union[Step, Cut, Abandon, Snap]


class BadStep(_Named):
    """The engine broke the rules, and nothing has changed. `name` says how: "UnknownInput", "HeldInput" or "EndedInput". Of relkvanu.runner.Inputs also
    "TwoOrders"; and "EndedInput" of its take() breaks no rule: each input has ended."""


_REFUSED: Dict[int, str] = {
    header.STEP_UNKNOWN_INPUT: "UnknownInput",
    header.STEP_HELD_INPUT: "HeldInput",
    header.STEP_ENDED_INPUT: "EndedInput",
}


def _cut(id: int, kind: Type[Cut] = Cut) -> Cut:
    made = kind.__new__(kind)
    made._id = id
    return made


def _stepped(told: header.relkvanu_step) -> Stepped:
    if told.what == header.STEP_CUT:
        return _cut(told.id)
    if told.what == header.STEP_ABANDON:
        return Abandon(told.id)
    if told.what == header.STEP_SNAP:
        return Snap(told.id)
    if told.what == header.STEP_COMPLETE:
        return _cut(told.id, Complete)
    if told.what in _REFUSED:
        raise BadStep(_REFUSED[told.what])
    try:
        return Step(told.what)
    except ValueError:
        raise Unknown(header.DONE, told.what) from None


class Aligner:
    """The alignment of a task with so many inputs, all open: 1 to MOST_INPUTS, otherwise it raises BadArgument with BadInputs. A task begins
    a new one when it starts, also after a restore. docs/ALIGNMENT.md says what an engine does after each step. Make one call at a time."""

    _mode = "align"

    def __init__(self, inputs: int) -> None:
        if not 1 <= inputs <= MOST_INPUTS:
            raise BadArgument("BadInputs")
        self._aligner = header.relkvanu_aligner() if self._mode == "align" else header.relkvanu_recorder()
        self._inputs = (ctypes.c_uint8 * inputs)()
        self._made("open")

    def _made(self, event: str, *numbers: int) -> Stepped:
        return _stepped(getattr(_shared(), f"relkvanu_{self._mode}_{event}")(self._aligner, self._inputs, len(self._inputs), *numbers))

    def element(self, input: int) -> Stepped:
        """An element is next on this input, from 0: PROCESS or HOLD."""
        return self._made("element", _within(input, 32))

    def barrier(self, input: int, id: int) -> Stepped:
        """The barrier of this record is next on this input: WAIT, LATE, a Cut, or the Abandon of an earlier record, whose place it takes."""
        return self._made("barrier", _within(input, 32), _u64(id))

    def end(self, input: int) -> Stepped:
        """Nothing more comes on this input: NOTHING, WAIT or a Cut."""
        return self._made("end", _within(input, 32))

    def give_up(self, id: int) -> Stepped:
        """The coordinator or the task gives this record up: an Abandon if it is being aligned, otherwise NOTHING."""
        return self._made("give_up", _u64(id))


class Recorder(Aligner):
    """An aligner whose records may overtake. While one is recorded element() is RECORD on an input that has not delivered its barrier, and PROCESS on
    others; the last barrier, or end, is a Complete. After an Abandon the barrier is left on its input: ask again."""

    _mode = "unaligned"

    def overtake(self, id: int) -> Stepped:
        """The barrier of this record was seen on an input, or has waited there for long enough: a Snap; LATE; or NOTHING while an earlier record is
        open, if it has overtaken before, or if each input has ended."""
        return self._made("overtake", _u64(id))
