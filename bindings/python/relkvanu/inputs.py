"""The inputs of a task whose channels are in its process, aligned; and the barriers that come on them."""
import collections
import threading
from dataclasses import dataclass
from typing import Any, Deque, List, Optional, Tuple, Union

from relkvanu.aligner import Abandon, Aligner, BadStep, Cut, Step
from relkvanu.errors import Error
from relkvanu.reads import Chosen, Kind


@dataclass(frozen=True)
class Barrier:
    """A barrier of the record `id`. Files of `base` may be reused in it: what has changed since `base` is in fresh files. If it `holds`, the job is being
    stopped: a task waits after its acknowledgement until it is ended, or until Engine.go_on(). If it `drains` too, nothing follows: before its cut a task puts
    out what it keeps, such as windows."""

    id: int
    kind: Kind
    base: Optional[Chosen]
    term: int
    holds: bool
    drains: bool = False


class InputsClosed(Error):
    """The inputs were closed: the task ends."""


class _End:
    """What comes on an input behind its last item."""


class Inputs:
    """The inputs of a task, from 0, each a channel of at most `room` items: elements, barriers and the end. Threads put them, and the task takes them. What
    comes behind a barrier stays on its input until the barrier has come on each one, as an Aligner says, or until its record is given up. An input that has
    ended counts as one on which each barrier has come. Make it anew when tasks start, and end again the inputs that had ended: no record says so.
    Who waits in put() or end() waits until the task takes, and who waits in take() until something comes or each input has ended; close() ends that."""

    def __init__(self, inputs: int, room: int = 100) -> None:
        """So many inputs, 1 to MOST_INPUTS, otherwise it raises BadArgument("BadInputs"). An input has room for one item at least."""
        self._aligner, self._room, self._last = Aligner(inputs), max(room, 1), inputs - 1
        self._channels: List[Deque[Any]] = [collections.deque() for _ in range(inputs)]
        self._ended = [False] * inputs  # whether the end of each was put
        self._left = list(range(inputs))  # those whose end was not taken
        self._barrier: Optional[Barrier] = None  # the last one that came, of the record that is being aligned
        self._is_closed = False
        lock = threading.Lock()
        self._free = self._asked()
        self._filled, self._emptied = threading.Condition(lock), threading.Condition(lock)

    def put(self, input: int, item: Any) -> None:
        """Puts an element, which is no Barrier, or a barrier. Waits while the input is full. Raises IndexError if there is no such input, InputsClosed, and
        BadStep("EndedInput") behind its end."""
        channel = self._channels[input]
        with self._emptied:
            self._emptied.wait_for(lambda: len(channel) < self._room or self._has_room_for(item) or self._is_closed)
            self._check_open()
            if self._ended[input]:
                raise BadStep("EndedInput")
            self._ended[input] = isinstance(item, _End)
            channel.append(item)
            self._was_put(input, item)

    def _has_room_for(self, item: Any) -> bool:
        """Whether it comes in also where its input is full."""
        return False

    def _was_put(self, input: int, item: Any) -> None:
        if len(self._channels[input]) == 1:  # otherwise the task waits for no item of this input
            self._filled.notify()

    def end(self, input: int) -> None:
        """Nothing more comes on this input. Waits while it is full, and raises as put(). If the others have delivered a barrier, take() returns that barrier once
        it has come to the end."""
        self.put(input, _End())

    def close(self) -> None:
        """The tasks end, as in an engine's end(): put(), end() and take() raise InputsClosed from now on, also where they wait. What was put and not taken is
        given up. Any thread may call it, and it waits for none."""
        with self._filled:
            self._is_closed = True
            for channel in self._channels:
                channel.clear()
            for it in (self._filled, self._emptied):
                it.notify_all()

    def _check_open(self) -> None:
        if self._is_closed:
            raise InputsClosed("the inputs were closed")

    def give_up(self, id: int) -> bool:
        """The coordinator or the task gives this record up, as in an engine's aborted(). True: it was being aligned. What its barriers held comes next, each input
        in its order, and barriers of it that come later are dropped. False: nothing has changed. It was cut or given up before, or none of its barriers was
        taken so far: these may still come, and then it is cut. A task that gives up by itself declines the record. Any thread may call it, and it waits for
        none. Raises OutOfRange unless the number is 0 to 2^64 - 1."""
        with self._filled:
            is_aligned = isinstance(self._aligner.give_up(id), Abandon)
            if is_aligned:
                self._free = self._asked()
                self._filled.notify()
        return is_aligned

    def take(self) -> Tuple[int, Any]:
        """Waits for an element, and returns it with its input. Or it returns a Barrier that has come on each input that has not ended, with the input that was
        the last: the task takes its snapshot now, sends the barrier on, and acknowledges. Raises InputsClosed; BadStep("EndedInput") once each input has ended,
        and all was taken; and BadStep("TwoOrders") if barriers come in another order on another input."""
        with self._filled:
            self._check_open()
            while self._left:
                found: Any = self._filled.wait_for(lambda: self._is_closed or self._open())
                self._check_open()
                [self._last] = found
                item = self._channels[self._last].popleft()
                if len(self._channels[self._last]) == self._room - 1:
                    self._emptied.notify_all()
                if not isinstance(item, (Barrier, _End)):
                    return self._last, item
                if self._is_cut(item):
                    return self._last, self._barrier
        raise BadStep("EndedInput")

    def _is_cut(self, item: Union[Barrier, _End]) -> bool:
        """Whether the task has to cut the record of the last barrier, since this came."""
        if isinstance(item, Barrier):
            step = self._aligner.barrier(self._last, item.id)
        else:
            step = self._aligner.end(self._last)
            self._left.remove(self._last)
        if isinstance(item, Barrier) and step is not Step.LATE:
            self._barrier = item
        self._free = self._asked()
        if isinstance(step, Abandon):
            raise BadStep("TwoOrders")
        return isinstance(step, Cut)

    def _open(self) -> List[int]:
        """The input to take from, if there is one: each has its turn."""
        count = len(self._channels)
        turns = ((self._last + it) % count for it in range(1, count + 1))
        return next(([it] for it in turns if self._channels[it] and self._may_take(it)), [])

    def _may_take(self, input: int) -> bool:
        return input in self._free

    def _asked(self) -> List[int]:
        """The inputs whose items may be taken. Only barriers, ends and what is given up change that, so the aligner is not asked of each element."""
        return [it for it in self._left if self._aligner.element(it) is Step.PROCESS]
