"""What a timer has for the loop of an engine, as one of few cases: what Store.await_next() returns."""
from dataclasses import dataclass, field
from typing import Optional, Tuple, Union

from relkvanu.reads import Chosen, Kind

# In each case `ended` are the numbers of records that the tick has ended. It is empty if no tick was made, and of what another thread's call has made.


@dataclass(frozen=True)
class NextBarrier:
    """A record was triggered: its barrier goes to the sources. What has changed since `base` is in fresh files, and those of `base` may be reused. None: no
    file may be reused."""

    id: int
    kind: Kind
    base: Optional[Chosen]
    ended: Tuple[int, ...] = field(default=(), compare=False)


@dataclass(frozen=True)
class NextBegun:
    """Another thread has restored the job, as by go_back(): it begins from this record, and its tasks have this term. None: it begins fresh."""

    from_: Optional[Chosen]
    term: int
    ended: Tuple[int, ...] = field(default=(), compare=False)


@dataclass(frozen=True)
class _Alone:
    ended: Tuple[int, ...] = field(default=(), compare=False)


class NextFailed(_Alone):
    """The job has failed: the engine restores it."""


class NextCancelled(_Alone):
    """The job has ended for good."""


class NextStopped(_Alone):
    """The job is stopped with a savepoint, until it begins again."""


class NextNotStopped(_Alone):
    """A stop of the job has failed: tasks that hold go on. Store.phase() says why."""


class NextIdle(_Alone):
    """Nothing is due."""


class NextEnded(_Alone):
    """By Store.stop()."""


Next = Union[NextBarrier, NextBegun, NextFailed, NextCancelled, NextStopped, NextNotStopped, NextIdle, NextEnded]
