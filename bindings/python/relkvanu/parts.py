"""What a worker of a Dask cluster does for checkpoints: it writes and reads the parts of a record, and takes the steps of states. A worker needs
this package with xxhash, boto3 if the parts are in a bucket, and no library of the coordinator.

A name is given to one file, once. So a file that a lost partition is computed from again has the same bytes as before, or is not there.
"""
import enum
import functools
import os
import pickle
import threading
from dataclasses import dataclass, field
from typing import Any, Callable, Dict, Iterable, Iterator, List, NamedTuple, Optional, Sequence, Tuple, Union

import cloudpickle
import xxhash

from relkvanu.errors import Error
from relkvanu.keys import group_of
from relkvanu.storage import Folder, Marker, bucket_and_prefix

Pieces = List[memoryview]
Dumps = Callable[[Any], Union[bytes, Pieces]]
Loads = Callable[[bytes], Any]
PIECE = 1 << 20  # bytes that are copied at a time
FIXED = (type(None), bool, int, float, complex, str, bytes)  # types whose values nobody can change


class PartError(Error):
    """A file is missing, damaged, or not that of the record. No file was deleted."""


class Failed(Error):
    """A record was not taken, or its parts are not whole any more: go back to the last one that is complete."""


class Place(NamedTuple):
    """Where the files of a job are, as each worker opens it: `s3://bucket/prefix`, or a folder that all machines have at this path. No
    other job has this name. A worker finds the keys of S3 as boto3 does: in its environment, its files, or the role of its machine. `marker` is
    the name and the text of the file there that says whose files these are, if a service has the job."""

    url: str
    job: str
    endpoint: Optional[str] = None
    region: Optional[str] = None
    marker: Optional[Tuple[str, str]] = None

    def open(self, is_new: bool = False) -> Any:
        marker = None if self.marker is None else Marker(*self.marker)
        if not self.url.startswith("s3://"):
            return Folder(self.url, self.job, is_new, marker=marker)
        from relkvanu.s3 import Bucket, client

        bucket, prefix = bucket_and_prefix(self.url)
        return Bucket(bucket, self.job, is_new, prefix, s3=client(self.endpoint, self.region), marker=marker)


def place_of(storage: Union[str, "os.PathLike[str]", Place], job: str) -> Place:
    """The place that a caller names. A worker may run in another folder, so the path of a folder is made whole."""
    place = storage if isinstance(storage, Place) else Place(os.fspath(storage), job)
    return place if "://" in place.url else place._replace(url=os.path.abspath(place.url))


class Part(NamedTuple):
    """A file of a record: its name, the checksum of its bytes, and how many they are."""

    file: int
    digest: str
    size: int


def pickled(value: Any) -> bytes:
    """A class of the driver's program is on no worker, so it goes along."""
    try:
        return pickle.dumps(value, 5)
    except (pickle.PicklingError, AttributeError, TypeError):
        return cloudpickle.dumps(value, 5)  # type: ignore[no-any-return]


class _Taker:
    """A file that keeps what pickle writes, where that is long as it is in memory: so nothing is copied."""

    def __init__(self) -> None:
        self.pieces: Pieces = []

    def write(self, piece: Any) -> None:
        self.pieces.append(piece.raw() if isinstance(piece, pickle.PickleBuffer) else memoryview(piece))


def pickled_in_pieces(value: Any) -> Pieces:
    """The bytes of pickled(). Those of an array are its own."""
    taker = _Taker()
    try:
        pickle.dump(value, taker, 5)
        return taker.pieces
    except (pickle.PicklingError, AttributeError, TypeError):
        return [memoryview(cloudpickle.dumps(value, 5))]


def digest_of(*pieces: Any) -> str:
    """Against damage, and to find what has not changed. It is no protection against forgery: who can write there can run code."""
    found = xxhash.xxh3_128()
    for it in pieces:
        found.update(it)
    return found.hexdigest()


class _Copied:
    """The pieces of a part as a storage takes them. What it takes is what the digest is of, also if somebody changes an array meanwhile."""

    def __init__(self, pieces: Pieces) -> None:
        self._pieces, self._digest = pieces, xxhash.xxh3_128()

    def __iter__(self) -> Iterator[bytes]:
        for piece in self._pieces:
            for begin in range(0, piece.nbytes, PIECE):
                copy = bytes(piece[begin:begin + PIECE])
                self._digest.update(copy)
                yield copy

    def digest(self) -> str:
        return self._digest.hexdigest()


# Parts.

_opened: Dict[Place, Any] = {}
_lock = threading.Lock()


def opened(place: Place) -> Any:
    """The storage: a process opens it once."""
    with _lock:
        if place not in _opened:
            _opened[place] = place.open()
        return _opened[place]


def put_part(place: Place, file: int, value: Any, before: Optional[Part], dumps: Dumps) -> Part:
    """Writes a part, unless its bytes are those that it had `before`. Then that is the answer."""
    told = dumps(value)
    pieces = [memoryview(told)] if isinstance(told, bytes) else told
    digest, size = digest_of(*pieces), sum(it.nbytes for it in pieces)
    if before is not None and (digest, size) == (before.digest, before.size):
        return before
    copied = _Copied(pieces)
    opened(place).put(file, copied)
    if copied.digest() != digest:
        raise Failed(f"a value was changed in place while it was written to file {file}")
    return Part(file, digest, size)


def get_part(place: Place, part: Part, loads: Loads) -> Any:
    data = opened(place).get(part.file)
    if digest_of(data) != part.digest:
        raise PartError(f"file {part.file} is damaged")
    return loads(data)


# Steps of a state.


class Nothing(enum.Enum):
    """The value of a state before its first element, where there is no start."""

    YET = 1


@dataclass
class State:
    """The state after a step. A function may change the value in place, and then the states of all steps have the same one. `last`, which they share
    too, says which steps have begun on it. Where a state is copied to another worker its value is copied first: so if a step has begun meanwhile,
    the copy says so."""

    value: Any
    last: List[int] = field(default_factory=lambda: [0])
    result: Any = None  # of the step, for the nodes below


def value_of(it: Any) -> Any:
    return it.value if isinstance(it, State) else it


def dumps_value(it: Any) -> Pieces:
    """A file has the value alone: so one that has not changed has the same bytes, whatever the number of its step."""
    return pickled_in_pieces(value_of(it))


def loads_state(data: bytes) -> State:
    return State(pickle.loads(data))


def _apart(value: Any) -> Any:
    """A value that no later step changes."""
    return value if type(value) in FIXED else pickle.loads(pickled(value))


def take_step(state: State, x: Any, func: Callable[..., Any], step: int, returns_state: bool, passes_on: bool, words: Dict[str, Any]) -> State:
    """Dask does a task again if it can't fetch what the task made. If the first time has changed the state in place, that would count twice. So the
    second time is an exception, and the job goes back to its last checkpoint."""
    if state.last[0] >= step:
        raise Failed(f"step {step} has begun on this state before")
    state.last[0] = step
    if state.value is Nothing.YET:
        value = result = _apart(x)
    else:
        told = func(state.value, x, **words)
        value, result = told if returns_state else (told, told)
    return State(value, state.last, _apart(result) if passes_on else None)


def result_of(state: State) -> Any:
    return state.result


# State by key.


def part_of(key: Any, parts: int) -> int:
    """As group_of(): equal values may be pickled in two ways, so keys are no pickles."""
    return group_of(key, parts)


def split(elements: Iterable[Any], parts: int, key: Optional[Callable[[Any], Any]]) -> List[List[Any]]:
    found: List[List[Any]] = [[] for _ in range(parts)]
    for it in elements:
        found[part_of(it if key is None else key(it), parts)].append(it)
    return found


def fold_all(value: Any, elements: Sequence[Any], fold: Callable[[Any, Any], Any]) -> Tuple[Any, None]:
    return functools.reduce(fold, elements, value), None
