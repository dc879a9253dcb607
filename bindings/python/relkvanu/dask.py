"""Checkpoints of Dask collections: arrays, dataframes, bags, delayed values, and lists of futures. Workers write their own partitions, and one
whose bytes have not changed since the last checkpoint is not written again. docs/DASK.md has an example.

After the driver, a worker or the scheduler was killed, load() has the collections of the last complete checkpoint. THE RULE: an exception of Dask,
or of save(), means to load() again. Dask's own way, to compute what was lost from where it came, ends at files that are deleted.
"""
import uuid
from typing import Any, Callable, Dict, List, NamedTuple, Optional, Sequence, Tuple, Union

import cloudpickle
import dask.core
from dask.base import get_collection_names, replace_name_in_key
from dask.utils import key_split
from distributed import Client, Future, wait

from relkvanu.errors import Error
from relkvanu.jobs import Stopped, Superseded
from relkvanu.parts import Failed, PartError, Place
from relkvanu.records import Coordinator, Path, Record, Records, Resumable, Saved, Watch, losses, origin_of

__all__ = ["Checkpoints", "Failed", "NotPersisted", "PartError", "Place", "Saved", "Stopped", "Superseded"]

Step = Callable[..., Optional[Tuple[Any, Dict[str, Any]]]]


class NotPersisted(Error, ValueError):
    """The partitions of a collection are not on the workers: x = x.persist()."""


class _Shape(NamedTuple):
    """A collection without its partitions."""

    shell: Any
    keys: Sequence[Any]


def _futures(collection: Any) -> List[Future]:
    """The partitions of a persisted collection, in the order of its keys."""
    if isinstance(collection, Future):
        return [collection]
    if isinstance(collection, (list, tuple)):
        found: List[Any] = list(collection)
    else:
        graph = dict(collection.__dask_graph__())
        found = [_root(graph, key) for key in dask.core.flatten([collection.__dask_keys__()])]
    if not all(isinstance(it, Future) for it in found):
        raise NotPersisted("persist() the collection before save()")
    return found


def _root(graph: Dict[Any, Any], key: Any) -> Any:
    """What a key is, through other names of it."""
    found = graph.get(key)
    while not isinstance(found, Future) and isinstance(found, (str, tuple)) and found in graph:
        found = graph[found]
    return found


def _shape(collection: Any) -> Any:
    if isinstance(collection, Future):
        return "future"
    if isinstance(collection, (list, tuple)):
        return "list"
    keys = list(dask.core.flatten([collection.__dask_keys__()]))
    rebuild, words = collection.__dask_postpersist__()
    return _Shape(rebuild(dict.fromkeys(keys), *words), keys)


def _collection(shape: Any, futures: List[Future]) -> Any:
    """A collection gets another name each time: what is computed from it has other keys than what was computed from a lost one, which
    the scheduler may still know as failed."""
    if shape == "future":
        return futures[0]
    if shape == "list":
        return futures
    rebuild, words = shape.shell.__dask_postpersist__()
    rename = {name: f"{key_split(name)}-{uuid.uuid4().hex}" for name in get_collection_names(shape.shell)}
    return rebuild(dict(zip((replace_name_in_key(key, rename) for key in shape.keys), futures)), *words, rename=rename)


class Checkpoints(Resumable):
    """The checkpoints of a job over Dask. `with Checkpoints(..) as checkpoints:` closes it. One thread at a time may call."""

    def __init__(self, client: Client, storage: Union[Path, Place], coordinator: Coordinator, *, create: bool = False, patience: float = 300,
                 watch: Optional[Watch] = None, begin_from: Optional[Place] = None, begin: bool = False) -> None:
        """Recovers the job whose coordinator is this file, on a disk of the driver's machine, or this job of the service (relkvanu_service.Job), or
        makes one if `create` says so. `storage` has the partitions: `s3://bucket/prefix`, a folder that all machines have, or a Place. `patience` is how many seconds a checkpoint may take.
        `watch` is given the futures of each one's writes, as distributed.progress. A new job whose earlier coordinator is lost takes the last
        checkpoint that is in another place, `begin_from`, as its first. `begin` begins a job that has stopped; without it load() raises Stopped."""
        self.client = self._client = client
        self._patience, self._begin_from = patience, begin_from
        self._records = Records(client, storage, coordinator, create=create, patience=patience, watch=watch, begin=begin)

    def load(self) -> Optional[Tuple[Any, Dict[str, Any]]]:
        """The words and the collections of the last complete checkpoint, or None if there is none. What was computed since is given up."""
        with losses():
            self.client.wait_for_workers(1, timeout=self._patience)
            found = self._records.restore()
            if found is not None:
                return self._loaded(found)
            if self._begin_from is None:
                return None
            meta, collections = self._loaded(origin_of(self._begin_from).record, self._begin_from)
            self.save(meta, **collections)
            return meta, collections

    def save(self, meta: Any = None, **collections: Any) -> Saved:
        """Takes a checkpoint of persisted collections, with some words of the caller, such as the number of a step. It is complete when this
        returns. If it raises, load(). After ask_to_stop(), and where somebody stops the job of the service, it stops the job and raises Stopped."""
        saved = self._taken(meta, collections)
        self._records.check_stopped()
        return saved

    def stop(self, meta: Any = None, **collections: Any) -> Saved:
        """Stops the job with a savepoint of persisted collections: as save(), but the job goes on only from there, once it begins."""
        self.ask_to_stop()
        return self._taken(meta, collections)

    def _taken(self, meta: Any, collections: Dict[str, Any]) -> Saved:
        parts = {name: _futures(it) for name, it in collections.items()}
        return self._records.save(cloudpickle.dumps((meta, {name: _shape(it) for name, it in collections.items()})), parts)

    def run(self, step: Step, init: Step, failures: int = 20) -> Tuple[Any, Dict[str, Any]]:
        """Takes a checkpoint after init() and after each step(meta, **collections). Both return words and collections; step returns None at the end,
        and then run() returns what the last one had. After an exception it goes back to the last checkpoint, `failures` times without a new one.
        Raises Stopped once the job has stopped (see save())."""
        return self._resumed(lambda _: self._run(step, init), failures)

    def _run(self, step: Step, init: Step) -> Tuple[Any, Dict[str, Any]]:
        now = self.load() or self._saved(init())
        while (after := step(now[0], **now[1])) is not None:
            now = self._saved(after)
        self._check(now[1])
        return now

    def sweep(self) -> int:
        """Deletes garbage now, which happens each hour by itself. Returns how many files of it are left."""
        return len(self._records.sweep().failed)

    def _loaded(self, record: Record, place: Optional[Place] = None) -> Tuple[Any, Dict[str, Any]]:
        meta, shapes = cloudpickle.loads(record.meta)
        return meta, {name: _collection(shape, self._records.load(record.parts.get(name, []), place)) for name, shape in shapes.items()}

    def _saved(self, found: Any) -> Tuple[Any, Dict[str, Any]]:
        meta, collections = found
        now = {name: self._persisted(it) for name, it in collections.items()}
        self.save(meta, **now)
        return meta, now

    def _persisted(self, collection: Any) -> Any:
        if isinstance(collection, (list, tuple)):
            return [it if isinstance(it, Future) else self.client.compute(it) for it in collection]
        return collection if isinstance(collection, Future) else self.client.persist(collection)

    def _check(self, collections: Dict[str, Any]) -> None:
        """Whether what is returned is on workers: a lost partition may be one whose file is gone."""
        futures = [future for it in collections.values() for future in _futures(it)]
        if futures:
            wait(futures, timeout=self._patience)
        for future in futures:
            if future.status != "finished":
                raise Failed(f"{future} was lost")
