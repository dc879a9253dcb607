"""Checkpoints of a streamz graph, in one process or with its work on a Dask cluster: the states of its accumulate nodes, a position of its source, and
its outputs (relkvanu.outputs).

With a Client the graph has scatter() and gather(). The driver takes a checkpoint when no element is under way. Workers write the states, which
never pass the driver, and those that have not changed are not written. After the driver, a worker or the scheduler was killed, the job goes on
from the last complete checkpoint: each element counts once in the states, and is once in the outputs. docs/DASK.md has an example.
"""
import asyncio
import logging
import threading
import time
from operator import getitem
from typing import Any, Awaitable, Callable, Dict, Iterable, List, Optional, Sequence, Tuple, Union

import streamz
import streamz.core
import streamz.dask
from distributed import Client, Future, default_client

from relkvanu.graphs import STATELESS, GraphError, by_name, nodes_of, stateful_here
from relkvanu.jobs import Stopped, Superseded
from relkvanu.outputs import Sink
from relkvanu.parts import (
    Failed, Nothing, Part, PartError, Place, State, dumps_value, fold_all, loads_state, part_of, pickled, result_of, split, take_step, value_of,
)
from relkvanu.records import LOST, Coordinator, Path, Record, Records, Resumable, Saved, Watch, losses, origin_of

__all__ = ["Checkpoints", "Failed", "GraphError", "PartError", "Place", "Saved", "Stopped", "Superseded", "keyed", "part_of"]

LOG = logging.getLogger(__name__)
ON_WORKERS = (streamz.dask.map, streamz.dask.starmap, streamz.dask.accumulate, streamz.dask.union, streamz.dask.scatter)
BUFFERS = (streamz.core.buffer, streamz.dask.buffer)
Read = Callable[[Any], Iterable[Tuple[Any, Any]]]


def _nothing(_: Any) -> None:
    return None


def keyed(stream: Any, fold: Callable[[Any, Any], Any], start: Any, parts: int, name: str, key: Optional[Callable[[Any], Any]] = None,
          ahead: int = 8) -> List[Any]:
    """State by key: `stream` is on workers and has lists of elements, and each of the `parts` accumulate nodes that are returned folds those of
    its keys, and may change its state in place. The parts run beside each other. At most `ahead` lists are under way."""
    lists = stream.map(split, parts, key)
    nodes = [lists.map(getitem, it).accumulate(fold_all, start=start, returns_state=True, fold=fold, stream_name=f"{name}-{it}")
             for it in range(parts)]
    ends = nodes[0].union(*nodes[1:]) if parts > 1 else nodes[0]
    ends.buffer(ahead * parts).gather().sink(_nothing)  # the next lists wait for these
    return nodes


# The graph.


def _is_on_workers(node: Any) -> bool:
    """Whether the node gives futures to those below it."""
    return isinstance(node, streamz.dask.DaskStream) and not isinstance(node, streamz.dask.gather)


def _name(node: Any) -> None:
    """streamz 0.6.4 gives the name of such a node to its function."""
    node.name = node.name or getattr(node, "kwargs", {}).pop("stream_name", None)


def _check_node(node: Any, sources: Sequence[Any]) -> None:
    kind = type(node).__name__
    if type(node) not in (*STATELESS, *ON_WORKERS, *BUFFERS, streamz.core.accumulate, streamz.dask.gather):
        raise GraphError(f"a {kind} node keeps or delays elements")
    if type(node) in (*STATELESS, streamz.core.accumulate) and any(_is_on_workers(it) for it in node.upstreams):
        raise GraphError(f"a {kind} node would get futures: gather() first, or map() on the workers")
    if type(node) is streamz.Stream and not any(node is it for it in sources) and not node.upstreams:
        raise GraphError("the graph has another source")
    if getattr(node, "with_state", False):
        raise GraphError("an accumulate node with with_state passes its state on: use returns_state")


def _stateful(nodes: Sequence[Any], sources: Sequence[Any], client: Client) -> Dict[str, Any]:
    """The accumulate nodes by name."""
    for node in nodes:
        _check_node(node, sources)
        if isinstance(node, ON_WORKERS):
            _name(node)
    if default_client() is not client:
        raise GraphError("the nodes of streamz use the default client, which is another one")
    if any(it.loop is not client.loop for it in nodes):
        raise GraphError("the graph has no scatter(), or it was made before the client, and has an event loop of its own")
    return by_name([it for it in nodes if type(it) in (streamz.core.accumulate, streamz.dask.accumulate)])


def _number(node: Any, client: Client) -> None:
    """Lets an accumulate node on workers number its steps (take_step)."""
    node.step = 0

    def update(x: Any, who: Any = None, metadata: Any = None) -> Any:
        node.step += 1
        passes_on = bool(node.downstreams)
        node.state = client.submit(
            take_step, node.state, x, node.func, node.step, node.returns_state, passes_on, node.kwargs, pure=False)
        return node._emit(client.submit(result_of, node.state, pure=False), metadata=metadata) if passes_on else []

    node.update = update


class _Flight:
    """The elements that are under way. After end() those of before go no further: each looks when it comes out of a wait. pass_on() is called
    on the event loop."""

    def __init__(self) -> None:
        self.now = 0  # which flight
        self._count = 0  # of this one
        self.fault: Optional[BaseException] = None
        self._changed = threading.Condition()
        self._ended: List[asyncio.Future[None]] = []

    def begin(self) -> int:
        with self._changed:
            self._count += 1
            return self.now

    def done(self, flight: int) -> None:
        with self._changed:
            self._count -= flight == self.now
            self._changed.notify_all()

    def fail(self, flight: int, fault: BaseException) -> None:
        with self._changed:
            if flight == self.now and self.fault is None:
                self.fault = fault
            self._changed.notify_all()

    async def pass_on(self, flight: int, results: Callable[[], Any]) -> None:
        """Gives an element to the nodes below, and waits until they have taken it, or the flight has ended."""
        if flight != self.now:
            return
        end = asyncio.get_running_loop().create_future()
        self._ended.append(end)
        work = asyncio.ensure_future(_all(results()))
        try:
            await asyncio.wait({work, end}, return_when=asyncio.FIRST_COMPLETED)
            if work.done():
                work.result()
        finally:
            self._ended = [it for it in self._ended if it is not end]

    def end(self) -> None:
        """On the event loop, if there is one."""
        with self._changed:
            self.now, self._count, self.fault = self.now + 1, 0, None
        for it in self._ended:
            if not it.done():
                it.set_result(None)

    def landed(self, patience: float) -> None:
        """Waits until no element is under way. Raises what happened to one."""
        with self._changed:
            if not self._changed.wait_for(lambda: self._count == 0 or self.fault is not None, patience):
                raise Failed(f"{self._count} elements are under way after {patience} s")
            if self.fault is not None:
                raise self.fault


async def _all(results: Sequence[Awaitable[Any]]) -> None:
    await asyncio.gather(*results)


def _lost(fault: BaseException) -> BaseException:
    """As relkvanu.records.losses."""
    return Failed(f"lost with a worker or the scheduler: {fault}") if isinstance(fault, LOST) else fault


def _watch(node: Any, flight: _Flight, client: Client) -> None:
    """Counts the elements that a node holds back, and lets none of an ended flight out of it. A fault in a node below a buffer, which would end
    the buffer's loop, is kept for the caller of emit()."""
    put, emit = node.update, node._emit

    async def through(now: int, wait: Optional[Awaitable[Any]], x: Any, metadata: Any) -> None:
        try:
            x = x if wait is None else await wait
            if isinstance(node, streamz.dask.scatter):
                x = x[0]
            await flight.pass_on(now, lambda: emit(x, metadata=metadata))
        except (Exception, asyncio.CancelledError) as fault:
            told = _lost(fault)
            flight.fail(now, told)
            if not isinstance(node, BUFFERS):
                raise told from None
        finally:
            flight.done(now)

    if isinstance(node, BUFFERS):
        node.update = lambda x, who=None, metadata=None: put((flight.begin(), x), metadata=metadata)
        node._emit = lambda item, metadata=None: through(item[0], None, item[1], metadata)
    elif isinstance(node, streamz.dask.scatter):
        node.update = lambda x, who=None, metadata=None: through(
            flight.begin(), client.scatter([x], asynchronous=True, hash=False), None, metadata)
    elif isinstance(node, streamz.dask.gather):
        node.update = lambda x, who=None, metadata=None: through(flight.begin(), client.gather(x, asynchronous=True), None, metadata)


class Checkpoints(Resumable):
    """The checkpoints of a graph. `with Checkpoints(..) as checkpoints:` closes it. One thread at a time may call.

    After it is made, `position` is that of the last complete checkpoint, or None, and the states are in the nodes again.
    """

    def __init__(self, sources: Any, storage: Union[Path, Place], coordinator: Coordinator, *, client: Optional[Client] = None, create: bool = False,
                 every: float = 10, outputs: Sequence[Sink] = (), patience: float = 300, watch: Optional[Watch] = None,
                 begin_from: Optional[Place] = None, begin: bool = False) -> None:
        """Recovers the job whose coordinator is this file, on a disk of this machine, or this job of the service (relkvanu_service.Job), or makes one
        if `create` says so. `storage` has the states:
        `s3://bucket/prefix`, a folder that all machines have, or a Place. With a client the graph's work is on its cluster. A checkpoint is
        taken `every` so many seconds, if elements come. `outputs` are sinks of the graph that are exactly once. An element and a
        checkpoint take at most `patience` seconds each. `watch` is given the futures of a checkpoint's writes. A new job whose earlier
        coordinator is lost takes the last checkpoint that is in another place, `begin_from`, as its first: its outputs take no more of that job.
        `begin` begins a job that has stopped; without it Stopped is raised."""
        self._sources = list(sources) if isinstance(sources, (list, tuple)) else [sources]
        self._client, self._every, self._patience, self._begin_from = client, every, patience, begin_from
        self._origin: Optional[str] = None  # the identity of the job in that place
        self._flight = _Flight()
        self._nodes = self._looked_at(nodes_of(self._sources))
        self._outputs = {it.name: it for it in outputs}
        if len(self._outputs) < len(outputs):
            raise GraphError("each output needs a name of its own")
        self._starts = {name: self._start(node) for name, node in self._nodes.items()}
        self.position: Any = None
        self.saved: Optional[Saved] = None
        self._records = Records(client, storage, coordinator, create=create, patience=patience, dumps=dumps_value, loads=loads_state, watch=watch,
                                begin=begin)
        try:
            self.restore()
        except BaseException:
            self._records.close()
            raise

    def _looked_at(self, nodes: Sequence[Any]) -> Dict[str, Any]:
        """The nodes with a state, by name. Those on workers are numbered and watched from here on."""
        if self._client is None:
            return stateful_here(nodes, self._sources)
        found = _stateful(nodes, self._sources, self._client)
        for node in nodes:
            if isinstance(node, streamz.dask.accumulate):
                _number(node, self._client)
            _watch(node, self._flight, self._client)
        return found

    def run(self, read: Read, failures: int = 20) -> None:
        """Emits what read(position) has: elements, each with the position after it. At its end it takes a checkpoint. After an exception
        it goes back to the last checkpoint and reads again from there, `failures` times without a new one. Raises Stopped once the job has
        stopped (see checkpoint())."""
        def work(again: bool) -> None:
            if again:
                self.restore()
            for x, position in read(self.position):
                self.emit(x, position)
            self.checkpoint()

        self._resumed(work, failures)

    def emit(self, x: Any, position: Any, source: Optional[Any] = None) -> None:
        """Gives an element to the graph. `position` is where the caller goes on after it. Takes a checkpoint if one is due. After an exception only
        restore() goes on."""
        self._records.check_stopped()
        if self._flight.fault is not None:
            raise self._flight.fault
        to = self._sources[0] if source is None else source
        if self._client is None:
            self._emitted_here(to, x)
        else:
            self._on_loop(self._emitted(to, x))
        self.position = position
        if time.monotonic() >= self._due or self._records.stops:
            self.checkpoint()

    def checkpoint(self) -> Saved:
        """Takes a checkpoint now, and publishes what the outputs have. If it raises, the one before stands: restore(). After ask_to_stop(), and where
        somebody stops the job of the service, it is the savepoint of the stop: once the outputs have it, Stopped is raised."""
        saved = self._taken()
        self._records.check_stopped()
        return saved

    def stop(self) -> Saved:
        """Stops the job with a savepoint of now, and publishes what the outputs have. The job goes on only from there, once it begins."""
        self.ask_to_stop()
        return self._taken()

    def _taken(self) -> Saved:
        self._records.check_stopped()
        times = [time.monotonic()]
        self._flight.landed(self._patience)
        times.append(time.monotonic())
        saved = self._records.save(self._meta, {name: [self._written(it.state)] for name, it in self._nodes.items()})
        times.append(time.monotonic())
        for it in self._outputs.values():
            it.complete(saved.id, at_once=True)
        times.append(time.monotonic())
        self.saved, self._due = saved, times[-1] + self._every
        LOG.info("record %d: %d parts, %d bytes; waited %.3f s for elements, wrote for %.3f s, published for %.3f s",
                 saved.id, saved.written, saved.size, *(after - before for before, after in zip(times, times[1:])))
        return saved

    def _meta(self, id: int) -> Any:
        """What a record has beside the states."""
        return self.position, {name: it.cut(id) for name, it in self._outputs.items()}, self._origin

    def restore(self) -> Any:
        """Puts the states of the last checkpoint back, and tells the outputs of it again. What outputs had for a later one is given up. Returns the
        position, or None if there is no checkpoint. Where the job has stopped, the outputs are told of its savepoint again, and Stopped is raised."""
        self._in_place(self._flight.end)
        if self._client is not None:
            with losses():
                self._client.wait_for_workers(1, timeout=self._patience)
        record = self._restored()
        if record is None and self._begin_from is not None:
            self._begin()
        else:
            self._go_back(record, self._records.identity)
        self._end_origin()
        self._due = time.monotonic() + self._every
        self._records.check_stopped()
        return self.position

    def _restored(self) -> Optional[Record]:
        try:
            return self._records.restore()
        except Stopped:  # whoever has stopped it may have been killed before the outputs knew
            self._tell(self._records.last(), self._records.identity)
            self._end_origin()
            raise

    def _end_origin(self) -> None:
        """The outputs take no more of the job whose place this one has taken."""
        for output in self._outputs.values():
            if self._origin is not None:
                output.end(self._origin)

    def _begin(self) -> None:
        """From the last record of a job whose coordinator is lost, which is the first one of this job from here on."""
        assert self._begin_from is not None
        origin = origin_of(self._begin_from)
        self._go_back(origin.record, origin.identity, self._begin_from)
        self._origin = origin.identity
        for output in self._outputs.values():
            output.begin(self._records.identity)
        self._taken()

    def _go_back(self, record: Optional[Record], job: str, place: Optional[Place] = None) -> None:
        states = {name: self._loaded(name, record, place) for name in self._nodes}
        self._in_place(lambda: self._put_back(states))
        self._tell(record, job)

    def _tell(self, record: Optional[Record], job: str) -> None:
        """The outputs have this record, which is the last one, and nothing after it."""
        self.position, packed, self._origin = (None, {}, None) if record is None else record.meta
        for name, output in self._outputs.items():  # one that is new has nothing in this record
            output.begin(job, packed.get(name))

    def state(self, name: str) -> Any:
        """The state of a node, in the driver's memory."""
        it = self._nodes[name].state
        with losses():
            return value_of(it.result(self._patience) if isinstance(it, Future) else it)

    # States.

    def _start(self, node: Any) -> bytes:
        """As bytes, because a function of the graph may change a state in place."""
        return pickled(Nothing.YET if node.state is streamz.core.no_default else node.state)

    def _written(self, state: Any) -> Any:
        return Nothing.YET if state is streamz.core.no_default else state

    def _loaded(self, name: str, record: Optional[Record], place: Optional[Place]) -> Any:
        """The state of a node: on workers a State or its future, in this process the value."""
        is_on_workers = isinstance(self._nodes[name], streamz.dask.accumulate)
        if record is None:
            state = loads_state(self._starts[name])
        else:
            self._check_names(record)
            part: Part = record.parts[name][0]
            state = self._records.load([part], place)[0] if is_on_workers else self._records.value(part, place)
        if is_on_workers:
            return state
        return streamz.core.no_default if state.value is Nothing.YET else state.value

    def _check_names(self, record: Record) -> None:
        if record.parts.keys() != self._nodes.keys():
            raise GraphError(f"checkpoint {record.id} has the states of {sorted(record.parts)}, and the graph has {sorted(self._nodes)}")

    # The event loop.

    def _on_loop(self, work: Any) -> Any:
        assert self._client is not None
        with losses():
            return asyncio.run_coroutine_threadsafe(work, self._client.loop.asyncio_loop).result(self._patience)

    def _emitted_here(self, source: Any, x: Any) -> None:
        try:
            source.emit(x)
        except BaseException as fault:
            self._flight.fail(self._flight.now, fault)
            raise

    async def _emitted(self, source: Any, x: Any) -> None:
        flight = self._flight.begin()
        try:
            await source.emit(x, asynchronous=True)
        except Exception as fault:
            self._flight.fail(flight, fault)
            raise
        finally:
            self._flight.done(flight)

    def _in_place(self, work: Callable[[], None]) -> None:
        """Does it where elements go on: on the event loop, or here."""
        async def run() -> None:
            work()

        if self._client is None:
            work()
        else:
            self._on_loop(run())

    def _put_back(self, states: Dict[str, State]) -> None:
        for name, state in states.items():
            self._nodes[name].state, self._nodes[name].step = state, 0
