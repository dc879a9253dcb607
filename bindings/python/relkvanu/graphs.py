"""What graphs of streamz have to be, so that a checkpoint is one moment (relkvanu.daskstream). It needs no library."""
from typing import Any, Dict, List, Sequence

import streamz
import streamz.core
import streamz.sinks

from relkvanu.errors import Error

# Nodes without a state, through which an element passes before emit() returns. Any other type may keep or delay elements.
STATELESS = (
    streamz.Stream, streamz.core.map, streamz.core.starmap, streamz.core.filter, streamz.core.flatten, streamz.core.pluck, streamz.core.union,
    streamz.sinks.sink,
)


class GraphError(Error, ValueError):
    """The graph can't be checkpointed, or is not that of the checkpoint."""


def nodes_of(sources: Sequence[Any]) -> List[Any]:
    """The nodes of the graphs of these sources, each once."""
    found: Dict[int, Any] = {}
    left = list(sources)
    while left:
        node = left.pop()
        if id(node) not in found:
            found[id(node)] = node
            left += [*node.downstreams, *(it for it in node.upstreams if it is not None)]
    return list(found.values())


def stateful_here(nodes: Sequence[Any], sources: Sequence[Any]) -> Dict[str, Any]:
    """The accumulate nodes of a graph in one process, by name, in the order of their names."""
    for node in nodes:
        if type(node) is not streamz.core.accumulate and type(node) not in STATELESS:
            raise GraphError(f"a {type(node).__name__} node keeps or delays elements: only accumulate nodes may have a state")
        if node.loop is not None:
            raise GraphError("the graph has an event loop: an element may be under way between two calls of emit")
        if type(node) is streamz.Stream and not any(node is it for it in sources) and not node.upstreams:
            raise GraphError("the graph has another source")
    found = by_name([it for it in nodes if type(it) is streamz.core.accumulate])
    return dict(sorted(found.items(), key=lambda it: str(it[0])))


def by_name(found: Sequence[Any]) -> Dict[str, Any]:
    """Accumulate nodes by their names."""
    names = [it.name if it.name or len(found) > 1 else "accumulate" for it in found]
    if not found or None in names or len(set(names)) < len(names):
        raise GraphError("each accumulate node needs a stream_name of its own, and there has to be one")
    return dict(zip(names, found))
