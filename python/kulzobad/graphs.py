"""Graphs of networkx as jobs. Nothing of it is imported: a graph has `nodes(data=True)`, `edges(data=True)`, `is_directed()` and `graph`."""
from __future__ import annotations

from collections import Counter
from typing import Any, Dict, Hashable, List, Optional, Tuple

from .formats import names_for
from .jobs import Job, Machine, Net, Vertex
from .kinds import hashable, mapping, numbers, one, shown, wrong

# The attributes of nodes and of edges that a job has a place for.
OF_NODES, OF_EDGES = ("sdram", "at", "device"), ("keys", "fixed")


def from_networkx(graph: Any, machine: Optional[Machine] = None, **run: Any) -> Job:
    """The job of a directed graph: a vertex for each node, and for each node with edges out a net to all of their ends.

    Nodes may have the attributes `sdram`, `at` and `device`, as `Vertex` has. Edges may have `net`: those of one node and one such name
    are one net, and a node may so have several. And they may have `keys` and `fixed`, as `Net` has: the edges of one net that have
    them have the same. Other attributes, as weights, are not looked at. The machine is that of `machine`, or the graph's own attribute
    `machine`. `run` has what else a job has: `packets`, `queue`, `target` and so on.

    A node's name is that of its vertex where a job can have it, and else `v` and a number; the nets of a node are called as the node is,
    or as `net` says. ValueError where the graph is not directed, or edges of one net differ; TypeError where an attribute is of a wrong
    kind."""
    for name in ("nodes", "edges", "is_directed"):
        if not callable(getattr(graph, name, None)):
            raise wrong("from_networkx: graph", graph, "a graph as networkx has them")
    if not graph.is_directed():
        raise ValueError("from_networkx: the graph is not directed, and nets lead from a source to targets; `to_directed` makes two edges of each")
    if machine is None:
        machine = mapping("from_networkx: graph.graph", getattr(graph, "graph", {}), "names to attributes").get("machine")
    nodes: List[Tuple[Hashable, Any]] = list(graph.nodes(data=True))
    names = names_for([node for node, _ in nodes], "v")
    vertices = [Vertex(names[node], **attributes_of(f"node {node!r}", data, OF_NODES)) for node, data in nodes]
    return Job(one("from_networkx: machine", machine, Machine), vertices, nets_of(graph, names), **run)


def attributes_of(what: str, data: Any, names: Tuple[str, ...]) -> Dict[str, Any]:
    """The attributes of these names that are there and not None."""
    given = mapping(f"from_networkx: the attributes of {what}", data, "names to attributes")
    return {name: given[name] for name in names if given.get(name) is not None}


def nets_of(graph: Any, names: Dict[Any, str]) -> List[Net]:
    """The nets of a graph, in the order in which its edges come."""
    targets: Dict[Tuple[Any, Any], List[str]] = {}
    told: Dict[Tuple[Any, Any], Dict[str, Any]] = {}
    for source, target, data in graph.edges(data=True):
        what = f"edge {source!r} to {target!r}"
        label = mapping(f"from_networkx: the attributes of {what}", data, "names to attributes").get("net")
        if source not in names or target not in names:
            raise ValueError(f"{what} has an end that is no node")
        net = source, hashable(f"from_networkx: net of {what}", label)
        listed = targets.setdefault(net, [])
        if names[target] not in listed:
            listed.append(names[target])
        for name, value in attributes_of(what, data, OF_EDGES).items():
            there = told.setdefault(net, {}).setdefault(name, value)
            if there != value:
                raise ValueError(f"{what} has {name} {shown(value)}, and another edge of its net has {shown(there)}")
    labels = {net: net[0] if net[1] is None else net[1] for net in targets}
    called = names_of_nets(labels)
    return [Net(called[net], names[net[0]], listed, **keyed(told.get(net, {}))) for net, listed in targets.items()]


def names_of_nets(labels: Dict[Tuple[Any, Any], Any]) -> Dict[Tuple[Any, Any], str]:
    """A name for each net: its label's where a job can have that and no other net has the same, and else `n` and a number."""
    counts = Counter(labels.values())
    wanted = {net: label if counts[label] == 1 else net for net, label in labels.items()}
    names = names_for(wanted.values(), "n")
    return {net: names[label] for net, label in wanted.items()}


def keyed(told: Dict[str, Any]) -> Dict[str, Any]:
    """What edges tell of a net's keys; where a block is fixed and no number told, the net needs all of its keys."""
    if "fixed" in told and "keys" not in told:
        _, mask = numbers("from_networkx: fixed", told["fixed"], "key mask")
        return {**told, "keys": 2**32 - mask}
    return told
