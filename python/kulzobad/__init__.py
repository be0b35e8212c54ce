"""Jobs for the SpiNNaker multicast tool chain: written, handed to its program, and what it answers as objects.

    from kulzobad import Job, Machine, Net, Packet, Vertex, run

    job = Job(Machine(1, 1), [Vertex("a"), Vertex("b")], [Net("n", "a", ["b"])], packets=[Packet("n")])
    for delivery in run(job).deliveries:
        print(delivery.vertex, delivery.packet)

The package has no rules of its own: placements, keys, tables and refusals are those of the program. Where `verify` says that tables are
right, the program has said so of each key; the ways of keys that go wrong are found here.

What is used most stands here. The rest has its module:

    calls       all calls, by the program's words: `calls.compile(job)`
    events      the events of `trace`
    steps       the steps of `apps`, and their answers
    reports     what the program writes, as objects
    images      the bytes of tables
    verdicts    what `check` and `verify` say
    links       links and outputs as names
    formats     rows and networks of other tools; spinntools, graphs and frames: those of SpiNNTools, networkx and pandas
"""
from importlib import import_module
from typing import Any, List

from .jobs import Job, Machine, Net, Packet, Vertex
from .program import Refused, check, run, tables
from .trees import trees
from .verifying import KeyedNet, verify
from .versions import VERSION as __version__

__all__ = ["Job", "KeyedNet", "Machine", "Net", "Packet", "Refused", "Vertex", "check", "run", "tables", "trees", "verify", "__version__"]

# Names that are found here too, by the modules that have them. The package had them at its top at first, but for those of `minimise`.
_MOVED = {
    "calls": "apps compile explain gen minimise notes reinject trace",
    "events": "collect dump inject send take",
    "steps": "RUN AlreadyLoaded Answer CutOff KeysOut Loaded MemoryOut NoRoom NotLoaded Ran RowsOut Unloaded Waiting load unload",
    "reports": "Delivery Dump Keys Place Plan Report Row Summary Table Wait cores_of links_of",
    "images": "Image decode encode",
    "verdicts": "BadImage BadTree Dies Loops Misses OffTree OtherMachine Right Split Strays TooLong Twice Verdict Wrong",
    "kinds": "BrokenAnswer",
    "minimising": "Minimised",
    "members": "Slip UnknownMembers",
    "program": "NoProgram",
}
_HOMES = {name: module for module, names in _MOVED.items() for name in names.split()}


def __getattr__(name: str) -> Any:
    if name in _HOMES:
        return getattr(import_module(f".{_HOMES[name]}", __name__), name)
    raise AttributeError(f"module {__name__!r} has no attribute {name!r}")


def __dir__() -> List[str]:
    return sorted(__all__)
