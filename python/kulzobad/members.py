"""Which members a job's objects have, in which version of the text, and those of a text that are none.

The program ignores members that it does not know, so that a typing error is no fault for it, and the job means something else. The
package refuses them, where it is not told to be lenient."""
from __future__ import annotations

import difflib
from dataclasses import dataclass
from typing import Any, Dict, Iterator, List, Optional, Tuple

from .kinds import printable, text

LAST_VERSION = 3

# The members of each kind of object.
MEMBERS: Dict[str, Tuple[str, ...]] = {
    "job": ("version", "machine", "graph", "run"),
    "machine": ("width", "height", "wrap", "sdram", "dead_chips", "dead_cores", "dead_links"),
    "graph": ("vertices", "nets"),
    "vertex": ("name", "sdram", "at", "device"),
    "net": ("name", "source", "targets", "keys", "fixed"),
    "run": ("queue", "patience", "workers", "turns", "target", "packets", "events"),
    "packet": ("net", "index", "payload"),
    "request": ("job", "trees", "image"),
}

# The version from which on a member is one, where that is not the first.
SINCE = {("net", "fixed"): 2, ("vertex", "device"): 3}

# Members that are an object, or a list of objects, with its kind.
OBJECTS = {("job", "machine"): "machine", ("job", "graph"): "graph", ("job", "run"): "run"}
LISTS = {("graph", "vertices"): "vertex", ("graph", "nets"): "net", ("run", "packets"): "packet"}

# Where an object of each kind stands.
PLACES = {
    "job": "job", "machine": "job.machine", "graph": "job.graph", "vertex": "a vertex", "net": "a net", "run": "job.run",
    "packet": "a packet", "request": "the request",
}


@dataclass(frozen=True)
class Slip:
    """A member that is none: its path; the version from which on it is one, if any is; the name in the same object that is most
    like it, if any is; and where else a member has this name, if anywhere."""

    path: str
    since: Optional[int] = None
    near: Optional[str] = None
    elsewhere: Optional[str] = None

    def __str__(self) -> str:
        if self.since:
            return f"{self.path}: not a member of this version; one from version {self.since} on"
        if self.near:
            return f"{self.path}: not a member; {self.near}?"
        if self.elsewhere:
            return f"{self.path}: not a member; {self.elsewhere} has one of this name"
        return f"{self.path}: not a member"


class UnknownMembers(ValueError):
    """A text has members that its version does not know. `slips` has them all, each with its path."""

    def __init__(self, slips: List[Slip]) -> None:
        super().__init__("\n".join(map(str, slips)))
        self.slips = slips


def slip_of(path: str, kind: str, name: str) -> Slip:
    """The slip of a member that no version has in an object of this kind."""
    by_small = {known.lower(): known for known in MEMBERS[kind]}
    near = difflib.get_close_matches(name.lower().replace("-", "_"), by_small, n=1, cutoff=0.6)
    elsewhere = next((PLACES[other] for other, names in MEMBERS.items() if name in names), None)
    if elsewhere and not (near and by_small[near[0]].rstrip("s") == name.rstrip("s")):
        return Slip(path, elsewhere=elsewhere)
    return Slip(path, near=by_small[near[0]] if near else None, elsewhere=elsewhere)


def version_of(job: Any) -> int:
    """The version that a job's text says; the last one where it says none that is known, since that is a fault of its own."""
    version = job.get("version") if isinstance(job, dict) else None
    return version if type(version) is int and 1 <= version <= LAST_VERSION else LAST_VERSION


def slips_of(value: Any, path: str = "job", kind: str = "job", version: Optional[int] = None) -> Iterator[Slip]:
    """The members of a JSON value, an object of this kind, that its version does not know, in the order of the text. A member of a
    later version that is null is let through, as it counts as absent in that version too."""
    if not isinstance(value, dict):
        return
    version = version_of(value) if version is None else version
    for name, part in value.items():
        at = f"{path}.{printable(text(path, name))}"
        if name not in MEMBERS[kind]:
            yield slip_of(at, kind, name)
        elif SINCE.get((kind, name), 1) > version:
            if part is not None:
                yield Slip(at, since=SINCE[kind, name])
        elif (kind, name) in OBJECTS:
            yield from slips_of(part, at, OBJECTS[kind, name], version)
        elif (kind, name) in LISTS and isinstance(part, list):
            for i, item in enumerate(part):
                yield from slips_of(item, f"{at}[{i}]", LISTS[kind, name], version)


def slips_of_steps(value: Any) -> Iterator[Slip]:
    """The same of the jobs of a list of steps."""
    for i, step in enumerate(value if isinstance(value, list) else []):
        if isinstance(step, list) and len(step) == 3:
            yield from slips_of(step[2], f"job[{i}][2]")


def slips_of_request(value: Any) -> Iterator[Slip]:
    """The same of a request to check."""
    yield from slips_of(value, "in", "request")
    if isinstance(value, dict):
        yield from slips_of(value.get("job"))


def refuse(slips: Iterator[Slip]) -> None:
    """Raises UnknownMembers where there is a slip."""
    found = list(slips)
    if found:
        raise UnknownMembers(found)
