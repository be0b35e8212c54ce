"""A job as dataclasses, and its text."""
from __future__ import annotations

import json
from dataclasses import dataclass, field
from typing import Any, Callable, Dict, List, Optional, Sequence, Tuple

from .kinds import all_of, json_in, links, lists_of_numbers, numbers, one, shown, text, texts, truth, whole, whole_or_none
from .members import LAST_VERSION, refuse, slips_of

Chip = Tuple[int, int]


@dataclass
class Machine:
    """A grid of chips. `dead_cores` are (x, y, core) and `dead_links` (x, y, link), links 0 to 5 from East anticlockwise, or their
    letters: `E`, `NE`, `N`, `W`, `SW`, `S`."""

    width: int
    height: int
    wrap: bool = False
    sdram: Optional[int] = None
    dead_chips: Sequence[Chip] = ()
    dead_cores: Sequence[Tuple[int, int, int]] = ()
    dead_links: Sequence[Tuple[int, int, Any]] = ()

    def __post_init__(self) -> None:
        self.width, self.height = whole("Machine.width", self.width), whole("Machine.height", self.height)
        self.wrap, self.sdram = truth("Machine.wrap", self.wrap), whole_or_none("Machine.sdram", self.sdram)
        self.dead_chips = [(x, y) for x, y in lists_of_numbers("Machine.dead_chips", self.dead_chips, "x y")]
        self.dead_cores = [(x, y, core) for x, y, core in lists_of_numbers("Machine.dead_cores", self.dead_cores, "x y core")]
        self.dead_links = links("Machine.dead_links", self.dead_links)

    def as_json(self) -> Dict[str, Any]:
        found: Dict[str, Any] = {"width": self.width, "height": self.height, "wrap": self.wrap}
        if self.sdram is not None:
            found["sdram"] = self.sdram
        for name in ("dead_chips", "dead_cores", "dead_links"):
            if getattr(self, name):
                found[name] = [list(it) for it in getattr(self, name)]
        return found


@dataclass
class Vertex:
    """What runs on one core: its bytes of the chip's shared memory, and the chip that it asks for, if any. Or, with `device`,
    what hangs on a link that leads to no live chip: the chip's x and y, and the link's number or letters. A device only takes packets."""

    name: str
    sdram: int = 0
    at: Optional[Chip] = None
    device: Optional[Tuple[int, int, Any]] = None

    def __post_init__(self) -> None:
        self.name, self.sdram = text("Vertex.name", self.name), whole("Vertex.sdram", self.sdram)
        if self.at is not None:
            x, y = numbers("Vertex.at", self.at, "x y")
            self.at = x, y
        if self.device is not None:
            x, y, link = numbers("Vertex.device", self.device, "x y link", True)
            self.device = x, y, link

    def as_json(self) -> Dict[str, Any]:
        found: Dict[str, Any] = {"name": self.name, "sdram": self.sdram}
        if self.at is not None:
            found["at"] = list(self.at)
        if self.device is not None:
            found["device"] = list(self.device)
        return found


@dataclass
class Net:
    """A source and its targets, by the names of their vertices, how many keys the net needs, and the key and mask that it must
    have, if any."""

    name: str
    source: str
    targets: Sequence[str]
    keys: int = 1
    fixed: Optional[Tuple[int, int]] = None

    def __post_init__(self) -> None:
        self.name, self.source = text("Net.name", self.name), text("Net.source", self.source)
        self.targets, self.keys = texts("Net.targets", self.targets), whole("Net.keys", self.keys)
        if self.fixed is not None:
            key, mask = numbers("Net.fixed", self.fixed, "key mask")
            self.fixed = key, mask

    def as_json(self) -> Dict[str, Any]:
        found: Dict[str, Any] = {"name": self.name, "source": self.source, "targets": list(self.targets), "keys": self.keys}
        if self.fixed is not None:
            found["fixed"] = list(self.fixed)
        return found


@dataclass
class Packet:
    """A packet of a net, with the key at place `index` of the net's keys."""

    net: str
    index: int = 0
    payload: Optional[int] = None

    def __post_init__(self) -> None:
        self.net, self.index = text("Packet.net", self.net), whole("Packet.index", self.index)
        self.payload = whole_or_none("Packet.payload", self.payload)

    def as_json(self) -> Dict[str, Any]:
        found: Dict[str, Any] = {"net": self.net, "index": self.index}
        if self.payload is not None:
            found["payload"] = self.payload
        return found


Event = List[Any]

# The members of a job's run that are one number.
NUMBERS_OF_RUN = ("queue", "patience", "workers", "turns", "target")


def inject(vertex: str) -> Event:
    """A vertex sends its first unsent packet to its chip's router."""
    return ["inject", text("inject: vertex", vertex)]


def take(x: int, y: int, port: str) -> Event:
    """A router takes the first copy at a port: a link's letters, or `L` for the chip's own cores."""
    return ["take", whole("take: x", x), whole("take: y", y), text("take: port", port)]


def send(x: int, y: int, out: str) -> Event:
    """A router sends the copy that it holds by an output: a link's letters, or `c` and a core's number."""
    return ["send", whole("send: x", x), whole("send: y", y), text("send: out", out)]


def dump(x: int, y: int, out: str) -> Event:
    """A router drops the copy that it holds at an output behind which the queue is full."""
    return ["dump", whole("dump: x", x), whole("dump: y", y), text("dump: out", out)]


def collect(vertex: str) -> Event:
    """A vertex takes the first copy that waits for it."""
    return ["collect", text("collect: vertex", vertex)]


@dataclass
class Job:
    """A whole job. What is None has the program's default. Events are those of `trace`."""

    machine: Machine
    vertices: List[Vertex] = field(default_factory=list)
    nets: List[Net] = field(default_factory=list)
    packets: List[Packet] = field(default_factory=list)
    events: List[Event] = field(default_factory=list)
    queue: Optional[int] = None
    patience: Optional[int] = None
    workers: Optional[int] = None
    turns: Optional[int] = None
    target: Optional[int] = None

    def __post_init__(self) -> None:
        self.machine = one("Job.machine", self.machine, Machine)
        self.vertices, self.nets = all_of("Job.vertices", self.vertices, Vertex), all_of("Job.nets", self.nets, Net)
        self.packets, self.events = all_of("Job.packets", self.packets, Packet), all_of("Job.events", self.events, list)
        for name in NUMBERS_OF_RUN:
            setattr(self, name, whole_or_none(f"Job.{name}", getattr(self, name)))

    def as_json(self) -> Dict[str, Any]:
        run = {name: getattr(self, name) for name in NUMBERS_OF_RUN}
        found: Dict[str, Any] = {name: value for name, value in run.items() if value is not None}
        found["packets"] = [it.as_json() for it in self.packets]
        if self.events:
            found["events"] = self.events
        graph = {"vertices": [it.as_json() for it in self.vertices], "nets": [it.as_json() for it in self.nets]}
        return {"version": self.version(), "machine": self.machine.as_json(), "graph": graph, "run": found}

    def version(self) -> int:
        """The least version of the job text that has all members of this job: 3 with devices, 2 with fixed keys, else 1."""
        if any(it.device is not None for it in self.vertices):
            return 3
        return 2 if any(it.fixed is not None for it in self.nets) else 1

    def text(self) -> str:
        """The job text that the program reads."""
        return json.dumps(self.as_json())

    @classmethod
    def from_json(cls, value: Any, lenient: bool = False) -> Job:
        """The job of a JSON value, as `json.loads` gives it. UnknownMembers where it has members that its version does not know,
        unless lenient: then they are ignored, as by the program. ValueError, with the path of the part, where one is absent or of
        a wrong kind. What the program would say of values, as of a name that no vertex has, is not looked at."""
        if not lenient:
            refuse(slips_of(value))
        parts = Parts("job", value)
        parts.needed("version")
        version = parts.whole("version")
        if not 1 <= version <= LAST_VERSION:
            raise ValueError(f"job.version is {version}, and should be from 1 to {LAST_VERSION}")
        graph = parts.inner("graph")
        run = Parts("job.run", {}) if parts.is_absent("run") else parts.inner("run")
        return cls(
            machine=parts.inner("machine").built(Machine, "width height", "wrap sdram dead_chips dead_cores dead_links"),
            vertices=graph.each("vertices", Vertex, "name", "sdram at device" if version >= 3 else "sdram at"),
            nets=graph.each("nets", Net, "name source targets", "keys fixed" if version >= 2 else "keys"),
            packets=[] if run.is_absent("packets") else run.each("packets", Packet, "net index", "payload"),
            events=[] if run.is_absent("events") else run.lists("events"),
            **{name: run.whole(name) for name in NUMBERS_OF_RUN if not run.is_absent(name)},
        )

    @classmethod
    def from_text(cls, text: str, lenient: bool = False) -> Job:
        """The job of a text. ValueError where it is not JSON, and as by `from_json`."""
        return cls.from_json(json_in("Job.from_text: text", text), lenient)

    def member(self, path: str) -> Any:
        """The part of the job at a path of the program's, as `job.graph.nets[0].targets[1]`; None where it has no such part."""
        return part_at({"job": self.as_json()}, path)


@dataclass
class Parts:
    """An object of a job's JSON value, with its path. Each fault is a ValueError that begins with the path of its part."""

    path: str
    value: Any

    def __post_init__(self) -> None:
        if not isinstance(self.value, dict):
            raise ValueError(f"{self.path} is {shown(self.value)}, and should be an object")

    def is_absent(self, name: str) -> bool:
        """Whether a member is not there, or null."""
        return self.value.get(name) is None

    def needed(self, name: str) -> Any:
        """A member that has no default."""
        if self.is_absent(name):
            raise ValueError(f"{self.path}.{name} is not there")
        return self.value[name]

    def inner(self, name: str) -> Parts:
        """A member that is an object."""
        return Parts(f"{self.path}.{name}", self.needed(name))

    def listed(self, name: str) -> List[Any]:
        """A member that is a list."""
        found = self.needed(name)
        if not isinstance(found, list):
            raise ValueError(f"{self.path}.{name} is {shown(found)}, and should be a list")
        return found

    def lists(self, name: str) -> List[Any]:
        """A member that is a list of lists."""
        return [self.kept(one, f"{name}[{i}]", it, list) for i, it in enumerate(self.listed(name))]

    def whole(self, name: str) -> int:
        """A member that is a whole number."""
        found: int = self.kept(whole, name, self.value[name])
        return found

    def kept(self, of_kind: Callable[..., Any], name: str, *value: Any) -> Any:
        """A value that a function of `kinds` lets through."""
        try:
            return of_kind(f"{self.path}.{name}", *value)
        except TypeError as error:
            raise ValueError(str(error)) from None

    def built(self, made: Callable[..., Any], needed: str, others: str) -> Any:
        """What is made of these members, the needed ones and those that are there of the others."""
        there = {name: self.needed(name) for name in needed.split()}
        there.update((name, self.value[name]) for name in others.split() if not self.is_absent(name))
        try:
            # (a job's text has links by their numbers alone)
            for name, of_kind in (("dead_links", lists_of_numbers), ("device", numbers)):
                if name in there:
                    of_kind(f".{name}", there[name], "x y link")
            return made(**there)
        except TypeError as error:
            # (which begins with the class and the member)
            raise ValueError(f"{self.path}.{str(error).partition('.')[2]}") from None

    def each(self, name: str, made: Callable[..., Any], needed: str, others: str) -> List[Any]:
        """What is made of each object of a list."""
        return [Parts(f"{self.path}.{name}[{i}]", it).built(made, needed, others) for i, it in enumerate(self.listed(name))]


def part_at(whole: Any, path: str) -> Any:
    """The part of a JSON value at a path, in which names of members and numbers of items follow each other. None where there is
    no such part."""
    part = whole
    for step in path.replace("[", ".[").split("."):
        try:
            part = part[int(step[1:-1])] if step.startswith("[") else part[step]
        except (KeyError, IndexError, TypeError):
            return None
    return part
