"""Ways in and out: networks and tables as other tools have them. Nothing of these tools is imported.

- the 16 bytes for each entry that SpiNNaker's system software takes to load a router, and keeps of one: `write_router_entries`,
  `read_router_entries`;
- the objects of Rig, by their attributes alone: `from_rig`, `to_rig`;
- rows as text, as comma-separated values, as a plain dump, or as the program writes them: `read_rows`, `write_csv`, `write_dump`;
- a network, that is a machine with places and nets, as JSON: `read_network`, `write_network`.
"""
from __future__ import annotations

import csv
import functools
import io
import json
import re
import struct
from collections.abc import Iterable as IterableAbc
from collections.abc import Set
from dataclasses import dataclass, field
from typing import Any, Callable, Dict, FrozenSet, Hashable, Iterable, Iterator, List, Mapping, NamedTuple, Optional, Sequence, Tuple, Union

from .blocks import USUAL, WORD, block_of, cut
from .grid import STEPS, Grid, opposite
from .images import Image
from .jobs import Chip, Job, Machine, Net, Vertex
from .kinds import all_of, attribute_of, chip_of, hashable, items, json_in, lists_of_numbers, mapping, numbers, one, shown, whole, wrong
from .kinds import links as links_in
from .kinds import text as text_of
from .links import word_of
from .program import tables as compiled_tables
from .reports import LINKS, SECTIONS, SIDE, Row, read
from .verifying import KeyedNet, Place, Rows, known_nets, listed_by_chip, number_of, words_by_chip, words_of
from .walks import DEVICES, Spot

ENTRY = struct.Struct("<HHIII")
# Entries that are not in use have ones in the highest byte of their route.
UNUSED = 0xFF000000
# A vertex with more cores than this has none on any chip.
MOST_CORES = 64
COLUMNS = ("x", "y", "key", "mask", "route")

# A table of comma-separated values may have this column too.
SOURCE = "source"

RowsByChip = Dict[Chip, Tuple[Row, ...]]
AnyTables = Union[Image, Mapping[Chip, Rows]]


@dataclass
class Network:
    """A machine, places by the names of vertices, nets with their keys, tables by chip, and trees by the names of nets, if any: what
    `verify` takes."""

    machine: Machine
    places: Dict[Any, Place] = field(default_factory=dict)
    nets: List[KeyedNet] = field(default_factory=list)
    tables: Dict[Chip, Sequence[Row]] = field(default_factory=dict)
    trees: Dict[Any, List[Tuple[int, int, int]]] = field(default_factory=dict)

    def __post_init__(self) -> None:
        one("Network.machine", self.machine, Machine)
        for what, value in (("places", self.places), ("tables", self.tables), ("trees", self.trees)):
            mapping(f"Network.{what}", value, "names to places, chips to rows, or names to links")
        self.nets = all_of("Network.nets", self.nets, KeyedNet)

    def __iter__(self) -> Iterator[Any]:
        """What `verify` takes, in its order: `verify(*network)`."""
        return iter((self.machine, self.places, self.nets, self.tables, self.trees))

    def spots(self) -> Dict[Any, Spot]:
        """The spots of the vertices. ValueError where a place is none, or a net has no keys, or a vertex of it no place."""
        found = {name: number_of(name, place) for name, place in self.places.items()}
        known_nets(self.nets, found)
        return found

    def job(self, target: Optional[int] = None) -> Job:
        """A job of the same machine and nets, whose vertices get the same places and whose nets get the same keys. Names that a job can't
        have are replaced by `v` or `n` and a number. A net with several blocks becomes several, one for each; so does one whose mask is no
        ones followed by zeros."""
        numbers = {name: spot[2] for name, spot in self.spots().items()}
        names = names_for(self.places, "v")
        dead = {(x, y, core) for x, y, core in self.machine.dead_cores}
        taken = {(self.places[name][0], self.places[name][1], number) for name, number in numbers.items() if number < DEVICES}
        dead |= {(x, y, core) for x, y in {it[:2] for it in taken} for core in range(1, 18) if (x, y, core) not in taken}
        vertices = []
        for name in sorted(self.places, key=lambda it: (self.places[it][:2], numbers[it])):
            x, y = self.places[name][:2]
            is_device = numbers[name] >= DEVICES
            vertices.append(Vertex(names[name], device=(x, y, numbers[name] - DEVICES)) if is_device else Vertex(names[name], at=(x, y)))
        nets, net_names = [], names_for([it.name for it in self.nets], "n")
        for net in self.nets:
            blocks = [part for it in net.blocks for part in cut(block_of(*it), USUAL.opened(it[1]))]
            for i, block in enumerate(blocks):
                name = net_names[net.name] if len(blocks) == 1 else f"{net_names[net.name]}.{i}"
                nets.append(Net(name, names[net.source], [names[it] for it in net.targets], WORD - block.mask + 1, (block.key, block.mask)))
        machine = Machine(
            self.machine.width, self.machine.height, self.machine.wrap, None, self.machine.dead_chips, sorted(dead), self.machine.dead_links
        )
        return Job(machine, vertices, nets, target=target)


def names_for(things: Iterable[Hashable], letter: str) -> Dict[Any, str]:
    """A name of a job for each thing: its own where that is text that a job can have, else the letter and a number."""
    listed = list(things)
    found: Dict[Any, str] = {it: it for it in listed if isinstance(it, str) and re.fullmatch(r"[!-~]{1,56}", it)}
    free = (f"{letter}{i}" for i in range(2 * len(listed) + 1) if f"{letter}{i}" not in found)
    return {it: found[it] if it in found else next(free) for it in listed}


def network_of_job(job: Job, program: Optional[str] = None) -> Network:
    """The network of a job: the places and keys that the program gives, and its tables. Refused where the program does not compile the
    job."""
    plan = compiled_tables(one("network_of_job: job", job, Job), program)
    places: Dict[Any, Place] = {name: (it.x, it.y, it.core) for name, it in plan.places.items()}
    nets = [KeyedNet(it.name, it.source, it.targets, [(plan.keys[it.name].key, plan.keys[it.name].mask)]) for it in job.nets]
    return Network(job.machine, places, nets, {chip: table.rows for chip, table in plan.tables.items()})


@dataclass(frozen=True, repr=False)
class SourcedRow(Row):
    """A row that tells where its packets come in: numbers of links from 0 to 5, and others for cores, or None where one is not known."""

    sources: FrozenSet[Optional[int]] = frozenset()

    @property
    def arrival(self) -> Optional[int]:
        """The link by which all its packets come in, if there is one."""
        found = next(iter(self.sources)) if len(self.sources) == 1 else None
        return found if found in range(6) else None


def rows_by_chip(tables: AnyTables) -> RowsByChip:
    """Rows as objects, by chip."""
    return {chip: tuple(row_of(chip, i, row) for i, row in enumerate(rows)) for chip, rows in listed_by_chip(tables).items()}


def row_of(chip: Chip, place: int, row: Any) -> Row:
    """A row as an object: itself, where it is one."""
    words = words_of(chip, place, row)
    return row if type(row) is Row else Row(*words)


def sourced_by_chip(tables: AnyTables) -> Dict[Chip, Tuple[SourcedRow, ...]]:
    """Rows as objects, by chip, with the `sources` of those that have some. TypeError where these are no set."""
    listed = listed_by_chip(tables).items()
    return {chip: tuple(SourcedRow(*words_of(chip, i, row), sources_of(f"row {i} of chip {chip}", row)) for i, row in enumerate(rows)) for chip, rows in listed}


def sources_of(what: str, row: Any) -> FrozenSet[Optional[int]]:
    """Where a row's packets come in: its `sources`, a set of numbers, and of None where it is not known."""
    found = getattr(row, "sources", None)
    if found is None:
        return frozenset()
    if not isinstance(found, Set) or any(not isinstance(it, int) or isinstance(it, bool) for it in found if it is not None):
        raise wrong(f"{what}: sources", found, "a set of the numbers of links and cores")
    return frozenset(found)


# ---- the router's own entries


def write_router_entries(tables: AnyTables) -> Dict[Chip, bytes]:
    """The bytes that SpiNNaker's system software takes to load the router of each chip (`rtr_load`): 16 for each entry, in the order of
    the rows. They are, each with its lowest byte first, the entry's place and a zero in 16 bits each, then route, key and mask in 32.
    ValueError where a chip has more than 1,024 rows."""
    found = {}
    for chip, rows in rows_by_chip(tables).items():
        if len(rows) > 1024:
            raise ValueError(f"chip {chip} has {len(rows)} rows, and a router 1,024 entries")
        found[chip] = b"".join(ENTRY.pack(i, 0, row.route, row.key, row.mask) for i, row in enumerate(rows))
    return found


def read_router_entries(entries: Mapping[Chip, bytes]) -> RowsByChip:
    """The rows that such bytes spell, as they are loaded, or read back from a board. Entries that are not in use are left out: those with
    ones in the highest byte of their route. ValueError where the bytes of a chip are no whole entries."""
    found = {}
    for chip, data in mapping("read_router_entries: entries", entries, "chips to bytes").items():
        chip = chip_of("read_router_entries: entries", chip)
        if not isinstance(data, (bytes, bytearray, memoryview)):
            raise wrong(f"read_router_entries: entries[{chip}]", data, "bytes")
        if len(data) % ENTRY.size:
            raise ValueError(f"the {len(data)} bytes of chip {chip} are no whole entries of 16 bytes")
        unpacked = [ENTRY.unpack_from(data, at) for at in range(0, len(data), ENTRY.size)]
        found[chip] = tuple(Row(key, mask, route) for _, _, route, key, mask in unpacked if route & UNUSED != UNUSED)
    return found


# ---- Rig's objects


@dataclass
class RigMachine:
    """A machine as Rig has it: a torus, of which what is not there is listed as dead."""

    width: int
    height: int
    chip_resources: Dict[Any, int] = field(default_factory=dict)
    chip_resource_exceptions: Dict[Chip, Dict[Any, int]] = field(default_factory=dict)
    dead_chips: Any = field(default_factory=set)
    dead_links: Any = field(default_factory=set)


@dataclass(eq=False)
class RigNet:
    """A net as Rig has it: two are the same only where they are one."""

    source: Any
    sinks: List[Any]
    weight: float = 1.0


class RigEntry(NamedTuple):
    """A row as Rig has it: its route is the set of the outputs, 0 to 5 for links and 6 to 23 for cores."""

    route: Any
    key: int
    mask: int


class RigEndpoint(NamedTuple):
    """A vertex that hangs on a link, or stands on a core, by its number in routes."""

    vertex: Any
    route: int


class Rig(NamedTuple):
    """A network as Rig has it."""

    machine: Any
    placements: Dict[Any, Chip]
    allocations: Dict[Any, Dict[Any, slice]]
    nets: List[Any]
    net_keys: Dict[Any, Tuple[int, int]]
    routing_tables: Dict[Chip, List[Any]]
    constraints: List[Any]


def from_rig(
    machine: Any,
    placements: Mapping[Any, Chip],
    allocations: Mapping[Any, Mapping[Any, slice]],
    nets: Iterable[Any],
    net_keys: Mapping[Any, Tuple[int, int]],
    routing_tables: Mapping[Chip, Iterable[Any]],
    constraints: Iterable[Any] = (),
    cores: Any = None,
) -> Network:
    """The network of Rig's objects, by their attributes alone; `.job()` of it is a job with the same places and keys.

    The machine has `width`, `height`, `chip_resources`, `chip_resource_exceptions`, `dead_chips` and `dead_links`; nets have `source`,
    `sinks` and `weight`; rows have `route` as a set of numbers, `key` and `mask`. Names of vertices are the objects themselves, and names
    of nets their places in the list. `cores` is the key for cores among resources; where it is None, it is the one that shows itself as
    `Cores`. A vertex with several cores becomes as many, named (vertex, 0), (vertex, 1) and so on, all of them targets where the vertex is
    a sink. Of constraints those count that have a `vertex` and a `route`: the vertex hangs on that link, or stands on that core. A link
    that Rig lists as dead at one of its ends is dead from both. A vertex without cores has no place. ValueError where a net names one, or
    has no keys."""
    places: Dict[Any, Place] = {}
    names: Dict[Any, List[Any]] = {}
    endpoints = endpoints_of(constraints)
    allocated = mapping("from_rig: allocations", allocations, "vertices to their resources")
    for vertex, chip in mapping("from_rig: placements", placements, "vertices to chips").items():
        x, y = numbers(f"from_rig: placements[{shown(vertex)}]", chip, "x y")
        if vertex in endpoints:
            route = endpoints[vertex]
            places[vertex] = (x, y, LINKS[route] if route < 6 else route - 6)
            names[vertex] = [vertex]
            continue
        what = f"from_rig: allocations[{shown(vertex)}]"
        resources = mapping(what, allocated.get(vertex, {}), "resources to slices")
        ranges = [cores_in(what, it) for key, it in resources.items() if is_cores(key, cores)]
        if len(ranges) != 1 or not ranges[0]:
            continue
        names[vertex] = [vertex] if len(ranges[0]) == 1 else [(vertex, i) for i in range(len(ranges[0]))]
        places.update({name: (x, y, core) for name, core in zip(names[vertex], ranges[0])})
    found, keys = [], mapping("from_rig: net_keys", net_keys, "nets to keys and masks")
    for i, net in enumerate(items("from_rig: nets", nets, "a list of nets")):
        what = f"from_rig: nets[{i}]"
        source, sinks = attribute_of(what, net, "source"), items(f"{what}.sinks", attribute_of(what, net, "sinks"), "a list of vertices")
        for vertex in (source, *sinks):
            if hashable(what, vertex) not in names:
                raise ValueError(f"vertex {vertex!r} of net {i} has no cores")
        if hashable(what, net) not in keys:
            raise ValueError(f"net {i} has no keys")
        key, mask = numbers(f"from_rig: net_keys of net {i}", keys[net], "key mask")
        found.append(KeyedNet(i, names[source][0], [name for it in sinks for name in names[it]], [(key, mask)]))
    return Network(machine_of_rig(machine, cores), places, found, tables_of_rig(routing_tables))


def tables_of_rig(routing_tables: Mapping[Chip, Iterable[Any]]) -> Dict[Chip, Sequence[Row]]:
    """The rows of Rig's tables, by chip."""
    what = "from_rig: routing_tables"
    found: Dict[Chip, Sequence[Row]] = {}
    for given, listed in mapping(what, routing_tables, "chips to rows").items():
        chip = chip_of(what, given)
        found[chip] = tuple(row_of_rig(f"{what}[{chip}][{i}]", row) for i, row in enumerate(items(f"{what}[{chip}]", listed, "a list of rows")))
    return found


def row_of_rig(what: str, row: Any) -> Row:
    """A row of Rig's: its route is a set of outputs."""
    route = attribute_of(what, row, "route")
    if isinstance(route, (str, bytes, Mapping)) or not isinstance(route, IterableAbc):
        raise wrong(f"{what}.route", route, "a set of the numbers of outputs, 0 to 23")
    key, mask = (whole(f"{what}.{name}", attribute_of(what, row, name)) for name in ("key", "mask"))
    words = key, mask, word_of({output(f"{what}.route", it) for it in route})
    sources = sources_of(what, row)
    return SourcedRow(*words, sources) if sources else Row(*words)


def output(what: str, value: Any) -> int:
    """The number of an output."""
    found = whole(what, value)
    if found not in range(24):
        raise ValueError(f"{what} has the output {found}, and those of a router are 0 to 23")
    return found


def endpoints_of(constraints: Iterable[Any]) -> Dict[Any, int]:
    """The outputs of vertices that hang on a link or stand on a core, by Rig's constraints."""
    found: Dict[Any, int] = {}
    for i, it in enumerate(items("from_rig: constraints", constraints, "a list of constraints")):
        if hasattr(it, "vertex") and hasattr(it, "route"):
            what = f"from_rig: constraints[{i}]"
            found[hashable(f"{what}.vertex", it.vertex)] = output(f"{what}.route", it.route)
    return found


def cores_in(what: str, ranges: Any) -> range:
    """The cores of a slice, which has both its ends, and goes from core to core."""
    if not isinstance(ranges, slice):
        raise wrong(what, ranges, "a slice of cores")
    start, stop = whole(f"{what}.start", ranges.start), whole(f"{what}.stop", ranges.stop)
    if ranges.step not in (None, 1) or start < 0:
        raise ValueError(f"{what} is {shown(ranges)}, and should be a slice of cores from 0 on, one by one")
    return range(start, min(stop, start + MOST_CORES))


def is_cores(key: Any, cores: Any) -> bool:
    """Whether a key of resources is that for cores."""
    return bool(key == cores) if cores is not None else str(key).strip("<>") == "Cores"


def resources_of(what: str, value: Any, cores: Any, usual: int) -> int:
    """How many cores resources have: those of their key for cores, else as many as usual."""
    found = [it for key, it in mapping(what, value, "resources to numbers").items() if is_cores(key, cores)]
    return max(whole(f"{what}: cores", found[0]), 0) if found else usual


def machine_of_rig(machine: Any, cores: Any = None) -> Machine:
    """The machine of one of Rig's: without wrap where no live link goes round the edge."""
    what = "from_rig: machine"
    width, height = (whole(f"{what}.{name}", attribute_of(what, machine, name)) for name in ("width", "height"))
    if not (1 <= width <= SIDE and 1 <= height <= SIDE):
        raise ValueError(f"{what} has {width} by {height} chips, and 1 by 1 to {SIDE} by {SIDE} can be told")
    usual = resources_of(f"{what}.chip_resources", attribute_of(what, machine, "chip_resources"), cores, 18)
    exceptions = mapping(f"{what}.chip_resource_exceptions", getattr(machine, "chip_resource_exceptions", None) or {}, "chips to resources")
    dead_cores = []
    for x in range(width):
        for y in range(height):
            count = resources_of(f"{what}.chip_resource_exceptions[{x, y}]", exceptions.get((x, y), {}), cores, usual)
            dead_cores += [(x, y, core) for core in range(count, 18)]
    chips = sorted((x, y) for x, y in lists_of_numbers(f"{what}.dead_chips", in_order(attribute_of(what, machine, "dead_chips")), "x y"))
    links = sorted(links_in(f"{what}.dead_links", in_order(attribute_of(what, machine, "dead_links"))))
    return machine_round(width, height, chips, dead_cores, links)


def machine_round(width: int, height: int, chips: Sequence[Chip], dead_cores: Sequence[Spot], links: Sequence[Tuple[int, int, int]]) -> Machine:
    """A torus with these dead chips, cores and links; without wrap where no live link goes round the edge."""
    torus = Machine(width, height, True, None, chips, dead_cores, links)
    grid, round_the_edge = Grid(torus), set(links_round_the_edge(width, height))
    if any(grid.next_chip((x, y), link) is not None for x, y, link in round_the_edge):
        return torus
    return Machine(width, height, False, None, chips, dead_cores, [it for it in links if it not in round_the_edge])


def in_order(value: Any) -> Any:
    """A set as a list."""
    return list(value) if isinstance(value, Set) else value


def links_round_the_edge(width: int, height: int) -> List[Tuple[int, int, int]]:
    """The links of a torus that a grid of this size has not."""
    chips = [(x, y) for x in range(width) for y in range(height)]
    return [(x, y, d) for x, y in chips for d, (a, b) in enumerate(STEPS) if not (0 <= x + a < width and 0 <= y + b < height)]


def to_rig(
    network: Network,
    cores: Any = "Cores",
    machine: Callable[..., Any] = RigMachine,
    net: Callable[..., Any] = RigNet,
    entry: Callable[..., Any] = RigEntry,
    endpoint: Callable[..., Any] = RigEndpoint,
) -> Rig:
    """A network as Rig has it. `cores` is the key for cores among resources, and the others make the objects, with the arguments that
    Rig's own classes take: `to_rig(network, Cores, Machine, Net, RoutingTableEntry, RouteEndpointConstraint)`. ValueError where a net has
    several blocks of keys, which Rig's have not."""
    part = one("to_rig: network", network, Network).machine
    network.spots()
    dead_links = {tuple(it) for it in part.dead_links}
    dead_links |= {(*far, opposite(d)) for x, y, d in dead_links for far in [Grid(part).far((x, y), d)] if far}
    if not part.wrap:
        dead_links |= set(links_round_the_edge(part.width, part.height))
    least: Dict[Chip, int] = {}
    for x, y, core in part.dead_cores:
        least[x, y] = min(core, least.get((x, y), 18))
    dead_cores = {tuple(it) for it in part.dead_cores}
    for (x, y), core in least.items():
        if any((x, y, it) not in dead_cores for it in range(core, 18)):
            raise ValueError(f"core {core} of chip ({x}, {y}) is dead, and one behind it is not: of Rig's chips the last cores are missing")
    exceptions = {chip: {cores: core} for chip, core in least.items()}
    made = machine(part.width, part.height, {cores: 18}, exceptions, {tuple(it) for it in part.dead_chips}, dead_links)
    placements: Dict[Any, Chip] = {}
    allocations: Dict[Any, Dict[Any, slice]] = {}
    constraints = []
    for name, place in network.places.items():
        x, y, number = number_of(name, place)
        placements[name] = x, y
        if number >= DEVICES:
            constraints.append(endpoint(name, number - DEVICES))
            allocations[name] = {}
        else:
            allocations[name] = {cores: slice(number, number + 1)}
    nets: List[Any] = []
    net_keys: Dict[Any, Tuple[int, int]] = {}
    for it in network.nets:
        if len(it.blocks) != 1:
            raise ValueError(f"net {it.name!r} has {len(it.blocks)} blocks of keys, and Rig's nets have one")
        nets.append(net(it.source, list(it.targets), 1.0))
        key, mask = it.blocks[0]
        net_keys[nets[-1]] = key, mask
    tables = {
        chip: [entry({out for out in range(24) if row.route >> out & 1}, row.key, row.mask) for row in rows]
        for chip, rows in rows_by_chip(network.tables).items()
    }
    return Rig(made, placements, allocations, nets, net_keys, tables, constraints)


# ---- rows as text


DIGITS, NUMBER = re.compile(r"[0-9a-fA-F]+"), re.compile(r"[0-9]+|0[xX][0-9a-fA-F]+")


@functools.lru_cache(maxsize=1 << 16)
def number_in(text: str, least_base: int = 10) -> int:
    """A number of digits, or of 0x and hexadecimal digits. ValueError where it is none."""
    if least_base == 16 and DIGITS.fullmatch(text):
        return int(text, 16)
    if NUMBER.fullmatch(text):
        return int(text, 16 if text[1:2] in ("x", "X") else 10)
    raise ValueError(f"no number: {text!r}")


def link_in(text: str) -> int:
    """The number of a link. ValueError where it is none."""
    found = number_in(text)
    if found not in range(6):
        raise ValueError(f"the source {found} is no link, 0 to 5")
    return found


def read_rows(text: str) -> RowsByChip:
    """Rows of text, in the order of its lines: what the program's `tables` writes, or a report, where it begins with one of their words;
    the JSON of SpiNNTools where it begins with `[` (`spinntools.read_tables`); comma-separated values where the first line has a comma; else a dump. ValueError, with the line, where it is none of that kind."""
    start = text_of("read_rows: text", text).lstrip().splitlines()[:1] or [""]
    if start[0].partition(" ")[0] in SECTIONS:
        return {chip: table.rows for chip, table in read(text).plan.tables.items()}
    if start[0].startswith("["):
        from .spinntools import read_tables

        return read_tables(text)
    return read_csv(text) if "," in start[0] else read_dump(text)


def read_csv(text: str) -> RowsByChip:
    """Rows of comma-separated values, below a line with the names x, y, key, mask and route in any order, and perhaps source, the link by
    which all packets of a row come in, 0 to 5, or nothing. Numbers are decimal, or hexadecimal behind 0x. ValueError where the names are
    others or a line has no such numbers."""
    lines = lines_of_csv(text)
    names: Sequence[str] = next(lines, ())
    if sorted(names) not in (sorted(COLUMNS), sorted((*COLUMNS, SOURCE))):
        raise ValueError(f"the first line names {', '.join(names) or 'nothing'}, and not {', '.join(COLUMNS)}")
    return rows_of(((i, line) for i, line in enumerate(lines, 1) if line), names, 10)


def lines_of_csv(text: str) -> Iterator[List[str]]:
    """The items of each line, which may end with a carriage return, a line feed, or both. They are given one by one, so that not all of
    them stand in memory at once."""
    reader = csv.reader(io.StringIO(text_of("read_csv: text", text), newline=None), skipinitialspace=True, strict=True)
    try:
        for line in reader:
            yield [it.strip() for it in line]
    except csv.Error as error:
        raise ValueError(f"line {reader.line_num}: {error}") from None


def read_dump(text: str) -> RowsByChip:
    """Rows of a dump: a line for each, with the chip in decimal numbers and then key, mask and route in hexadecimal digits. ValueError
    where a line has no such numbers."""
    lines = ((i, line.split()) for i, line in enumerate(text_of("read_dump: text", text).splitlines()))
    return rows_of(((i, line) for i, line in lines if line), COLUMNS, 16)


def rows_of(lines: Iterable[Tuple[int, Sequence[str]]], names: Sequence[str], base: int) -> RowsByChip:
    """The rows of lines: each with its place, and its items in the order of the names."""
    found: Dict[Chip, List[Row]] = {}
    places = [names.index(name) for name in COLUMNS]
    source = names.index(SOURCE) if SOURCE in names else None
    for i, line in lines:
        try:
            if len(line) != len(names):
                raise ValueError(f"{len(line)} items, and not {len(names)}")
            x, y, key, mask, route = [line[place] for place in places]
            chip = number_in(x), number_in(y)
            row = Row(number_in(key, base), number_in(mask, base), number_in(route, base))
            if source is not None and line[source]:
                row = SourcedRow(row.key, row.mask, row.route, frozenset({link_in(line[source])}))
        except ValueError as error:
            raise ValueError(f"line {i + 1}: {error}") from None
        found.setdefault(chip, []).append(row)
    return {chip: tuple(rows) for chip, rows in found.items()}


def write_csv(tables: AnyTables) -> str:
    """Rows as comma-separated values, with keys, masks and routes in hexadecimal."""
    lines = [",".join(COLUMNS)]
    lines += [f"{x},{y},0x{it.key:08x},0x{it.mask:08x},0x{it.route:06x}" for (x, y), rows in rows_by_chip(tables).items() for it in rows]
    return "\n".join([*lines, ""])


def write_dump(tables: AnyTables) -> str:
    """Rows as a dump."""
    return "".join(f"{x} {y} {it.key:08x} {it.mask:08x} {it.route:06x}\n" for (x, y), rows in rows_by_chip(tables).items() for it in rows)


# ---- networks as JSON


def read_network(text: str) -> Network:
    """The network that JSON text has. It is an object with these members:

    - `machine`: as in a job;
    - `places`: an object that has, by the names of vertices, [x, y, core], or [x, y, "N"] for a device on that link;
    - `nets`: a list of objects with `name`, `source`, `targets`, and either `blocks`, a list of [key, mask], or `first` and `count`;
    - `trees`, which may be absent: an object that has, by the names of nets, lists of links [x, y, link].

    Keys and masks are numbers, or text as "0x1000". ValueError says of other text where it is none."""
    whole = json_in("read_network: text", text, once)
    members(whole, "", ("machine", "places", "nets"), ("trees",))
    part = whole["machine"]
    names = ("width", "height", "wrap", "sdram", "dead_chips", "dead_cores", "dead_links")
    members(part, "machine", names[:2], names[2:])
    lists: List[List[Any]] = [[tuple(it) for it in listed(part.get(name), f"machine.{name}", (list,))] for name in names[4:]]
    wrap = part.get("wrap")
    try:
        machine = Machine(part["width"], part["height"], False if wrap is None else wrap, part.get("sdram"), lists[0], lists[1], lists[2])
    except TypeError as error:
        raise ValueError(str(error)) from None
    members(whole["places"], "places", (), None)
    places: Dict[Any, Place] = {}
    for name, it in whole["places"].items():
        x, y, number = listed(it, f"places.{name}", (int, str), 3)
        places[name] = (x, y, number)
    nets = [net_of(it, f"nets[{i}]") for i, it in enumerate(listed(whole["nets"], "nets", (dict,)))]
    trees = whole.get("trees") or {}
    members(trees, "trees", (), None)
    return Network(machine, places, nets, {}, {name: links_of_text(links, f"trees.{name}") for name, links in trees.items()})


def once(pairs: List[Tuple[str, Any]]) -> Dict[str, Any]:
    """The members of an object. ValueError where one stands twice."""
    found: Dict[str, Any] = {}
    for name, value in pairs:
        if name in found:
            raise ValueError(f"the member {name} stands twice in one object")
        found[name] = value
    return found


def links_of_text(value: Any, path: str) -> List[Tuple[int, int, int]]:
    """The links that a JSON value has."""
    try:
        return links_in(path, listed(value, path, (list,)))
    except TypeError as error:
        raise ValueError(str(error)) from None


def net_of(part: Any, path: str) -> KeyedNet:
    """The net that a JSON value has."""
    members(part, path, ("name", "source", "targets"), ("blocks", "first", "count"))
    if not all(isinstance(part[name], str) for name in ("name", "source")):
        raise ValueError(f"{path}: name and source are texts")
    name, source, targets = part["name"], part["source"], listed(part["targets"], f"{path}.targets", (str,))
    if ("blocks" in part) == ("first" in part) or ("first" in part) != ("count" in part):
        raise ValueError(f"{path} has either blocks, or first and count")
    if "first" in part:
        return KeyedNet.counted(name, source, targets, word_in(part["first"], f"{path}.first"), word_in(part["count"], f"{path}.count"))
    blocks = [listed(it, f"{path}.blocks", (int, str), 2) for it in listed(part["blocks"], f"{path}.blocks", (list,))]
    return KeyedNet(name, source, targets, [(word_in(key, f"{path}.blocks"), word_in(mask, f"{path}.blocks")) for key, mask in blocks])


def word_in(value: Any, path: str) -> int:
    """A number, or one as text."""
    if isinstance(value, int) and not isinstance(value, bool):
        return value
    try:
        return number_in(str(value))
    except ValueError:
        raise ValueError(f"{path}: no number: {value!r}") from None


def members(part: Any, path: str, needed: Sequence[str], others: Optional[Sequence[str]]) -> None:
    """ValueError where a value is no object, lacks a member, or has one that is neither needed nor among the others; None stands for
    any."""
    where = path or "the network"
    if not isinstance(part, dict):
        raise ValueError(f"{where} is no object")
    for name in needed:
        if name not in part:
            raise ValueError(f"{where} has no {name}")
    for name in part:
        if others is not None and name not in (*needed, *others):
            raise ValueError(f"{where} has a member {name}, which is none of {', '.join((*needed, *others))}")


def listed(value: Any, path: str, kinds: Tuple[type, ...], count: Optional[int] = None) -> List[Any]:
    """A list of values of these kinds, and of so many; where it is absent and any number will do, an empty one."""
    if value is None and count is None:
        return []
    if not isinstance(value, list) or (count is not None and len(value) != count):
        raise ValueError(f"{path} is no list" + ("" if count is None else f" of {count}"))
    if not all(isinstance(it, kinds) and not isinstance(it, bool) for it in value):
        raise ValueError(f"{path} has an item of another kind: {value!r}")
    return value


def write_network(network: Network) -> str:
    """A network as JSON text, without its tables."""
    nets: List[Dict[str, Any]] = []
    one("write_network: network", network, Network)
    network.spots()
    for name in (*network.places, *(it.name for it in network.nets), *network.trees):
        text_of("write_network: a name", name)
    for it in network.nets:
        blocks = [[f"0x{key:08x}", f"0x{mask:08x}"] for key, mask in it.blocks]
        nets.append({"name": it.name, "source": it.source, "targets": list(it.targets), "blocks": blocks})
    places = {name: list(place) for name, place in network.places.items()}
    whole: Dict[str, Any] = {"machine": network.machine.as_json(), "places": places, "nets": nets}
    if network.trees:
        whole["trees"] = {name: [list(it) for it in links_in(f"Network.trees[{name!r}]", links)] for name, links in network.trees.items()}
    return json.dumps(whole)
