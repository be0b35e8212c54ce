"""What the program writes, as objects."""
from __future__ import annotations

import re
from bisect import bisect
from dataclasses import dataclass, field
from typing import Dict, List, Mapping, Optional, Set, Tuple

from .kinds import BrokenAnswer, InHexadecimal, shown, whole
from .kinds import text as text_of
from .links import LINKS as LINKS

# Chips in a row or a column at most, the entries of a router, and the greatest route.
SIDE, ENTRIES, MOST_ROUTE = 64, 1024, 0xFFFFFF
# Vertices stand on cores 1 to 17. The numbers behind are devices: 18 and the number of their link.
PLACES = range(1, 24)

# What items of lines look like: numbers, names, 8 hexadecimal digits, outputs and ports.
N, NAME, HEX, OUT = r"(0|[1-9][0-9]{0,19})", r"([!-~]{1,64})", r"([0-9a-f]{8})", r"(?:E|NE|N|W|SW|S|c[0-9]|c1[0-7])"
FOUR_LINES = re.compile(rf"gen {N}\nchips {N} vertices {N} nets {N} packets {N}\nrows {N}\ndelivered {N} dumped {N}\n")
PLACE_OF_COPY = rf"(in (?:E|NE|N|W|SW|S|L)|hand {OUT}|core (?:[0-9]|1[0-9]|2[0-3]))"

# The lines of a report by their first word, in the order in which they come.
FORMS = {
    word: [re.compile(form) for form in forms]
    for word, forms in {
        "place": [rf"place {NAME} {N} {N} {N}"],
        "keys": [rf"keys {NAME} {HEX} {HEX}"],
        "table": [rf"table {N} {N} ([1-9][0-9]{{0,3}})"],
        "event": [rf"event {N} (moved|idle)"],
        "got": [rf"got {NAME} {N} {HEX} ({HEX[1:-1]}|-)"],
        "dump": [rf"dump {N} {N} ({OUT}) {N}"],
        "wait": [rf"wait {N} at {N} {N} {PLACE_OF_COPY}"],
        "end": [rf"end rows {N}", rf"end delivered {N} dumped {N} waiting {N} unsent {N}"],
    }.items()
}
SECTIONS = tuple(FORMS)
ROW = re.compile(rf"{HEX} {HEX} ([0-9a-f]{{6}})")


def links_of(route: int) -> List[str]:
    """The links that a route names: bits 0 to 5."""
    route = whole("links_of: route", route)
    return [name for bit, name in enumerate(LINKS) if route >> bit & 1]


def cores_of(route: int) -> List[int]:
    """The cores that a route names: bits 6 to 23."""
    route = whole("cores_of: route", route)
    return [core for core in range(18) if route >> (6 + core) & 1]


@dataclass(frozen=True)
class Place:
    """Where a vertex stands."""

    vertex: str
    x: int
    y: int
    core: int


@dataclass(frozen=True, repr=False)
class Keys(InHexadecimal):
    """A net's block of keys: those whose bits under the mask are `key`."""

    net: str
    key: int
    mask: int


@dataclass(frozen=True, repr=False)
class Row(InHexadecimal):
    """An entry of a router's table."""

    key: int
    mask: int
    route: int


@dataclass(frozen=True)
class Table:
    """The table of a chip, in the order in which a router looks."""

    x: int
    y: int
    rows: Tuple[Row, ...]


@dataclass(frozen=True, repr=False)
class Delivery(InHexadecimal):
    """A copy of a packet, by the packet's place in the job's list, that reached a vertex."""

    vertex: str
    packet: int
    key: int
    payload: Optional[int]


@dataclass(frozen=True)
class Dump:
    """A copy that was dropped at an output of a chip: a link, or `c` and a core's number."""

    x: int
    y: int
    out: str
    packet: int


@dataclass(frozen=True)
class Wait:
    """A copy that waits: `in` and a port, `hand` and an output, or `core` and a core's number."""

    packet: int
    x: int
    y: int
    kind: str
    at: str


@dataclass
class Plan:
    """Placements by vertex, keys by net, and tables by chip."""

    places: Dict[str, Place] = field(default_factory=dict)
    keys: Dict[str, Keys] = field(default_factory=dict)
    tables: Dict[Tuple[int, int], Table] = field(default_factory=dict)

    @property
    def rows(self) -> int:
        """The number of rows of all tables."""
        return sum(len(table.rows) for table in self.tables.values())


@dataclass
class Report:
    """A plan, of a trace whether each event moved something, and what became of the packets."""

    plan: Plan = field(default_factory=Plan)
    moved: List[bool] = field(default_factory=list)
    deliveries: List[Delivery] = field(default_factory=list)
    dumps: List[Dump] = field(default_factory=list)
    waiting: List[Wait] = field(default_factory=list)
    unsent: int = 0


@dataclass(frozen=True)
class Summary:
    """What the program writes of a job that it makes of a number and runs: the number; how many live chips, vertices, nets and
    packets the job has; how many rows its tables have together; and how many copies were delivered and dumped."""

    number: int
    chips: int
    vertices: int
    nets: int
    packets: int
    rows: int
    delivered: int
    dumped: int


def read_summary(text: str) -> Summary:
    """Reads the four lines of a generated job."""
    found = FOUR_LINES.fullmatch(text)
    if not found:
        raise BrokenAnswer(f"no four lines of a generated job: {shown(text, 200)}")
    return Summary(*map(int, found.groups()))


# The order of lines of copies: that of packets first.
Order = Tuple[int, ...]


def number_of_output(out: str) -> int:
    """The place of an output among all, links before cores; a port has that of its link, and `L` stands behind them."""
    return LINKS.index(out) if out in LINKS else len(LINKS) + int(out.lstrip("cL") or 0)


class Reading:
    """The lines of a report, read one by one. Each fault is a ValueError that names the line."""

    def __init__(self, text: str) -> None:
        *self.lines, rest = text.split("\n")
        self.at = 0
        self.section = 0
        self.found = Report()
        # The places that vertices have, each vertex's place in the list, and the blocks of keys by their first and last.
        self.taken: Set[Tuple[int, int, int]] = set()
        self.listed: Dict[str, int] = {}
        self.blocks: List[Tuple[int, int]] = []
        # Where the line before stands in the order of its kind.
        self.order: Order = ()
        if rest:
            self.at = len(self.lines) + 1
            raise self.wrong(rest, "it has no end")
        if not self.lines:
            raise BrokenAnswer("line 1: nothing is there, and a report ends with a line `end ..`")

    def wrong(self, line: str, why: str) -> BrokenAnswer:
        """The error of the line that was read last."""
        return BrokenAnswer(f"line {self.at} is {shown(line)}: {why}")

    def next(self) -> str:
        """The next line, which has to be there."""
        if self.at == len(self.lines):
            raise BrokenAnswer(f"line {self.at + 1} is not there: the report was cut off behind {shown(self.lines[-1])}")
        self.at += 1
        return self.lines[self.at - 1]

    def whole(self) -> Report:
        """The report that all lines are."""
        ended = False
        while not ended:
            line = self.next()
            word = line.split(" ", 1)[0]
            if word not in SECTIONS:
                raise self.wrong(line, "no line of a report begins so")
            if SECTIONS.index(word) < self.section:
                raise self.wrong(line, f"it comes behind a line of {SECTIONS[self.section]}")
            if SECTIONS.index(word) > self.section:
                self.section, self.order = SECTIONS.index(word), ()
            items = next((made for made in (form.fullmatch(line) for form in FORMS[word]) if made), None)
            if items is None:
                raise self.wrong(line, f"a line of {word} has another form")
            ended = self.take(word, line, items.groups())
        if self.at < len(self.lines):
            line = self.next()
            raise self.wrong(line, "it comes behind the last line of a report")
        return self.found

    def take(self, word: str, line: str, items: Tuple[str, ...]) -> bool:
        """Takes a line, and says whether it is the last."""
        found = self.found
        if word == "place":
            self.place(line, *items)
        elif word == "keys":
            self.keys(line, items[0], int(items[1], 16), int(items[2], 16))
        elif word == "table":
            self.table(line, *map(int, items))
        elif word == "event":
            found.moved.append(items[1] == "moved")
            if int(items[0]) != len(found.moved):
                raise self.wrong(line, f"it should be event {len(found.moved)}")
        elif word == "got":
            self.got(line, *items)
        elif word == "dump":
            record = Dump(self.chip(line, items[0], items[1])[0], int(items[1]), items[2], int(items[3]))
            self.in_order(word, line, (record.packet, record.x, record.y, number_of_output(record.out)))
            found.dumps.append(record)
        elif word == "wait":
            self.wait(line, *items)
        else:
            self.end(line, tuple(map(int, items)))
        return word == "end"

    def chip(self, line: str, x: str, y: str) -> Tuple[int, int]:
        """A chip, which some machine has to have."""
        if int(x) >= SIDE or int(y) >= SIDE:
            raise self.wrong(line, f"no machine has a chip ({x}, {y})")
        return int(x), int(y)

    def in_order(self, word: str, line: str, order: Order) -> None:
        """A line of a copy comes behind those that go before it in their order, and no line stands twice."""
        if self.order and order <= self.order:
            raise self.wrong(line, f"it does not come after the line of {word} before it")
        self.order = order

    def once(self, name: str, named: Mapping[str, object], line: str) -> None:
        """A name stands in one line alone."""
        if name in named:
            raise self.wrong(line, "the name stands in a line before it")

    def place(self, line: str, name: str, x: str, y: str, number: str) -> None:
        """Where a vertex stands: on a core, or as a device on a link, and nothing else there."""
        self.once(name, self.listed, line)
        spot = (*self.chip(line, x, y), int(number))
        if spot[2] not in PLACES:
            raise self.wrong(line, "vertices stand on cores 1 to 17, and devices at 18 to 23")
        if spot in self.taken:
            raise self.wrong(line, "a vertex of a line before it stands there")
        self.taken.add(spot)
        self.listed[name] = len(self.listed)
        self.found.plan.places[name] = Place(name, *spot)

    def keys(self, line: str, name: str, key: int, mask: int) -> None:
        """A net's keys: a block under ones followed by zeros, of which no other net has a key."""
        plan = self.found.plan
        self.once(name, plan.keys, line)
        size = 2**32 - mask
        if size & size - 1 or not size:
            raise self.wrong(line, "the mask is not ones followed by zeros")
        if key & ~mask:
            raise self.wrong(line, "the key has a bit outside the mask")
        at = bisect(self.blocks, (key, 2**32))
        if (at and self.blocks[at - 1][1] >= key) or (at < len(self.blocks) and self.blocks[at][0] < key + size):
            raise self.wrong(line, "a net of a line before it has some of these keys")
        self.blocks.insert(at, (key, key + size - 1))
        plan.keys[name] = Keys(name, key, mask)

    def table(self, line: str, x: int, y: int, count: int) -> None:
        """The table of a chip, which comes behind those before it."""
        tables = self.found.plan.tables
        chip = self.chip(line, str(x), str(y))
        if tables and next(reversed(tables)) >= chip:
            raise self.wrong(line, "the chip does not come after the one before it")
        if count > ENTRIES:
            raise self.wrong(line, f"a router has {ENTRIES:,} entries")
        tables[chip] = Table(x, y, tuple(self.row() for _ in range(count)))

    def row(self) -> Row:
        """A row of a table."""
        line = self.next()
        items = ROW.fullmatch(line)
        if items is None:
            raise self.wrong(line, "it is no row, and the table has more rows")
        row = Row(*(int(it, 16) for it in items.groups()))
        if row.key & ~row.mask:
            raise self.wrong(line, "the key has a bit outside the mask")
        if not row.route:
            raise self.wrong(line, "the route is 0, and no row of the program sends nowhere")
        return row

    def got(self, line: str, name: str, packet: str, key: str, payload: str) -> None:
        """A copy that arrived at a vertex."""
        if name not in self.listed:
            raise self.wrong(line, "no line of place has this vertex")
        self.in_order("got", line, (int(packet), self.listed[name]))
        at = bisect(self.blocks, (int(key, 16), 2**32))
        if not at or self.blocks[at - 1][1] < int(key, 16):
            raise self.wrong(line, "no net has this key")
        self.found.deliveries.append(Delivery(name, int(packet), int(key, 16), None if payload == "-" else int(payload, 16)))

    def wait(self, line: str, packet: str, x: str, y: str, place: str) -> None:
        """A copy that waits."""
        kind, at = place.split(" ")
        chip = self.chip(line, x, y)
        if kind == "core" and (*chip, int(at)) not in self.taken:
            raise self.wrong(line, "no vertex stands there")
        number = int(at) if kind == "core" else number_of_output(at)
        self.in_order("wait", line, (int(packet), *chip, ("in", "hand", "core").index(kind), number))
        self.found.waiting.append(Wait(int(packet), *chip, kind, at))

    def end(self, line: str, counts: Tuple[int, ...]) -> None:
        """The last line, whose numbers have to be those of the lines before it."""
        found = self.found
        if len(counts) == 1:
            if found.moved or found.deliveries or found.dumps or found.waiting:
                raise self.wrong(line, "so ends the text of tables, which has no lines of copies or events")
            wanted: Tuple[int, ...] = (found.plan.rows,)
        else:
            found.unsent = counts[3]
            wanted = (len(found.deliveries), len(found.dumps), len(found.waiting), found.unsent)
        if counts != wanted:
            raise self.wrong(line, f"before it are {', '.join(map(str, wanted[:3]))}")


def read(text: str) -> Report:
    """Reads a report, or the text of `tables`, which has a plan alone. ValueError, with the line, where it is not whole: it was cut
    off, its last line has other numbers than there are lines, or a line has not the form or the place that it has in a report."""
    return Reading(text_of("read: text", text)).whole()
