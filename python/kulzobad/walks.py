"""Where tables send packets: the first row that meets a block of keys, and the walk of a block from its source.

A walk follows all keys of a block at once, as long as they are sent the same way. It comes to an end of four kinds: all targets were
reached and nothing else; a row takes some of the keys and not all, by which the block has to be cut; something is amiss; or a target
was missed.
"""
from __future__ import annotations

from dataclasses import dataclass, field
from typing import AbstractSet, Dict, List, Mapping, NamedTuple, Optional, Sequence, Tuple

from .blocks import WORD, Block
from .grid import Grid, opposite
from .jobs import Chip
from .reports import LINKS
from .trees import Link

# The port by which packets come from the chip's own cores.
LOCAL = "L"
# Numbers from here on are links: 18 to 23 stand for the devices on links 0 to 5.
DEVICES = 18

# A chip's x and y, and the number of what stands there: a core, or 18 and a link.
Spot = Tuple[int, int, int]


def straight_on(source: Spot) -> int:
    """The link by which a packet goes straight on from its source: from a device the one opposite to its own, and -1 from a core."""
    return opposite(source[2] - DEVICES) if source[2] >= DEVICES else -1


def out_of(number: int) -> str:
    """The letters of an output: a link's, or `c` and a core's number."""
    return f"c{number}" if number < DEVICES else LINKS[number - DEVICES]


def distance(grid: Grid, start: Chip, end: Chip) -> int:
    """How many links a shortest walk between two chips has, as if all were live."""
    x, y = end[0] - start[0], end[1] - start[1]
    if not grid.wrap:
        return max(x, y, 0) - min(x, y, 0)
    x, y = x % grid.width, y % grid.height
    return min(max(a, b, 0) - min(a, b, 0) for a in (x, x - grid.width) for b in (y, y - grid.height))


class Row(NamedTuple):
    """A row that can match: its key, mask and route, and its place among the rows that were handed in."""

    key: int
    mask: int
    route: int
    place: int


class Finder:
    """The rows of a chip, in the order in which its router looks."""

    # So many masks of blocks are kept ready.
    MOST = 200

    def __init__(self, rows: Sequence[Row]) -> None:
        self.rows = rows
        self._looks: Dict[int, List[Tuple[int, int, Dict[int, int]]]] = {}

    def first(self, block: Block) -> Optional[Row]:
        """The first row that has a key of the block."""
        looks = self._looks.get(block.mask)
        if looks is None:
            looks = self._made(block.mask)
        key, best = block.key, len(self.rows)
        for least, care, places in looks:
            if least > best:
                break
            place = places.get(key & care, best)
            if place < best:
                best = place
        return self.rows[best] if best < len(self.rows) else None

    def _made(self, mask: int) -> List[Tuple[int, int, Dict[int, int]]]:
        """For each set of bits for which both the mask and rows care: the least place of such rows, the bits, and for the values that
        the rows want there the place of the first. The least places ascend."""
        if len(self._looks) >= self.MOST:
            self._looks.clear()
        by_care: Dict[int, Dict[int, int]] = {}
        for i, row in enumerate(self.rows):
            care = row.mask & mask
            by_care.setdefault(care, {}).setdefault(row.key & care, i)
        looks = sorted((next(iter(places.values())), care, places) for care, places in by_care.items())
        self._looks[mask] = looks
        return looks


@dataclass(frozen=True)
class Hop:
    """A chip on the way of a packet: the port by which it came in (a link's letters, or `L` for the chip's own cores), the place of
    the row that takes its key among the rows that were handed in, counted from 0, or None for default routing, and the output by
    which the way goes on. None stands there where it does not."""

    x: int
    y: int
    port: str
    row: Optional[int]
    out: Optional[str]


# The way of a packet, chip by chip.
Hops = Tuple[Hop, ...]

# What can be amiss: an output that nothing of the net stands at; a link that is not live; a chip that the packet has been at,
# to go round from there again, or to be there a second time; a target that nothing comes to; and, where all targets have theirs, a
# chip behind the first at which a row sends the packet nowhere, so that the way there leads to no target.
STRAYS, DIES, LOOPS, TWICE, MISSES, STOPS = "strays", "dies", "loops", "twice", "misses", "stops"


@dataclass
class Walk:
    """The walk of a block: the chips in the order in which it came to them, each with the place of the one before it, the link by
    which it came, and the row that took it; the links that it went over; what is amiss, if anything; and the row by which the block has
    to be cut, if any."""

    chips: List[Chip] = field(default_factory=list)
    before: List[int] = field(default_factory=list)
    came: List[int] = field(default_factory=list)
    rows: List[Optional[Row]] = field(default_factory=list)
    links: List[Link] = field(default_factory=list)
    cut: Optional[Row] = None
    fault: Optional[str] = None
    at: int = 0
    out: Optional[str] = None
    target: Optional[Spot] = None

    def way_to(self, place: int, out: Optional[str] = None) -> Hops:
        """The way to the chip at a place of the walk, which goes on there by this output."""
        found: List[Hop] = []
        while place >= 0:
            came, row = self.came[place], self.rows[place]
            port = LINKS[opposite(came)] if came >= 0 else LOCAL
            found.append(Hop(*self.chips[place], port, None if row is None else row.place, out))
            place, out = self.before[place], LINKS[came]
        return tuple(reversed(found))

    def way(self) -> Hops:
        """The way to what is amiss."""
        return self.way_to(self.at, self.out)


class Walker:
    """Walks over the tables of a machine. `standing` has the places of all vertices and devices."""

    def __init__(self, grid: Grid, rows: Mapping[Chip, Sequence[Row]], standing: AbstractSet[Spot]) -> None:
        self.grid, self.standing = grid, standing
        self._ends: Dict[Chip, Tuple[Optional[Chip], ...]] = {}
        self.finders = {chip: Finder(it) for chip, it in rows.items()}

    def ends(self, chip: Chip) -> Tuple[Optional[Chip], ...]:
        """The chip at the end of each of the six links; None where the link is not live."""
        found = self._ends.get(chip)
        if found is None:
            found = self._ends[chip] = tuple(self.grid.next_chip(chip, link) for link in range(6))
        return found

    def row(self, chip: Chip, block: Block) -> Optional[Row]:
        """The first row of a chip that has a key of the block."""
        finder = self.finders.get(chip)
        return finder.first(block) if finder else None

    def walk(self, source: Spot, targets: Sequence[Spot], block: Block) -> Walk:
        """The walk of a block from its source, chip by chip as it spreads, by links before cores and each in their order. It ends at the
        first thing that is amiss, or that makes a cut due; what misses or stops is told at the end."""
        walk, wanted, got = Walk([source[:2]], [-1], [straight_on(source)]), set(targets), set()
        seen, stop = {source[:2]: 0}, None
        for at, chip in enumerate(walk.chips):
            row = self.row(chip, block)
            if row is not None and row.mask & ~block.mask:
                walk.cut = row
                return walk
            walk.rows.append(row)
            came = walk.came[at]
            route = row.route if row is not None else 1 << came if came >= 0 else 0
            if row is not None and not route and stop is None:
                stop = at
            ends = self.ends(chip)
            while route:
                bit = (route & -route).bit_length() - 1
                route &= route - 1
                end = ends[bit] if bit < 6 else None
                if end is not None and end not in seen:
                    seen[end] = len(walk.chips)
                    walk.chips.append(end)
                    walk.before.append(at)
                    walk.came.append(bit)
                    walk.links.append((*chip, bit))
                elif end is not None:
                    return self._back(walk, at, bit, seen[end], block)
                else:
                    number = bit - 6 if bit >= 6 else DEVICES + bit
                    spot = (*chip, number)
                    if spot not in wanted:
                        walk.fault = STRAYS if bit >= 6 or spot in self.standing else DIES
                        walk.at, walk.out = at, out_of(number)
                        return walk
                    got.add(spot)
        if len(got) < len(wanted):
            self._missed(walk, next(it for it in targets if it not in got))
        elif stop is not None:
            walk.fault, walk.at = STOPS, stop
        return walk

    def _back(self, walk: Walk, at: int, link: int, end: int, block: Block) -> Walk:
        """The walk, which comes to a chip at which it has been. That chip ends the way. If the way has come from there, and a row takes the
        key there, it goes round: the row sends it the same way again."""
        place = at
        while place > end:
            place = walk.before[place]
        row = self.row(walk.chips[end], Block(block.key, WORD))
        walk.fault = LOOPS if place == end and row is not None else TWICE
        for there in range(len(walk.rows), len(walk.chips)):
            walk.rows.append(None)
        walk.chips.append(walk.chips[end])
        walk.before.append(at)
        walk.came.append(link)
        walk.rows.append(row)
        walk.at = len(walk.chips) - 1
        return walk

    def _missed(self, walk: Walk, target: Spot) -> None:
        """What is amiss: the target, and the first of the chips that come nearest to it."""
        walk.fault, walk.target = MISSES, target
        walk.at = min(range(len(walk.chips)), key=lambda place: distance(self.grid, walk.chips[place], target[:2]))
