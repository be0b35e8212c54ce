"""The way of one key over tables, visit by visit, with the row that takes it at each."""
from __future__ import annotations

from functools import lru_cache
from typing import Iterable, List, Mapping, NamedTuple, Optional, Sequence, Set, Tuple

from .grid import Grid, opposite
from .jobs import Chip
from .reports import Row
from .trees import Link, Lookup

# A router's ports are numbered as its links, and this is the one of its own cores.
LOCAL = 6
# By port the links by which packets go straight on: those of a chip's own cores do not.
STRAIGHT_ON: Sequence[Tuple[int, ...]] = [*((opposite(link),) for link in range(6)), ()]
NO_ROWS: Lookup = {}


class Visit(NamedTuple):
    """A packet at a chip: the port at which it came in, the place of the row that takes it (None: default routing), the links by
    which it leaves, by number, and the cores that get it."""

    chip: Chip
    port: int
    row: Optional[int]
    links: Tuple[int, ...]
    cores: Tuple[int, ...]


def row_of(lookup: Lookup, key: int) -> Optional[Tuple[int, Row]]:
    """The first row that matches a key, with its place: None where none does."""
    found = None
    for mask, rows in lookup.items():
        match = rows.get(key & mask)
        if match is not None and (found is None or match[0] < found[0]):
            found = match
    return found


def visit(looks: Mapping[Chip, Lookup], chip: Chip, port: int, key: int) -> Visit:
    """What the router of a chip does with a packet that comes in at a port."""
    found = row_of(looks.get(chip, NO_ROWS), key)
    return Visit(chip, port, None, STRAIGHT_ON[port], ()) if found is None else Visit(chip, port, found[0], *outputs_of(found[1].route))


@lru_cache(maxsize=4096)
def outputs_of(route: int) -> Tuple[Tuple[int, ...], Tuple[int, ...]]:
    """The links and the cores of a route, by number."""
    return tuple(link for link in range(6) if route >> link & 1), tuple(core for core in range(18) if route >> (6 + core) & 1)


def walk(grid: Grid, looks: Mapping[Chip, Lookup], key: int, chip: Chip, port: int = LOCAL) -> List[Visit]:
    """The visits of a packet with this key that comes in at this port of this chip, each branch as a whole, in the order of the links.
    A visit at the same port of the same chip is told once, though packets may go in a circle."""
    visits: List[Visit] = []
    seen: Set[Tuple[Chip, int]] = set()
    ahead = [(chip, port)]
    # (a large page has hundreds of thousands of visits, so the way straight on is gone in a loop of its own)
    lookup_at, ends_at, note, made = looks.get, grid.ends_of, visits.append, tuple.__new__
    while ahead:
        asked: Optional[Tuple[Chip, int]] = ahead.pop()
        while asked is not None and asked not in seen:
            seen.add(asked)
            at, came = asked
            lookup = lookup_at(at)
            found = row_of(lookup, key) if lookup else None
            asked = None
            if found is not None:
                links, cores = outputs_of(found[1].route)
                note(Visit(at, came, found[0], links, cores))
                ends = ends_at(at)
                ahead += [(end, opposite(link)) for link in reversed(links) for end in (ends[link],) if end is not None]
            else:
                links = STRAIGHT_ON[came]
                note(made(Visit, (at, came, None, links, ())))
                end = ends_at(at)[links[0]] if links else None
                asked = None if end is None else (end, came)
    return visits


def links_behind(grid: Grid, visits: Iterable[Visit], chip: Chip, link: int) -> List[Link]:
    """Of the visits of a tree, the links that a copy does not pass which is lost as it leaves a chip by a link: that one, and all
    behind it."""
    by_chip = {it.chip: it for it in visits}
    lost: List[Link] = []
    ahead = [(chip, link)]
    while ahead:
        at, out = ahead.pop()
        lost.append((*at, out))
        end = grid.next_chip(at, out)
        if end in by_chip:
            ahead += [(end, further) for further in by_chip[end].links]
    return lost
