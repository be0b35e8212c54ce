"""The trees of a job's nets, as `check` takes them.

The program writes the rows that are loaded, and no trees. A net's tree is found by following its packets from the source over
these rows: a router sends them as the first row that matches says, and straight on where none does. The tables are proved to
route each key at each chip of its net's tree as the tree wants, also where rows were joined or left out, so these ways are it.
"""
from __future__ import annotations

from dataclasses import dataclass, replace
from typing import Dict, Iterator, List, Mapping, Optional, Tuple

from .grid import Grid, link_of
from .jobs import Chip, Job, Net
from .kinds import one
from .program import Refused, tables
from .progress import several
from .reports import Plan, Row, Table, cores_of, links_of

# A step of a tree: a chip's x and y, and the link by which packets leave it.
Link = Tuple[int, int, int]

# By mask and key, the place and the row of each first row that has them.
Lookup = Dict[int, Dict[int, Tuple[int, Row]]]

TABLE_LONG = 8
MOST_ROWS = 1024


@dataclass(frozen=True)
class Way:
    """How packets of a net leave a chip: the links and the cores, and whether a row says so; else they go straight on."""

    links: Tuple[int, ...]
    cores: Tuple[int, ...]
    is_row: bool


def lookups(tables_of: Mapping[Chip, Table]) -> Dict[Chip, Lookup]:
    """Of each table its rows by mask and key, each with its place, so that a lookup takes as many steps as there are masks."""
    found: Dict[Chip, Lookup] = {}
    for chip, table in tables_of.items():
        by_mask = found.setdefault(chip, {})
        for place, row in enumerate(table.rows):
            by_mask.setdefault(row.mask, {}).setdefault(row.key, (place, row))
    return found


def route_of(lookup: Lookup, key: int) -> Optional[int]:
    """The route of the first row that matches a key; None where none does."""
    matches = [rows[key & mask] for mask, rows in lookup.items() if key & mask in rows]
    return min(matches, key=lambda match: match[0])[1].route if matches else None


def ways(grid: Grid, looks: Mapping[Chip, Lookup], key: int, root: Chip) -> Dict[Chip, Way]:
    """The chips that packets with this key come to from the root, in the order of a walk, each with how they leave it."""
    found: Dict[Chip, Way] = {}
    ahead: List[Tuple[Chip, Optional[int]]] = [(root, None)]
    while ahead:
        chip, came = ahead.pop()
        if chip in found:
            continue
        route = route_of(looks.get(chip, {}), key)
        if route is None:
            found[chip] = Way(() if came is None else (came,), (), False)
        else:
            found[chip] = Way(tuple(map(link_of, links_of(route))), tuple(cores_of(route)), True)
        for link in reversed(found[chip].links):
            end = grid.next_chip(chip, link)
            if end is not None:
                ahead.append((end, link))
    return found


def root_of(plan: Plan, net: Net) -> Chip:
    """The chip of a net's source."""
    place = plan.places[net.source]
    return place.x, place.y


def ways_of_nets(job: Job, plan: Plan) -> Iterator[Tuple[Net, Dict[Chip, Way]]]:
    """Each net of a job with its ways by the plan's tables, in the order of the list."""
    grid, looks = Grid(job.machine), lookups(plan.tables)
    for net in job.nets:
        yield net, ways(grid, looks, plan.keys[net.name].key, root_of(plan, net))


def ways_of_job(job: Job, program: Optional[str] = None) -> Dict[str, Dict[Chip, Way]]:
    """The ways of each net of a job by its name, also of a job whose tables are too long: then the nets are compiled in parts, each
    with so few that each has a row of its own. Refused where the job is, but for `table long`."""
    try:
        return {net.name: found for net, found in ways_of_nets(job, tables(replace(job, target=MOST_ROWS), program))}
    except Refused as refused:
        if refused.status != TABLE_LONG:
            raise
    found: Dict[str, Dict[Chip, Way]] = {}
    starts = range(0, len(job.nets), MOST_ROWS)
    with several(len(starts)):
        for at in starts:
            part = replace(job, nets=job.nets[at:at + MOST_ROWS], packets=[], events=[], target=MOST_ROWS)
            found.update((net.name, way) for net, way in ways_of_nets(part, tables(part, program)))
    return found


def links_on(grid: Grid, found: Mapping[Chip, Way]) -> List[Link]:
    """The live links of ways, and so those of a tree: a link with a device behind it is none."""
    return [(*chip, link) for chip, way in found.items() for link in way.links if grid.next_chip(chip, link) is not None]


def trees(job: Job, program: Optional[str] = None) -> Dict[str, List[Link]]:
    """The tree of each net by its name, as `check` takes them: its links as (x, y, link), from the source on. A net all of whose
    targets stand on the source's chip has none. Refused where the job has no trees, as with a target that is cut off; a job whose
    tables are too long has them."""
    grid = Grid(one("trees: job", job, Job).machine)
    return {name: links_on(grid, found) for name, found in ways_of_job(job, program).items()}
