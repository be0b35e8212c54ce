"""Shorter tables, of any tool's.

    from kulzobad import minimise

    tables = {(0, 0): [(0x0, 0xFFFFFFFF, 0x1), (0x1, 0xFFFFFFFF, 0x1)]}
    print(minimise(tables).tables)

The program `spin_tables` makes them. For each key that a row of a given table has, where the first that has it decides, the first row of
the new table that has it has the same route; and the new table is no longer. A key that no row has may be taken by a row of the new table,
but not where `exact` is asked for. Where `arrivals` is asked for, and a row's `sources` are one link, and its route is the link opposite,
the new table may have no row for its keys: a router then sends them straight on.
"""
from __future__ import annotations

import json
import os
import re
from concurrent.futures import ThreadPoolExecutor
from dataclasses import dataclass, field
from typing import Dict, Iterator, List, Mapping, Optional, Sequence, Tuple

from .formats import AnyTables, RowsByChip, SourcedRow, rows_by_chip, sourced_by_chip
from .jobs import Chip
from .kinds import BrokenAnswer, truth, whole
from .program import Refused, call, program_of
from .reports import Row

NAME = "spin_tables"
# How many entries a router has.
ENTRIES = 1024
# How many rows one call of the program gets at most, where they are of several chips.
MOST_ROWS = 65536
# The statuses with which the program writes tables: the second where one has more rows than a router has entries.
WRITTEN = (0, 8)
LINE = re.compile(r"(kept|table) (\d+) (\d+) (\d+)|([0-9a-f]{8}) ([0-9a-f]{8}) ([0-9a-f]{6})")


@dataclass(frozen=True)
class Minimised:
    """Shorter tables by chip, in the order of those given. `kept` has the chips whose table is as it was given, since its rows overlap in
    too many ways to be taken apart."""

    tables: RowsByChip
    kept: Tuple[Chip, ...] = field(default=())

    @property
    def rows(self) -> int:
        """The number of rows of all tables."""
        return sum(len(rows) for rows in self.tables.values())

    @property
    def too_long(self) -> Tuple[Chip, ...]:
        """The chips whose table has more rows than a router has entries."""
        return tuple(chip for chip, rows in self.tables.items() if len(rows) > ENTRIES)


def tables_program_of(program: Optional[str] = None) -> str:
    """The program that shortens tables: the one named, that of the variable KULZOBAD_SPIN_TABLES, or the one beside `spin`."""
    asked = program or os.environ.get("KULZOBAD_SPIN_TABLES")
    return asked or os.path.join(os.path.dirname(program_of()), NAME)


def minimise(tables: AnyTables, target: int = 0, exact: bool = False, program: Optional[str] = None, arrivals: bool = False) -> Minimised:
    """Tables with fewer rows that give each key the route that the given ones give it. `tables` is an image, or rows by chip: of each a
    key, a mask and a route word (bits 0 to 5 the links, 6 to 23 the cores), as `verify` takes them. A table of at most `target` rows is
    left as it is, and a longer one is shortened until it has so many or less, or no two of its rows can be joined. With `exact`, a key
    that no row of a table has is one that no row of the new one has; that leaves more rows, and takes seconds where there are hundreds of
    keys that have little in common. With `arrivals`, rows may have `sources` besides, as Rig's: a set of numbers of links, 0 to 5, and of
    cores. Where all packets of a row come by one link, and its route is the link opposite, it may go, since a packet that no row has goes
    straight on: it must never come another way. Rows whose key has a bit outside the mask match no packet, and are left out. Refused where the program
    takes the rows for none, as where a route has 25 bits."""
    given: Mapping[Chip, Sequence[Row]]
    if truth("minimise: arrivals", arrivals):
        given = sourced_by_chip(tables)
    else:
        given = rows_by_chip(tables)
    path = tables_program_of(program)
    asked = {"target": whole("minimise: target", target), "exact": truth("minimise: exact", exact)}
    shares = list(shares_of(given))
    with ThreadPoolExecutor(min(len(shares), os.cpu_count() or 1) or 1) as workers:
        done = list(workers.map(lambda share: minimised(share, asked, path), shares))
    return Minimised({chip: rows for it in done for chip, rows in it.tables.items()}, tuple(chip for it in done for chip in it.kept))


def shares_of(given: Mapping[Chip, Sequence[Row]]) -> Iterator[Dict[Chip, Sequence[Row]]]:
    """The tables in shares, one for each call of the program."""
    least = sum(map(len, given.values())) // (os.cpu_count() or 1) + 1
    share: Dict[Chip, Sequence[Row]] = {}
    count = 0
    for chip, rows in given.items():
        if share and count + len(rows) > min(least, MOST_ROWS):
            yield share
            share, count = {}, 0
        share[chip], count = rows, count + len(rows)
    if share:
        yield share


def minimised(given: Mapping[Chip, Sequence[Row]], asked: Mapping[str, int], path: str) -> Minimised:
    """What one call of the program makes of tables, and of what is asked for besides."""
    # (a row whose key has a bit outside the mask has no key)
    words = {chip: [item_of(row) for row in rows if not row.key & ~row.mask] for chip, rows in given.items()}
    listed = [{"x": x, "y": y, "rows": rows} for (x, y), rows in words.items()]
    request: Dict[str, object] = {**asked, "tables": listed}
    text = json.dumps(request, separators=(",", ":")).encode()
    status, written = call([], text, path)
    if status not in WRITTEN:
        raise Refused(status, written.decode(errors="replace").rstrip("\n"), {"in": request}, text)
    found = read_minimised(written.decode())
    if list(found.tables) != list(given):
        raise BrokenAnswer("the tables are of other chips than those given")
    return found


def item_of(row: Row) -> List[int]:
    """A row as the program takes it: behind its words stands the link by which its packets come in, where that is told."""
    link = row.arrival if isinstance(row, SourcedRow) else None
    return [row.key, row.mask, row.route, *([] if link is None else [link])]


def read_minimised(text: str) -> Minimised:
    """The tables of a text of the program: for each `table X Y N` and N lines of a key, a mask and a route; before those of a table that is
    kept as it was given `kept X Y N`."""
    tables: Dict[Chip, List[Row]] = {}
    kept: List[Chip] = []
    left = 0
    rows: List[Row] = []
    *lines, end = text.split("\n")
    if end:
        raise BrokenAnswer("the last line has no end")
    for i, line in enumerate(lines):
        parts = LINE.fullmatch(line)
        if parts is None or (left > 0) == (parts[1] is not None):
            raise BrokenAnswer(f"line {i + 1}: {line!r}")
        if parts[1] is None:
            rows.append(Row(*(int(it, 16) for it in parts.groups()[4:])))
            left -= 1
            continue
        chip, count = (int(parts[2]), int(parts[3])), int(parts[4])
        if parts[1] == "kept":
            kept.append(chip)
        elif chip in tables:
            raise BrokenAnswer(f"line {i + 1}: a second table of chip {chip}")
        else:
            rows, left = [], count
            tables[chip] = rows
    if left or any(chip not in tables for chip in kept):
        raise BrokenAnswer("the text ends before its last table does")
    return Minimised({chip: tuple(of_chip) for chip, of_chip in tables.items()}, tuple(kept))

