"""The command `minimise`."""
from __future__ import annotations

import argparse
import sys
from typing import Any, Callable, Dict, Tuple

from .command import BAD_JOB, Stopped, add_out, command, read_bytes, write
from .formats import RowsByChip, SourcedRow, read_csv, read_dump, rows_by_chip, write_csv, write_dump
from .images import MAGIC, Image, decode, encode
from .jobs import Machine
from .minimising import ENTRIES, minimise
from .reports import Row, read

TABLE_LONG = 8
FORMS: Dict[str, Callable[[RowsByChip], str]] = {"csv": write_csv, "dump": write_dump}

MORE = (
    "TABLES has the rows, in the order in which the router looks: comma-separated values below\n"
    "x,y,key,mask,route, or a dump of such lines with hexadecimal words, or the bytes of an image, or\n"
    "what `tables` writes. The answer has the same form. Rows may overlap, and may have been\n"
    "shortened before.\n\n"
    "For each key that a row of a table has, where the first that has it decides, the first row of the\n"
    "new table that has it has the same route. A key that no row has may be taken by a new row, but not\n"
    "with --exact, which leaves more rows: a packet that no row has goes straight on, as before.\n"
    "With --arrivals, a row whose packets all come by the link opposite to its one output may go, since\n"
    "they go straight on then. Comma-separated values tell that link in a column source, 0 to 5; where\n"
    "packets come another way, it is empty.\n"
    "A table is shortened until it has --target rows, or no two can be joined; without --target it is\n"
    "the least that is found. A router has 1,024 entries; system software may need one of them, and\n"
    "then 1,023 are left. Where a chip's table stays longer than 1,024, the status is 8, and all\n"
    "tables are written.\n"
)


def add_command(commands: Any) -> None:
    """Adds the command `minimise`."""
    example = "kulzobad minimise tables.csv --target 1023 -o shorter.csv\nkulzobad minimise board.img -o shorter.img"
    parser = command(commands, "minimise", "shorter tables of any tool's, with the same routes", example, run, MORE)
    parser.add_argument("tables", metavar="TABLES", help="the file of the rows; - is standard input")
    parser.add_argument("--target", metavar="N", type=int, default=0, help="the number of rows that will do (default: the least)")
    parser.add_argument("--exact", action="store_true", help="take no key that no row has")
    parser.add_argument("--arrivals", action="store_true", help="leave out rows whose packets go straight on, where sources are told")
    parser.add_argument("--form", choices=sorted(FORMS), help="write this form, and not that of TABLES")
    add_out(parser)
    parser.add_argument("--program", metavar="SPIN_TABLES", help="the program to call, in place of the one that is found")


def run(options: argparse.Namespace) -> int:
    """Shortens the command's tables."""
    tables, form = tables_in(options.tables)
    try:
        done = minimise(tables, options.target, options.exact, options.program, options.arrivals)
        written = FORMS[options.form](done.tables).encode() if options.form else form(done.tables)
    except (TypeError, ValueError) as error:
        raise Stopped(f"{options.tables}: {error}", BAD_JOB) from None
    write(written, options.out)
    if options.arrivals and not any(isinstance(row, SourcedRow) for rows in tables.values() for row in rows):
        print("kulzobad: no row tells by which link its packets come in", file=sys.stderr)
    for chip in done.kept:
        print(f"kulzobad: chip {chip} is as it was: its rows overlap in too many ways", file=sys.stderr)
    for chip in done.too_long:
        print(f"kulzobad: chip {chip} has {len(done.tables[chip])} rows, and a router {ENTRIES:,} entries", file=sys.stderr)
    return TABLE_LONG if done.too_long else 0


def tables_in(name: str) -> Tuple[RowsByChip, Callable[[RowsByChip], bytes]]:
    """The rows of a file, and what writes others in its form."""
    data = read_bytes(name)
    try:
        if data.startswith(MAGIC):
            image = decode(data)
            return rows_by_chip(image), lambda tables: image_of(image, tables)
        text = data.decode()
        first = (text.lstrip().splitlines() or [""])[0]
        if first.split(" ")[0] in ("place", "keys", "table", "end"):
            plan = read(text).plan
            return {chip: table.rows for chip, table in plan.tables.items()}, lambda tables: plan_of(text, tables)
        if "," in first:
            return read_csv(text), lambda tables: write_csv(tables).encode()
        return read_dump(text), lambda tables: write_dump(tables).encode()
    except ValueError as error:
        raise Stopped(f"{name}: {error}", BAD_JOB) from None


def image_of(image: Image, tables: RowsByChip) -> bytes:
    """The bytes of an image of the same machine, with other tables."""
    return encode(Machine(image.width, image.height, image.wrap), {chip: [row_words(row) for row in rows] for chip, rows in tables.items()})


def row_words(row: Row) -> Tuple[int, int, int]:
    """A row's words."""
    return row.key, row.mask, row.route


def plan_of(text: str, tables: RowsByChip) -> bytes:
    """The lines of a plan with other tables: those of vertices and nets, the tables, and how many rows there are."""
    lines = [line for line in text.splitlines() if line.split(" ")[0] in ("place", "keys")]
    for (x, y), rows in tables.items():
        lines += [f"table {x} {y} {len(rows)}", *(f"{row.key:08x} {row.mask:08x} {row.route:06x}" for row in rows)]
    return "\n".join([*lines, f"end rows {sum(map(len, tables.values()))}", ""]).encode()
