"""The image of a job's tables, as objects. docs/formats.md of the repository has its bytes, field by field."""
from __future__ import annotations

import struct
from dataclasses import dataclass, field
from typing import Dict, Iterable, List, Mapping, Optional, Tuple

from .blocks import WORD
from .jobs import Chip, Machine
from .kinds import BrokenAnswer, chip_of, lists_of_numbers, mapping, one, wrong
from .reports import ENTRIES, MOST_ROUTE, SIDE, Row, Table

MAGIC = b"SPNT"
VERSION = 1


@dataclass
class Image:
    """The tables of a machine of `width` by `height` chips, by chip, and the bytes that spell them."""

    width: int
    height: int
    wrap: bool
    data: bytes
    tables: Dict[Tuple[int, int], Table] = field(default_factory=dict)

    @property
    def rows(self) -> int:
        """The number of rows of all tables."""
        return sum(len(table.rows) for table in self.tables.values())


class Fields:
    """The fields of an image, read from the left. Each fault is a ValueError that begins as the program's line: `bad image`, and the
    first byte of the first field that is not there whole or is not allowed."""

    def __init__(self, data: bytes) -> None:
        self.data = data
        self.at = 0

    def bad(self, at: int, why: str) -> BrokenAnswer:
        """The error of a field."""
        return BrokenAnswer(f"bad image {at}: {why}")

    def number(self, what: str, size: int, least: int = 0, most: int = WORD) -> int:
        """The next field, a number of so many bytes between two bounds, both of them allowed."""
        at, end = self.at, self.at + size
        if end > len(self.data):
            raise self.bad(at, f"the bytes end before {what} is there whole")
        found = int.from_bytes(self.data[at:end], "little")
        if not least <= found <= most:
            raise self.bad(at, f"{what} is {found}, and should be {least}" + ("" if most == least else f" to {most}"))
        self.at = end
        return found

    def table(self, width: int, height: int, before: Optional[Chip]) -> Table:
        """The next table, of a chip behind the one before it."""
        x = self.number("a chip's x", 1, 0, width - 1)
        y = self.number("a chip's y", 1, 0, height - 1)
        if before is not None and (x, y) <= before:
            raise self.bad(self.at - 1, f"chip ({x}, {y}) does not come after chip {before}")
        return Table(x, y, tuple(self.rows(self.number("the number of rows", 2, 1, ENTRIES))))

    def rows(self, count: int) -> List[Row]:
        """The next so many rows."""
        found: List[Row] = []
        there = min(count, (len(self.data) - self.at) // 12)
        for key, mask, route in struct.iter_unpack("<III", self.data[self.at:self.at + 12 * there]):
            if key & ~mask or not 1 <= route <= MOST_ROUTE:
                break
            found.append(Row(key, mask, route))
        self.at += 12 * len(found)
        while len(found) < count:
            # (one of the fields of this row is not there whole or not allowed)
            key, mask = self.number("a key", 4), self.number("a mask", 4)
            if key & ~mask:
                raise self.bad(self.at - 4, f"the mask {mask:08x} lacks a bit of the key {key:08x}")
            found.append(Row(key, mask, self.number("a route", 4, 1, MOST_ROUTE)))
        return found

    def end(self) -> None:
        """Nothing comes any more."""
        if self.at < len(self.data):
            raise self.bad(self.at, "the last row ends before it")


def decode(data: bytes) -> Image:
    """The image that these bytes spell. ValueError where they spell none for the program either: it names the byte that the program's
    `bad image` names."""
    if not isinstance(data, (bytes, bytearray, memoryview)):
        raise wrong("decode: data", data, "bytes")
    fields = Fields(bytes(data))
    if fields.data[:4] != MAGIC:
        raise fields.bad(0, "the first four bytes are not the letters SPNT")
    fields.at = 4
    fields.number("the version", 1, VERSION, VERSION)
    width, height = fields.number("the width", 1, 1, SIDE), fields.number("the height", 1, 1, SIDE)
    image = Image(width, height, fields.number("wrap", 1, 0, 1) == 1, fields.data)
    before: Optional[Chip] = None
    for _ in range(fields.number("the number of chips", 2, 0, width * height)):
        table = fields.table(width, height, before)
        before = table.x, table.y
        image.tables[before] = table
    fields.end()
    return image


def packed(what: str, form: str, *numbers: int) -> bytes:
    """Numbers as bytes. ValueError where one has no room."""
    try:
        return struct.pack(form, *numbers)
    except struct.error:
        sizes = [8 * struct.calcsize(f"<{letter}") for letter in form[1:]]
        number, size = next((it, size) for it, size in zip(numbers, sizes) if not 0 <= it < 1 << size)
        raise ValueError(f"{what} has the number {number}, which is none of {size} bits") from None


def encode(machine: Machine, tables: Mapping[Chip, Iterable[Tuple[int, int, int]]]) -> bytes:
    """The bytes that spell tables of a machine. Of each chip it takes the rows in the order in which the router looks, each a key,
    a mask and a route word (bits 0 to 5 the links, 6 to 23 the cores). A chip without rows may be left out. It spells what it is
    given: whether that is an image is for `check` to say. ValueError where a number has no room in its field."""
    one("encode: machine", machine, Machine)
    given = {chip_of("encode: tables", chip): rows for chip, rows in mapping("encode: tables", tables, "chips to rows").items()}
    listed = ((chip, lists_of_numbers(f"encode: tables[{chip}]", given[chip], "key mask route")) for chip in sorted(given))
    chips = [(chip, rows) for chip, rows in listed if rows]
    head = VERSION, machine.width, machine.height, machine.wrap, len(chips)
    parts = [MAGIC, packed("encode: machine", "<BBBBH", *head)]
    for (x, y), rows in chips:
        parts.append(packed(f"encode: tables[{x, y}]", "<BBH", x, y, len(rows)))
        parts += [packed(f"encode: tables[{x, y}][{i}]", "<III", *row) for i, row in enumerate(rows)]
    return b"".join(parts)
