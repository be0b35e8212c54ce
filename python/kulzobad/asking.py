"""Requests to the program's `check`: parts of nets that are asked for together, and the text of what is asked."""
from __future__ import annotations

import json
import struct
from typing import Any, Dict, Iterable, Iterator, List, Mapping, NamedTuple, Optional, Sequence, Set, Tuple

from .blocks import Block, Order
from .checks import Verdict, read_verdict
from .images import MAGIC
from .jobs import Chip, Machine
from .program import answer_to_text
from .reports import ENTRIES
from .trees import Link
from .walks import DEVICES, Row, Spot

# A key, a mask and a route.
Words = Tuple[int, int, int]

MOST_NETS, MOST_VERTICES = 4096, 16384
# The bytes as they stand in a list, with a comma before each.
DIGITS = [f",{byte}" for byte in range(256)]


class KnownNet(NamedTuple):
    """A net as it is asked for: where it stands in the list, its name, the spot that it begins at, its targets' names by their spots, and
    its blocks."""

    place: int
    name: Any
    source: Spot
    targets: Dict[Spot, Any]
    blocks: List[Block]


class Part(NamedTuple):
    """A block of a net and the links of its tree, which are to be asked for as one net. `added` is the route of a row that is added for it
    at its source's chip, if any."""

    net: KnownNet
    block: Block
    links: Sequence[Link]
    added: Optional[int]


class Batch:
    """Parts that are to be asked for together, whose masks are nested, and at most how many bytes they take beside the rows of all
    chips. Where those are not in each request, the rows of the chips on the trees are counted in."""

    def __init__(self, rows: Mapping[Chip, Sequence[Row]], has_all_rows: bool) -> None:
        self.parts: List[Part] = []
        self.masks: Set[int] = set()
        self.spots: Set[Spot] = set()
        self.chips: Set[Chip] = set()
        self.added: Dict[Chip, int] = {}
        self.size = 0
        self._rows, self._has_all_rows = rows, has_all_rows

    def fits(self, mask: int) -> bool:
        """Whether the masks with this one are nested."""
        return mask in self.masks or all(it & mask in (it, mask) for it in self.masks)

    def add(self, part: Part, blocks: Sequence[Block]) -> None:
        """Adds these blocks of a part, each with the part's tree."""
        self.parts += [part._replace(block=it) for it in blocks]
        self.masks.update(it.mask for it in blocks)
        self.size += len(blocks) * bytes_of(part)
        if part.added:
            chip = part.net.source[:2]
            self.added[chip] = self.added.get(chip, 0) + len(blocks)
        new = [it for it in (part.net.source, *part.net.targets) if it not in self.spots]
        self.spots.update(new)
        self.size += 50 * len(new)
        for chip in {it[:2] for it in new} | ({it[:2] for it in part.links} if not self._has_all_rows else set()):
            if chip not in self.chips:
                self.chips.add(chip)
                self.size += 220 + (0 if self._has_all_rows else bytes_of_rows(self._rows.get(chip, ())))

    def is_over(self, room: int) -> bool:
        """Whether it is too much for one request."""
        is_long = any(len(self._rows.get(chip, ())) + count > ENTRIES for chip, count in self.added.items())
        return is_long or len(self.parts) > MOST_NETS or len(self.spots) > MOST_VERTICES or self.size > room


def bytes_of(part: Part) -> int:
    """At most how many bytes a part takes in a request, as a net and a tree."""
    return 100 + 9 * len(part.net.targets) + 10 * len(part.links) + (48 if part.added else 0)


def bytes_of_rows(rows: Sequence[Row]) -> int:
    """At most how many bytes the rows of a chip take in a request."""
    return 16 + 48 * len(rows)


def met(rows: Iterable[Words], block: Block) -> Iterator[Words]:
    """The rows that have a key of the block, up to the first that has all of them."""
    for row in rows:
        if not (row[0] ^ block.key) & row[1] & block.mask:
            yield row
            if not row[1] & ~block.mask:
                return


def layers(parts: Sequence[Part], order: Order) -> List[List[Part]]:
    """The parts in lists of which each has no two that share a key; mostly there is one. They keep their order."""
    found: List[List[int]] = []
    ends: List[int] = []
    for start, size, i in sorted((order.word(it.block.key), -it.block.size, i) for i, it in enumerate(parts)):
        free = next((j for j, end in enumerate(ends) if end <= start), len(ends))
        if free == len(ends):
            ends.append(0)
            found.append([])
        ends[free] = start - size
        found[free].append(i)
    return [[parts[i] for i in sorted(listed)] for listed in found]


class Wire:
    """Writes requests. Their words have their bits in an order."""

    def __init__(self, machine: Machine, order: Order) -> None:
        self.machine, self.order = machine, order

    def chip(self, chip: Chip, rows: Sequence[Words]) -> str:
        """The bytes of a chip's rows in an image, as numbers with a comma before each."""
        word = self.order.word
        words = [it for key, mask, route in rows for it in (word(key), word(mask), route or 1 << 6)]
        return "".join([DIGITS[byte] for byte in struct.pack(f"<BBH{len(words)}I", *chip, len(rows), *words)])

    def image(self, rows: Mapping[Chip, Sequence[Words]]) -> str:
        """An image of these rows."""
        chips = [chip for chip in sorted(rows) if rows[chip]]
        # (of a machine that is none the program says so before it looks at the image)
        size = self.machine.width & 255, self.machine.height & 255
        head = MAGIC + struct.pack("<BBBBH", 1, *size, self.machine.wrap, len(chips))
        return f'[{"".join(DIGITS[byte] for byte in head)[1:]}{"".join(self.chip(chip, rows[chip]) for chip in chips)}]'

    def job(self, parts: Sequence[Part]) -> str:
        """A job with a net for each part, on which each vertex gets the core that it stands on. Without parts it is the machine as it was
        given."""
        spots = {spot for part in parts for spot in part.net.targets}
        spots |= {part.net.source for part in parts if part.net.source[2] < DEVICES}
        chips = {spot[:2]: spot for spot in spots if spot[2] < DEVICES}
        for x, y, _ in (part.net.source for part in parts):
            if (x, y) not in chips:
                # (the source is a device, and any vertex of its chip stands for it)
                chips[x, y] = (x, y, 1)
                spots.add((x, y, 1))
        listed = sorted(spots)
        names = {spot: f"v{i}" for i, spot in enumerate(listed)}
        dead = [[x, y, core] for x, y in chips for core in range(1, 18) if (x, y, core) not in spots]
        vertices: List[Dict[str, Any]] = [
            {"name": names[x, y, n], **({"at": [x, y]} if n < DEVICES else {"device": [x, y, n - DEVICES]})} for x, y, n in listed
        ]
        word, nets = self.order.word, []
        for i, part in enumerate(parts):
            source = part.net.source if part.net.source[2] < DEVICES else chips[part.net.source[:2]]
            fixed = [word(part.block.key), word(part.block.mask)]
            nets.append({"name": f"n{i}", "source": names[source], "targets": [names[it] for it in part.net.targets], "fixed": fixed})
        machine = self.machine.as_json()
        if parts:
            machine["dead_cores"] = dead
        return compact({"version": 3, "machine": machine, "graph": {"vertices": vertices, "nets": nets}})


def compact(value: Any) -> str:
    """JSON without blanks."""
    return json.dumps(value, separators=(",", ":"))


def answer_to(text: str, parts: Mapping[str, Any], program: Optional[str]) -> Verdict:
    """What the program says to a request. Refused where it gives no answer; `parts` are what the refusal may name."""
    return read_verdict(answer_to_text(["check"], text.encode(), program, parts).decode())
