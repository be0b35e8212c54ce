"""The grid of a machine's chips: which are live, and where links lead."""
from __future__ import annotations

from typing import Dict, Iterator, Optional, Tuple

from .jobs import Chip, Machine
from .reports import LINKS

# The step along x and y that each link makes, from East anticlockwise.
STEPS = ((1, 0), (1, 1), (0, 1), (-1, 0), (-1, -1), (0, -1))


def opposite(link: int) -> int:
    """The link's number as its other end numbers it."""
    return (link + 3) % 6


def link_of(name: str) -> int:
    """The number of a link that a report names."""
    return LINKS.index(name)


class Grid:
    """A machine's chips and links. Links are numbers from 0 to 5."""

    def __init__(self, machine: Machine) -> None:
        self.width, self.height, self.wrap = machine.width, machine.height, machine.wrap
        self.dead_chips = {(x, y) for x, y in machine.dead_chips}
        self.dead_cores = {(x, y, core) for x, y, core in machine.dead_cores}
        self.dead_links = {(x, y, link) for x, y, link in machine.dead_links}
        # Where links lead, as far as somebody asked.
        self._ends: Dict[Chip, Tuple[Optional[Chip], ...]] = {}

    def chips(self) -> Iterator[Chip]:
        """All chips, dead or live, by x, then y."""
        return ((x, y) for x in range(self.width) for y in range(self.height))

    def has(self, chip: Chip) -> bool:
        """Whether the chip lies inside the grid."""
        return 0 <= chip[0] < self.width and 0 <= chip[1] < self.height

    def is_live(self, chip: Chip) -> bool:
        """Whether the chip lies inside the grid and is not listed dead."""
        return self.has(chip) and chip not in self.dead_chips

    def far(self, chip: Chip, link: int) -> Optional[Chip]:
        """The chip to which a link leads, dead or live; None where it would lead out of the grid, or to its own chip."""
        end = chip[0] + STEPS[link][0], chip[1] + STEPS[link][1]
        if self.wrap:
            end = end[0] % self.width, end[1] % self.height
        return end if self.has(end) and end != chip else None

    def next_chip(self, chip: Chip, link: int) -> Optional[Chip]:
        """The chip to which packets go by a link; None where it is not live: one of its ends is dead, or it is listed dead at one."""
        return self.ends_of(chip)[link]

    def ends_of(self, chip: Chip) -> Tuple[Optional[Chip], ...]:
        """The chips to which packets go by the six links of a chip; None where one is not live."""
        found = self._ends.get(chip)
        if found is None:
            found = self._ends[chip] = tuple(self._live_end(chip, link) for link in range(6))
        return found

    def _live_end(self, chip: Chip, link: int) -> Optional[Chip]:
        end = self.far(chip, link)
        if end is None or not self.is_live(chip) or not self.is_live(end):
            return None
        return None if (*chip, link) in self.dead_links or (*end, opposite(link)) in self.dead_links else end

    def neighbours(self, chip: Chip) -> Iterator[Chip]:
        """The chips to which live links lead."""
        ends = (self.next_chip(chip, link) for link in range(6))
        return (end for end in ends if end is not None)
