"""The links of a chip and the outputs of a router, as names for their numbers."""
from __future__ import annotations

from collections.abc import Iterable as IterableAbc
from enum import IntEnum
from typing import Iterable, Set


class Links(IntEnum):
    """The links of a chip, from East anticlockwise. Each is the number that it has in routes."""

    E = 0
    NE = 1
    N = 2
    W = 3
    SW = 4
    S = 5

    @property
    def opposite(self) -> Links:
        """The link as its other end has it."""
        return Links((self + 3) % 6)


LINKS = tuple(link.name for link in Links)


class Routes(IntEnum):
    """The outputs of a router: the links, and the cores 0 to 17. Each is the number of its bit in a route word."""

    E = 0
    NE = 1
    N = 2
    W = 3
    SW = 4
    S = 5
    C0 = 6
    C1 = 7
    C2 = 8
    C3 = 9
    C4 = 10
    C5 = 11
    C6 = 12
    C7 = 13
    C8 = 14
    C9 = 15
    C10 = 16
    C11 = 17
    C12 = 18
    C13 = 19
    C14 = 20
    C15 = 21
    C16 = 22
    C17 = 23

    @property
    def is_link(self) -> bool:
        """Whether it is a link, and no core."""
        return self < Routes.C0

    @property
    def core(self) -> int:
        """The core's number. ValueError of a link."""
        if self.is_link:
            raise ValueError(f"{self.name} is a link, and no core")
        return self - Routes.C0


def routes_of(word: int) -> Set[Routes]:
    """The outputs that a route word names."""
    return {route for route in Routes if word >> route & 1}


def word_of(routes: Iterable[int]) -> int:
    """The route word that names these outputs, each an item of `Routes` or its number."""
    found = 0
    if not isinstance(routes, IterableAbc):
        raise TypeError(f"word_of: routes is {routes!r}, and should be outputs of a router")
    for route in routes:
        if route not in range(24):
            raise ValueError(f"{route!r} is none of a router's outputs, which are 0 to 23")
        found |= 1 << route
    return found
