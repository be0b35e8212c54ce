"""What `check` says, as objects."""
from __future__ import annotations

import re
from dataclasses import dataclass
from typing import Callable, List, Tuple

from .kinds import BrokenAnswer, InHexadecimal, shown
from .reports import HEX, NAME, N


class Verdict:
    """What is said of trees and an image: one of the classes below. It counts as true where it is `Right`, and as false elsewhere."""

    def __bool__(self) -> bool:
        return isinstance(self, Right)


@dataclass(frozen=True)
class Right(Verdict):
    """At each chip of a net's tree each key of the net is sent to the links and cores that the tree wants, and no others."""


@dataclass(frozen=True, repr=False)
class Wrong(InHexadecimal, Verdict):
    """At chip (x, y) the net's keys, the first of which is `key`, get another route than the tree's."""

    net: str
    x: int
    y: int
    key: int


@dataclass(frozen=True)
class Split(Verdict):
    """At chip (x, y) the row at this place, counted from 0, is the first that takes a key of the net, and does not take all of
    them. The tables may still be right; this is not decided."""

    net: str
    x: int
    y: int
    row: int


@dataclass(frozen=True)
class BadTree(Verdict):
    """The net's links are no routing tree over live links from its source to its targets. Nothing is said of the image."""

    net: str


@dataclass(frozen=True)
class BadImage(Verdict):
    """The bytes are no image: the first field that is not allowed, or not there whole, begins at this byte."""

    at: int


@dataclass(frozen=True)
class OtherMachine(Verdict):
    """The image has another width, height or wrap than the job's machine."""


def read_verdict(text: str) -> Verdict:
    """Reads the line of `check`."""
    kinds: List[Tuple[str, Callable[..., Verdict]]] = [
        (r"right\n", Right),
        (rf"wrong {NAME} {N} {N} {HEX}\n", lambda net, x, y, key: Wrong(net, int(x), int(y), int(key, 16))),
        (rf"split {NAME} {N} {N} {N}\n", lambda net, x, y, row: Split(net, int(x), int(y), int(row))),
        (rf"bad tree {NAME}\n", BadTree),
        (rf"bad image {N}\n", lambda at: BadImage(int(at))),
        (r"other machine\n", OtherMachine),
    ]
    for pattern, made in kinds:
        found = re.fullmatch(pattern, text)
        if found:
            return made(*found.groups())
    raise BrokenAnswer(f"line 1 is {shown(text)}: no line of a check")
