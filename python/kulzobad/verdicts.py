"""What `verify` says of tables, as objects, as lines and as JSON; and what else there is to note."""
from __future__ import annotations

from dataclasses import asdict, dataclass
from typing import Any, Dict, List, Sequence, Union, cast

from .checks import BadImage as BadImage
from .checks import BadTree, Right, Verdict
from .checks import OtherMachine as OtherMachine
from .checks import Split as Split
from .checks import Wrong as Wrong
from .kinds import InHexadecimal
from .walks import DIES, LOOPS, STOPS, STRAYS, TWICE, Hops


class Told(InHexadecimal, Verdict):
    """A verdict that says what is amiss. As text it has a line for each hop."""

    def __str__(self) -> str:
        return "\n".join(lines_of(self))


@dataclass(frozen=True, repr=False)
class Strays(Told):
    """The key comes to a core or a device that is no target of the net: the last output of its way."""

    net: Any
    key: int
    way: Hops


@dataclass(frozen=True, repr=False)
class Dies(Told):
    """The key is sent by a link that is not live: the last output of its way is dead, leads to a dead chip, or out of the grid."""

    net: Any
    key: int
    way: Hops


@dataclass(frozen=True, repr=False)
class Loops(Told):
    """The key comes back to a chip that sends it the same way again. That chip ends the way."""

    net: Any
    key: int
    way: Hops


@dataclass(frozen=True, repr=False)
class Twice(Told):
    """The key comes to the chip that ends the way by two ways. What a row of that chip names gets two copies; where both go straight on
    by default routing they cross, and no routing tree is like that."""

    net: Any
    key: int
    way: Hops


@dataclass(frozen=True, repr=False)
class Stops(Told):
    """The key comes to all targets, and to the chip that ends the way, too, where a row takes it and sends it nowhere. So a way of it
    leads to no target, and no routing tree is like that."""

    net: Any
    key: int
    way: Hops


@dataclass(frozen=True, repr=False)
class Misses(Told):
    """The key comes to no strangers, and not to this target. The way ends at the chip next to it, of those that the key comes to."""

    net: Any
    key: int
    target: Any
    way: Hops


@dataclass(frozen=True, repr=False)
class OffTree(Told):
    """The key comes to all targets of the net, and not by the tree that was given: at the chip that ends the way it gets another route
    than the tree's."""

    net: Any
    key: int
    way: Hops


@dataclass(frozen=True, repr=False)
class TooLong(Told):
    """Chip (x, y) has so many rows, and a router has 1,024 entries."""

    x: int
    y: int
    rows: int


KINDS = {STRAYS: Strays, DIES: Dies, LOOPS: Loops, TWICE: Twice, STOPS: Stops}


# ---- notes


@dataclass(frozen=True)
class Unmet:
    """The row at this place of chip (x, y) has no key of any net."""

    x: int
    y: int
    row: int


@dataclass(frozen=True)
class Foreign:
    """Keys of the net meet the row at this place of chip (x, y), which takes packets of `other`; the net's own packets do not come
    there. It is one such net of perhaps several."""

    net: Any
    x: int
    y: int
    row: int
    other: Any


@dataclass(frozen=True)
class Full:
    """Chip (x, y) has more than 1,023 rows. Board software that needs an entry of its own finds none."""

    x: int
    y: int
    rows: int


@dataclass(frozen=True)
class OffTrees:
    """Chip (x, y) has rows, and no packets of any net come there."""

    x: int
    y: int
    rows: int


@dataclass(frozen=True)
class Unfollowed:
    """The net's keys are cut into too many parts to be followed, as `TooManyParts` says. So it isn't told which chips packets come to, and
    notes of the kinds OffTrees and Foreign are left out."""

    net: Any
    bits: int


Note = Union[Unmet, Foreign, Full, OffTrees, Unfollowed]


# ---- as text


WORDS = {Strays: "strays", Dies: "dies", Loops: "loops", Twice: "twice", Misses: "misses", Stops: "stops", OffTree: "off tree"}


def lines_of(verdict: Verdict) -> List[str]:
    """A verdict as lines: what it is, and then the way, a line for each hop."""
    if isinstance(verdict, Right):
        return ["right"]
    if isinstance(verdict, BadTree):
        return [f"bad tree {verdict.net}"]
    if isinstance(verdict, TooLong):
        return [f"table long {verdict.x} {verdict.y} {verdict.rows}"]
    kind: Any = verdict
    missed = f" {verdict.target}" if isinstance(verdict, Misses) else ""
    lines = [f"{WORDS[type(kind)]} {kind.net} {kind.key:08x}{missed}"]
    for hop in kind.way:
        row = "default" if hop.row is None else f"row {hop.row}"
        if hop.row is None and hop.port == "L":
            row = "no row"
        lines.append(f"at {hop.x} {hop.y} from {hop.port} {row}" + (f" to {hop.out}" if hop.out else ""))
    return lines


def value_of(said: Union[Verdict, Note]) -> Dict[str, Any]:
    """A verdict or a note as a JSON value: `answer` is its class, and the others are its fields. Names that JSON has not are text."""
    found = asdict(cast(Any, said))
    return {"answer": type(said).__name__, **{name: it if isinstance(it, (int, str, list, tuple)) else str(it) for name, it in found.items()}}


def note_lines(notes: Sequence[Note], all_of_them: bool = False) -> List[str]:
    """Notes as lines; of each kind the first alone, with how many there are, where not all are asked for."""
    found = []
    for kind in (Unfollowed, Full, Unmet, OffTrees, Foreign):
        of_kind = [it for it in notes if isinstance(it, kind)]
        for note in of_kind if all_of_them else of_kind[:1]:
            more = f" (and {len(of_kind) - 1} more like this)" if len(of_kind) > 1 and not all_of_them else ""
            found.append(f"note {told(note)}{more}")
    return found


def told(note: Note) -> str:
    """What a note says, of its chip or of its net."""
    if isinstance(note, Unfollowed):
        return f"net {note.net}: its keys are in too many parts, so chips that no packets come to are not told"
    at = f"at {note.x} {note.y}"
    if isinstance(note, Full):
        return f"{at} {note.rows} rows: no entry is left for a board's own software"
    if isinstance(note, Unmet):
        return f"{at} row {note.row}: no net has a key of it"
    if isinstance(note, OffTrees):
        return f"{at} {note.rows} rows: no packets come there"
    return f"{at} row {note.row}: takes packets of {note.other}, and has keys of {note.net}, whose packets do not come there"
