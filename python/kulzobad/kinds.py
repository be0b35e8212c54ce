"""Values of a wrong kind, told where they are handed in. Each function gives the value back, or a TypeError that says what it is
of (`what`, as `Net.targets`), what stands there, and what should. Whether a number is allowed is for the program to say."""
from __future__ import annotations

import json
import operator
from collections.abc import Iterable, Mapping, Set
from dataclasses import fields
from typing import Any, Callable, Hashable, List, Optional, Sequence, Tuple, cast

from .links import LINKS

MOST_SHOWN = 60


class BrokenAnswer(ValueError):
    """What the program wrote, or a file that should be that, is not whole, or is something else. The text names the line."""


# How many hexadecimal digits a field of these names has, as in the program's lines.
DIGITS = {"key": 8, "mask": 8, "payload": 8, "route": 6}


class InHexadecimal:
    """A dataclass (with `repr=False`) that shows keys, masks, payloads and routes as the program's lines do."""

    def __repr__(self) -> str:
        parts = ((it.name, getattr(self, it.name)) for it in fields(cast(Any, self)))
        return f"{type(self).__name__}({', '.join(f'{name}={in_digits(name, value)}' for name, value in parts)})"


def in_digits(name: str, value: Any) -> str:
    """A field's value as it is shown."""
    return f"0x{value:0{DIGITS[name]}x}" if name in DIGITS and isinstance(value, int) else repr(value)


def shown(value: Any, most: int = MOST_SHOWN) -> str:
    """A value as Python writes it, cut where that is long."""
    return cut(repr(value), most)


def shown_as_json(value: Any, most: int = MOST_SHOWN) -> str:
    """A value as JSON writes it, cut where that is long."""
    text = json.dumps(value, ensure_ascii=False)
    return cut(text if text.isprintable() else json.dumps(value), most)


def printable(text: str) -> str:
    """A text with escapes in place of what a terminal would not print."""
    return "".join(it if it.isprintable() else it.encode("unicode_escape", "surrogatepass").decode() for it in text)


def cut(text: str, most: int) -> str:
    """The beginning of a text, and how long it is where that is not all."""
    return text if len(text) <= most else f"{text[:most]}.. ({len(text)} characters)"


def counted(count: int, one: str, many: str = "") -> str:
    """A number of things in words: `1 chip`, `2 chips`."""
    return f"{count} {one if count == 1 else many or one + 's'}"


def wrong(what: str, value: Any, wanted: str) -> TypeError:
    """The error of a value that should be something else."""
    return TypeError(f"{what} is {shown(value)}, and should be {wanted}")


def text(what: str, value: Any) -> str:
    """A text."""
    if not isinstance(value, str):
        raise wrong(what, value, "a text")
    return value


def json_in(what: str, value: Any, made: Optional[Callable[[List[Tuple[str, Any]]], Any]] = None) -> Any:
    """The value of JSON text, or of its bytes, with objects made of the list of their members, if that is given. ValueError where it is
    none."""
    if not isinstance(value, (str, bytes, bytearray)):
        raise wrong(what, value, "a text")
    try:
        return json.loads(value, object_pairs_hook=made)
    except ValueError as error:
        raise ValueError(str(error)) from None
    except RecursionError:
        raise ValueError("it is nested too deep") from None


def truth(what: str, value: Any) -> bool:
    """True or False."""
    if not isinstance(value, bool):
        raise wrong(what, value, "True or False")
    return value


def whole(what: str, value: Any) -> int:
    """A whole number, of any type that Python takes for one; True and False are none."""
    if not isinstance(value, bool):
        try:
            return operator.index(value)
        except TypeError:
            pass
    raise wrong(what, value, "a whole number")


def whole_or_none(what: str, value: Any) -> Optional[int]:
    """A whole number, or None."""
    return None if value is None else whole(what, value)


def items(what: str, value: Any, wanted: str) -> Sequence[Any]:
    """A list or tuple as it is, or the items of what else has some in an order. A text has none, and a set has no order."""
    if isinstance(value, (list, tuple)):
        return value
    if isinstance(value, (str, bytes, bytearray, Mapping, Set)) or not isinstance(value, Iterable):
        raise wrong(what, value, wanted)
    return list(value)


def texts(what: str, value: Any) -> Sequence[str]:
    """A list of texts."""
    found = items(what, value, "a list of texts")
    for i, item in enumerate(found):
        text(f"{what}[{i}]", item)
    return found


def link(what: str, value: Any) -> int:
    """The number of a link, which may be told by its letters."""
    if isinstance(value, str) and value in LINKS:
        return LINKS.index(value)
    try:
        return whole(what, value)
    except TypeError:
        raise wrong(what, value, f"the number of a link, or one of {', '.join(LINKS)}") from None


def numbers(what: str, value: Any, names: str, has_letters: bool = False) -> Tuple[int, ...]:
    """So many whole numbers as there are names, as in `x y link`. With letters the link may be told by them."""
    listed = names.split()
    wanted = f"({', '.join(listed)})"
    found = items(what, value, wanted)
    if len(found) != len(listed):
        raise wrong(what, value, wanted)
    kinds = [link if has_letters and name == "link" else whole for name in listed]
    return tuple(kind(f"{what}[{i}]", item) for i, (kind, item) in enumerate(zip(kinds, found)))


def lists_of_numbers(what: str, value: Any, names: str, has_letters: bool = False) -> List[Tuple[int, ...]]:
    """A list of such entries."""
    wanted = f"a list of ({', '.join(names.split())})"
    return [numbers(f"{what}[{i}]", item, names, has_letters) for i, item in enumerate(items(what, value, wanted))]


def links(what: str, value: Any) -> List[Tuple[int, int, int]]:
    """A list of links: of each its chip's x and y, and its number or its letters."""
    return [(x, y, d) for x, y, d in lists_of_numbers(what, value, "x y link", True)]


def mapping(what: str, value: Any, wanted: str) -> Mapping[Any, Any]:
    """A mapping, as one of chips to rows."""
    if not isinstance(value, Mapping):
        raise wrong(what, value, f"a mapping of {wanted}")
    return value


def chip_of(what: str, value: Any) -> Tuple[int, int]:
    """A chip among the keys of a mapping: its x and y."""
    x, y = numbers(f"{what}: the chip {shown(value)}", value, "x y")
    return x, y


def hashable(what: str, value: Any) -> Hashable:
    """A name: anything that can be looked up, as text or a tuple."""
    try:
        hash(value)
    except TypeError:
        raise wrong(what, value, "a name, and so hashable") from None
    return cast(Hashable, value)


def attribute_of(what: str, value: Any, attribute: str) -> Any:
    """What an object of another tool has under this name."""
    try:
        return getattr(value, attribute)
    except AttributeError:
        raise TypeError(f"{what} is {shown(value)}, and has no {attribute}") from None


def all_of(what: str, value: Any, kind: type) -> List[Any]:
    """A list of objects of one class. A list stays the one that it is, so that more can be appended."""
    wanted = f"a list of {kind.__name__}"
    found = items(what, value, wanted)
    for i, item in enumerate(found):
        one(f"{what}[{i}]", item, kind)
    return found if isinstance(found, list) else list(found)


def one(what: str, value: Any, kind: type) -> Any:
    """An object of a class."""
    if not isinstance(value, kind):
        raise wrong(what, value, f"a {kind.__name__}")
    return value
