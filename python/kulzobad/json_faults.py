"""Where a text stops being JSON as the program reads it: at most 127 deep, without numbers beyond the greatest double, and without
halves of surrogate pairs."""
from __future__ import annotations

import json
import math
import re
from dataclasses import dataclass
from typing import Iterator, Optional, Tuple

from .kinds import printable

DEEPEST = 127
MOST_SHOWN = 40

TOKEN = re.compile(r'"(?:[^"\\]|\\.)*"|-?(?:NaN|Infinity)|-?[0-9][0-9.eE+-]*|[\[\]{}]', re.DOTALL)
SURROGATE = re.compile(r"\\u([dD][89abAB][0-9a-fA-F]{2})(\\u[dD][c-fC-F][0-9a-fA-F]{2})?|\\u([dD][c-fC-F][0-9a-fA-F]{2})|\\.", re.DOTALL)

# What Python's reader says, and the same in other words.
WORDS = (
    ("Expecting property name", "a member's name in double quotes should stand here"),
    ("Expecting ',' delimiter", "a comma, or the end of the list or object, should stand here"),
    ("Expecting ':' delimiter", "a colon should stand here"),
    ("Expecting value", "a value should stand here"),
    ("Extra data", "the text should end here"),
    ("Invalid control character", "a line end or another control character stands inside a text"),
    ("Unterminated string", "this text has no end"),
    ("Invalid \\", "there is no such escape"),
    ("Illegal trailing comma", "a comma stands behind the last item"),
)


@dataclass(frozen=True)
class JsonFault:
    """The place of a fault, its line and column from 1 on, what is wrong there, and what stands there."""

    at: int
    line: int
    column: int
    why: str
    there: str

    def __str__(self) -> str:
        return f"line {self.line}, column {self.column}: {self.why}; there stands {self.there}"


def fault_at(text: str, at: int, why: str) -> JsonFault:
    """A fault at a place of a text."""
    rest = text[at:].split("\n", 1)[0]
    there = printable(rest[:MOST_SHOWN]) + (".." if len(rest) > MOST_SHOWN else "") if at < len(text) else "the end of the text"
    return JsonFault(at, text.count("\n", 0, at) + 1, at - text.rfind("\n", 0, at), why, there or "the end of a line")


def faults_of_syntax(text: str) -> Iterator[Tuple[int, str]]:
    """The place where Python's reader stops, if it does."""
    try:
        json.loads(text, parse_int=str, parse_float=str, parse_constant=str)
    except json.JSONDecodeError as error:
        why = next((words for begin, words in WORDS if error.msg.startswith(begin)), error.msg)
        before = text[:error.pos].rstrip(" \t\n\r")
        if text[error.pos:error.pos + 1] in ("}", "]") and before.endswith(","):
            yield len(before) - 1, "a comma stands behind the last item"
        else:
            yield error.pos, why
    except RecursionError:
        pass


def faults_of_tokens(text: str) -> Iterator[Tuple[int, str]]:
    """The places of what Python's reader takes and the program does not, in the order of the text."""
    depth = 0
    for found in TOKEN.finditer(text):
        token = found[0]
        if token in "[{":
            depth += 1
            if depth > DEEPEST:
                yield found.start(), f"the text is nested more than {DEEPEST} deep"
        elif token in "]}":
            depth -= 1
        elif token.startswith('"'):
            half = next((it for it in SURROGATE.finditer(token) if it[1] and not it[2] or it[3]), None)
            if half:
                yield found.start() + half.start(), "this is half of a pair of surrogates"
        elif token.endswith(("NaN", "Infinity")):
            yield found.start(), "this is no number"
        elif is_too_great(token):
            yield found.start(), "this number is beyond the greatest double"


def is_too_great(token: str) -> bool:
    """Whether a number rounds to one beyond the greatest double."""
    try:
        return math.isinf(float(token))
    except ValueError:
        return False


def json_fault(data: bytes) -> Optional[JsonFault]:
    """The first fault of some bytes as JSON; None where there is none."""
    try:
        text = data.decode()
    except UnicodeDecodeError as error:
        text = data[:error.start].decode() + "".join(f"\\x{byte:02x}" for byte in data[error.start:error.start + 4])
        return fault_at(text, len(data[:error.start].decode()), "these bytes are not UTF-8")
    if text.startswith("\ufeff"):
        return fault_at(text, 0, "a byte order mark stands before the text")
    first = min([*faults_of_syntax(text), *[it for it in [next(faults_of_tokens(text), None)] if it]], default=None)
    return fault_at(text, *first) if first else None
