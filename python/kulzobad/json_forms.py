"""What the program writes, as JSON (docs/formats.md, "The answers as JSON")."""
from __future__ import annotations

import json
from dataclasses import asdict
from typing import Any, Dict, List

from .applications import read_answers
from .checks import read_verdict
from .images import Image, decode
from .program import Refused
from .reports import Plan, Report, Row, Table, cores_of, links_of, read, read_summary

Value = Dict[str, Any]


def row_in_json(row: Row) -> Value:
    """A row, with the links and cores of its route."""
    return {**asdict(row), "links": links_of(row.route), "cores": cores_of(row.route)}


def tables_in_json(tables: List[Table]) -> List[Value]:
    """Tables, in the order in which they are written."""
    return [{"x": table.x, "y": table.y, "rows": [row_in_json(row) for row in table.rows]} for table in tables]


def plan_in_json(plan: Plan) -> Value:
    """Placements, keys and tables."""
    return {
        "places": [asdict(place) for place in plan.places.values()],
        "keys": [asdict(keys) for keys in plan.keys.values()],
        "tables": tables_in_json(list(plan.tables.values())),
    }


def report_in_json(report: Report) -> Value:
    """A report: the plan, of a trace whether each event moved something, and what became of the packets."""
    return {
        **plan_in_json(report.plan),
        "moved": report.moved,
        "deliveries": [asdict(it) for it in report.deliveries],
        "dumps": [asdict(it) for it in report.dumps],
        "waiting": [asdict(it) for it in report.waiting],
        "unsent": report.unsent,
    }


def image_in_json(image: Image) -> Value:
    """An image: the machine's size, its tables, and its bytes in hexadecimal."""
    return {
        "width": image.width, "height": image.height, "wrap": image.wrap, "tables": tables_in_json(list(image.tables.values())),
        "bytes": image.data.hex(),
    }


def answer_of_class(answer: Any) -> Value:
    """An answer that is one of several classes: the class, and its fields."""
    return {"answer": type(answer).__name__, **asdict(answer)}


# What a refusal has beside its status.
NAMES = ("kind", "line", "fault", "path", "name", "chip", "rows")


def refused_in_json(refused: Refused, status: int, lines: List[str]) -> Value:
    """A refusal of the program, with the command's status and the lines that explain it."""
    return {"refused": {"status": status, **{name: getattr(refused, name) for name in NAMES}, "explanation": lines}}


def stopped_in_json(status: int, kind: str, line: str, more: List[str], **named: Any) -> Value:
    """What else a command ends with, in the same form."""
    return {"refused": {"status": status, **dict.fromkeys(NAMES), "kind": kind, "line": line, **named, "explanation": more}}


def value_of(word: str, written: bytes) -> Any:
    """What the program wrote for a word, as a value for `json.dumps`."""
    if word == "compile":
        return image_in_json(decode(written))
    text = written.decode()
    if word == "tables":
        return plan_in_json(read(text).plan)
    if word == "check":
        return answer_of_class(read_verdict(text))
    if word == "apps":
        return [answer_of_class(answer) for answer in read_answers(text)]
    return asdict(read_summary(text)) if word == "gen" else report_in_json(read(text))


def answer_in_json(word: str, written: bytes) -> bytes:
    """What the program wrote for a word, as a line of JSON."""
    return (json.dumps(value_of(word, written)) + "\n").encode()
