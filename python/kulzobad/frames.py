"""Reports as plain tables: comma-separated values, or frames of pandas where that is there.

    from kulzobad import run
    from kulzobad.frames import frame, write_csv_of

    report = run(job)
    print(write_csv_of(report, "deliveries"))
    frame(report, "deliveries").groupby("vertex").size()
"""
from __future__ import annotations

import csv
import importlib
import io
from typing import Any, Callable, Dict, List, Optional, Tuple, Union

from .kinds import wrong
from .reports import Plan, Report

# A table of each name, with its columns. Keys, masks, routes and payloads are numbers.
COLUMNS: Dict[str, Tuple[str, ...]] = {
    "places": ("vertex", "x", "y", "core"),
    "keys": ("net", "key", "mask"),
    "tables": ("x", "y", "row", "key", "mask", "route"),
    "moved": ("event", "moved"),
    "deliveries": ("vertex", "packet", "key", "payload"),
    "dumps": ("x", "y", "out", "packet"),
    "waiting": ("packet", "x", "y", "kind", "at"),
}


def table_of(report: Union[Report, Plan], name: str) -> List[Tuple[Any, ...]]:
    """The lines of a table, each with an item for each of its columns. A payload that is not there is None. ValueError where there is no
    table of this name."""
    if isinstance(report, Plan):
        report = Report(report)
    if not isinstance(report, Report):
        raise wrong("table_of: report", report, "a Report or a Plan")
    if name not in COLUMNS:
        raise ValueError(f"there is no table {name!r} of a report; there are {', '.join(COLUMNS)}")
    if name == "tables":
        tables = report.plan.tables.values()
        return [(it.x, it.y, place, row.key, row.mask, row.route) for it in tables for place, row in enumerate(it.rows)]
    if name == "moved":
        return list(enumerate(report.moved, 1))
    lists: Dict[str, Any] = {
        "places": report.plan.places.values(), "keys": report.plan.keys.values(), "deliveries": report.deliveries, "dumps": report.dumps,
        "waiting": report.waiting,
    }
    return [tuple(getattr(it, column) for column in COLUMNS[name]) for it in lists[name]]


def write_csv_of(report: Union[Report, Plan], name: str) -> str:
    """A table as comma-separated values, below a line with the names of its columns. What is not there is empty."""
    lines = table_of(report, name)
    out = io.StringIO()
    writer = csv.writer(out, lineterminator="\n")
    writer.writerow(COLUMNS[name])
    writer.writerows(lines)
    return out.getvalue()


def frame(report: Union[Report, Plan], name: str, made: Optional[Callable[..., Any]] = None) -> Any:
    """A table as `made(lines, columns=names)`, which is pandas' `DataFrame` where none is given. ImportError where there is no pandas."""
    lines = table_of(report, name)
    if made is None:
        made = importlib.import_module("pandas").DataFrame
    return made(lines, columns=list(COLUMNS[name]))
