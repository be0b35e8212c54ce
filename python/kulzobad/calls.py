"""The calls of the package, each by the program's word for it: `calls.compile(job)`, `calls.gen(7)`."""
from __future__ import annotations

from .explaining import explain
from .minimising import minimise
from .program import apps, check, compile, gen, reinject, run, tables, trace
from .trees import trees
from .verifying import notes, verify

__all__ = ["apps", "check", "compile", "explain", "gen", "minimise", "notes", "reinject", "run", "tables", "trace", "trees", "verify"]
