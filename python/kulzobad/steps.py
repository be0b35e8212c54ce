"""The steps of `apps`, `steps.load(1, job)`, `steps.unload(1)` and `steps.RUN`, and what is answered to them."""
from __future__ import annotations

from .applications import RUN, AlreadyLoaded, Answer, CutOff, KeysOut, Loaded, MemoryOut, NoRoom, NotLoaded, Ran, RowsOut, Step, Unloaded
from .applications import Waiting, load, unload

__all__ = [
    "RUN", "AlreadyLoaded", "Answer", "CutOff", "KeysOut", "Loaded", "MemoryOut", "NoRoom", "NotLoaded", "Ran", "RowsOut", "Step", "Unloaded",
    "Waiting", "load", "unload",
]
