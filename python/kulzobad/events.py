"""The events of `trace`: `events.inject("a")`, `events.take(0, 0, "L")`."""
from __future__ import annotations

from .jobs import Event, collect, dump, inject, send, take

__all__ = ["Event", "collect", "dump", "inject", "send", "take"]
