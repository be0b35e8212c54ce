"""What goes on and for how long, on standard error where that is a terminal; nothing elsewhere.

    with showing("page"):
        with several(3):
            for word in ("tables", "run", "trace"):
                with showing(word): ..        # `kulzobad: run, 2 of 3: 12 s`
        with showing("trees"): ..             # work of Python's own is shown too

A thread of its own shows the innermost of what goes on once a second, so that loops need not think of it. `speak` makes it show
nothing, or tell each call of the program too.
"""
from __future__ import annotations

import sys
import threading
import time
from contextlib import contextmanager
from typing import Callable, Iterator, List, Optional

# How long something may take before it is shown, and then how often it is.
SECONDS = 1.0

CLEARED = "\r\x1b[K"

# The counts of calls that are under way: how many are done, of how many.
_counts: List[List[int]] = []


class _Shown:
    """The thread that shows what goes on, and all that goes on, the innermost last."""

    def __init__(self) -> None:
        self.is_quiet = self.is_verbose = False
        self.ticks: List[Callable[[], None]] = []
        self.lock = threading.RLock()
        self.is_written = False
        self._stop: Optional[threading.Event] = None

    def begin(self, tick: Callable[[], None]) -> None:
        """Something begins; `tick` shows it."""
        with self.lock:
            self.ticks.append(tick)
            if self._stop is None:
                self._stop = threading.Event()
                threading.Thread(target=self._go, args=(self._stop,), daemon=True).start()

    def end(self, tick: Callable[[], None]) -> None:
        """What `tick` shows has ended; mostly that is the innermost, and with threads another may be."""
        with self.lock:
            self.ticks.remove(tick)
            self.clear()
            if not self.ticks and self._stop is not None:
                self._stop.set()
                self._stop = None

    def clear(self) -> None:
        """Takes away what was shown."""
        if self.is_written:
            self.is_written = False
            sys.stderr.write(CLEARED)
            sys.stderr.flush()

    def _go(self, stop: threading.Event) -> None:
        while not stop.wait(SECONDS):
            with self.lock:
                if self.ticks and not stop.is_set():
                    self.ticks[-1]()


_shown = _Shown()


def speak(is_quiet: bool = False, is_verbose: bool = False) -> None:
    """How much is told from now on: nothing of what goes on, or what `tell` is given too."""
    _shown.is_quiet, _shown.is_verbose = is_quiet, is_verbose


def tell(line: str) -> None:
    """Writes a line to standard error, where somebody asked for all that is done."""
    if _shown.is_verbose:
        with still():
            print(f"kulzobad: {line}", file=sys.stderr)


@contextmanager
def still() -> Iterator[None]:
    """Something else is written meanwhile, and nothing is shown."""
    with _shown.lock:
        _shown.clear()
    goes_on = bool(_shown.ticks)
    def tick() -> None:
        """Shows nothing."""

    if goes_on:
        _shown.begin(tick)
    try:
        yield
    finally:
        if goes_on:
            _shown.end(tick)


def is_shown() -> bool:
    """Whether it is shown: standard error is a terminal, and nobody asked for quiet."""
    try:
        return not _shown.is_quiet and sys.stderr.isatty()
    except (AttributeError, ValueError):
        return False


@contextmanager
def several(total: int) -> Iterator[None]:
    """So many calls come, which are counted."""
    _counts.append([0, total])
    try:
        yield
    finally:
        _counts.pop()


@contextmanager
def showing(what: str) -> Iterator[Callable[[], None]]:
    """Something goes on. It is shown once a second, and where what is given is called."""
    begun = time.monotonic()
    counts = _counts[-1] if _counts else [0, 1]
    place = f", {counts[0] + 1} of {counts[1]}" if counts[1] > 1 else ""

    is_told = is_shown()

    def tick() -> None:
        if is_told:
            with _shown.lock:
                _shown.is_written = True
                sys.stderr.write(f"{CLEARED}kulzobad: {what}{place}: {time.monotonic() - begun:.0f} s")
                sys.stderr.flush()

    if is_told:
        _shown.begin(tick)
    # (calls inside it are no part of that count)
    _counts.append([0, 1])
    try:
        yield tick
    finally:
        _counts.pop()
        counts[0] += 1
        if is_told:
            _shown.end(tick)
