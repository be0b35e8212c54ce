"""Steps with applications on one machine, and what `apps` says to each, as objects."""
from __future__ import annotations

import re
from dataclasses import dataclass, fields
from typing import Any, Dict, List, Optional, Sequence, Tuple

from .jobs import Job
from .kinds import BrokenAnswer, one, shown, whole
from .reports import NAME, N

Step = Tuple[Any, ...]

# The fields of answers that are no numbers.
NAMES = ("vertex", "net")

# All packets that were loaded are brought to their targets.
RUN: Step = ("run",)


def load(number: int, job: Job) -> Step:
    """The graph and the packets of a job are loaded as the application of this number, beside the others. The first load of a list
    also gives the machine, and how many copies its queues hold."""
    return ("load", whole("load: number", number), one("load: job", job, Job))


def unload(number: int) -> Step:
    """The application of this number leaves: its cores, memory, keys and entries are free again."""
    return ("unload", whole("unload: number", number))


class Answer:
    """What is said to a step: one of the classes below. It counts as true where the step was done, and as false where nothing has
    changed."""

    def __bool__(self) -> bool:
        return isinstance(self, (Loaded, Unloaded, Ran))


@dataclass(frozen=True)
class Loaded(Answer):
    """The application is loaded, and its packets are unsent."""

    number: int


@dataclass(frozen=True)
class AlreadyLoaded(Answer):
    """The number has an application."""

    number: int


@dataclass(frozen=True)
class NoRoom(Answer):
    """This vertex finds no chip with a free core, or not on the chip that it asks for; or the application's own vertices before it
    leave it too little memory there."""

    number: int
    vertex: str


@dataclass(frozen=True)
class CutOff(Answer):
    """Chip (x, y) has a target of the net, and no walk of live links leads there from its source."""

    number: int
    net: str
    x: int
    y: int


@dataclass(frozen=True)
class MemoryOut(Answer):
    """On its chip the other applications leave no range of memory that is long enough for this vertex."""

    number: int
    vertex: str


@dataclass(frozen=True)
class KeysOut(Answer):
    """There is no free range of keys for this net, or the keys that are fixed for it are not all free."""

    number: int
    net: str


@dataclass(frozen=True)
class RowsOut(Answer):
    """The router of chip (x, y) has no free range of entries that is long enough for the application's rows."""

    number: int
    x: int
    y: int


@dataclass(frozen=True)
class Unloaded(Answer):
    """The application has left. So many copies of its packets had arrived, and so many had been dropped."""

    number: int
    delivered: int
    dumped: int


@dataclass(frozen=True)
class NotLoaded(Answer):
    """The number has no application."""

    number: int


@dataclass(frozen=True)
class Waiting(Answer):
    """A copy of this packet is unsent or on its way, and it is the application's first such; packets are numbered over all loads that
    were done."""

    number: int
    packet: int


@dataclass(frozen=True)
class Ran(Answer):
    """Every packet has come to rest."""


# The answers to each kind of step.
ANSWERS: Dict[str, Tuple[type, ...]] = {
    "load": (Loaded, AlreadyLoaded, NoRoom, CutOff, MemoryOut, KeysOut, RowsOut),
    "unload": (Unloaded, NotLoaded, Waiting),
    "run": (Ran,),
}


def read_answer(line: str, at: int = 1) -> Answer:
    """Reads a line of `apps`, without its end, which is the line of this number."""
    for pattern, made in (
        (rf"load {N} ok", Loaded),
        (rf"load {N} loaded", AlreadyLoaded),
        (rf"load {N} no room {NAME}", NoRoom),
        (rf"load {N} cut off {NAME} {N} {N}", CutOff),
        (rf"load {N} memory out {NAME}", MemoryOut),
        (rf"load {N} keys out {NAME}", KeysOut),
        (rf"load {N} rows out {N} {N}", RowsOut),
        (rf"unload {N} got {N} dumped {N}", Unloaded),
        (rf"unload {N} not loaded", NotLoaded),
        (rf"unload {N} waiting {N}", Waiting),
        (r"run", Ran),
    ):
        found = re.fullmatch(pattern, line)
        if found:
            # (a name may have digits alone)
            items = zip((it.name for it in fields(made)), found.groups())
            answer: Answer = made(**{name: item if name in NAMES else int(item) for name, item in items})
            return answer
    raise BrokenAnswer(f"line {at} is {shown(line)}: no line of apps")


def read_answers(text: str, steps: Optional[Sequence[Sequence[Any]]] = None) -> List[Answer]:
    """Reads what `apps` writes: a line for each step. Where steps are given, there have to be as many lines, each of its step.
    ValueError, with the line, where that is not so."""
    *lines, rest = text.split("\n")
    if rest:
        raise BrokenAnswer(f"line {len(lines) + 1} is {shown(rest)}: it has no end")
    answers = [read_answer(line, at) for at, line in enumerate(lines, 1)]
    if steps is not None and len(answers) != len(steps):
        last = f", and the last is {shown(lines[-1])}" if lines else ""
        raise BrokenAnswer(f"line {min(len(answers), len(steps)) + 1}: there are {len(answers)} lines for {len(steps)} steps{last}")
    for at, (line, answer, step) in enumerate(zip(lines, answers, steps or [])):
        if not isinstance(answer, ANSWERS[step[0]]) or [getattr(answer, "number", None)] != [*step[1:2], None][:1]:
            raise BrokenAnswer(f"line {at + 1} is {shown(line)}: it answers no step {shown(step[:2])}")
    return answers
