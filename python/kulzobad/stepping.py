"""Where each copy of each packet is after each event of a trace.

The program tells which events moved something, and where all copies are in the end. What is between follows from these and from
the tables: `steps_of` says it, and compares its last state with the program's.
"""
from __future__ import annotations

from collections import deque
from dataclasses import dataclass
from typing import Any, Deque, Dict, List, Sequence, Tuple

from .grid import Grid, link_of, opposite
from .jobs import Chip, Job
from .reports import LINKS, Delivery, Dump, Report, Wait
from .trees import lookups
from .walking import LOCAL, visit

# Kinds of places of a copy.
UNSENT, QUEUED, HELD, AT_CORE, DELIVERED, DUMPED, GONE = range(7)


@dataclass(frozen=True)
class Copy:
    """A copy at a place: `kind` and, where these say more, a chip and a number: the port of a queue (`QUEUED`), the outputs that
    the router still has to serve, as a route (`HELD`), a core, or 18 and a link's number for a device (`AT_CORE`), an output's bit
    in a route (`DUMPED`). `vertex` is who sends it (`UNSENT`) or has got it (`DELIVERED`)."""

    packet: int
    kind: int
    chip: Chip = (0, 0)
    number: int = 0
    vertex: str = ""


Change = Tuple[int, Copy]


class Stepping:
    """The copies of a trace, numbered as they come to be: the first are those of the packets, in their order."""

    def __init__(self, job: Job, report: Report) -> None:
        self.grid, self.looks, self.plan = Grid(job.machine), lookups(report.plan.tables), report.plan
        sources = {net.name: net.source for net in job.nets}
        self.keys = [report.plan.keys[it.net].key + it.index for it in job.packets]
        self.payloads = [it.payload for it in job.packets]
        self.copies = [Copy(i, UNSENT, vertex=sources[it.net]) for i, it in enumerate(job.packets)]
        self.unsent: Dict[str, Deque[int]] = {}
        for number, copy in enumerate(self.copies):
            self.unsent.setdefault(copy.vertex, deque()).append(number)
        self.queues: Dict[Tuple[int, Chip, int], Deque[int]] = {}
        self.hands: Dict[Chip, int] = {}
        self.at_link = {(it.x, it.y, it.core - 18): it.core for it in report.plan.places.values() if it.core >= 18}
        self.changes: List[Change] = []

    def put(self, number: int, copy: Copy) -> None:
        """A copy, new or not, comes to a place."""
        if number == len(self.copies):
            self.copies.append(copy)
        self.copies[number] = copy
        self.changes.append((number, copy))
        if copy.kind in (QUEUED, AT_CORE):
            self.queues.setdefault((copy.kind, copy.chip, copy.number), deque()).append(number)

    def event(self, event: Sequence[Any]) -> List[Change]:
        """What an event that is enabled changes."""
        self.changes = []
        getattr(self, event[0])(*event[1:])
        return self.changes

    def inject(self, vertex: str) -> None:
        number, place = self.unsent[vertex].popleft(), self.plan.places[vertex]
        self.put(number, Copy(self.copies[number].packet, QUEUED, (place.x, place.y), LOCAL))

    def collect(self, vertex: str) -> None:
        place = self.plan.places[vertex]
        number = self.queues[AT_CORE, (place.x, place.y), place.core].popleft()
        self.put(number, Copy(self.copies[number].packet, DELIVERED, vertex=vertex))

    def take(self, x: int, y: int, port: str) -> None:
        came = LOCAL if port == "L" else link_of(port)
        number = self.queues[QUEUED, (x, y), came].popleft()
        packet = self.copies[number].packet
        found = visit(self.looks, (x, y), came, self.keys[packet])
        route = sum(1 << link for link in found.links) | sum(1 << (6 + core) for core in found.cores)
        self.hands[x, y] = number
        self.put(number, Copy(packet, HELD, (x, y), route))

    def send(self, x: int, y: int, out: str) -> None:
        packet = self.leave((x, y), bit_of(out))
        if out.startswith("c"):
            return self.put(len(self.copies), Copy(packet, AT_CORE, (x, y), int(out[1:])))
        link = link_of(out)
        end = self.grid.next_chip((x, y), link)
        behind = Copy(packet, QUEUED, end, opposite(link)) if end else Copy(packet, AT_CORE, (x, y), self.at_link[x, y, link])
        return self.put(len(self.copies), behind)

    def dump(self, x: int, y: int, out: str) -> None:
        packet = self.leave((x, y), bit_of(out))
        self.put(len(self.copies), Copy(packet, DUMPED, (x, y), bit_of(out)))

    def leave(self, chip: Chip, bit: int) -> int:
        """The router of a chip has served an output. Gives the packet."""
        number = self.hands[chip]
        held = self.copies[number]
        left = held.number & ~(1 << bit)
        self.put(number, Copy(held.packet, HELD, chip, left) if left else Copy(held.packet, GONE))
        return held.packet

    def outcome(self) -> Tuple[List[Delivery], List[Dump], List[Wait], int]:
        """What a report says of the copies as they are, each list sorted."""
        deliveries, dumps, waiting = [], [], []
        for copy in self.copies:
            x, y = copy.chip
            if copy.kind == DELIVERED:
                deliveries.append(Delivery(copy.vertex, copy.packet, self.keys[copy.packet], self.payloads[copy.packet]))
            elif copy.kind == DUMPED:
                dumps.append(Dump(x, y, out_of(copy.number), copy.packet))
            elif copy.kind == QUEUED:
                waiting.append(Wait(copy.packet, x, y, "in", "L" if copy.number == LOCAL else LINKS[copy.number]))
            elif copy.kind == HELD:
                waiting += [Wait(copy.packet, x, y, "hand", out_of(bit)) for bit in range(24) if copy.number >> bit & 1]
            elif copy.kind == AT_CORE:
                waiting.append(Wait(copy.packet, x, y, "core", str(copy.number)))
        unsent = sum(copy.kind == UNSENT for copy in self.copies)
        return sorted(deliveries, key=repr), sorted(dumps, key=repr), sorted(waiting, key=repr), unsent


def bit_of(out: str) -> int:
    """The bit of an output in a route."""
    return 6 + int(out[1:]) if out.startswith("c") else link_of(out)


def out_of(bit: int) -> str:
    """The output of a bit in a route."""
    return LINKS[bit] if bit < 6 else f"c{bit - 6}"


def steps_of(job: Job, report: Report) -> List[List[Change]]:
    """For each event of the job what it changed: the numbers of copies, and where they are then. `report` is that of `trace`.
    A ValueError comes where the last state is not the report's."""
    stepping = Stepping(job, report)
    steps = [stepping.event(event) if moved else [] for event, moved in zip(job.events, report.moved)]
    told = sorted(report.deliveries, key=repr), sorted(report.dumps, key=repr), sorted(report.waiting, key=repr), report.unsent
    if len(report.moved) != len(job.events) or stepping.outcome() != told:
        raise ValueError("the report of the trace has another last state than its events lead to")
    return steps
