"""The command `lint`: what is wrong with a job, or likely to be.

Faults are members that the text's version does not know, all that the schema says, and what the program says. Hints are things that a
job may have on purpose, and mostly has not: vertices that no net joins, nets without packets, chips of which more is asked than they
have, and so on."""
from __future__ import annotations

import argparse
import json
from collections import Counter
from dataclasses import dataclass
from typing import Any, Dict, Iterator, List, Optional, Tuple

from .command import FAULT, HINT, add_job, add_json, command, read_bytes, write
from .explaining import MEMORY, lines_of
from .grid import Grid
from .json_faults import json_fault
from .jobs import Chip, Job
from .kinds import counted, wrong
from .members import slips_of
from .program import Refused, answer_to_text
from .schema import problems, schema

CORES = range(1, 18)
MOST_NAMED = 5


@dataclass(frozen=True)
class Remark:
    """What is told of a job: a fault, or a hint."""

    kind: str
    text: str

    def __str__(self) -> str:
        return f"{self.kind}: {self.text}"


def named(names: List[str]) -> str:
    """The first of some names, and how many more there are."""
    more = len(names) - MOST_NAMED
    return ", ".join([*names[:MOST_NAMED], *([f"{more} more"] if more > 0 else [])])


def members_twice(text: str) -> List[str]:
    """The names that stand twice in one object of a text, of which the last counts."""
    found: List[str] = []

    def counting(pairs: List[Tuple[str, Any]]) -> Dict[str, Any]:
        found.extend(name for name, count in Counter(name for name, _ in pairs).items() if count > 1)
        return dict(pairs)

    json.loads(text, object_pairs_hook=counting)
    return sorted(set(found))


def remarks_on(data: bytes, lenient: bool = False, program: Optional[str] = None) -> List[Remark]:
    """All that is told of the text of a job."""
    if not isinstance(data, bytes):
        raise wrong("remarks_on: data", data, "bytes")
    fault = json_fault(data)
    if fault:
        return [Remark("fault", f"not JSON: {fault}")]
    text = data.decode()
    value = json.loads(text)
    found = [Remark("hint", f"a member stands twice in one object, and the last counts: {name}") for name in members_twice(text)]
    if not lenient:
        found += [Remark("fault", str(slip)) for slip in slips_of(value)]
    of_schema = [Remark("fault", f"{path} {told}") for path, told in problems(value, schema(lenient=True), schema(lenient=True))]
    found += of_schema
    try:
        answer_to_text(["tables"], data, program)
    except Refused as refused:
        if not of_schema:
            found.append(Remark("fault", "; ".join([refused.line or refused.kind, *lines_of(refused, program)])))
        if refused.status == 4:
            return found
    try:
        return found + [Remark("hint", hint) for hint in hints_on(Job.from_json(value, lenient=True))]
    except ValueError:
        # (a job with faults that its dataclasses can't hold)
        return found


def hints_on(job: Job) -> Iterator[str]:
    """What a job without faults in its text has that is likely to be wrong."""
    yield from hints_on_graph(job)
    yield from hints_on_chips(job)
    yield from hints_on_packets(job)


def hints_on_graph(job: Job) -> Iterator[str]:
    """Vertices that no net joins, targets that stand twice, and keys that are no power of two by one or two."""
    joined = {net.source for net in job.nets}.union(*(net.targets for net in job.nets))
    unused = [vertex.name for vertex in job.vertices if vertex.name not in joined]
    if unused:
        yield f"{counted(len(unused), 'vertex is', 'vertices are')} in no net: {named(unused)}"
    twice = [net.name for net in job.nets if len(set(net.targets)) < len(net.targets)]
    if twice:
        yield f"{counted(len(twice), 'net has', 'nets have')} a target twice, which counts once: {named(twice)}"
    wide = [net.name for net in job.nets if net.keys > 16 and net.keys - 1 & net.keys - 2 == 0]
    if wide:
        yield f"{counted(len(wide), 'net needs', 'nets need')} one key more than a power of two, and so gets twice as many: {named(wide)}"


def hints_on_chips(job: Job) -> Iterator[str]:
    """Chips of which more is asked than they have, and a machine of which more is."""
    grid, memory = Grid(job.machine), MEMORY if job.machine.sdram is None else job.machine.sdram
    on_cores = [vertex for vertex in job.vertices if vertex.device is None]
    live = [chip for chip in grid.chips() if grid.is_live(chip)]
    cores = {chip: sum((*chip, core) not in grid.dead_cores for core in CORES) for chip in live}
    asked: Dict[Chip, int] = Counter(vertex.at for vertex in on_cores if vertex.at is not None)
    needed: Dict[Chip, int] = Counter()
    for vertex in on_cores:
        if vertex.at is not None:
            needed[vertex.at] += vertex.sdram
    for chip in sorted(asked):
        if chip not in cores:
            yield f"{counted(asked[chip], 'vertex asks', 'vertices ask')} for chip {chip}, which is dead or outside the grid"
        elif asked[chip] > cores[chip]:
            yield f"{asked[chip]} vertices ask for chip {chip}, which has {counted(cores[chip], 'core')} for vertices"
        if needed[chip] > memory:
            yield f"vertices that ask for chip {chip} need {needed[chip]} bytes of its {memory}"
    if len(on_cores) > sum(cores.values()):
        yield f"{counted(len(on_cores), 'vertex', 'vertices')} need more cores than the machine's {sum(cores.values())}"
    total = sum(vertex.sdram for vertex in on_cores)
    if total > memory * len(live):
        yield f"all vertices together need {total} bytes, and the machine has {memory * len(live)}"
    late = next((i for i, vertex in enumerate(on_cores) if vertex.at is not None and any(it.at is None for it in on_cores[:i])), None)
    if late is not None and len(on_cores) > min(cores.values(), default=0):
        yield f"vertex {on_cores[late].name} asks for a chip behind vertices that do not, which may have filled it: put such vertices first"


def hints_on_packets(job: Job) -> Iterator[str]:
    """Nets without packets where others have some, and queues that are shorter than the packets are many."""
    sent = {packet.net for packet in job.packets}
    silent = [net.name for net in job.nets if net.name not in sent]
    if sent and silent:
        yield f"{counted(len(silent), 'net has', 'nets have')} no packets: {named(silent)}"
    queue = 16 if job.queue is None else job.queue
    if len(job.packets) > queue:
        queues = f"queues of {counted(queue, 'copy', 'copies')}"
        yield f"there are {len(job.packets)} packets and {queues}: run may drop some, and reinject drops none"


def add_command(commands: Any) -> None:
    """Adds the command `lint`."""
    more = (
        "Each line is a fault, with which the program or the package refuses the job, or a hint.\n"
        "The status is 0 where there is no line, 21 where there is a fault, and 22 where there are hints alone.\n"
    )
    parser = command(commands, "lint", "tell what is wrong with a job, or likely to be", "kulzobad lint job.json", run, more)
    add_job(parser)
    add_json(parser)


def run(options: argparse.Namespace) -> int:
    """Writes the remarks on the command's job."""
    remarks = remarks_on(read_bytes(options.job), options.lenient, options.program)
    if options.json:
        write((json.dumps([{"kind": it.kind, "text": it.text} for it in remarks]) + "\n").encode(), options.out)
    else:
        write("".join(f"{it}\n" for it in remarks).encode(), options.out)
    return FAULT if any(it.kind == "fault" for it in remarks) else HINT if remarks else 0
