"""What a page shows of a job, as one JSON value: the job, its plan, and what came of its packets and events; or of a network and
tables of another tool, with what `verify` says of them.

Chips are numbered by x, then y, vertices and nets by their lists. Tables, trees and live links are bytes in base64, so that a page
opens quickly and reads of them what is asked for: of each row of a table three words of 32 bits (key, mask, route); of each visit of
a tree the chip and the row (16 bits each, 65535: default routing), the port at which packets come in (6: from a core) and the links
by which they leave (a byte each); of each chip how many nets come by it (32 bits), and for its six links the chip to which each leads
(16 bits, 65535: none).
"""
from __future__ import annotations

import base64
import json
import re
import struct
import sys
from array import array
from collections import Counter
from concurrent.futures import Future, ThreadPoolExecutor
from dataclasses import dataclass
from itertools import chain, combinations
from typing import Any, Dict, Iterable, List, Mapping, Optional, Sequence, Tuple

from .checks import Right
from .explaining import lines_of as lines_on
from .formats import Network
from .grid import Grid
from .jobs import Chip, Job, Machine
from .kinds import BrokenAnswer
from .program import Refused, answer_to_text
from .progress import showing
from .reports import LINKS, Plan, Report, read
from .stepping import UNSENT, bit_of, steps_of
from .trees import Link, Lookup, lookups
from .verdicts import lines_of, note_lines
from .verifying import Verifier, number_of
from .walking import LOCAL, Visit, links_behind, walk

NONE = 0xFFFF
SDRAM = 134217728
MOST_SHOWN = 400
# How many copies a queue holds where the job does not say.
QUEUE = 16
# With which queues a job is run too, where these are shorter than its own.
SHORTER = (4, 1)
# How many of these runs there may be at once.
MOST_RUNS = 4
# Statuses of jobs that the program has read, and that can't be compiled.
NO_ROOM, KEYS_OUT, CUT_OFF, TABLE_LONG = 5, 6, 7, 8


def asked(word: str, text: bytes, program: Optional[str] = None) -> Report:
    """What the program says to a word and a job's text. Refused where its status is not 0."""
    return read(answer_to_text([word], text, program).decode())


def value_of(text: bytes) -> Any:
    """The JSON value of a text: None where it has none."""
    try:
        return json.loads(text)
    except (ValueError, RecursionError):
        return None


# ---- a job


def page_data(text: bytes, word: str = "run", program: Optional[str] = None, queues: Optional[Sequence[int]] = None) -> Dict[str, Any]:
    """All that the page of a job's text shows. `word` is what is done with its packets: `run` or `reinject`. A run is shown beside those
    with queues of these lengths; where none are named, beside those of 4 and 1, where these are shorter than its own."""
    value = value_of(text)
    run = value.get("run") if isinstance(value, dict) else None
    has_packets, has_events = (isinstance(run, dict) and bool(run.get(name)) for name in ("packets", "events"))
    with ThreadPoolExecutor(MOST_RUNS) as pool:
        others = runs_begun(value, queues, program, pool) if has_packets and word == "run" else {}
        try:
            report = asked(word if has_packets else "tables", text, program)
            traced = asked("trace", text, program) if has_events else None
        except Refused as refused:
            return refused_data(refused, value, program)
        job = Job.from_json(value, lenient=True)
        shown = shown_job(job, report.plan)
        found = shown.data()
        trees = shown.trees()
        found.update(trees_data(shown.grid, trees))
        if has_packets:
            found["outcome"] = outcome_data(job, report, trees, word)
            found["outcome"]["runs"] = runs_data(job, report, others) if word == "run" else []
    if traced:
        found["trace"] = trace_data(job, traced)
    return found


@dataclass
class ShownNet:
    """A net as a page has it: its source and targets are names of vertices, and its blocks keys and masks."""

    name: str
    source: str
    targets: Sequence[str]
    blocks: Sequence[Tuple[int, int]]
    wanted: Optional[int]


@dataclass
class Shown:
    """A machine with vertices at their spots, nets and tables. `needs` has the bytes of memory of vertices that need some, in the order in
    which they stand on their chips."""

    machine: Machine
    spots: Mapping[str, Tuple[int, int, int]]
    needs: Mapping[str, int]
    nets: Sequence[ShownNet]
    tables: Mapping[Chip, Sequence[Any]]
    looks: Mapping[Chip, Lookup]
    target: Optional[int] = None

    def __post_init__(self) -> None:
        self.grid = Grid(self.machine)
        self.place = {name: place for place, name in enumerate(self.spots)}

    def data(self) -> Dict[str, Any]:
        """The machine, the vertices that have places, the nets, and the tables."""
        return {
            "machine": machine_data(self.machine, self.grid),
            "target": self.target,
            "vertices": self.vertices(),
            "nets": [self.net(it) for it in self.nets],
            "tables": {str(number_in(self.grid, chip)): packed_rows(rows) for chip, rows in self.tables.items() if rows},
        }

    def vertices(self) -> List[List[Any]]:
        """Of each vertex its name, chip, core, bytes of memory, and where these begin: behind those of the vertices before it."""
        begins: Counter[Chip] = Counter()
        found = []
        for name, (x, y, core) in self.spots.items():
            needed = self.needs.get(name, 0) if core < 18 else 0
            found.append([name, number_in(self.grid, (x, y)), core, needed, begins[x, y] if needed else 0])
            begins[x, y] += needed
        return found

    def net(self, net: ShownNet) -> List[Any]:
        """Of a net its name, source, targets, blocks, and how many keys it asked for. Vertices that have no places are named."""
        targets = [self.place.get(it, it) for it in dict.fromkeys(net.targets)]
        return [net.name, self.place.get(net.source, net.source), targets, [list(it) for it in net.blocks], net.wanted]

    def trees(self) -> List[List[Visit]]:
        """The way of each net's first key from the net's source. What a device sends comes in by its link."""
        found = []
        with showing("page: ways of nets"):
            for net in self.nets:
                x, y, core = self.spots[net.source]
                port = core - 18 if core >= 18 else LOCAL
                found.append(walk(self.grid, self.looks, net.blocks[0][0], (x, y), port) if net.blocks else [])
        return found


def shown_job(job: Job, plan: Plan) -> Shown:
    """A job as the program plans it. Vertices without places are left out; nets without keys have no blocks."""
    spots = {it.vertex: (it.x, it.y, it.core) for it in plan.places.values()}
    blocks = {it.net: [(it.key, it.mask)] for it in plan.keys.values()}
    nets = [ShownNet(it.name, it.source, it.targets, blocks.get(it.name, []), it.keys) for it in job.nets]
    tables = {chip: table.rows for chip, table in plan.tables.items()}
    needs = {it.name: it.sdram for it in job.vertices}
    return Shown(job.machine, spots, needs, nets, tables, lookups(plan.tables), value_or(job.target, 1024))


def value_or(value: Any, default: Any) -> Any:
    """A member's value, or what it is where absent."""
    return default if value is None else value


def number_in(grid: Grid, chip: Chip) -> int:
    """The number of a chip on a page."""
    return chip[0] * grid.height + chip[1]


def machine_data(machine: Machine, grid: Grid) -> Dict[str, Any]:
    """The grid, what is dead in it, and where each link leads."""
    ends = [grid.next_chip(chip, link) for chip in grid.chips() for link in range(6)]
    return {
        "width": grid.width,
        "height": grid.height,
        "wrap": bool(grid.wrap),
        "sdram": value_or(machine.sdram, SDRAM),
        "dead": sorted(number_in(grid, chip) for chip in grid.dead_chips),
        "deadCores": sorted([number_in(grid, (x, y)), core] for x, y, core in grid.dead_cores),
        "deadLinks": sorted([number_in(grid, (x, y)), link] for x, y, link in grid.dead_links),
        "ends": based(b"".join(struct.pack("<H", NONE if end is None else number_in(grid, end)) for end in ends)),
    }


def based(data: bytes) -> str:
    """Bytes in base64."""
    return base64.b64encode(data).decode()


def packed_rows(rows: Iterable[Any]) -> str:
    """A table's rows."""
    return based(b"".join(struct.pack("<III", it.key, it.mask, it.route) for it in rows))


def packed_tree(grid: Grid, visits: Iterable[Visit]) -> str:
    """A net's tree."""
    words = array("H")
    for (x, y), port, row, links, _ in visits:
        words.extend((x * grid.height + y, NONE if row is None else row, port | HIGH_BITS[links]))
    if sys.byteorder == "big":
        words.byteswap()
    return based(words.tobytes())


# The bits of links, by their numbers in order, as the higher byte of a word.
HIGH_BITS = {links: sum(1 << (8 + link) for link in links) for count in range(7) for links in combinations(range(6), count)}


def trees_data(grid: Grid, trees: Sequence[List[Visit]]) -> Dict[str, Any]:
    """The trees, and how many nets come by each chip."""
    with showing("page: trees of nets"):
        passes = Counter(chain.from_iterable({it[0] for it in visits} for visits in trees))
        counts = [passes[chip] for chip in grid.chips()]
        return {"trees": [packed_tree(grid, visits) for visits in trees], "passes": based(struct.pack(f"<{len(counts)}I", *counts))}


# ---- what came of packets and events


def passed_links(job: Job, report: Report, trees: Mapping[str, List[Visit]]) -> Dict[Link, int]:
    """How many packets passed each link: those of all trees, without those behind which a copy was dropped."""
    grid, passed, sent = Grid(job.machine), Counter[Link](), Counter[Tuple[Chip, Tuple[int, ...]]]()
    for net, count in Counter(it.net for it in job.packets).items():
        for visit in trees[net]:
            sent[visit[0], visit[3]] += count
    for ((x, y), links), count in sent.items():
        for link in links:
            passed[x, y, link] += count
    for dump in report.dumps:
        if dump.out in LINKS:
            passed.subtract(links_behind(grid, trees[job.packets[dump.packet].net], (dump.x, dump.y), LINKS.index(dump.out)))
    return {link: count for link, count in passed.items() if count}


def outcome_data(job: Job, report: Report, trees: Sequence[List[Visit]], word: str) -> Dict[str, Any]:
    """What became of the packets: sums, by chip, by net and by output, and how many packets passed each link."""
    grid, places = Grid(job.machine), report.plan.places
    sent = Counter(it.net for it in job.packets)
    delivered = Counter(number_in(grid, (places[it.vertex].x, places[it.vertex].y)) for it in report.deliveries)
    arrived = Counter(job.packets[it.packet].net for it in report.deliveries)
    lost = Counter(job.packets[it.packet].net for it in report.dumps)
    dumped = Counter((number_in(grid, (it.x, it.y)), it.out) for it in report.dumps)
    passed = passed_links(job, report, {net.name: visits for net, visits in zip(job.nets, trees)})
    return {
        "word": word,
        "packets": len(job.packets),
        "delivered": len(report.deliveries),
        "dumped": len(report.dumps),
        "deliveries": sorted(delivered.items()),
        "dumps": [[chip, out, count] for (chip, out), count in sorted(dumped.items())],
        "links": sorted([number_in(grid, (x, y)), link, count] for (x, y, link), count in passed.items()),
        "nets": [[sent[it.name], arrived[it.name], lost[it.name]] for it in job.nets],
    }


def runs_begun(value: Any, queues: Optional[Sequence[int]], program: Optional[str], pool: ThreadPoolExecutor) -> Dict[int, "Future[Copies]"]:
    """Runs of the same job with queues of other lengths, by these. They go on while the rest of the page is made."""
    own = value_or(value["run"].get("queue"), QUEUE)
    if type(own) is not int:
        return {}
    others = {it for it in SHORTER if it < own} if queues is None else {it for it in queues if it != own}

    def run(queue: int) -> Copies:
        text = json.dumps({**value, "run": {**value["run"], "queue": queue}}).encode()
        return copies_in(answer_to_text(["run"], text, program).decode())

    return {queue: pool.submit(run, queue) for queue in sorted(others)}


def runs_data(job: Job, report: Report, others: Mapping[int, "Future[Copies]"]) -> List[Dict[str, Any]]:
    """The run, and the others of the same job: how many copies each delivered and dropped, and on which chips."""
    with showing("page: run, with other queues"):
        done = {queue: run.result() for queue, run in others.items()}
    done[value_or(job.queue, QUEUE)] = len(report.deliveries), [(it.x, it.y) for it in report.dumps]
    height = job.machine.height
    return [
        {"queue": queue, "delivered": delivered, "dumped": len(chips), "chips": sorted(Counter(x * height + y for x, y in chips).items())}
        for queue, (delivered, chips) in sorted(done.items(), reverse=True)
    ]


# How many copies of a run arrived, and the chip of each that was dropped.
Copies = Tuple[int, List[Chip]]


def copies_in(text: str) -> Copies:
    """How many copies the report of a run has that arrived, and the chip of each that was dropped. BrokenAnswer where it is none."""
    end = re.fullmatch(r"end delivered (\d+) dumped (\d+) waiting 0 unsent 0", text[text.rfind("\n", 0, -1) + 1:-1])
    chips = [(int(x), int(y)) for x, y in re.findall(r"^dump (\d+) (\d+) \S+ \d+$", text, re.M)]
    if end is None or int(end[2]) != len(chips):
        raise BrokenAnswer("the report of a run has not as many copies as its last line says")
    return int(end[1]), chips


def trace_data(job: Job, report: Report) -> Dict[str, Any]:
    """The events of a trace, which of them moved something, and what each changed: a copy's number, its packet, the kind of its
    place, and two numbers that belong to it (a chip and a port, a route, a core or an output's bit; or a vertex)."""
    grid = Grid(job.machine)
    at = {it.name: place for place, it in enumerate(job.vertices)}
    nets = {it.name: place for place, it in enumerate(job.nets)}

    def changes(step: Sequence[Tuple[int, Any]]) -> Iterable[List[int]]:
        for number, copy in step:
            where = (at[copy.vertex], 0) if copy.vertex else (number_in(grid, copy.chip), copy.number)
            yield [number, copy.packet, copy.kind, *where]

    return {
        "queue": value_or(job.queue, QUEUE),
        "packets": [[nets[it.net], it.index] for it in job.packets],
        "copies": [[i, i, UNSENT, at[job.nets[nets[it.net]].source], 0] for i, it in enumerate(job.packets)],
        "events": job.events,
        "moved": [int(it) for it in report.moved],
        "steps": [list(changes(step)) for step in steps_of(job, report)],
    }


# ---- a job that is refused


def refused_data(refused: Refused, value: Any, program: Optional[str]) -> Dict[str, Any]:
    """What is shown of a job that is refused: its line, the part that it names, its places on the mesh, and of the plan what the
    program gives for the job without what stops it. Nothing of the plan where even the machine is none."""
    shown = plan_before(refused, value, program)
    member = json.dumps(refused.member) if refused.path and refused.member is not None else None
    found = shown.data() if shown else {}
    found["refusal"] = {
        "line": refused.line or refused.kind,
        "status": refused.status,
        "path": refused.path,
        "member": member if member is None or len(member) <= MOST_SHOWN else f"{member[:MOST_SHOWN]} ..",
        "told": lines_on(refused, program),
        "marks": marks_of(refused, value, shown) if shown else [],
    }
    return found


def plan_before(refused: Refused, value: Any, program: Optional[str]) -> Optional[Shown]:
    """What the program gives for the machine of the job, with the vertices before the one that has no room, and without nets."""
    if not isinstance(value, dict):
        return None
    is_read = refused.status in (NO_ROOM, KEYS_OUT, CUT_OFF, TABLE_LONG)
    graph: Dict[str, Any] = {**value["graph"], "nets": []} if is_read else {"vertices": [], "nets": []}
    if refused.status == NO_ROOM:
        names = [it["name"] for it in graph["vertices"]]
        graph["vertices"] = graph["vertices"][: names.index(refused.name)]
    part = {**value, "graph": graph, "run": {}}
    try:
        plan = asked("tables", json.dumps(part).encode(), program).plan
    except Refused:
        return None
    return shown_job(Job.from_json(value if is_read else part, lenient=True), plan)


def marks_of(refused: Refused, value: Any, shown: Shown) -> List[List[Any]]:
    """The chips that a refusal is about, each with what is to be seen there."""
    marks: List[Tuple[Any, str]] = []
    if refused.status == NO_ROOM:
        job = Job.from_json(value, lenient=True)
        vertex = next(it for it in job.vertices if it.name == refused.name)
        marks = [(vertex.device or vertex.at, f"{refused.name} asks for this chip")]
    elif refused.status == CUT_OFF:
        source = next(it.source for it in shown.nets if it.name == refused.name)
        marks = [(refused.chip, f"a target of {refused.name} is cut off here")]
        marks.append((shown.spots[source], f"{source}, the source of {refused.name}, is here"))
    elif refused.status == TABLE_LONG:
        marks = [(refused.chip, f"{refused.rows} rows, and a router has 1,024 entries")]
    elif refused.path and re.search(r"\.(at|device|dead_\w+\[\d+\]|events\[\d+\])$", refused.path):
        marks = [(refused.member, f"{refused.path} names this chip")]
    chips = [(chip_in(place), told) for place, told in marks]
    return [[number_in(shown.grid, chip), told] for chip, told in chips if chip and shown.grid.has(chip)]


def chip_in(place: Any) -> Optional[Chip]:
    """The first two whole numbers of a list: None where it is none, or has fewer."""
    numbers = [it for it in place if type(it) is int] if isinstance(place, (list, tuple)) else []
    return (numbers[0], numbers[1]) if len(numbers) >= 2 else None


# ---- tables of another tool


def verified_data(network: Network, program: Optional[str] = None) -> Dict[str, Any]:
    """All that the page of a network and its tables shows, with what `verify` says of them, and the way of the key that goes astray.
    ValueError where places, nets or rows are none on the machine, Refused where the program takes no such machine."""
    verifier = Verifier(network.machine, network.places, network.nets, network.tables, network.trees, program)
    verdict, notes = verifier.verdict(), verifier.notes()
    spots = {str(name): number_of(name, place) for name, place in network.places.items()}
    nets = [ShownNet(str(it.name), str(it.source), [str(name) for name in it.targets], it.blocks, None) for it in network.nets]
    looks = {chip: lookup_of(rows) for chip, rows in network.tables.items()}
    shown = Shown(network.machine, spots, {}, nets, network.tables, looks)
    found = shown.data()
    found.update(trees_data(shown.grid, shown.trees()))
    way: Sequence[Any] = getattr(verdict, "way", ())
    found["verdict"] = {
        "line": lines_of(verdict)[0],
        "right": isinstance(verdict, Right),
        "net": str(getattr(verdict, "net", "")) or None,
        "key": getattr(verdict, "key", None),
        "way": [[number_in(shown.grid, (it.x, it.y)), it.port, it.row, None if it.out is None else bit_of(it.out)] for it in way],
        "told": note_lines(notes),
    }
    return found


def lookup_of(rows: Iterable[Any]) -> Lookup:
    """Rows by mask and key, each with its place, the first of those that are the same."""
    found: Lookup = {}
    for place, row in enumerate(rows):
        found.setdefault(row.mask, {}).setdefault(row.key, (place, row))
    return found
