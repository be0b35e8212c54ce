"""What stands behind a refusal: the part and what is allowed there, or the cause with its figures.

    try:
        run(job)
    except Refused as refused:
        print(refused.line, explain(refused, job), sep="\\n")

Figures come from the program: it is asked for the places of the vertices before the one without room, the keys of the nets before the
one without keys, and the tables of a part of the nets. Which chips live links join is worked out here."""
from __future__ import annotations

import difflib
import json
import re
from collections import Counter, deque
from dataclasses import replace
from typing import Any, Dict, Iterator, List, Mapping, Optional, Sequence, Set, Tuple, Union

from .grid import Grid
from .json_faults import json_fault
from .jobs import Chip, Job, Machine, Net, Vertex, part_at
from .kinds import counted, one, shown_as_json, wrong
from .program import Refused, tables
from .reports import LINKS, Keys, Place
from .schema import allowed_at, parts_at
from .trees import Way, ways_of_job

MOST_BYTES = 16777216
MOST_PLACES = 16777216
ALL_KEYS = 2**32
MEMORY = 134217728
CORES = range(1, 18)
FIRST_DEVICE = 18

STEP = 'a step: ["load", N, JOB], ["unload", N] or ["run"], with N a whole number from 0 to 4294967295, and JOB a job of version 1 or 2'
EVENT = (
    'an event: ["inject", VERTEX], ["collect", VERTEX], ["take", X, Y, PORT], ["send", X, Y, OUT] or ["dump", X, Y, OUT], with X and Y from'
    " 0 to 63, PORT a link (E, NE, N, W, SW, S) or L, and OUT a link or c0 to c17"
)

# What is told of refusals that no part of a job brings about.
OF_THE_SYSTEM = {
    1: "the words are no command; N of gen is 0 or digits without a leading 0, below 18446744073709551616",
    2: "the system could not give the bytes of standard input, as where it is a folder",
    3: "the system did not take all that was to be written, as where a disk is full or the reader of a pipe has gone",
    9: "the system gave the program less memory than it asked for: a limit (ulimit -v), a container's, or the computer's own",
    11: "the system did not hand the words to the program, as where one is not UTF-8",
    125: "the launcher could not build the program; it says why on standard error",
}


def explain(refused: Refused, job: Union[Job, str, bytes, Mapping[str, Any], List[Any], None] = None, program: Optional[str] = None) -> str:
    """What stands behind a refusal, in lines: what the program read is known to the refusal, and needs no `job`; where one is given,
    as an object, a JSON value or its text, it is taken in place of that."""
    return "\n".join(lines_of(with_job(one("explain: refused", refused, Refused), job), program))


def with_job(refused: Refused, job: Union[Job, str, bytes, Mapping[str, Any], List[Any], None]) -> Refused:
    """The refusal as one of this job."""
    if job is None:
        return refused
    if isinstance(job, Job):
        return Refused(refused.status, refused.line, {"job": job.as_json()}, job.text().encode())
    if isinstance(job, (str, bytes)):
        text = job.encode() if isinstance(job, str) else job
        try:
            value = json.loads(text)
        except (ValueError, RecursionError):
            return Refused(refused.status, refused.line, {}, text)
        return with_job(Refused(refused.status, refused.line, {}, text), value)
    parts = {"job": job.get("job"), "in": job} if isinstance(job, dict) and "trees" in job else {"job": job}
    try:
        text = json.dumps(job).encode()
    except (TypeError, ValueError, RecursionError):
        raise wrong("explain: job", job, "a Job, its JSON value or its text") from None
    return Refused(refused.status, refused.line, parts, refused.text or text)


def lines_of(refused: Refused, program: Optional[str] = None) -> List[str]:
    """The lines that explain a refusal; none where nothing is known."""
    if refused.status < 0:
        return [f"the program was ended by signal {-refused.status}"]
    if refused.status in OF_THE_SYSTEM:
        return [OF_THE_SYSTEM[refused.status]]
    if refused.status == 4:
        return list(lines_of_bad_job(refused))
    told = {5: no_room, 6: keys_out, 7: cut_off, 8: table_long}.get(refused.status)
    if told is None or not isinstance(refused.parts.get("job"), dict):
        return []
    try:
        return list(told(refused, Job.from_json(refused.parts["job"], lenient=True), program))
    except (Refused, ValueError, LookupError):
        # (the job was another one, or the program is another now)
        return []


# ---- faults of the text


def lines_of_bad_job(refused: Refused) -> Iterator[str]:
    """What is wrong with a text, or with a part of it."""
    if refused.line == "bad job: too long":
        yield from too_long(refused.text)
    elif refused.line == "bad job: not json":
        fault = json_fault(refused.text)
        if fault:
            yield str(fault)
    elif refused.path is not None:
        job, path = home_of(refused.parts, refused.path)
        told = {"unknown name": unknown_name, "double name": double_name, "clash": clash, "too many": too_many}
        yield from told.get(refused.fault or "", wrong_value)(refused, job, path)


def home_of(parts: Mapping[str, Any], path: str) -> Tuple[Any, str]:
    """The job in which a path lies, and the path in it: that of a step's job, or the job itself."""
    step = re.match(r"job\[(\d+)\]\[2\]", path)
    if step is None:
        return parts.get("job"), path
    return part_at(parts, step[0]), "job" + path[step.end():]


def too_long(text: bytes) -> Iterator[str]:
    """How long a text is, and how long it would be without blanks."""
    told = f"the text has {len(text)} bytes, and may have {MOST_BYTES}"
    try:
        bare = len(json.dumps(json.loads(text), separators=(",", ":")))
    except (ValueError, RecursionError):
        yield told
    else:
        yield f"{told}; without blanks it has {bare}"


def wrong_value(refused: Refused, job: Any, path: str) -> Iterator[str]:
    """What stands at the path, and what is allowed there."""
    parts = {"job": job} if path.startswith("job") else refused.parts
    there = part_at(parts, path)
    what = f"it is {shown_as_json(there)}" if there is not None else "it is null" if is_null(parts, path) else "it is not there"
    wanted = allowed_in_words(refused.path or path, path)
    yield f"{what}; it should be {wanted}" if wanted else what
    yield from more_of_value(job, path, there)


def is_null(parts: Mapping[str, Any], path: str) -> bool:
    """Whether null stands at a path at which nothing else does."""
    last = re.search(r"(\[\d+\]|\.\w+)$", path)
    if last is None:
        return path in parts
    inner = part_at(parts, path[:last.start()])
    return isinstance(inner, list) if last[0].startswith("[") else isinstance(inner, dict) and last[0][1:] in inner


def allowed_in_words(whole: str, path: str) -> str:
    """What is allowed at a path of a job, a request or steps."""
    if path.startswith("in"):
        return allowed_in_request(path)
    if re.fullmatch(r"job\[\d+\]", whole):
        return STEP
    if re.fullmatch(r"job\.run\.events\[\d+\]", path):
        return EVENT
    if path == "job" and whole != "job":
        return "a job: an object with version, machine and graph"
    return allowed_at(path) if path != "job" else "an object with version, machine and graph, or for apps a list of steps"


def allowed_in_request(path: str) -> str:
    """What is allowed at a path of a request to check."""
    if path == "in":
        return "a request: an object with job, trees and image"
    if path == "in.trees":
        return "a list of trees, as many as job.graph.nets has nets, in their order"
    if re.fullmatch(r"in\.trees\[\d+\]", path):
        return "a list of links [x, y, link]"
    if path.startswith("in.trees"):
        return "a link [x, y, link] inside the machine's grid, with link from 0 to 5"
    return "a list of whole numbers from 0 to 255, the bytes of an image" if path == "in.image" else "a whole number from 0 to 255"


def more_of_value(job: Any, path: str, there: Any) -> Iterator[str]:
    """What else counts at some paths: the size of the grid, a net's keys, and what a block of keys is."""
    dead = re.fullmatch(r"job\.machine\.dead_(chip|core|link)s\[\d+\]", path)
    if dead:
        width, height = part_at({"job": job}, "job.machine.width"), part_at({"job": job}, "job.machine.height")
        yield f"the grid is {width} by {height}: x is 0 to {width - 1}, and y 0 to {height - 1}"
    index = re.fullmatch(r"(job\.run\.packets\[\d+\])\.index", path)
    if index and isinstance(there, int):
        net: Mapping[str, Any] = next((it for it in job["graph"]["nets"] if it["name"] == part_at({"job": job}, index[1] + ".net")), {})
        keys = net.get("keys") or 1
        yield f"net {net.get('name')} has {counted(keys, 'key')}, so index is 0{f' to {keys - 1}' if keys > 1 else ''}"
    fixed = re.fullmatch(r"(job\.graph\.nets\[\d+\])\.fixed", path)
    if fixed and isinstance(there, list) and len(there) == 2 and all(type(it) is int for it in there):
        key, mask = there
        yield from more_of_block(key, mask, part_at({"job": job}, fixed[1] + ".keys") or 1)
    if path == "job.version" and there is not None:
        yield "steps with applications have jobs of version 1 or 2" if there == 3 else "the versions are 1, 2 and 3"


def more_of_block(key: int, mask: int, keys: int) -> Iterator[str]:
    """What is wrong with a block of keys."""
    zeros = ALL_KEYS - mask
    if not 0 <= key < ALL_KEYS or not 0 <= mask < ALL_KEYS:
        yield "key and mask are below 4294967296"
    elif zeros & (zeros - 1):
        yield f"the mask is {mask:08x} in hexadecimal, and should be ones followed by zeros"
    elif key & ~mask:
        yield f"key {key:08x} has bits outside mask {mask:08x}"
    elif zeros < keys:
        yield f"mask {mask:08x} has {counted(zeros, 'key')}, and the net needs {keys}"


def names_in(job: Any, kind: str) -> List[str]:
    """The names of the vertices or the nets of a job's value."""
    return [it["name"] for it in job["graph"][kind]]


def unknown_name(refused: Refused, job: Any, path: str) -> Iterator[str]:
    """Names that are like the one that is none."""
    there = part_at({"job": job}, path)
    kind = "nets" if path.endswith(".net") else "vertices"
    names, name = names_in(job, kind), there[1] if isinstance(there, list) else there
    if name in names:
        yield f"{name} is a device, which takes packets and sends none"
        return
    near = difflib.get_close_matches(name, names, n=3, cutoff=0.5) or [it for it in names if it.lower() == name.lower()]
    there_are = f"there is {', '.join(near)}" if near else f"there are {len(names)}"
    yield f"no {'net' if kind == 'nets' else 'vertex'} is called {name}; {there_are}"


def double_name(refused: Refused, job: Any, path: str) -> Iterator[str]:
    """Where the name stands first."""
    found = re.fullmatch(r"job\.graph\.(vertices|nets)\[(\d+)\]\.name", path)
    if found:
        name = part_at({"job": job}, path)
        yield f"job.graph.{found[1]}[{names_in(job, found[1]).index(name)}] is called {name} already"


def clash(refused: Refused, job: Any, path: str) -> Iterator[str]:
    """What an earlier vertex or net has."""
    found = re.fullmatch(r"job\.graph\.(vertices|nets)\[(\d+)\]\.(device|fixed)", path)
    if not found:
        return
    there, member = part_at({"job": job}, path), found[3]
    for i, it in enumerate(job["graph"][found[1]][:int(found[2])]):
        other = it.get(member)
        if other is not None and (other == there if member == "device" else not (other[0] ^ there[0]) & other[1] & there[1]):
            shared = f"device {other}" if member == "device" else f"keys {other[0]:08x} to {other[0] + ALL_KEYS - other[1] - 1:08x}"
            yield f"{it['name']}, which is job.graph.{found[1]}[{i}], has {shared}"
            return


def too_many(refused: Refused, job: Any, path: str) -> Iterator[str]:
    """How many there are, and how many there may be."""
    count = refused.line.rsplit(" ", 1)[-1]
    if path == "job.run.queue":
        made = Job.from_json(job, lenient=True)
        grid = Grid(made.machine)
        live = sum(map(grid.is_live, grid.chips()))
        queues = 7 * live + len(made.vertices)
        chips, vertices = counted(live, "live chip"), counted(len(made.vertices), "vertex", "vertices")
        yield f"{chips} and {vertices} have {queues} queues, {count} places in all; there may be {MOST_PLACES}"
        yield f"queue may be {MOST_PLACES // queues} here"
    elif path == "job" or re.fullmatch(r"job\[\d+\]", path):
        yield f"there are {count} steps, and may be 65535"
    else:
        limits = [part["maxItems"] for part in parts_at(path, lenient=True) if "maxItems" in part]
        yield f"there are {count}" + (f", and may be {limits[0]}" if limits else "")


# ---- no room


def places_before(job: Job, at: int, program: Optional[str]) -> List[Place]:
    """The places of the vertices before one, by the program."""
    before = Job(job.machine, job.vertices[:at])
    return list(tables(before, program).places.values())


def no_room(refused: Refused, job: Job, program: Optional[str]) -> Iterator[str]:
    """Which of the causes it is that a vertex has no place, and the figures."""
    at = [vertex.name for vertex in job.vertices].index(refused.name or "")
    vertex, grid = job.vertices[at], Grid(job.machine)
    if vertex.device is not None:
        yield from no_room_for_device(vertex.device, grid)
        return
    places = places_before(job, at, program)
    room = Room(job, grid, places)
    if vertex.at is not None:
        chip = vertex.at
        if not grid.has(chip):
            bounds = f"x 0 to {grid.width - 1} and y 0 to {grid.height - 1}"
            yield f"outside the grid: it asks for chip {chip}, and the grid is {grid.width} by {grid.height}, {bounds}"
        elif not grid.is_live(chip):
            yield f"dead chip: it asks for chip {chip}, which is listed in job.machine.dead_chips"
        elif not room.free_cores(chip):
            yield f"cores: it asks for chip {chip}, {room.cores_in_words(chip)}"
        else:
            yield f"memory: it needs {counted(vertex.sdram, 'byte')}, and {room.memory_in_words(chip)}"
        return
    live = [chip for chip in grid.chips() if grid.is_live(chip)]
    free = [chip for chip in live if room.free_cores(chip)]
    if not live:
        yield "dead chip: the machine has no live chip"
    elif not free:
        cores = sum(len(room.usable_cores(chip)) for chip in live)
        have = counted(len(live), "live chip has", "live chips have")
        yield f"cores: {have} {counted(cores, 'core')} for vertices, and the vertices before it have them all"
    else:
        best = max(free, key=room.free_memory)
        chips = counted(len(free), "chip has a free core", "chips have a free core")
        yield f"memory: it needs {counted(vertex.sdram, 'byte')}; {chips}, and {best} has the most left: {room.memory_in_words(best)}"


class Room:
    """What the vertices before one leave of each chip."""

    def __init__(self, job: Job, grid: Grid, places: Sequence[Place]) -> None:
        self.grid, self.memory = grid, MEMORY if job.machine.sdram is None else job.machine.sdram
        self.needs: Dict[Chip, int] = Counter()
        self.taken: Dict[Chip, List[str]] = {}
        sizes = {vertex.name: vertex.sdram for vertex in job.vertices}
        for place in places:
            if place.core < FIRST_DEVICE:
                self.needs[place.x, place.y] += sizes[place.vertex]
                self.taken.setdefault((place.x, place.y), []).append(place.vertex)

    def usable_cores(self, chip: Chip) -> List[int]:
        """The cores for vertices that are not dead."""
        return [core for core in CORES if (*chip, core) not in self.grid.dead_cores]

    def free_cores(self, chip: Chip) -> int:
        """How many of them are free."""
        return len(self.usable_cores(chip)) - len(self.taken.get(chip, []))

    def free_memory(self, chip: Chip) -> int:
        """How many bytes are left."""
        return self.memory - self.needs.get(chip, 0)

    def cores_in_words(self, chip: Chip) -> str:
        """Who has the cores of a chip."""
        dead, names = len(CORES) - len(self.usable_cores(chip)), self.taken.get(chip, [])
        return f"whose {len(CORES)} cores for vertices are taken: {dead} dead, {len(names)} by vertices before it{in_brackets(names)}"

    def memory_in_words(self, chip: Chip) -> str:
        """What is left of the memory of a chip."""
        names = self.taken.get(chip, [])
        needed = f"{self.needs.get(chip, 0)}{in_brackets(names)}"
        return f"chip {chip} has {self.memory}, of which vertices before it need {needed}: {self.free_memory(chip)} are left"


def no_room_for_device(device: Tuple[int, int, int], grid: Grid) -> Iterator[str]:
    """Why no device can hang on this link."""
    chip, link = device[:2], device[2]
    if not grid.has(chip):
        yield f"outside the grid: it hangs on chip {chip}, and the grid is {grid.width} by {grid.height}"
    elif not grid.is_live(chip):
        yield f"dead chip: it hangs on chip {chip}, which is listed in job.machine.dead_chips"
    else:
        yield f"live link: it hangs on link {link} ({LINKS[link]}) of chip {chip}, which leads to live chip {grid.next_chip(chip, link)}"


def in_brackets(names: Sequence[str], most: int = 4) -> str:
    """The first of some names, and how many more there are."""
    more = [f"{len(names) - most} more"] if len(names) > most else []
    return f" ({', '.join([*names[:most], *more])})" if names else ""


# ---- keys out


def keys_before(job: Job, at: int, program: Optional[str]) -> List[Keys]:
    """The keys of the nets before one, and the fixed ones of those behind it, by the program: each net stands on a chip of its own."""
    nets = [net for i, net in enumerate(job.nets) if i < at or i > at and net.fixed is not None]
    vertices = [Vertex(f"v{i}", at=(i % 64, i // 64)) for i in range(len(nets))]
    alone = [replace(net, source=f"v{i}", targets=[f"v{i}"]) for i, net in enumerate(nets)]
    return list(tables(Job(Machine(64, 64), vertices, alone), program).keys.values())


def keys_out(refused: Refused, job: Job, program: Optional[str]) -> Iterator[str]:
    """How many keys are free, and how long the longest range of them is."""
    at = [net.name for net in job.nets].index(refused.name or "")
    size = 1
    while size < job.nets[at].keys:
        size *= 2
    blocks = sorted((keys.key, ALL_KEYS - keys.mask) for keys in keys_before(job, at, program))
    gaps, end = [], 0
    for begin, length in [*blocks, (ALL_KEYS, 0)]:
        gaps += [(end, begin)] if begin > end else []
        end = begin + length
    free = sum(end - begin for begin, end in gaps)
    longest = max((longest_aligned(*gap) for gap in gaps), default=0)
    keys = counted(job.nets[at].keys, "key takes", "keys take")
    yield f"its {keys} an aligned range of {size}; of {ALL_KEYS} keys {free} are free, and the longest aligned range has {longest}"


def longest_aligned(begin: int, end: int) -> int:
    """The length of the longest range of a power of two that begins at a multiple of it and lies in these bounds."""
    return max((1 << bit for bit in range(33) if -(-begin >> bit << bit) + (1 << bit) <= end), default=0)


# ---- cut off


def reached_from(grid: Grid, root: Chip) -> Set[Chip]:
    """The chips to which walks of live links lead."""
    found, ahead = {root}, deque([root])
    while ahead:
        for end in grid.neighbours(ahead.popleft()):
            if end not in found:
                found.add(end)
                ahead.append(end)
    return found


def cut_off(refused: Refused, job: Job, program: Optional[str]) -> Iterator[str]:
    """The last chip that is reached on the way to the target, and the dead parts round it."""
    grid, net = Grid(job.machine), {it.name: it for it in job.nets}[refused.name or ""]
    places = {place.vertex: place for place in places_before(job, len(job.vertices), program)}
    root, target = (places[net.source].x, places[net.source].y), refused.chip
    if target is None:
        return
    end: Chip = target
    reached = reached_from(grid, root)
    names = [name for name in net.targets if (places[name].x, places[name].y) == target]
    who = f"{names[0]} stands" if len(names) == 1 else f"{', '.join(names[:4])} stand"
    last = min(reached, key=lambda chip: (steps_between(grid, chip, end), steps_between(grid, root, chip), chip))
    others = counted(len(reached) - 1, "other chip")
    yield f"from chip {root}, where {net.source} stands, live links lead to {others}, and not to {target}, where {who}"
    away = counted(steps_between(grid, last, target), "link")
    yield f"the last chip that is reached on the way is {last}, {away} from there as if nothing were dead; {dead_round(grid, last)}"
    yield f"of the target's chip {dead_round(grid, target)}"


def steps_between(grid: Grid, start: Chip, end: Chip) -> int:
    """How many links a walk between two chips has, as if nothing were dead."""
    xs, ys = [end[0] - start[0]], [end[1] - start[1]]
    if grid.wrap:
        xs = [xs[0] % grid.width, xs[0] % grid.width - grid.width]
        ys = [ys[0] % grid.height, ys[0] % grid.height - grid.height]
    return min(max(dx, dy, 0) - min(dx, dy, 0) for dx in xs for dy in ys)


def dead_round(grid: Grid, chip: Chip) -> str:
    """The links of a chip that are not live, each with why."""
    told, outside = [], []
    for link, name in enumerate(LINKS):
        end = grid.far(chip, link)
        if end is None:
            outside.append(name)
        elif not grid.is_live(end):
            told.append(f"{name} leads to dead chip {end}")
        elif grid.next_chip(chip, link) is None:
            told.append(f"{name} is a dead link")
    if outside:
        where = "back to the chip itself" if grid.wrap else "out of the grid"
        told.append(f"{' '.join(outside)} {'leads' if len(outside) == 1 else 'lead'} {where}")
    return "its link " + ", ".join(told) if told else "all links are live"


# ---- table long


def table_long(refused: Refused, job: Job, program: Optional[str]) -> Iterator[str]:
    """How many nets come through the chip, with how many routes; and the sources and the routes that have most of them."""
    chip = refused.chip
    if chip is None:
        return
    here: List[Tuple[Net, Way]] = []
    ways = ways_of_job(job, program)
    for net in job.nets:
        if chip in ways[net.name]:
            here.append((net, ways[net.name][chip]))
    routes: Dict[str, List[str]] = {}
    for net, way in here:
        routes.setdefault(" ".join([*(LINKS[link] for link in way.links), *(f"c{core}" for core in way.cores)]), []).append(net.name)
    sources = Counter(net.source for net, _ in here)
    come, ways_there = counted(len(here), "net comes", "nets come"), counted(len(routes), "route")
    yield f"{come} through chip {chip}, with {ways_there}; {refused.rows} rows are left when all are joined that can be, and 1024 fit"
    yield "sources with the most nets there: " + ", ".join(f"{name} ({count})" for name, count in sources.most_common(4))
    most = sorted(routes.items(), key=lambda it: -len(it[1]))[:3]
    yield "routes with the most nets: " + "; ".join(f"{route} has {len(names)}{in_brackets(names, 3)}" for route, names in most)
