"""Pictures of a job and of what the program wrote of it, as SVG.

    svg = draw("tree", job, run(job), net="n")

`mesh` has chips live, dead and used, dead links and cores, and devices; `tree` the tree of a net, with the route of each of its chips;
`rows` how many rows of how many each chip's table has kept; `copies` how many copies each chip got, dropped or has waiting.

North is up and leans to the left, as North-East is one of the six links: chips are the cells of a triangular mesh. The colours are
told apart by colour-blind readers (Okabe and Ito; one hue from light to dark for amounts).
"""
from __future__ import annotations

import math
import re
import shutil
import subprocess
import textwrap
from collections import Counter
from typing import Callable, Dict, Iterable, Iterator, List, Mapping, Optional, Set, Tuple
from xml.sax.saxutils import escape

from .grid import STEPS, Grid
from .jobs import Chip, Job
from .kinds import one
from .kinds import text as text_of
from .reports import LINKS, Plan, Report, cores_of, links_of
from .trees import Way, lookups, root_of, ways, ways_of_nets

ORANGE, SKY, GREEN, BLUE, VERMILION = "#E69F00", "#56B4E9", "#009E73", "#0072B2", "#D55E00"
INK, PALE, DARK = "#222222", "#F2F2F2", "#6F6F6F"
SAGE, WHITE, GREY = "#DDE9D8", "#FFFFFF", "#777777"
AMOUNTS = ("#DCEAF6", "#BBD6EB", "#8BBFDE", "#559FCD", "#2A7AB9", "#0B4A8F")
# The colour of a chip's numbers, where that is not INK, by the chip's colour.
INKS = {PALE: GREY, WHITE: GREY, SAGE: GREY, DARK: WHITE, AMOUNTS[4]: WHITE, AMOUNTS[5]: WHITE}

# The core that a report gives to a device on link 0; on link d it is that number plus d.
FIRST_DEVICE = 18

# How wide a picture is shown beside text, and the least size of letters that can be read there. A mesh that fits is made no wider, and
# letters that find no room at this size are left out.
SHOWN, LEAST = 800.0, 11.0
# From this unit on each chip has a number, and from this one on there is room for two.
NUMBERED, TWO_NUMBERED = 40.0, 62.0
# The border of a chip that has no row for what comes by.
DASHED = 'stroke="#555555" stroke-width="1.6" stroke-dasharray="5 3"'

Point = Tuple[float, float]
Segment = Tuple[float, float, float, float]
# Left, top, right and bottom.
Box = Tuple[float, float, float, float]


def letters(route: int) -> str:
    """The links and cores of a route, as in lines of a report: `E NE c2`."""
    return " ".join([*links_of(route), *(f"c{core}" for core in cores_of(route))])


class Paper:
    """Where the chips of a grid lie on paper. `unit` is how far the middles of two neighbours are apart."""

    def __init__(self, width: int, height: int) -> None:
        self.unit = max(16.0, min(90.0, SHOWN / (width + height / 2 + 0.7)))
        self.left = self.unit * (height - 1) / 2 + self.unit
        self.top = 62.0
        self.low = self.top + self.unit * (0.7 + (height - 1) * math.sqrt(3) / 2)
        self.right = self.left + self.unit * (width + 0.2)

    def at(self, x: int, y: int) -> Point:
        """The middle of a chip."""
        return self.left + self.unit * (x - y / 2), self.low - self.unit * y * math.sqrt(3) / 2

    def corners(self, x: int, y: int) -> List[Point]:
        """The corners of a chip's hexagon."""
        (cx, cy), radius = self.at(x, y), self.unit / math.sqrt(3) * 0.96
        return [(cx + radius * math.sin(k * math.pi / 3), cy + radius * math.cos(k * math.pi / 3)) for k in range(6)]

    def toward(self, x: int, y: int, link: int, share: float) -> Point:
        """The point that lies so far on the way from a chip to its neighbour by a link."""
        (cx, cy), (dx, dy) = self.at(x, y), STEPS[link]
        return cx + self.unit * share * (dx - dy / 2), cy - self.unit * share * dy * math.sqrt(3) / 2


def cleaned(words: str) -> str:
    """Words as text of an SVG file, without the characters that XML has not."""
    return escape(re.sub(r"[^\t\n\r\x20-\ud7ff\ue000-\ufffd\U00010000-\U0010ffff]", "?", words))


def meets(one: Box, other: Box) -> bool:
    """Whether two boxes share a point."""
    return one[0] <= other[2] and other[0] <= one[2] and one[1] <= other[3] and other[1] <= one[3]


def crosses(box: Box, line: Segment) -> bool:
    """Whether a line meets a box."""
    (left, top, right, bottom), (x, y, ex, ey) = box, line
    first, last = 0.0, 1.0
    for start, step, low, high in ((x, ex - x, left, right), (y, ey - y, top, bottom)):
        if abs(step) < 1e-9:
            if not low <= start <= high:
                return False
        else:
            one, other = sorted(((low - start) / step, (high - start) / step))
            first, last = max(first, one), min(last, other)
    return first <= last


class Picture(Paper):
    """A mesh of chips on paper: the shapes drawn so far, what they are, and notes below."""

    def __init__(self, job: Job, title: str) -> None:
        super().__init__(job.machine.width, job.machine.height)
        self.grid = Grid(job.machine)
        self.title = title
        self.shapes: List[str] = []
        self.arrows: List[Segment] = []
        self.boxes: List[Box] = []
        self.fills: Dict[Chip, str] = {}
        self.used: Set[Tuple[str, str]] = set()
        self.legend: List[Tuple[str, str, str]] = []
        self.notes: List[str] = []

    def text(self, x: float, y: float, words: str, size: float, colour: str = INK, anchor: str = "middle") -> None:
        """Words at a point, of which labels keep clear."""
        half = 0.32 * size * len(words)
        self.boxes.append((x - half, y - 0.85 * size, x + half, y + 0.15 * size))
        look = f'font-size="{size:.1f}" fill="{colour}" text-anchor="{anchor}"'
        self.shapes.append(f'<text x="{x:.1f}" y="{y:.1f}" {look}>{cleaned(words)}</text>')

    def cell(self, x: int, y: int, fill: str, note: str, is_dashed: bool = False) -> None:
        """A chip, with what is told at the pointer."""
        corners = " ".join(f"{px:.1f},{py:.1f}" for px, py in self.corners(x, y))
        edge = "#9A9A9A" if self.unit >= 24 else "#CFCFCF" if fill == WHITE else WHITE
        look = f'fill="{fill}" ' + (DASHED if is_dashed else f'stroke="{edge}" stroke-width="0.7"')
        self.shapes.append(f'<polygon points="{corners}" {look}><title>{cleaned(note)}</title></polygon>')
        self.used.add(("dashed" if is_dashed else "cell", fill))
        self.fills[x, y] = fill

    def arrow(self, start: Point, end: Point, colour: str, width: float) -> None:
        """An arrow, of which labels keep clear."""
        self.arrows.append((*start, *end))
        tip = 2.2 * width
        self.boxes.append((end[0] - tip, end[1] - tip, end[0] + tip, end[1] + tip))
        self.line(start, end, colour, width, "arrow")

    def line(self, start: Point, end: Point, colour: str, width: float, kind: str = "line") -> None:
        """A line, or an arrow."""
        self.shapes.append(line_of(start, end, colour, width, kind == "arrow"))
        self.used.add((kind, colour))

    def dot(self, x: int, y: int, colour: str) -> None:
        """A dot in the lower part of a chip."""
        (cx, cy), radius = self.at(x, y), self.unit * 0.115
        cy += self.unit * 0.3
        self.boxes.append((cx - radius, cy - radius, cx + radius, cy + radius))
        self.shapes.append(f'<circle cx="{cx:.1f}" cy="{cy:.1f}" r="{radius:.1f}" fill="{colour}"/>')
        self.used.add(("dot", colour))

    def label(self, x: int, y: int, words: str, size: float, colour: str = INK) -> bool:
        """Words inside a chip, where they meet no arrow and no other label; smaller where they find no place so, and left out where
        they find none even then. It says whether they are there."""
        cx, cy = self.at(x, y)
        hexagon = cx - self.unit / 2, cy - self.unit, cx + self.unit / 2, cy + self.unit
        arrows, boxes = [it for it in self.arrows if crosses(hexagon, it)], [it for it in self.boxes if meets(hexagon, it)]
        for tall in sorted({max(LEAST, size * share) for share in (1.0, 0.85, 0.7)}, reverse=True):
            half, edge = 0.32 * tall * len(words), self.unit * 0.045
            for dx, dy in LABEL_PLACES:
                px, py = cx + self.unit * dx, cy + self.unit * dy
                box = px - half, py - tall * 0.4, px + half, py + tall * 0.4
                around = box[0] - edge, box[1] - edge, box[2] + edge, box[3] + edge
                if self.is_inside(x, y, box) and not any(crosses(around, it) for it in arrows) and not any(meets(box, it) for it in boxes):
                    self.text(px, py + tall * 0.36, words, tall, colour)
                    return True
        return False

    def is_inside(self, x: int, y: int, box: Box) -> bool:
        """Whether a box lies inside a chip's hexagon."""
        cx, cy = self.at(x, y)
        wide, radius = self.unit * 0.48, self.unit / math.sqrt(3) * 0.94
        far_x, far_y = max(abs(box[0] - cx), abs(box[2] - cx)), max(abs(box[1] - cy), abs(box[3] - cy))
        return far_x <= wide and far_y + far_x / math.sqrt(3) <= radius

    def coordinates(self) -> None:
        """The numbers of each chip inside it, where there is room; where chips are small, not beside numbers of another kind."""
        if self.unit >= NUMBERED:
            numbered = list(self.boxes) if not self.arrows and self.unit < 80 else []
            for x, y in self.grid.chips():
                (cx, cy), near = self.at(x, y), self.unit * 0.3
                if not any(meets((cx - near, cy - near, cx + near, cy + near), it) for it in numbered):
                    self.label(x, y, f"{x},{y}", LEAST, INKS.get(self.fills[x, y], INK))

    def numbers(self) -> None:
        """The coordinates along both axes, few enough to be read."""
        step = 1 if self.unit >= 34 else 4 if self.unit >= 18 else 8
        size = max(LEAST, min(14.0, self.unit / 3))
        for x in range(0, self.grid.width, step):
            cx, cy = self.at(x, 0)
            self.text(cx, cy + self.unit * 0.62 + size, str(x), size, DARK)
        for y in range(0, self.grid.height, step):
            cx, cy = self.at(0, y)
            self.text(cx - self.unit * 0.72, cy + size / 3, str(y), size, DARK, "end")

    def dead_links(self) -> None:
        """A bar across each dead link."""
        for x, y, link in sorted(self.grid.dead_links):
            (cx, cy), (ux, uy) = self.toward(x, y, link, 0.5), self.toward(x, y, link, 0.75)
            px, py = -(uy - cy), ux - cx
            self.line((cx - px, cy - py), (cx + px, cy + py), VERMILION, max(2.0, self.unit / 14))

    def device(self, x: int, y: int, link: int, note: str) -> None:
        """A square on the link on which a device hangs."""
        (cx, cy), half = self.toward(x, y, link, 0.5), max(3.0, self.unit * 0.085)
        self.shapes.append(
            f'<rect x="{cx - half:.1f}" y="{cy - half:.1f}" width="{2 * half:.1f}" height="{2 * half:.1f}" fill="{GREEN}" stroke="{WHITE}"'
            f' stroke-width="1"><title>{cleaned(note)}</title></rect>'
        )
        self.used.add(("device", GREEN))

    def svg(self) -> str:
        """The whole picture."""
        legend = [it for it in self.legend if it[:2] in self.used]
        wide = max(640.0, self.right)
        across = max(1, min(4, int((wide - 32) / (30 + 7.4 * max((len(words) for _, _, words in legend), default=1)))))
        rows = math.ceil(len(legend) / across)
        notes = [line for note in self.notes for line in textwrap.wrap(note, int((wide - 32) / 7.2))]
        below = self.low + self.unit * 0.7 + 44
        tall = below + 24 * rows + 20 * len(notes)
        size = min(19, (wide - 32) / (0.6 * max(1, len(self.title))))
        out = [
            f'<svg xmlns="http://www.w3.org/2000/svg" width="{wide:.0f}" height="{tall:.0f}" viewBox="0 0 {wide:.0f} {tall:.0f}"'
            ' font-family="DejaVu Sans, Helvetica, sans-serif">',
            '<defs><marker id="tip" viewBox="0 0 8 8" refX="7" refY="4" markerWidth="4.4" markerHeight="4.4" orient="auto">'
            f'<path d="M0,0 L8,4 L0,8 z" fill="{BLUE}"/></marker></defs>',
            f'<rect width="{wide:.0f}" height="{tall:.0f}" fill="{WHITE}"/>',
            f'<text x="16" y="32" font-size="{size:.1f}" fill="{INK}">{cleaned(self.title)}</text>',
            *self.shapes,
        ]
        for i, (mark, colour, words) in enumerate(legend):
            x, y = 16 + (i % across) * (wide - 32) / across, below + 24 * (i // across)
            out.append(legend_mark(mark, colour, x, y - 12))
            out.append(f'<text x="{x + 21:.0f}" y="{y:.0f}" font-size="13" fill="{INK}">{cleaned(words)}</text>')
        for i, line in enumerate(notes):
            out.append(f'<text x="16" y="{below + 24 * rows + 20 * i:.0f}" font-size="13" fill="{INK}">{cleaned(line)}</text>')
        return "\n".join([*out, "</svg>", ""])


# Where a label may stand, as shares of the unit from the middle of its chip: near the middle first.
LABEL_PLACES = sorted(
    ((dx / 40, dy / 40) for dx in range(-14, 15, 2) for dy in range(-18, 19, 2)),
    key=lambda place: (round(math.hypot(place[0], place[1] - 0.3), 3), place[1] < 0, place),
)


def line_of(start: Point, end: Point, colour: str, width: float, has_tip: bool) -> str:
    """A line, with the tip of an arrow or without."""
    (x0, y0), (x1, y1), tip = start, end, ' marker-end="url(#tip)"' if has_tip else ""
    return f'<line x1="{x0:.1f}" y1="{y0:.1f}" x2="{x1:.1f}" y2="{y1:.1f}" stroke="{colour}" stroke-width="{width:.1f}"{tip}/>'


def legend_mark(mark: str, colour: str, x: float, y: float) -> str:
    """What stands before a line of the legend, 15 by 15 at a point."""
    if mark == "line":
        return line_of((x + 7, y), (x + 7, y + 15), colour, 4, False)
    if mark == "arrow":
        return line_of((x, y + 7), (x + 16, y + 7), colour, 2.4, True)
    if mark == "dot":
        return f'<circle cx="{x + 7:.0f}" cy="{y + 7:.0f}" r="6" fill="{colour}"/>'
    if mark == "device":
        return f'<rect x="{x + 1:.0f}" y="{y + 1:.0f}" width="13" height="13" fill="{colour}"/>'
    look = DASHED if mark == "dashed" else f'stroke="{GREY}" stroke-width="0.6"'
    return f'<rect x="{x:.0f}" y="{y:.0f}" width="15" height="15" fill="{colour}" {look}/>'


def devices_of(job: Job, names: Optional[Iterable[str]] = None) -> Iterator[Tuple[int, int, int, str]]:
    """The x, y, link and name of each device of a job, or of those among the names."""
    wanted = None if names is None else set(names)
    for vertex in job.vertices:
        if vertex.device is not None and (wanted is None or vertex.name in wanted):
            yield (*vertex.device, vertex.name)


def mesh(job: Job, report: Report) -> Picture:
    """Chips live, dead and used, dead links, chips with dead cores, and devices."""
    machine, places = job.machine, report.plan.places
    picture = Picture(job, f"{machine.width} by {machine.height} chips{' (torus)' if machine.wrap else ''}, {len(places)} vertices")
    used = Counter((it.x, it.y) for it in places.values() if it.core < FIRST_DEVICE)
    broken = Counter((x, y) for x, y, _ in picture.grid.dead_cores)
    for x, y in picture.grid.chips():
        is_dead = (x, y) in picture.grid.dead_chips
        note = f"({x}, {y}): " + ("dead" if is_dead else f"{used[x, y]} vertices, {broken[x, y]} dead cores")
        picture.cell(x, y, DARK if is_dead else SKY if used[x, y] else PALE, note)
        if picture.unit >= NUMBERED and used[x, y]:
            picture.text(*picture.at(x, y), str(used[x, y]), picture.unit / 3.2)
        if broken[x, y]:
            picture.dot(x, y, ORANGE)
    picture.dead_links()
    for x, y, link, name in devices_of(job):
        picture.device(x, y, link, f"device {name} on link {LINKS[link]} of ({x}, {y})")
    picture.legend = [
        ("cell", SKY, "live, with vertices (their number)"), ("cell", PALE, "live, without"), ("cell", DARK, "dead"),
        ("line", VERMILION, "dead link"), ("dot", ORANGE, "has dead cores"), ("device", GREEN, "device"),
    ]
    return picture


def tree(job: Job, report: Report, net: str) -> Picture:
    """The tree of a net: the links of its ways, and at each chip the cores that get its packets."""
    described = next((it for it in job.nets if it.name == net), None)
    if described is None:
        raise ValueError(f"the job has no net {net}")
    plan, keys = report.plan, report.plan.keys[net]
    count = len(set(described.targets))
    title = f"Net {net}: {keys.key:08x}/{keys.mask:08x} from {described.source} to {count} {'vertices' if count > 1 else 'vertex'}"
    picture = Picture(job, title)
    grid, root = picture.grid, root_of(plan, described)
    found = ways(grid, lookups(plan.tables), keys.key, root)
    on_links = {(x, y, link): name for x, y, link, name in devices_of(job, described.targets)}
    targets = {(place.x, place.y) for place in map(plan.places.__getitem__, described.targets) if place.core < FIRST_DEVICE}
    for chip in grid.chips():
        on_way = ORANGE if chip == root else SKY if chip in targets else SAGE if chip in found else PALE
        colour = DARK if chip in grid.dead_chips else on_way
        note = note_of(chip, found[chip], on_links) if chip in found else "dead" if chip in grid.dead_chips else "not on the tree"
        is_straight = chip in found and not found[chip].is_row and chip not in grid.dead_chips
        picture.cell(*chip, colour, f"{chip}: {note}", is_straight)
    picture.dead_links()
    for (x, y), way in found.items():
        for link in way.links:
            start, end = (0.08, 0.42) if (x, y, link) in on_links else (0.29, 0.72 if is_on_paper(grid, (x, y), link) else 0.62)
            picture.arrow(picture.toward(x, y, link, start), picture.toward(x, y, link, end), BLUE, max(1.6, picture.unit / 22))
    for (x, y, link), name in on_links.items():
        picture.device(x, y, link, f"device {name} on link {LINKS[link]} of ({x}, {y})")
    told = labels_of_ways(picture, found) if picture.unit >= 44 else set()
    picture.notes = [" ".join(note for note in WAY_NOTES if note in told)] if told else []
    picture.legend = [
        ("cell", ORANGE, "the source's chip"), ("cell", SKY, "has targets"), ("cell", SAGE, "on the way"),
        ("dashed", SAGE, "on the way: no row, straight on"),
        ("cell", PALE, "not on the tree"), ("cell", DARK, "dead"), ("line", VERMILION, "dead link"),
        ("arrow", BLUE, "the net's packets"), ("device", GREEN, "device that gets them"),
    ]
    return picture


CORES_NOTE = "c and a number: the cores that get them."
MANY_NOTE = "A number of cores: the pointer tells which."
WAY_NOTES = (CORES_NOTE, MANY_NOTE)


def labels_of_ways(picture: Picture, found: Mapping[Chip, Way]) -> Set[str]:
    """Writes into the chips of a tree the cores that get its packets, or how many where there is no room. It gives the notes that say
    what is written."""
    told = set()
    for (x, y), way in found.items():
        cores = " ".join(f"c{core}" for core in way.cores)
        if cores and picture.label(x, y, cores, picture.unit / 7.5):
            told.add(CORES_NOTE)
        elif cores and picture.label(x, y, f"{len(way.cores)} cores", picture.unit / 7.5):
            told.add(MANY_NOTE)
    return told


def is_on_paper(grid: Grid, chip: Chip, link: int) -> bool:
    """Whether a link leads to the chip that lies beside this one, and not off the paper to another side of a torus."""
    return grid.has((chip[0] + STEPS[link][0], chip[1] + STEPS[link][1]))


def note_of(chip: Chip, way: Way, devices: Mapping[Tuple[int, int, int], str]) -> str:
    """What is told of a chip of a tree at the pointer."""
    links = [LINKS[link] + (f" ({devices[(*chip, link)]})" if (*chip, link) in devices else "") for link in way.links]
    return " ".join([*links, *(f"c{core}" for core in way.cores), *([] if way.is_row else ["default"])])


def amounts(job: Job, counts: Mapping[Chip, int], title: str, what: str, all_of: Optional[Mapping[Chip, int]] = None) -> Picture:
    """A heat map of counts; where `all_of` is given, each count is said of so many."""
    picture = Picture(job, title)
    most, steps = max(counts.values(), default=0), len(AMOUNTS)
    for x, y in picture.grid.chips():
        count, every = counts.get((x, y), 0), all_of.get((x, y), 0) if all_of is not None else 0
        level = -(-count * steps // most) if count else 0
        is_dead = (x, y) in picture.grid.dead_chips
        note = "dead" if is_dead else f"{count} of {every} {what}" if all_of is not None else f"{count} {what}"
        picture.cell(x, y, DARK if is_dead else AMOUNTS[level - 1] if count else SAGE if every else WHITE, f"({x}, {y}): {note}")
        if picture.unit >= NUMBERED and (count or every):
            (cx, cy), colour, has_both = picture.at(x, y), WHITE if level > 4 else INK, all_of is not None and picture.unit >= TWO_NUMBERED
            picture.text(cx, cy + picture.unit * (0.02 if has_both else 0.1), str(count), picture.unit / 3.6, colour)
            if has_both:
                picture.text(cx, cy + picture.unit * 0.28, f"of {every}", picture.unit / 5.6, colour)
    bounds = {most * level // steps: AMOUNTS[level - 1] for level in range(steps, 0, -1) if most * level // steps}
    picture.legend = [("cell", colour, f"up to {bound} {what}") for bound, colour in sorted(bounds.items())]
    picture.legend += [("cell", SAGE, f"no {what}: nets go straight on")] if all_of is not None else []
    picture.legend += [("cell", WHITE, "no nets" if all_of is not None else f"no {what}"), ("cell", DARK, "dead")]
    return picture


def rows(job: Job, report: Report) -> Picture:
    """How many rows each chip's table has, of how many with one for each net."""
    kept = Counter({chip: len(table.rows) for chip, table in report.plan.tables.items()})
    plain: Dict[Chip, int] = Counter()
    for _, found in ways_of_nets(job, report.plan):
        for chip in found:
            plain[chip] += 1
    title = f"{sum(kept.values())} rows loaded of {sum(plain.values())}, at most {max(kept.values(), default=0)} on a chip"
    picture = amounts(job, kept, title, "rows", plain)
    numbers = "Two numbers" if picture.unit >= TWO_NUMBERED else "Two numbers at the pointer"
    picture.notes = [f"{numbers}: the rows that are loaded, and how many there would be with one for each net that comes through the chip,"
                     " before rows are joined and those left out that default routing replaces."]
    return picture


def copies(job: Job, report: Report) -> Picture:
    """How many copies each chip's vertices got, and how many it dropped or has waiting."""
    places = report.plan.places
    counts = Counter((places[it.vertex].x, places[it.vertex].y) for it in report.deliveries)
    counts.update((it.x, it.y) for it in report.dumps)
    counts.update((it.x, it.y) for it in report.waiting)
    title = f"Copies: {len(report.deliveries)} delivered, {len(report.dumps)} dumped, {len(report.waiting)} waiting"
    picture = amounts(job, counts, title, "copies")
    for x, y in sorted({(it.x, it.y) for it in report.dumps}):
        picture.dot(x, y, VERMILION)
    picture.legend.append(("dot", VERMILION, "dumped some here"))
    return picture


# The kinds of pictures but for the tree, which is of a net; and the word of the program whose output each is made of.
KINDS: Dict[str, Callable[[Job, Report], Picture]] = {"mesh": mesh, "rows": rows, "copies": copies}
WORDS = {"mesh": "tables", "tree": "tables", "rows": "tables", "copies": "run"}


def fits(job: Job, plan: Plan, report: Report) -> None:
    """ValueError where a report is not of this job: it lacks a vertex or a net, or has a chip outside the grid."""
    grid = Grid(job.machine)
    for vertex in job.vertices:
        if vertex.name not in plan.places:
            raise ValueError(f"the output is not of this job: it has no place of vertex {vertex.name}")
    for net in job.nets:
        if net.name not in plan.keys:
            raise ValueError(f"the output is not of this job: it has no keys of net {net.name}")
        for name in (net.source, *net.targets):
            if name not in plan.places:
                raise ValueError(f"net {net.name} has a vertex that the job has not: {name}")
    chips = [(it.x, it.y) for it in plan.places.values()] + list(plan.tables) + [(it.x, it.y) for it in report.dumps + report.waiting]
    outside = next((chip for chip in chips if not grid.has(chip)), None)
    if outside is not None:
        raise ValueError(f"the output is not of this job: chip {outside} lies outside the grid")
    lost = next((it.vertex for it in report.deliveries if it.vertex not in plan.places), None)
    if lost is not None:
        raise ValueError(f"the output is not of this job: it has no place of vertex {lost}")
    for x, y, link in (it.device for it in job.vertices if it.device is not None):
        if not 0 <= link < 6 or not grid.has((x, y)):
            raise ValueError(f"the job has a device outside the grid, or on no link: ({x}, {y}, {link})")
    for x, y, link in grid.dead_links:
        if not 0 <= link < 6:
            raise ValueError(f"the job has a dead link that is none: ({x}, {y}, {link})")
    if not (1 <= job.machine.width <= 64 and 1 <= job.machine.height <= 64):
        raise ValueError(f"no machine has {job.machine.width} by {job.machine.height} chips")


def draw(kind: str, job: Job, report: Report, net: Optional[str] = None) -> str:
    """The picture of a kind (`mesh`, `tree`, `rows` or `copies`) of a job and what the program wrote of it; a tree is of a net.
    ValueError where the report is not of the job, or the job has not the net."""
    one("draw: job", job, Job)
    one("draw: report", report, Report)
    fits(job, report.plan, report)
    if text_of("draw: kind", kind) == "tree":
        if net is None:
            raise ValueError("a tree is of a net: none is named")
        picture = tree(job, report, net)
    elif kind in KINDS:
        picture = KINDS[kind](job, report)
    else:
        raise ValueError(f"no kind of picture: {kind}")
    picture.coordinates()
    picture.numbers()
    return picture.svg()


def png_of(svg: str) -> bytes:
    """The bytes of a PNG file of an SVG picture, by rsvg-convert. ValueError where that is not found, or has failed."""
    tool = shutil.which("rsvg-convert")
    if tool is None:
        raise ValueError("there is no rsvg-convert on the path, which makes PNG files (package librsvg2-bin of Debian)")
    done = subprocess.run([tool, "--format", "png"], input=svg.encode(), capture_output=True, check=False)
    if done.returncode:
        raise ValueError(f"rsvg-convert ended with {done.returncode}: {done.stderr.decode(errors='replace').strip()}")
    return done.stdout
