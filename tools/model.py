"""A slow model of the compiler, and random jobs on which the program is to answer as the model does.

    python3 tools/model.py [PROGRAM]                               jobs at the limits, and 60 random ones, in some seconds
    python3 tools/model.py --first 1000 --jobs 5000 [PROGRAM]      the jobs of other seeds, for a longer run by hand
    python3 tools/model.py --generated 7 [PROGRAM]                 `gen 7`, and the job of tools/gen_reference.py for that number

PROGRAM is ./spin where none is named. The model works out, from a job's JSON value:

- where each vertex stands: on the first chip with room along Hilbert's curve, or the one that it names, or at its device's link;
- which keys each net has: those that are fixed for it, or the least aligned range that is free;
- each net's tree: grown target by target, each joined to a chip of the tree that is near by the walk that goes its longest
  dimension first; then led round what is dead by shortest detours, and without what leads to no target;
- each chip's table: a row for each net whose tree has the chip, joined by ordered covering as long as there are more than
  `run.target` and two can be, and without the rows that default routing replaces;
- and of these the text of `tables`, the bytes of `compile`, and the report of `run` with queues for all packets, in which each
  packet reached each target of its net once, and which is that of `reinject` with queues of one copy, too; or the line and status
  of a vertex without room, a net without keys, a target that is cut off, a table that is too long, whichever comes first.

It is the rules in their plainest form, over sets, lists and searches of all there is, with nothing kept from one step to the
next, and shares no code with the program or with python/kulzobad. Faults of a job's text, `trace`, and what fails outside (reading,
writing, memory) are no part of it. A job on which the program differs is written to out/model-SEED.json. The last line is
'N passed, M failed', and the status 1 where one failed. Python's standard library alone.
"""
import argparse
import itertools
import json
import os
import random
import struct
import subprocess
import sys
from collections import Counter, defaultdict, namedtuple

import gen_reference

ROOT = os.path.dirname(os.path.dirname(os.path.realpath(__file__)))

WORDS = ("tables", "compile", "run")

# Links from East anticlockwise, each with the step that it makes.
STEPS = ((1, 0), (1, 1), (0, 1), (-1, 0), (-1, -1), (0, -1))
EAST, NORTH_EAST, NORTH, WEST, SOUTH_WEST, SOUTH = range(6)
# The port by which packets come from the chip's own cores.
LOCAL = 6

ALL_ONES = 2**32 - 1
MOST_ROWS = 1024
MEMORY = 134217728

# A block of keys: those that are `key` under the mask.
Block = namedtuple("Block", "key mask")
# A row of a table. Its aliases are blocks for which it stands, each with the port at which their packets come in.
Row = namedtuple("Row", "block route aliases")
Plan = namedtuple("Plan", "spots blocks trees tables")


class Refused(Exception):
    """No plan: a status and a line."""


def opposite(link):
    return (link + 3) % 6


# ---- the machine


class Machine:
    """A grid of chips, which may be closed to a torus, and what is dead of it."""

    def __init__(self, part):
        self.width, self.height = part["width"], part["height"]
        self.wrap, self.sdram = part.get("wrap", False), part.get("sdram", MEMORY)
        self.dead_chips, self.dead_cores, self.dead_links = (
            {tuple(it) for it in part.get(name, [])} for name in ("dead_chips", "dead_cores", "dead_links")
        )

    def chips(self):
        return [(x, y) for x in range(self.width) for y in range(self.height)]

    def far(self, chip, link):
        """The chip to which a link leads, dead or not. None where it would lead out of the grid, or to its own chip."""
        x, y = chip[0] + STEPS[link][0], chip[1] + STEPS[link][1]
        end = (x % self.width, y % self.height) if self.wrap else (x, y)
        return end if end in self and end != chip else None

    def __contains__(self, chip):
        return 0 <= chip[0] < self.width and 0 <= chip[1] < self.height

    def is_live(self, chip):
        return chip in self and chip not in self.dead_chips

    def is_live_link(self, chip, link):
        """A link joins two live chips, and is listed dead at neither end."""
        end = self.far(chip, link)
        if end is None or not self.is_live(chip) or not self.is_live(end):
            return False
        return (*chip, link) not in self.dead_links and (*end, opposite(link)) not in self.dead_links

    def displacement(self, start, end):
        """The steps along x and y from one chip to another. On a torus these are the ones of the four ways round that need the
        fewest links; of equal ones those with the smaller size of x, then of y, then the lesser x, then y."""
        x, y = end[0] - start[0], end[1] - start[1]
        if not self.wrap:
            return x, y
        x, y = x % self.width, y % self.height
        ways = [(a, b) for a in (x, x - self.width) for b in (y, y - self.height)]
        return min(ways, key=lambda way: (links_needed(*way), abs(way[0]), abs(way[1]), *way))

    def distance(self, start, end):
        return links_needed(*self.displacement(start, end))


def links_needed(x, y):
    """How many links a walk of so many steps along x and y has, since one link makes a step along both."""
    return max(x, y, 0) - min(x, y, 0)


# ---- placement and keys


def hilbert(order):
    """The chips of the square of side 2^order along Hilbert's curve, made of four curves of half the side."""
    chips = [(0, 0)]
    for half in (2**i for i in range(order)):
        chips = (
            [(y, x) for x, y in chips]
            + [(x, y + half) for x, y in chips]
            + [(x + half, y + half) for x, y in chips]
            + [(2 * half - 1 - y, half - 1 - x) for x, y in chips]
        )
    return chips


def spots_of(machine, vertices):
    """The chip and number of each vertex: its core, or 18 and the link of a device."""
    order = 0
    while 2**order < max(machine.width, machine.height):
        order += 1
    curve = [chip for chip in hilbert(order) if machine.is_live(chip)]
    taken, memory, spots = set(machine.dead_cores), Counter(), []

    def spot_of(vertex):
        if "device" in vertex:
            x, y, link = vertex["device"]
            hangs = machine.is_live((x, y)) and not machine.is_live_link((x, y), link)
            return (x, y, 18 + link) if hangs else None
        for chip in [tuple(vertex["at"])] if "at" in vertex else curve:
            free = [core for core in range(1, 18) if (*chip, core) not in taken]
            if machine.is_live(chip) and free and memory[chip] + vertex.get("sdram", 0) <= machine.sdram:
                return (*chip, free[0])
        return None

    for vertex in vertices:
        spot = spot_of(vertex)
        if spot is None:
            raise Refused(5, f"no room: {vertex['name']}")
        spots.append(spot)
        if "device" not in vertex:
            taken.add(spot)
            memory[spot[:2]] += vertex.get("sdram", 0)
    return spots


def blocks_of(nets):
    """The block of each net. Fixed ones come first; each other net has the least aligned range that none before it meets."""
    blocks = [Block(*net["fixed"]) if "fixed" in net else None for net in nets]
    taken = [(block.key, block.key + ALL_ONES - block.mask + 1) for block in blocks if block]
    for i, net in enumerate(nets):
        if blocks[i]:
            continue
        size = 1
        while size < net.get("keys", 1):
            size *= 2
        at = 0
        for begin, end in sorted(taken):
            if begin < at + size and at < end:
                at = -(-end // size) * size
        if at + size > 2**32:
            raise Refused(6, f"keys out: {net['name']}")
        taken.append((at, at + size))
        blocks[i] = Block(at, ALL_ONES - size + 1)
    return blocks


# ---- trees


def longest_first(x, y):
    """The links of a walk of so many steps along x and y, on three axes: East, North and South-West, which undo each other. The
    median of (x, y, 0) is taken off each, so that no way is gone back. Longer runs come first, and of equal ones East or West
    before North or South before the third."""
    median = sorted((x, y, 0))[1]
    runs = [(x - median, EAST, WEST), (y - median, NORTH, SOUTH), (-median, SOUTH_WEST, NORTH_EAST)]
    runs.sort(key=lambda run: -abs(run[0]))
    return [ahead if steps > 0 else back for steps, ahead, back in runs for _ in range(abs(steps))]


def grown(machine, root, targets):
    """The edges of the tree that grows to these chips, one after the other, as if nothing were dead. A target is joined to the
    nearest chip of the tree within 20 links, of equal ones the first by x, then y; to the root where there is none. Of the walk
    from there, what comes after its last chip of the tree is taken."""
    tree, edges = {root}, []
    for target in targets:
        near = min(tree, key=lambda chip: (machine.distance(chip, target), chip))
        if machine.distance(near, target) > 20:
            near = root
        chip, new = near, []
        for link in longest_first(*machine.displacement(near, target)):
            new.append((chip, link))
            chip = machine.far(chip, link)
            if chip in tree:
                new = []
        edges += new
        tree |= {machine.far(*edge) for edge in new}
    return edges


def reached(machine, root, edges):
    """The edges over live links that stand on the root's piece of the tree."""
    found, ahead = [], [root]
    while ahead:
        chip = ahead.pop()
        live = [edge for edge in edges if edge[0] == chip and machine.is_live_link(*edge)]
        found += live
        ahead += [machine.far(*edge) for edge in live]
    return found


def levels_to(machine, chips, target):
    """How many live links each chip is away from the nearest of these, for all that are no farther than the target. It has no
    level where no way leads to it."""
    levels, last = {chip: 0 for chip in chips}, list(chips)
    while last and target not in levels:
        wave = [(machine.far(chip, link), levels[chip] + 1) for chip in last for link in range(6) if machine.is_live_link(chip, link)]
        last = []
        for chip, level in wave:
            if chip not in levels:
                levels[chip] = level
                last.append(chip)
    return levels


def repaired(machine, root, edges, targets):
    """The tree without what dead links have cut off, with a shortest detour to each target that was lost, in turn, and without
    edges that lead to no target. A detour is found from its end: into each of its chips by the least link from a chip that is
    one step nearer to the tree. The exception has the first target to which there is no way."""
    kept = reached(machine, root, edges)
    tree = {root} | {machine.far(*edge) for edge in kept}
    for target in targets:
        levels = levels_to(machine, tree, target)
        if target not in levels:
            raise LookupError(target)
        chip = target
        while chip not in tree:
            into = [(machine.far(chip, opposite(link)), link) for link in range(6)]
            before, link = next(it for it in into if it[0] and machine.is_live_link(*it) and levels.get(it[0]) == levels[chip] - 1)
            kept.append((before, link))
            tree.add(chip)
            chip = before
    while True:
        useful = {chip for chip, _ in kept} | set(targets)
        rest = [edge for edge in kept if machine.far(*edge) in useful]
        if rest == kept:
            return kept
        kept = rest


# ---- tables


def generality(block):
    """How many bits of a block are don't-care bits."""
    return bin(ALL_ONES & ~block.mask).count("1")


def meet(one, other):
    """Whether two blocks share a key."""
    return (one.key ^ other.key) & one.mask & other.mask == 0


def join(blocks):
    """The least block that has all keys of these."""
    key, mask = blocks[0]
    for other in blocks[1:]:
        mask &= other.mask & ~(key ^ other.key)
        key &= mask
    return Block(key, mask)


def place_in(table, block):
    """Where a row with this block goes: behind all that are no more general."""
    return sum(generality(row.block) <= generality(block) for row in table)


def failing_up_check(table, places, place):
    """The places of a set whose packets would be taken by a row that is not of the set, stands behind them, and before the new
    place."""
    others = [(i, row) for i, row in enumerate(table[:place]) if i not in places]
    return [s for s in places if any(s < i and meet(row.block, alias) for i, row in others for alias, _ in table[s].aliases)]


def failing_down_check(table, block, place):
    """The first alias, of a row at the new place or behind it, whose packets the merged block would take."""
    return next((alias for row in table[place:] for alias, _ in row.aliases if meet(block, alias)), None)


def refined(table, places):
    """What is left of a set of places of one route, for which a merge is legal; nothing where it is a single row. While a row is
    in the way of some, the last of these goes. While the merge would meet an alias, only those stay that differ from it in one
    bit, the highest of those bits by which the most stay."""
    places = list(places)
    while len(places) >= 2:
        block = join([table[s].block for s in places])
        place = place_in(table, block)
        failing = failing_up_check(table, places, place)
        alias = failing_down_check(table, block, place)
        if failing:
            places.remove(max(failing))
        elif alias:
            bits = [1 << i for i in reversed(range(32)) if alias.mask & ~block.mask & 1 << i]
            staying = [[s for s in places if table[s].block.mask & (table[s].block.key ^ alias.key) & bit] for bit in bits]
            places = max(staying, key=len, default=[])
        else:
            return places
    return []


def largest_set(table):
    """The largest refined set of all routes, of equal ones that of the least route."""
    places = defaultdict(list)
    for i, row in enumerate(table):
        places[row.route].append(i)
    return max((refined(table, places[route]) for route in sorted(places)), key=len, default=[])


def first_pair(table):
    """The first two places of one route whose merge is legal."""
    for i, one in enumerate(table):
        for j in range(i + 1, len(table)):
            if one.route == table[j].route and refined(table, [i, j]):
                return [i, j]
    return []


def merged(table, places):
    """The table with one row in place of these."""
    block = join([table[s].block for s in places])
    place = place_in(table, block)
    row = Row(block, table[places[0]].route, [alias for s in places for alias in table[s].aliases])
    before, behind = ([row for i, row in enumerate(table) if i not in places and (i < place) == is_before] for is_before in (True, False))
    return [*before, row, *behind]


def covered(table, target):
    """The table after all merges: while it is longer than the target, the largest set that there is, or else the first pair."""
    while len(table) > target:
        places = largest_set(table) or first_pair(table)
        if not places:
            break
        table = merged(table, places)
    return table


def without_defaults(table):
    """The table without the rows that default routing replaces, from the last to the first: the route is one link, all packets
    come in at the opposite one, and no later row that is kept has one of their keys."""
    kept = []
    for row in reversed(table):
        links = [link for link in range(6) if row.route == 1 << link]
        is_straight = links and all(port == opposite(links[0]) for _, port in row.aliases)
        if not is_straight or any(meet(later.block, alias) for later in kept for alias, _ in row.aliases):
            kept.insert(0, row)
    return kept


def tree_of(machine, spots, net):
    """The edges of a net's tree; `net` has the places of its vertices. LookupError where a target is cut off."""
    root = spots[net["source"]][:2]
    chips = sorted({spots[i][:2] for i in net["targets"]}, key=lambda chip: (machine.distance(root, chip), chip))
    return repaired(machine, root, grown(machine, root, chips), chips)


def wanted_rows(machine, spots, net, block, edges):
    """The row of a net at each chip of its tree, which has these edges."""
    ports = {spots[net["source"]][:2]: LOCAL, **{machine.far(*edge): opposite(edge[1]) for edge in edges}}
    routes = Counter()
    for chip, link in edges:
        routes[chip] += 1 << link
    for x, y, number in {spots[i] for i in net["targets"]}:
        routes[x, y] += 1 << (number - 18 if number >= 18 else 6 + number)
    return {chip: Row(block, routes[chip], [(block, port)]) for chip, port in ports.items()}


def placed_nets(job):
    """The nets of a job with the places of their vertices in its list."""
    number = {vertex["name"]: i for i, vertex in enumerate(job["graph"]["vertices"])}
    for net in job["graph"]["nets"]:
        yield {"name": net["name"], "source": number[net["source"]], "targets": [number[name] for name in net["targets"]]}


def plan_of(job):
    """Spots, blocks, trees and tables of a job; Refused where it has none."""
    machine, nets = Machine(job["machine"]), job["graph"]["nets"]
    spots, blocks = spots_of(machine, job["graph"]["vertices"]), blocks_of(nets)
    plain, trees = defaultdict(list), []
    for net, block in zip(placed_nets(job), blocks):
        try:
            trees.append(tree_of(machine, spots, net))
        except LookupError as lost:
            raise Refused(7, f"cut off: {net['name']} {lost.args[0][0]} {lost.args[0][1]}") from None
        for chip, row in wanted_rows(machine, spots, net, block, trees[-1]).items():
            plain[chip].append(row)
    tables = {}
    for chip, rows in sorted(plain.items()):
        rows.sort(key=lambda row: (generality(row.block), row.block.key))
        tables[chip] = without_defaults(covered(rows, job["run"].get("target", MOST_ROWS)))
        if len(tables[chip]) > MOST_ROWS:
            raise Refused(8, f"table long: {chip[0]} {chip[1]} {len(tables[chip])}")
    return Plan(spots, blocks, trees, {chip: rows for chip, rows in tables.items() if rows})


# ---- what is written


def plan_lines(job, plan):
    for vertex, spot in zip(job["graph"]["vertices"], plan.spots):
        yield f"place {vertex['name']} {spot[0]} {spot[1]} {spot[2]}"
    for net, block in zip(job["graph"]["nets"], plan.blocks):
        yield f"keys {net['name']} {block.key:08x} {block.mask:08x}"
    for (x, y), rows in plan.tables.items():
        yield f"table {x} {y} {len(rows)}"
        for row in rows:
            yield f"{row.block.key:08x} {row.block.mask:08x} {row.route:06x}"


def rows_in_all(plan):
    return sum(map(len, plan.tables.values()))


def got_lines(job, plan):
    """The deliveries that a job asks for: packet by packet, each at the different targets of its net in the order of vertices."""
    nets = {net["name"]: (net, block) for net, block in zip(job["graph"]["nets"], plan.blocks)}
    for i, packet in enumerate(job["run"].get("packets", [])):
        net, block = nets[packet["net"]]
        payload = f"{packet['payload']:08x}" if "payload" in packet else "-"
        for vertex in job["graph"]["vertices"]:
            if vertex["name"] in net["targets"]:
                yield f"got {vertex['name']} {i} {block.key + packet['index']:08x} {payload}"


def image_of(machine, tables):
    parts = [b"SPNT", struct.pack("<BBBBH", 1, machine["width"], machine["height"], machine.get("wrap", False), len(tables))]
    for (x, y), rows in tables.items():
        parts.append(struct.pack("<BBH", x, y, len(rows)))
        parts += [struct.pack("<III", *row.block, row.route) for row in rows]
    return b"".join(parts)


def text_of(lines):
    return "".join(f"{line}\n" for line in lines).encode()


def answers_to(job):
    """The status and the bytes that each word is to give, and the plan where there is one."""
    try:
        plan = plan_of(job)
    except Refused as refused:
        status, line = refused.args
        return {word: (status, text_of([line])) for word in WORDS}, None
    lines, got = list(plan_lines(job, plan)), list(got_lines(job, plan))
    return {
        "tables": (0, text_of([*lines, f"end rows {rows_in_all(plan)}"])),
        "compile": (0, image_of(job["machine"], plan.tables)),
        "run": (0, text_of([*lines, *got, f"end delivered {len(got)} dumped 0 waiting 0 unsent 0"])),
    }, plan


# ---- random jobs


class Dice(random.Random):
    """Random jobs without a fault in their text. Some have no plan."""

    def some(self, items, most):
        """Some of the items, in any order, at most so many and at least one."""
        return self.sample(items, self.randint(1, min(len(items), most)))

    def now_and_then(self, share):
        return self.random() < share

    def machine(self, width, height):
        part = {"width": width, "height": height, "wrap": self.now_and_then(0.5)}
        chips = Machine(part).chips()
        if self.now_and_then(0.5):
            share = self.choice([0.02, 0.1, 0.25])
            part["dead_chips"] = [list(chip) for chip in chips if self.now_and_then(share)]
        if self.now_and_then(0.6):
            share = self.choice([0.02, 0.1, 0.2])
            part["dead_links"] = [[*chip, link] for chip in chips for link in range(6) if self.now_and_then(share)]
        if self.now_and_then(0.4):
            part["sdram"] = 100
        if self.now_and_then(0.3):
            part["dead_cores"] = [[*chip, self.randint(0, 17)] for chip in chips if self.now_and_then(0.3)]
        return part

    def vertices(self, part, asking, devices=(0, 0, 1, 3)):
        """Vertices for a machine, of which such a share ask for a chip, and devices, one of these numbers of them. Where memory is
        small, few of them stand on a chip. There may be too many for a small machine."""
        machine = Machine(part)
        live = [chip for chip in machine.chips() if machine.is_live(chip)]
        is_small = "sdram" in part
        most = min(60, len(live) if is_small else 14 * len(live))
        vertices = [{"name": f"v{i}"} for i in range(self.randint(1, max(1, most)))]
        for vertex in vertices:
            if live and self.now_and_then(asking / 5 if is_small else asking):
                vertex["at"] = list(self.choice(live if self.now_and_then(0.995) else machine.chips()))
            if is_small or self.now_and_then(0.1):
                vertex["sdram"] = self.choice([0, 1, 50, 51, 100] if is_small else [0, 1, 1000000, 60000000])
        links = [[*chip, link] for chip in live for link in range(6) if not machine.is_live_link(chip, link)]
        for device in self.sample(links, min(len(links), self.choice(devices))):
            vertices.insert(self.randint(0, len(vertices)), {"name": "d%d_%d_%d" % tuple(device), "device": device})
        return vertices

    def nets(self, vertices, count):
        """Nets among vertices, most of them from few sources to few sets of targets, so that rows have routes in common."""
        names = [vertex["name"] for vertex in vertices]
        sources = [vertex["name"] for vertex in vertices if "device" not in vertex]
        few_sources, few_targets = self.some(sources, 6), [self.some(names, self.choice([1, 1, 3, 9])) for _ in range(self.choice([2, 4, 10]))]
        nets, fixed_from = [], 0
        for i in range(count):
            net = {"name": f"n{i}", "source": self.choice(few_sources if self.now_and_then(0.7) else sources)}
            net["targets"] = self.choice(few_targets) if self.now_and_then(0.8) else self.some(names, 5)
            if self.now_and_then(0.4):
                net["keys"] = self.choice([1, 2, 3, 4, 5, 8, 9, 17])
            if self.now_and_then(0.1):
                size = 2 ** max(self.randint(0, 5), (net.get("keys", 1) - 1).bit_length())
                begin = -(-fixed_from // size) * size
                net["fixed"] = [begin, ALL_ONES - size + 1]
                fixed_from = begin + size + self.choice([0, 0, 3, 40])
            nets.append(net)
        return nets

    def packets(self, nets):
        packets = []
        for net in self.choices(nets, k=self.choice([1, 5, 40])) if nets else []:
            packets.append({"net": net["name"], "index": self.randrange(net.get("keys", 1))})
            if self.now_and_then(0.3):
                packets[-1]["payload"] = self.randrange(2**32)
        return packets

    def any_job(self):
        """Any machine, with nets all over it."""
        most = self.choice([5, 5, 12, 12, 30])
        machine = self.machine(self.randint(1, most), self.randint(1, most))
        vertices = self.vertices(machine, self.choice([0, 0.3, 1, 1]))
        return machine, vertices, self.nets(vertices, self.choice([0, 4, 16, 40, 90]))

    def wide_job(self):
        """A long machine, on which vertices are far from each other."""
        sides = [self.randint(30, 64), self.randint(1, 4)]
        self.shuffle(sides)
        machine = self.machine(*sides)
        vertices = self.vertices(machine, 1)
        return machine, vertices, self.nets(vertices, 12)

    def narrow_job(self):
        """A torus with a side of 1 or 2, where links lead nowhere or two lead to one chip, with devices on some of those that are
        not live, and one on any link at all."""
        sides = [self.randint(1, 2), self.randint(1, 6)]
        self.shuffle(sides)
        machine = {**self.machine(*sides), "wrap": True}
        vertices = self.vertices(machine, 0.3, (1, 3, 6))
        device = [*self.choice(Machine(machine).chips()), self.randrange(6)]
        if self.now_and_then(0.5) and device not in [vertex.get("device") for vertex in vertices]:
            vertices.append({"name": "d%d_%d_%d" % tuple(device), "device": device})
        nets = self.nets(vertices, self.choice([4, 16]))
        names = [vertex["name"] for vertex in vertices if "device" in vertex]
        for net in nets if names else []:
            if self.now_and_then(0.5):
                net["targets"] = [*net["targets"], self.choice(names)]
        return machine, vertices, nets

    def crowded_job(self):
        """Many nets on few chips, so that tables are long, and many merges are made or refused."""
        machine = {"width": self.randint(1, 3), "height": self.randint(1, 2), "wrap": self.now_and_then(0.3)}
        vertices = [{"name": f"v{i}"} for i in range(self.choice([6, 17]))]
        return machine, vertices, self.nets(vertices, self.choice([60, 90, 120]))

    def greedy_job(self):
        """Nets that want so many keys that there may not be enough for all."""
        vertices = [{"name": "a"}, {"name": "b"}]
        nets = self.nets(vertices, 6)
        for net in nets:
            if "fixed" not in net:
                net["keys"] = self.choice([1, 2**29, 2**30 - 1, 2**30, 2**30 + 1, 2**31])
        return {"width": 1, "height": 1}, vertices, nets

    def long_job(self):
        """About as many routes at one chip as a router has entries."""
        names = [f"v{i}" for i in range(11)]
        routes = self.sample(range(1, 2**11), self.randint(1015, 1035))
        nets = [{"name": f"n{i}", "source": "v0", "targets": [it for j, it in enumerate(names) if route >> j & 1]} for i, route in enumerate(routes)]
        return {"width": 2, "height": 1}, [{"name": name, "at": [1, 0]} for name in names], nets

    def job(self, number):
        """The job of a number, by which the kinds of jobs take turns."""
        kinds = [self.any_job] * 8 + [self.wide_job] * 3 + [self.crowded_job] * 2 + [self.greedy_job, self.long_job, self.narrow_job]
        machine, vertices, nets = kinds[number % len(kinds)]()
        packets = self.packets(nets)
        run = {"packets": packets, "queue": self.choice([1, 2, 16]) * max(1, len(packets)), "workers": self.choice([1, 1, 2, 3, 8, 64])}
        run["target"] = self.choice([0, 0, 0, 1, 5, 20, MOST_ROWS])
        run["turns"], run["patience"] = self.choice([1, 2, 16, 64]), self.choice([1, 16, 255])
        return {"version": 3, "machine": machine, "graph": {"vertices": vertices, "nets": nets}, "run": run}


# ---- jobs at the limits


def job_with(machine, vertices, nets, packets=0, **run):
    """A job whose packets are of its nets in turn, with queues for all of them."""
    run["packets"] = [{"net": nets[i % len(nets)]["name"], "index": 0} for i in range(packets)]
    return {"version": 3, "machine": machine, "graph": {"vertices": vertices, "nets": nets}, "run": {"queue": max(1, packets), **run}}


def widest_job():
    """4,096 chips and 16,384 vertices, and as many packets as can have room in each of the queues."""
    vertices = [{"name": f"v{i}", "at": [i % 64, i // 64 % 64]} for i in range(16384)]
    nets = [{"name": f"n{i}", "source": f"v{4 * i}", "targets": [f"v{4 * i + 1}", f"v{16383 - i}"]} for i in range(1024)]
    return job_with({"width": 64, "height": 64, "wrap": True}, vertices, nets, 372)


def busiest_job():
    """65,536 packets, and as many chips and vertices as can have queues for all of them."""
    vertices = [{"name": f"v{i}", "at": [i % 5, i % 7]} for i in range(11)]
    nets = [{"name": f"n{i}", "source": f"v{i}", "targets": [f"v{(i + 1) % 11}", f"v{(i + 5) % 11}"]} for i in range(11)]
    return job_with({"width": 5, "height": 7}, vertices, nets, 65536)


def full_job(routes, target=MOST_ROWS, chips=1):
    """Chips in a row, at each of which the nets have these routes, to eleven vertices."""
    vertices = [{"name": f"v{i}", "at": [i // 11, 0]} for i in range(11 * chips)]
    nets = [{"name": f"n{i}", "source": "v0", "targets": [f"v{j}" for j in range(11 * chips) if route >> j % 11 & 1]} for i, route in enumerate(routes)]
    return job_with({"width": chips, "height": 1}, vertices, nets, target=target)


def limit_jobs():
    """Jobs at the limits. For none of them does a computer lack memory, so that a refusal of memory is wrong."""
    yield "widest", widest_job()
    yield "busiest", busiest_job()
    yield "full", full_job(range(1, 1025))
    yield "two that are full", full_job(range(1, 1025), chips=2)
    yield "one row too many", full_job(range(1, 1026))
    yield "one row too many, and two are joined", full_job([1, *range(1, 1025)])
    yield "as many rows as the target", full_job([1, 1, 2, 2, 3, 3], 6)
    yield "one row more than the target", full_job([1, 1, 2, 2, 3, 3], 5)


# ---- beside the program


def spin(program, words, text):
    done = subprocess.run([program, *words], input=text, stdout=subprocess.PIPE, check=False)
    return done.returncode, done.stdout


def shown(answer):
    """A status and the beginning of some bytes."""
    text = answer[1][:100].decode(errors="backslashreplace")
    return f"status {answer[0]}, {json.dumps(text)}"


def first_difference(wanted, given):
    """Both answers, from the first line in which they differ."""
    if wanted[0] == given[0]:
        lines = wanted[1].splitlines(keepends=True), given[1].splitlines(keepends=True)
        same = next((i for i, (one, other) in enumerate(zip(*lines)) if one != other), min(map(len, lines)))
        wanted, given = ((wanted[0], b"".join(it[same:])) for it in lines)
    return f"  wanted  {shown(wanted)}\n  given   {shown(given)}"


def is_answered(program, what, wanted, text):
    """Whether the program answers each word as is wanted. It prints where it does not."""
    for words, answer in wanted.items():
        given = spin(program, words.split(), text)
        if given != answer:
            print(f"FAILED: {what}: {words}\n{first_difference(answer, given)}")
            return False
    return True


def cases_of(jobs):
    """Each job with the answers to it, and the same with the shortest queues, where dropped copies are put back."""
    for name, job in jobs:
        answers = answers_to(job)[0]
        yield f"{name}", answers, json.dumps(job).encode()
        short = {**job, "run": {**job["run"], "queue": 1, "patience": 1}}
        yield f"{name}-short", {"reinject": answers["run"]}, json.dumps(short).encode()


def generated_cases(numbers):
    """The generated job of each number, with the answers to it and to `gen`."""
    for number in numbers:
        job = gen_reference.job(number)
        wanted, plan = answers_to(job)
        counts = ["chips 48 vertices 200 nets 300 packets 1200", f"rows {rows_in_all(plan)}"]
        deliveries = sum(1 for _ in got_lines(job, plan))
        four = text_of([f"gen {number}", *counts, f"delivered {deliveries} dumped 0"])
        yield f"gen-{number}", {**wanted, f"gen {number}": (0, four)}, gen_reference.text(number)


def main():
    parser = argparse.ArgumentParser(description="Compares the program with a slow model of it (see the head of this file).")
    parser.add_argument("--first", type=int, default=0, metavar="SEED", help="the first seed")
    parser.add_argument("--jobs", type=int, default=60, metavar="COUNT", help="how many seeds")
    parser.add_argument("--generated", type=int, action="append", metavar="N", help="the generated job of N, in place of random ones")
    parser.add_argument("program", nargs="?", default=f"{ROOT}/spin")
    asked = parser.parse_args()
    seeds = range(asked.first, asked.first + asked.jobs)
    jobs = itertools.chain(limit_jobs(), ((seed, Dice(seed).job(seed)) for seed in seeds))
    cases = generated_cases(asked.generated) if asked.generated else cases_of(jobs)
    statuses, failed = Counter(), 0
    for name, wanted, text in cases:
        statuses[next(iter(wanted.values()))[0]] += 1
        if not is_answered(asked.program, f"the job of {name}, which is out/model-{name}.json", wanted, text):
            failed += 1
            os.makedirs(f"{ROOT}/out", exist_ok=True)
            with open(f"{ROOT}/out/model-{name}.json", "wb") as kept:
                kept.write(text)
    print("; ".join(f"status {status}: {count}" for status, count in sorted(statuses.items())))
    print(f"{sum(statuses.values()) - failed} passed, {failed} failed")
    return 1 if failed else 0


if __name__ == "__main__":
    sys.exit(main())
