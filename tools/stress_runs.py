"""Random jobs with short queues on threads, and a check of what became of each copy. The gate runs 40 of them.

    python3 tools/stress_runs.py [PROGRAM] [COUNT] [SEED]               so many jobs through `run` (200, from seed 0)
    python3 tools/stress_runs.py --reinject [PROGRAM] [COUNT] [SEED]    through `reinject`, beside `run` with ample queues
    python3 tools/stress_runs.py --selftest [COUNT] [SEED]              the check itself, on reports that are spoiled; no program

PROGRAM is ./spin where none is named. The jobs have up to 24 chips, some of them dead, as some links and cores are; up to 30
vertices and 20 nets; 5 to 200 packets. One job in ten, or each with --large, has up to 144 chips, 100 vertices, 60 nets and 2,000
packets. There are nets with fixed keys, and devices, also on tori with a side of 1. Queues hold one to 50 copies, most of them one
to three; patience is 1 to 20. Jobs ask for 2 to 64 workers and up to 64 turns;
`run` has no more workers than turns, each a thread of its own with its share of the chips, and `reinject` has one.

`run` may drop copies of such a job, and which ones depends on the order of turns, which nothing promises. So no bytes are
compared but those of the places, keys and tables, which are to be those of tools/model.py. Each packet is followed over the tables
that the report tells, by lookup alone: the first row that matches, or straight on where none does. That gives the outputs by which
its copies go, and the branch of each target. Then

- each target of each packet has one `got` line, or one `dump` line of the packet names an output of its branch, and not both;
- no other vertex has a `got` line, and no `dump` line names an output by which the packet does not go;
- a copy was dropped at an output only if enough others can have entered the queue behind it before to fill it: no copy that was
  dropped there or on the way there, and none that the same vertex sent later by the same way, since no queue lets one overtake;
- keys, payloads, the spelling of numbers, the order of the lines and the numbers of the last line are as they should
  be; nothing waits, nothing is unsent.

With --reinject each job has queues of one copy, and `reinject` has to write the bytes that `run` writes of the same job with
queues for all packets. With --selftest reports are made by tools/model.py, and what arrives and is dropped by a plain play of the
turns in a random order: the check has to find nothing amiss, and to object to each that is spoiled in one place.

First of all comes a crowd: a thousand packets of one net from a chip to the next, through queues of one copy, by two workers of one
turn, without patience.

A job that fails is written to out/stress-SEED.json, and what was answered to out/stress-SEED.out. The last line is 'N passed, M
failed', and the status 1 where one failed. No code is shared with the program or with python/kulzobad. Python's standard library
alone.
"""
import argparse
import json
import os
import re
import subprocess
import sys
from bisect import bisect_right
from collections import Counter, defaultdict, deque, namedtuple

import model

ROOT = model.ROOT

LINKS = ("E", "NE", "N", "W", "SW", "S")
# The outputs of a router by their bits.
OUTS = (*LINKS, *(f"c{core}" for core in range(18)))
MOST_SECONDS = 1000
# One job in so many is a large one.
LARGE = 10

# What a report says: the vertex at each spot, the block of each net, the rows of each chip, then its `got`, `dump` and last lines.
Told = namedtuple("Told", "vertices blocks tables got dumped end")
# A copy that arrived; one that was dropped, with the output as (x, y, bit).
Got = namedtuple("Got", "packet vertex key payload")
Dump = namedtuple("Dump", "packet out")


class Fault(Exception):
    """What is amiss with a report."""


# ---- what a report says


class Lines:
    """The lines of a text, taken from the front."""

    def __init__(self, text):
        if not text.endswith("\n"):
            raise Fault("the last line has no end")
        self.lines, self.at = text[:-1].split("\n"), 0

    def is_next(self, word):
        return self.at < len(self.lines) and self.lines[self.at].split(" ")[0] == word

    def take(self, word, count):
        """The items of the next line after its word."""
        items = self.lines[self.at].split(" ")[1:] if self.is_next(word) else []
        if len(items) != count:
            raise Fault(f"no line '{word}' of {count} items at line {self.at + 1}")
        self.at += 1
        return items

    def compare(self, head):
        """A fault unless the text begins with these lines."""
        for i, line in enumerate(head):
            if self.lines[i:i + 1] != [line]:
                raise Fault(f"line {i + 1} is not '{line}', but '{' '.join(self.lines[i:i + 1])}'")

    def row(self):
        key, mask, route = (int(it, 16) for it in self.lines[self.at].split(" "))
        self.at += 1
        return model.Row(model.Block(key, mask), route, None)

    def all(self, word, count):
        while self.is_next(word):
            yield self.take(word, count)


def number(text):
    """A decimal number, which has no leading zero."""
    if not re.fullmatch("0|[1-9][0-9]*", text):
        raise Fault(f"'{text}' is no number")
    return int(text)


def plan_in(lines, job):
    vertices, blocks, tables = {}, {}, {}
    for vertex in job["graph"]["vertices"]:
        name, *spot = lines.take("place", 4)
        if name != vertex["name"]:
            raise Fault(f"place {name}, and not {vertex['name']}")
        vertices[tuple(map(number, spot))] = name
    for net in job["graph"]["nets"]:
        name, key, mask = lines.take("keys", 3)
        if name != net["name"]:
            raise Fault(f"keys {name}, and not {net['name']}")
        blocks[name] = model.Block(int(key, 16), int(mask, 16))
    for x, y, count in lines.all("table", 3):
        tables[number(x), number(y)] = [lines.row() for _ in range(number(count))]
    return vertices, blocks, tables


def told_by(job, plan, text):
    """What the text of a report says, which is to begin with this plan."""
    lines = Lines(text)
    lines.compare(model.plan_lines(job, plan))
    plan = plan_in(lines, job)
    got = [Got(number(packet), vertex, key, payload) for vertex, packet, key, payload in lines.all("got", 4)]
    dumped = [Dump(number(packet), (number(x), number(y), OUTS.index(out))) for x, y, out, packet in lines.all("dump", 4)]
    end = lines.take("end", 8)
    if lines.at < len(lines.lines):
        raise Fault("lines behind the last one")
    return Told(*plan, got, dumped, end)


# ---- where packets go


def route_of(rows, key, port):
    """The route of the first row that matches, or straight on."""
    for row in rows:
        if key & row.block.mask == row.block.key:
            return row.route
    return 0 if port == model.LOCAL else 1 << model.opposite(port)


def ends_of(machine, told, key, chip, port, above=()):
    """The vertices at which the copies of a packet arrive that comes in at a port, each with the outputs that lead there from the
    source on, which are its branch."""
    route = route_of(told.tables.get(chip, []), key, port)
    for bit in (bit for bit in range(24) if route >> bit & 1):
        out = (*chip, bit)
        if out in above:
            raise Fault(f"key {key:08x} goes round in a circle at {out}")
        if bit < 6 and machine.is_live_link(chip, bit):
            yield from ends_of(machine, told, key, machine.far(chip, bit), model.opposite(bit), (*above, out))
            continue
        spot = (*chip, 18 + bit if bit < 6 else bit - 6)
        if spot not in told.vertices:
            raise Fault(f"key {key:08x} leads to {spot}, where no vertex is")
        yield told.vertices[spot], (*above, out)


def branches_of(job, told):
    """Of each packet of the job, the branch of each target."""
    machine, nets = model.Machine(job["machine"]), {net["name"]: net for net in job["graph"]["nets"]}
    spots, found = {name: spot for spot, name in told.vertices.items()}, {}
    for packet in job["run"]["packets"]:
        net, same = nets[packet["net"]], (packet["net"], packet["index"])
        if same not in found:
            ends = list(ends_of(machine, told, told.blocks[net["name"]].key + packet["index"], spots[net["source"]][:2], model.LOCAL))
            if sorted(vertex for vertex, _ in ends) != sorted(set(net["targets"])):
                raise Fault(f"the tables lead net {net['name']} to {[vertex for vertex, _ in ends]}, and not to its targets")
            found[same] = dict(ends)
        yield found[same]


def ways_to(branches):
    """Of the branches of a packet, the way to each output: the outputs from the source on, itself the last."""
    return {branch[i]: branch[: i + 1] for branch in branches.values() for i in range(len(branch))}


# ---- the check


def copy_faults(told, branches):
    """Each target of each packet has its copy in one place, and no copy is elsewhere."""
    arrived = Counter((it.packet, it.vertex) for it in told.got)
    dropped = Counter(told.dumped)
    for i, ways in enumerate(branches):
        for vertex, branch in ways.items():
            places = arrived.pop((i, vertex), 0) + sum(dropped[Dump(i, out)] for out in branch)
            if places != 1:
                yield f"the copy of packet {i} for {vertex} is in {places} places"
    for (packet, vertex), _ in arrived.items():
        yield f"packet {packet} arrived at {vertex}, which is none of its targets"
    for packet, out in dropped:
        if packet >= len(branches) or all(out not in branch for branch in branches[packet].values()):
            yield f"packet {packet} was dropped at {out}, where it does not go"


def full_faults(job, told, branches):
    """Behind an output only its own copies wait, each in its turn. So where a copy was dropped, at least as many as the queue holds
    have entered it before: copies that were dropped neither there nor on the way there, and none that the same vertex sent later by
    the same way."""
    sources = {net["name"]: net["source"] for net in job["graph"]["nets"]}
    lost, ways = defaultdict(set), {id(it): ways_to(it) for it in branches}
    for packet, out in told.dumped:
        lost[packet].add(out)
    entered, in_turn = Counter(), defaultdict(list)
    for i, (packet, branch) in enumerate(zip(job["run"]["packets"], branches)):
        for out, way in ways[id(branch)].items():
            if i not in lost or lost[i].isdisjoint(way):
                entered[out] += 1
                in_turn[sources[packet["net"]], way].append(i)
    for packet, out in told.dumped:
        way = ways[id(branches[packet])].get(out) if packet < len(branches) else None
        if way:
            same = in_turn.get((sources[job["run"]["packets"][packet]["net"]], way), [])
            before = entered[out] - len(same) + bisect_right(same, packet)
            if before < job["run"]["queue"]:
                yield f"packet {packet} was dropped at {out}, where at most {before} copies came before, and queues hold {job['run']['queue']}"


def line_faults(job, told):
    """Keys, payloads, the order of the lines, and the last one."""
    place = {vertex["name"]: i for i, vertex in enumerate(job["graph"]["vertices"])}
    packets = job["run"]["packets"]
    for packet, vertex, key, payload in told.got:
        if packet >= len(packets) or vertex not in place:
            yield f"no such packet or vertex: {packet}, {vertex}"
            return
        sent = packets[packet]
        wanted = f"{told.blocks[sent['net']].key + sent['index']:08x}", f"{sent['payload']:08x}" if "payload" in sent else "-"
        if (key, payload) != wanted:
            yield f"packet {packet} arrived at {vertex} with {key} {payload}, and not {wanted[0]} {wanted[1]}"
    if told.got != sorted(told.got, key=lambda it: (it.packet, place[it.vertex])):
        yield "the lines of what arrived are out of order"
    if told.dumped != sorted(told.dumped):
        yield "the lines of what was dropped are out of order"
    wanted = f"delivered {len(told.got)} dumped {len(told.dumped)} waiting 0 unsent 0"
    if " ".join(told.end) != wanted:
        yield f"the end is '{' '.join(told.end)}', and not '{wanted}'"


def faults_of(job, plan, text):
    """All that is amiss with the report of a job that has this plan."""
    try:
        told = told_by(job, plan, text)
        branches = list(branches_of(job, told))
        return [*line_faults(job, told), *copy_faults(told, branches), *full_faults(job, told, branches)]
    except (Fault, ValueError, IndexError, KeyError) as fault:
        return [f"{type(fault).__name__}: {fault}"]


# ---- random jobs


class Dice(model.Dice):
    """Jobs with much traffic; each has a plan."""

    def busy_machine(self, is_large):
        width, height = (self.randint(4, 12), self.randint(4, 12)) if is_large else (self.randint(1, 6), self.randint(1, 4))
        part = {"width": width, "height": height, "wrap": self.now_and_then(0.5)}
        if self.now_and_then(0.15):
            part = {**part, self.choice(["width", "height"]): 1, "wrap": True}
        chips = model.Machine(part).chips()
        if self.now_and_then(0.3):
            part["dead_chips"] = [list(chip) for chip in chips if self.now_and_then(0.15)]
        if self.now_and_then(0.4):
            part["dead_links"] = [[*chip, link] for chip in chips for link in range(6) if self.now_and_then(0.1)]
        if self.now_and_then(0.2):
            part["dead_cores"] = [[*chip, self.randint(0, 17)] for chip in chips if self.now_and_then(0.5)]
        return part

    def busy_graph(self, part, is_large):
        machine = model.Machine(part)
        live = [chip for chip in machine.chips() if machine.is_live(chip)]
        vertices = [{"name": f"v{i}"} for i in range(self.randint(2, 100 if is_large else 30))]
        for vertex in vertices:
            if live and self.now_and_then(0.6):
                vertex["at"] = list(self.choice(live))
        links = [[*chip, link] for chip in live for link in range(6) if not machine.is_live_link(chip, link)]
        is_narrow = machine.wrap and 1 in (machine.width, machine.height)
        devices = self.sample(links, min(len(links), self.choice([2, 4] if is_narrow else [0, 0, 0, 2])))
        names = [vertex["name"] for vertex in vertices] + ["d%d_%d_%d" % tuple(it) for it in devices]
        sources = self.some(names[: len(vertices)], self.choice([1, 4, 20]))
        count = self.randint(1, 60 if is_large else 20)
        nets = [{"name": f"n{i}", "source": self.choice(sources), "targets": self.some(names, 8)} for i in range(count)]
        fixed_from = self.choice([0, 0, 5, 2**31])
        for net in nets:
            if self.now_and_then(0.4):
                net["keys"] = self.randint(1, 20)
            if self.now_and_then(0.15):
                size = 2 ** max(self.randint(0, 5), (net.get("keys", 1) - 1).bit_length())
                begin = -(-fixed_from // size) * size
                net["fixed"] = [begin, model.ALL_ONES - size + 1]
                fixed_from = begin + size + self.choice([0, 0, 3, 40])
        return [*vertices, *({"name": "d%d_%d_%d" % tuple(it), "device": it} for it in devices)], nets

    def busy_run(self, nets, is_large):
        packets = []
        for net in self.choices(nets, k=self.randint(5, 2000 if is_large else 200)):
            packets.append({"net": net["name"], "index": self.randrange(net.get("keys", 1))})
            if self.now_and_then(0.3):
                packets[-1]["payload"] = self.randrange(2**32)
        run = {"packets": packets, "queue": self.randint(1, self.choice([3, 3, 3, 50])), "patience": self.randint(1, self.choice([1, 20]))}
        run = {**run, "workers": self.randint(2, self.choice([8, 64])), "turns": self.randint(1, self.choice([16, 64]))}
        return {**run, "target": self.choice([0, model.MOST_ROWS])}

    def planned_job(self, is_large):
        """A job with its plan, as the model makes it."""
        while True:
            part = self.busy_machine(is_large)
            vertices, nets = self.busy_graph(part, is_large)
            job = {"version": 3, "machine": part, "graph": {"vertices": vertices, "nets": nets}, "run": self.busy_run(nets, is_large)}
            try:
                return job, model.plan_of(job)
            except model.Refused:
                continue


# ---- spoiled reports

# What is spoiled in a report. Each has to come, and to be objected to.
KINDS = (
    "got left out", "got doubled", "got of another vertex", "got of what was dropped", "got with another key",
    "got with another payload", "got of no packet", "got out of order", "dump left out", "dump doubled", "dump moved",
    "dump behind another", "dump where few packets go", "dump where few copies came", "dump where few copies came before",
    "all dumped at once", "dump out of order", "a line more", "another number at the end", "another route", "any row's route",
    "another place", "places swapped", "other keys", "a leading zero",
)


class Spoiler(Dice):
    """A report of a job in which copies are dropped by chance, and the same spoiled in one place."""

    def __init__(self, seed, is_large):
        super().__init__(seed)
        self.job, self.plan = self.planned_job(is_large)
        self.place = {vertex["name"]: i for i, vertex in enumerate(self.job["graph"]["vertices"])}
        self.sources = {net["name"]: net["source"] for net in self.job["graph"]["nets"]}
        told = told_by(self.job, self.plan, self.text([], []))
        self.branches = list(branches_of(self.job, told))
        self.outs = [{out for branch in ways.values() for out in branch} for ways in self.branches]
        self.going = Counter(out for outs in self.outs for out in outs)
        lines = (line.split(" ") for line in model.got_lines(self.job, self.plan))
        self.all_got = [Got(int(packet), vertex, key, payload) for _, vertex, packet, key, payload in lines]
        arrived, dumped, self.entered = self.played(told)
        self.dumped = sorted(dumped)
        self.got = [it for it in self.all_got if (it.packet, it.vertex) in arrived]

    def played(self, told):
        """What arrives and what is dropped where all have turns in a random order, some of them seldom, and how many copies enter the
        queue behind each output."""
        machine, most = model.Machine(self.job["machine"]), self.job["run"]["queue"]
        spots, keys = {name: spot for spot, name in told.vertices.items()}, {it.packet: int(it.key, 16) for it in self.all_got}
        unsent, inputs, cores = (defaultdict(deque) for _ in range(3))
        for i, packet in enumerate(self.job["run"]["packets"]):
            unsent[self.sources[packet["net"]]].append(i)
        arrived, dumped, entered = set(), [], Counter()

        def send(vertex):
            queue = inputs[(*spots[vertex][:2], model.LOCAL)]
            if unsent[vertex] and len(queue) < most:
                queue.append(unsent[vertex].popleft())

        def collect(spot):
            if cores[spot]:
                arrived.add((cores[spot].popleft(), told.vertices[spot]))

        def pass_on(chip):
            ports = [port for port in range(7) if inputs[(*chip, port)]]
            if not ports:
                return
            port = self.choice(ports)
            packet = inputs[(*chip, port)].popleft()
            route = route_of(told.tables.get(chip, []), keys[packet], port)
            for bit in self.sample(range(24), 24):
                if route >> bit & 1:
                    is_link = bit < 6 and machine.is_live_link(chip, bit)
                    spot = (*chip, 18 + bit if bit < 6 else bit - 6)
                    queue = inputs[(*machine.far(chip, bit), model.opposite(bit))] if is_link else cores[spot]
                    if len(queue) < most:
                        queue.append(packet)
                        entered[(*chip, bit)] += 1
                    else:
                        dumped.append(Dump(packet, (*chip, bit)))

        chips = {out[:2] for out in self.going}
        actors = [(send, unsent), (collect, told.vertices), (pass_on, chips)]
        turns = [(turn, who, self.choice([1, 1, 0.6, 0.2])) for turn, them in actors for who in sorted(them)]
        while any(map(any, (unsent.values(), inputs.values(), cores.values()))):
            for turn, who, share in self.sample(turns, len(turns)):
                if self.now_and_then(share):
                    turn(who)
        return arrived, dumped, entered

    def behind(self, packet, out):
        """The targets of a packet behind an output."""
        return {vertex for vertex, branch in self.branches[packet].items() if out in branch}

    def text(self, got, dumped, end=None, plan=None):
        """The text of a report with these lines, and the end that belongs to them and the job's plan unless others are given."""
        end = end or f"delivered {len(got)} dumped {len(dumped)} waiting 0 unsent 0"
        lines = [*model.plan_lines(self.job, plan or self.plan), *(f"got {it.vertex} {it.packet} {it.key} {it.payload}" for it in got)]
        lines += [f"dump {x} {y} {OUTS[bit]} {packet}" for packet, (x, y, bit) in dumped]
        return model.text_of([*lines, f"end {end}"]).decode()

    def put(self, got):
        """The text with other `got` lines, in order."""
        return self.text(sorted(got, key=lambda it: (it.packet, self.place[it.vertex])), self.dumped)

    def one_of(self, items):
        """One of the items, if there are any."""
        items = list(items)
        return [self.choice(items)] if items else []

    def spoiled_got(self):
        for it in self.one_of(self.got):
            rest = [other for other in self.got if other != it]
            yield "got left out", self.put(rest)
            yield "got doubled", self.put([*self.got, it])
            yield "got with another key", self.put([*rest, it._replace(key=f"{int(it.key, 16) ^ 1:08x}")])
            yield "got with another payload", self.put([*rest, it._replace(payload="00000000" if it.payload == "-" else "-")])
            yield "got of no packet", self.put([*rest, it._replace(packet=len(self.branches))])
            for other in self.one_of(vertex for vertex in self.place if vertex not in self.branches[it.packet]):
                yield "got of another vertex", self.put([*rest, it._replace(vertex=other)])
        for it in self.one_of(it for it in self.all_got if it not in self.got):
            yield "got of what was dropped", self.put([*self.got, it])
        if len(self.got) > 1:
            yield "got out of order", self.text([*self.got[1:], self.got[0]], self.dumped)

    def spoiled_dumps(self):
        for it in self.one_of(self.dumped):
            rest, behind = [other for other in self.dumped if other != it], self.behind(*it)
            yield "dump left out", self.text(self.got, rest)
            yield "dump doubled", self.text(self.got, sorted([*self.dumped, it]))
            # (on a straight way the next output has the same targets behind it, and may well be the one)
            outs = set(self.going) | {(*it.out[:2], bit) for bit in range(24)}
            for out in self.one_of(sorted(out for out in outs if self.behind(it.packet, out) != behind)):
                yield "dump moved", self.text(self.got, sorted([*rest, it._replace(out=out)]))
        deeper = [Dump(it.packet, out) for it in self.dumped for out in sorted(self.outs[it.packet])
                  if out != it.out and self.behind(it.packet, out) <= self.behind(*it)]
        for it in self.one_of(deeper):
            yield "dump behind another", self.text(self.got, sorted([*self.dumped, it]))
        whole = [Dump(i, out) for i, outs in enumerate(self.outs) if all(it.packet != i for it in self.dumped)
                 for out in sorted(outs) if self.going[out] <= self.job["run"]["queue"]]
        for it in self.one_of(whole):
            yield "dump where few packets go", self.with_dump(it)
        yield from self.dumps_too_soon()
        if len(self.dumped) > 1:
            yield "dump out of order", self.text(self.got, [*self.dumped[1:], self.dumped[0]])

    def with_dump(self, it):
        """The text with one dump more, of a packet that is dropped nowhere else."""
        rest = [other for other in self.got if other.packet != it.packet or other.vertex not in self.behind(*it)]
        return self.text(rest, sorted([*self.dumped, it]))

    def dumps_too_soon(self):
        """Dumps where the queue cannot have been full, though more packets go there than it holds."""
        lost, most = {it.packet for it in self.dumped}, self.job["run"]["queue"]
        whole = [Dump(i, out) for i, outs in enumerate(self.outs) if i not in lost for out in sorted(outs) if self.going[out] > most]
        # (the copy itself has entered, and would not have)
        for it in self.one_of(it for it in whole if self.entered[it.out] <= most):
            yield "dump where few copies came", self.with_dump(it)
        # One of the first that a vertex sends by the only way to an output.
        ways, sent = [ways_to(it) for it in self.branches], defaultdict(list)
        for i, packet in enumerate(self.job["run"]["packets"]):
            for out, way in ways[i].items():
                sent[out].append((i, self.sources[packet["net"]], way))
        first = {out for out, them in sent.items() if len({it[1:] for it in them}) == 1}
        soon = [it for it in whole if it.out in first and self.entered[it.out] > most and it.packet in {i for i, *_ in sent[it.out][:most]}]
        for it in self.one_of(soon):
            yield "dump where few copies came before", self.with_dump(it)
        at_once = {Dump(i, branch[0]) for i, ways in enumerate(self.branches) for branch in ways.values()}
        yield "all dumped at once", self.text([], sorted(at_once))

    def spoiled_head(self):
        """Other places, keys and rows."""
        def with_plan(**parts):
            return self.text(self.got, self.dumped, plan=self.plan._replace(**parts))

        def changed(items, i, item):
            return [*items[:i], item, *items[i + 1:]]

        spots, i, at = self.plan.spots, self.randrange(len(self.plan.spots)), self.randrange(3)
        yield "another place", with_plan(spots=changed(spots, i, (*spots[i][:at], spots[i][at] + 1, *spots[i][at + 1:])))
        one, other = sorted(self.sample(range(len(spots)), 2))
        yield "places swapped", with_plan(spots=changed(changed(spots, one, spots[other]), other, spots[one]))
        i = self.randrange(len(self.plan.blocks))
        block = self.plan.blocks[i]
        bit = 1 << self.randrange(32)
        block = block._replace(key=block.key ^ bit) if self.now_and_then(0.5) else block._replace(mask=block.mask ^ bit)
        yield "other keys", with_plan(blocks=changed(self.plan.blocks, i, block))
        for chip in self.one_of(self.plan.tables):
            rows = self.plan.tables[chip]
            i = self.randrange(len(rows))
            row = rows[i]._replace(route=rows[i].route ^ 1 << self.randrange(24))
            yield "any row's route", with_plan(tables={**self.plan.tables, chip: changed(rows, i, row)})

    def with_zero(self):
        """The text with a leading zero in one of its decimal numbers."""
        lines = self.text(self.got, self.dumped).split("\n")
        at = {"place": (2, 3, 4), "table": (1, 2, 3), "got": (2,), "dump": (1, 2, 4), "end": (2, 4, 6, 8)}
        word = self.choice(sorted({line.split(" ")[0] for line in lines} & set(at)))
        i = self.choice([i for i, line in enumerate(lines) if line.split(" ")[0] == word])
        items, place = lines[i].split(" "), self.choice(at[word])
        items[place] = "0" + items[place]
        return "\n".join([*lines[:i], " ".join(items), *lines[i + 1:]])

    def spoiled_rest(self):
        yield "a leading zero", self.with_zero()
        yield "a line more", self.text(self.got, self.dumped).replace("end ", "wait 0 at 0 0 in L\nend ")
        counts = [len(self.got), len(self.dumped), 0, 0]
        counts[self.randrange(4)] += 1
        yield "another number at the end", self.text(self.got, self.dumped, "delivered %d dumped %d waiting %d unsent %d" % tuple(counts))
        # The table of a chip by which a packet goes: the row that takes it gets another route.
        ways = [(it, out[:2]) for it in self.all_got for out in self.branches[it.packet][it.vertex] if out[:2] in self.plan.tables]
        for it, chip in self.one_of(ways):
            rows, key = self.plan.tables[chip], int(it.key, 16)
            row = next((row for row in rows if key & row.block.mask == row.block.key), None)
            if row:
                other = [it._replace(route=it.route ^ 1 << self.randrange(24)) if it is row else it for it in rows]
                plan = self.plan._replace(tables={**self.plan.tables, chip: other})
                yield "another route", self.text(self.got, self.dumped, plan=plan)


    def cases(self):
        """The kind and the text of each report: what is spoiled, and nothing in the first."""
        yield None, self.text(self.got, self.dumped)
        yield from self.spoiled_got()
        yield from self.spoiled_dumps()
        yield from self.spoiled_head()
        yield from self.spoiled_rest()


def self_test(asked):
    """Whether reports pass, and spoiled ones don't."""
    results, came = Counter(), Counter()
    for i in range(asked.seed, asked.seed + asked.count):
        spoiler = Spoiler(i, asked.large)
        for kind, text in spoiler.cases():
            found = faults_of(spoiler.job, spoiler.plan, text)
            came[kind] += 1
            results[bool(found) == bool(kind)] += 1
            if bool(found) != bool(kind):
                print(f"FAILED: seed {i}, " + (f"{kind}: nothing is found amiss" if kind else "\n  ".join(["nothing is spoiled", *found[:3]])))
    for kind in KINDS:
        if not came[kind]:
            results[False] += 1
            print(f"FAILED: never {kind}")
    return results


# ---- beside the program


def answered(program, word, job):
    """The status and the bytes that a word gives for a job."""
    text = json.dumps(job).encode()
    done = subprocess.run([program, word], input=text, stdout=subprocess.PIPE, check=False, timeout=MOST_SECONDS)
    return done.returncode, done.stdout


def run_faults(program, job, plan):
    """What is amiss with `run` of a job, what it answered, and how many copies were dropped."""
    answer = answered(program, "run", job)
    text = answer[1].decode(errors="backslashreplace")
    if answer[0]:
        return [model.shown(answer)], answer[1], 0
    return faults_of(job, plan, text), answer[1], text.count("\ndump ")


def with_run(job, **other):
    """The job, run in another way."""
    return {**job, "run": {**job["run"], **other}}


def reinject_faults(program, job, plan):
    """What is amiss with `reinject` of a job with queues of one copy: its bytes are to be those of `run` where nothing is dropped."""
    wanted = answered(program, "run", with_run(job, queue=len(job["run"]["packets"])))
    given = answered(program, "reinject", with_run(job, queue=1))
    faults = [] if wanted == given and wanted[0] == 0 else [model.first_difference(wanted, given)]
    return faults, given[1], run_faults(program, with_run(job, queue=1), plan)[2]


def crowd():
    """A thousand packets of one net, of which some may be dropped."""
    ends = [{"name": "a", "at": [0, 0]}, {"name": "b", "at": [1, 0]}]
    graph = {"vertices": ends, "nets": [{"name": "n", "source": "a", "targets": ["b"]}]}
    run = {"queue": 1, "patience": 1, "workers": 2, "turns": 1, "packets": [{"net": "n", "index": 0}] * 1000}
    return {"version": 1, "machine": {"width": 2, "height": 1}, "graph": graph, "run": run}


def jobs(asked):
    """The name of each job, the job and its plan."""
    yield "crowd", crowd(), model.plan_of(crowd())
    for seed in range(asked.seed, asked.seed + asked.count):
        yield seed, *Dice(seed).planned_job(asked.large or seed % LARGE == LARGE - 1)


def stress(asked):
    results, dropped = Counter(), 0
    for seed, job, plan in jobs(asked):
        try:
            faults, answer, dumps = (reinject_faults if asked.reinject else run_faults)(asked.program, job, plan)
        except subprocess.TimeoutExpired:
            faults, answer, dumps = [f"no answer after {MOST_SECONDS} seconds"], b"", 0
        results[not faults] += 1
        dropped += dumps
        if faults:
            print("\n  ".join([f"FAILED: seed {seed}", *faults[:5]]))
            os.makedirs(f"{ROOT}/out", exist_ok=True)
            for name, kept in (("json", json.dumps(job).encode()), ("out", answer)):
                with open(f"{ROOT}/out/stress-{seed}.{name}", "wb") as file:
                    file.write(kept)
    print(f"{dropped} copies dropped by run")
    if not dropped:
        results[False] += 1
        print("FAILED: no copy was dropped, so nothing is shown")
    return results


def main():
    parser = argparse.ArgumentParser(description="Tries runs with short queues (see the head of this file).")
    parser.add_argument("--reinject", action="store_true", help="`reinject` beside `run` with ample queues")
    parser.add_argument("--selftest", action="store_true", help="the check itself, on spoiled reports")
    parser.add_argument("--large", action="store_true", help="only large jobs")
    parser.add_argument("words", nargs="*", metavar="PROGRAM COUNT SEED")
    asked = parser.parse_args()
    numbers = [int(it) for it in asked.words if it.isdigit()]
    asked.program = next((it for it in asked.words if not it.isdigit()), f"{ROOT}/spin")
    asked.count, asked.seed = [*numbers, *(200, 0)[len(numbers):]]
    results = self_test(asked) if asked.selftest else stress(asked)
    print(f"{results[True]} passed, {results[False]} failed")
    return 1 if results[False] else 0


if __name__ == "__main__":
    sys.exit(main())
