"""What `verify` says of tables, beside each key's own lookup.

    python3 tools/verify_trials.py [PROGRAM]                                 20 jobs and 20 spoiled ones of each kind, as in the gate
    python3 tools/verify_trials.py --first 1000 --jobs 2000 [PROGRAM]        more, by hand

PROGRAM is ./spin where none is named. Jobs of tools/model.py are compiled by the program, with tables that are joined down to some
target from 0 to 1,024. Of each the image alone is verified, with the places and keys of the job, and has to be `Right`. Then

    route      one bit of a row's route is another
    mask       one bit of a row's mask is another
    order      two rows of a chip change places
    missing    a row is left out
    dead link  one more link is dead
    bits       the bits of all keys and masks change their places, so that masks are no ones followed by zeros; and a route is spoiled
    joined     all rows are made anew by tools/neighbour_rows.py, whose rows take parts of nets; and in half of them a route is spoiled
    merged     nets of one source and the same targets are one net with several blocks; and in half of them a row is left out
    device     nets of one source come from a device on a link of its chip; and in half of them a row of that chip is left out
    nowhere    a link is added to a row's route, and the row at the end of that link that takes the row's keys is made to send nowhere
    trees      each net comes with the tree of one of its keys; some get a way round, or lack a link; and in half of them a route is spoiled
    random     of a few chips with any rows, nets have as targets what one of their keys reaches; their blocks have any masks and may share keys

and what `verify` says is compared with what is worked out here in the plainest way: each key of each net is looked up for itself, row by
row, in each table that it comes to. Where it says `Right`, each key has to reach just its net's targets, no chip twice, and no chip from
which it goes nowhere; and by the net's tree, where one came with it. Where it says something else, the way that it tells has to be the way
of that key, what it tells of its end has to be so, and all this has to hold of the nets before. And where it says `Right`,
the requests to which the program answered so have to have asked for each key of each net: with the rows of each chip of the key's tree,
and with the net's vertices where they stand, as the slow model places those of a request.

An answer of `EXPECTED` that never came is a failure; `cut` is said of tables that are right, and of which a net had to be cut. The last
line is 'N passed, M failed', and the status 1 where one failed. No code is shared with the walks of python/kulzobad. Python's standard
library alone.
"""
import argparse
import os
import random
import subprocess
import sys
import time
from collections import Counter, namedtuple

import model
import neighbour_rows

ROOT = model.ROOT
sys.path.insert(0, f"{ROOT}/python")

from kulzobad import Machine, decode  # noqa: E402
from kulzobad.reports import LINKS, read  # noqa: E402
from kulzobad.verdicts import BadTree, Dies, Loops, Misses, OffTree, Right, Stops, Strays, Twice  # noqa: E402
from kulzobad import verifying  # noqa: E402
from kulzobad.verifying import KeyedNet, Verifier  # noqa: E402

USUAL_PARTS = verifying.MOST_PARTS
# Jobs with more keys than this are not looked up key by key.
MOST_KEYS = 1500
EXPECTED = {
    "compiled": {"Right"},
    "route": {"Strays", "Dies"},
    "mask": {"Right", "Strays"},
    "order": {"Right", "Strays"},
    "missing": {"Dies", "Misses"},
    "dead link": {"Dies"},
    "bits": {"Right", "Strays"},
    "joined": {"Right", "Strays", "cut"},
    "merged": {"Right", "Misses"},
    "device": {"Right"},
    "nowhere": {"Stops"},
    "trees": {"Right", "BadTree", "OffTree", "Strays"},
    "random": {"Right", "Strays", "Misses", "cut"},
}

# What is asked: the machine's part of the job, the spots of vertices by name, the nets with their blocks, rows by chip, and links of trees
# by the names of nets.
Question = namedtuple("Question", "machine spots nets tables trees", defaults=({},))
Net = namedtuple("Net", "name source targets blocks")


# ---- each key's own lookup


def keys_of(blocks):
    """The keys of blocks, each once."""
    found = set()
    for key, mask in blocks:
        keys = [key]
        for bit in range(32):
            if not mask >> bit & 1:
                keys += [it | 1 << bit for it in keys]
        found.update(keys)
    return sorted(found)


def count_of(blocks):
    return sum(2 ** bin(model.ALL_ONES & ~mask).count("1") for _, mask in blocks)


def outputs(rows, key, port):
    """The place of the row that takes a key that comes in by a port, and the outputs: links from 0 to 5, and 6 and a core from there on."""
    for place, (row_key, mask, route) in enumerate(rows):
        if key & mask == row_key:
            return place, [bit for bit in range(24) if route >> bit & 1]
    return None, [] if port == model.LOCAL else [model.opposite(port)]


def begin_of(question, net):
    """The chip at which packets of a net begin, and the port by which they come in: a device's by its link."""
    x, y, number = question.spots[net.source]
    return (x, y), number - 18 if number >= 18 else model.LOCAL


class Fate:
    """What becomes of a key: how often it comes to each chip, the live links by which it goes, the spots that get it, the links that are
    not live by which it is sent, and the chips behind the first from which it goes nowhere. A copy that comes to a chip by a port by which
    another has come is not followed."""

    def __init__(self, question, machine, net, key):
        self.comes, self.got, self.links, self.dead, self.stops = Counter(), Counter(), set(), set(), set()
        devices = {spot for spot in question.spots.values() if spot[2] >= 18}
        ahead, seen = [begin_of(question, net)], set()
        while ahead:
            chip, port = ahead.pop()
            self.comes[chip] += 1
            if (chip, port) in seen:
                continue
            seen.add((chip, port))
            outs = outputs(question.tables.get(chip, ()), key, port)[1]
            if not outs and len(seen) > 1:
                self.stops.add(chip)
            for out in outs:
                if out >= 6:
                    self.got[(*chip, out - 6)] += 1
                elif machine.is_live_link(chip, out):
                    self.links.add((*chip, out))
                    ahead.append((machine.far(chip, out), model.opposite(out)))
                elif (*chip, 18 + out) in devices:
                    self.got[(*chip, 18 + out)] += 1
                else:
                    self.dead.add((*chip, out))
        self.wanted = {question.spots[name] for name in net.targets}

    def is_right(self):
        return not self.dead and not self.stops and max(self.comes.values()) == 1 and set(self.got) == self.wanted


def is_way(question, machine, net, key, way):
    """Whether the hops are a way of the key from its net's source."""
    chip, port = begin_of(question, net)
    for i, hop in enumerate(way):
        letters = "L" if port == model.LOCAL else LINKS[port]
        place, outs = outputs(question.tables.get(chip, ()), key, port)
        if (hop.x, hop.y, hop.port, hop.row) != (*chip, letters, place):
            return False
        if hop.out is None:
            return i == len(way) - 1
        out = LINKS.index(hop.out) if hop.out in LINKS else 6 + int(hop.out[1:])
        if out not in outs:
            return False
        if i < len(way) - 1:
            if out >= 6 or not machine.is_live_link(chip, out):
                return False
            chip, port = machine.far(chip, out), model.opposite(out)
    return True


def is_tree(question, machine, net):
    """Whether the links that came with a net are a routing tree for it."""
    root, links = begin_of(question, net)[0], question.trees[net.name]
    ends = [machine.far(it[:2], it[2]) for it in links if machine.is_live_link(it[:2], it[2])]
    reached, wanted = {root}, {question.spots[name][:2] for name in net.targets}
    for _ in links:
        reached |= {machine.far(it[:2], it[2]) for it in links if it[:2] in reached}
    leaves = reached - {it[:2] for it in links} - {root}
    return len(ends) == len(links) == len(set(ends) - {root}) and set(ends) | wanted <= reached and leaves <= wanted


def is_right(question, machine, net):
    """Whether all keys of a net come to its targets and nowhere else, by its tree if one came with it."""
    fates = [Fate(question, machine, net, key) for key in keys_of(net.blocks)]
    tree = question.trees.get(net.name)
    is_on_tree = tree is None or (is_tree(question, machine, net) and all(it.links == set(tree) for it in fates))
    return is_on_tree and all(it.is_right() for it in fates)


def is_true(question, verdict):
    """Whether an answer is so, and the nets before the one that it names are right."""
    machine, nets = model.Machine(question.machine), {net.name: net for net in question.nets}
    if isinstance(verdict, Right):
        return all(is_right(question, machine, net) for net in question.nets)
    net = nets[verdict.net]
    if not all(is_right(question, machine, it) for it in question.nets[:question.nets.index(net)]):
        return False
    return not is_tree(question, machine, net) if isinstance(verdict, BadTree) else is_true_of(question, machine, net, verdict)


def is_true_of(question, machine, net, verdict):
    """Whether an answer that tells the way of a key of a net is so."""
    key = verdict.key
    fate, last = Fate(question, machine, net, key), verdict.way[-1]
    if key not in keys_of(net.blocks) or not is_way(question, machine, net, key, verdict.way):
        return False
    chip, chips = (last.x, last.y), [(hop.x, hop.y) for hop in verdict.way]
    if isinstance(verdict, OffTree):
        tree = set(question.trees[net.name])
        apart = {it[:2] for it in fate.links ^ tree}
        return fate.is_right() and is_tree(question, machine, net) and chip in apart and not apart & set(chips[:-1])
    if fate.is_right():
        return False
    if isinstance(verdict, Strays):
        spot = (*chip, 18 + LINKS.index(last.out) if last.out in LINKS else int(last.out[1:]))
        return spot in fate.got and spot not in fate.wanted
    if isinstance(verdict, Dies):
        return (*chip, LINKS.index(last.out)) in fate.dead
    if isinstance(verdict, Loops):
        return chip in chips[:-1] and last.row is not None and last.out is None
    if isinstance(verdict, Twice):
        return fate.comes[chip] > 1 and last.out is None
    ends = not fate.dead and max(fate.comes.values()) == 1 and set(fate.got) <= fate.wanted
    if isinstance(verdict, Stops):
        return ends and set(fate.got) == fate.wanted and chip in fate.stops and last.out is None
    return isinstance(verdict, Misses) and ends and question.spots[verdict.target] not in fate.got and verdict.target in net.targets


# ---- what the program was asked for


class Recorder(Verifier):
    """A verifier that keeps the requests that were answered `right`, each with its parts and its order of bits."""

    def _answer(self, parts, rows, order):
        texts, answer_to = [], verifying.answer_to

        def recording(text, *rest):
            texts.append(text)
            return answer_to(text, *rest)

        verifying.answer_to = recording
        try:
            verdict = super()._answer(parts, rows, order)
        finally:
            verifying.answer_to = answer_to
        if isinstance(verdict, Right) and parts:
            self.kept = [*getattr(self, "kept", []), (model.json.loads(texts[0]), parts, order.bits)]
        return verdict


def has_asked(question, kept):
    """Whether these requests asked for each key of each net, and for what is so in the question."""
    asked = {net.name: set() for net in question.nets}
    nets = {net.name: net for net in question.nets}
    for request, parts, bits in kept:

        def back(word, bits=bits):
            return sum(1 << bit for i, bit in enumerate(bits) if word >> (31 - i) & 1)

        job, machine = request["job"], model.Machine(question.machine)
        if any(getattr(model.Machine(job["machine"]), name) != getattr(machine, name) for name in ("width", "height", "wrap", "dead_chips", "dead_links")):
            return False
        names = [vertex["name"] for vertex in job["graph"]["vertices"]]
        spots = dict(zip(names, model.spots_of(model.Machine(job["machine"]), job["graph"]["vertices"])))
        tables, looked_at = decode(bytes(request["image"])).tables, {}
        for made, tree, part in zip(job["graph"]["nets"], request["trees"], parts):
            net, block = nets[part.net.name], tuple(map(back, made["fixed"]))
            source = question.spots[net.source]
            is_there = spots[made["source"]][:2] == source[:2] and {spots[name] for name in made["targets"]} == {question.spots[name] for name in net.targets}
            chips = {source[:2], *(machine.far((x, y), link) for x, y, link in tree)}
            for chip in chips - set(looked_at):
                looked_at[chip] = has_rows(question, chip, tables, back)
            if not is_there or not all(looked_at[chip] for chip in chips):
                return False
            asked[net.name].update(keys_of([block]))
    return all(asked[net.name] == set(keys_of(net.blocks)) for net in question.nets)


def has_rows(question, chip, tables, back):
    """Whether a chip has its own rows that can match in a request; and behind them, where a device is there, rows straight on from it."""
    made = [(back(row.key), back(row.mask), row.route) for row in tables[chip].rows] if chip in tables else []
    own = [(key, mask, route or 64) for key, mask, route in question.tables.get(chip, ()) if not key & ~mask]
    rest = {route for _, _, route in made[len(own):]}
    devices = {1 << model.opposite(spot[2] - 18) for spot in question.spots.values() if spot[:2] == chip and spot[2] >= 18}
    return made[:len(own)] == own and rest <= devices


# ---- what is asked


def verdict_of(question, program):
    """What `verify` says, whether a net was cut for it, and the requests that were answered `right`."""
    part = question.machine
    machine = Machine(
        part["width"], part["height"], part.get("wrap", False), part.get("sdram"),
        *([tuple(it) for it in part.get(name, [])] for name in ("dead_chips", "dead_cores", "dead_links")),
    )
    verifier = Recorder(machine, question.spots, [KeyedNet(*net) for net in question.nets], question.tables, question.trees, program)
    return verifier.verdict(), verifier.asked > sum(len(net.blocks) for net in question.nets), getattr(verifier, "kept", [])


def compiled(job, program):
    """The question of a job and the image that the program makes of it; None where it makes none."""
    text = model.json.dumps(job).encode()
    done = subprocess.run([program, "compile"], input=text, stdout=subprocess.PIPE, check=False)
    if done.returncode:
        return None
    image = decode(done.stdout)
    plan = read(subprocess.run([program, "tables"], input=text, stdout=subprocess.PIPE, check=True).stdout.decode()).plan
    spots = {name: (it.x, it.y, it.core) for name, it in plan.places.items()}
    nets = [Net(it["name"], it["source"], it["targets"], [(plan.keys[it["name"]].key, plan.keys[it["name"]].mask)]) for it in job["graph"]["nets"]]
    tables = {chip: [(row.key, row.mask, row.route) for row in table.rows] for chip, table in image.tables.items()}
    return Question(job["machine"], spots, nets, tables)


class Spoiler(random.Random):
    """Questions with one thing spoiled, by chance; None where there is no such thing."""

    def with_row(self, question, made):
        """The question with the rows `made` of a chip's rows and a place among them."""
        if not question.tables:
            return None
        chip = self.choice(sorted(question.tables))
        rows = list(question.tables[chip])
        rows = made(rows, self.randrange(len(rows)))
        return question._replace(tables={**question.tables, chip: rows})

    def route(self, question):
        def made(rows, i):
            key, mask, route = rows[i]
            return [*rows[:i], (key, mask, route ^ 1 << self.choice([*range(6), *range(24)])), *rows[i + 1:]]

        return self.with_row(question, made)

    def mask(self, question):
        def made(rows, i):
            key, mask, route = rows[i]
            mask ^= 1 << self.randrange(8)
            return [*rows[:i], (key & mask, mask, route), *rows[i + 1:]]

        return self.with_row(question, made)

    def order(self, question):
        def made(rows, i):
            j = self.randrange(len(rows))
            meeting = [k for k, row in enumerate(rows) if (row[0] ^ rows[i][0]) & row[1] & rows[i][1] == 0 and k != i]
            j = self.choice(meeting) if meeting else j
            rows[i], rows[j] = rows[j], rows[i]
            return rows

        return self.with_row(question, made)

    def missing(self, question):
        return self.with_row(question, lambda rows, i: rows[:i] + rows[i + 1:])

    def dead_link(self, question):
        """A link that some row names, mostly."""
        named = [(*chip, d) for chip, rows in question.tables.items() for row in rows for d in range(6) if row[2] >> d & 1]
        machine = model.Machine(question.machine)
        live = [it for it in named if machine.is_live_link(it[:2], it[2])]
        if not live:
            return None
        dead = question.machine.get("dead_links", []) + [list(self.choice(live))]
        return question._replace(machine={**question.machine, "dead_links": dead})

    def bits(self, question):
        places = self.sample(range(32), 32)

        def word(it):
            return sum(1 << place for bit, place in enumerate(places) if it >> bit & 1)

        nets = [net._replace(blocks=[(word(key), word(mask)) for key, mask in net.blocks]) for net in question.nets]
        tables = {chip: [(word(key), word(mask), route) for key, mask, route in rows] for chip, rows in question.tables.items()}
        moved = question._replace(nets=nets, tables=tables)
        return self.route(moved) if self.random() < 0.5 else moved

    def merged(self, question):
        same = {}
        for net in question.nets:
            same.setdefault((net.source, tuple(sorted(set(net.targets)))), []).append(net)
        if len(same) == len(question.nets):
            return None
        nets = [nets[0]._replace(blocks=[block for net in nets for block in net.blocks]) for nets in same.values()]
        made = question._replace(nets=nets)
        return self.missing(made) if self.random() < 0.5 else made

    def device(self, question):
        machine, sources = model.Machine(question.machine), sorted({net.source for net in question.nets})
        source = self.choice(sources)
        chip = question.spots[source][:2]
        taken = set(question.spots.values())
        links = [link for link in range(6) if not machine.is_live_link(chip, link) and (*chip, 18 + link) not in taken]
        if not links:
            return None
        spots = {**question.spots, "a device": (*chip, 18 + self.choice(links))}
        nets = [net._replace(source="a device") if net.source == source else net for net in question.nets]
        made = question._replace(spots=spots, nets=nets)
        if self.random() < 0.5 or not made.tables.get(chip):
            return made
        rows = made.tables[chip]
        i = self.randrange(len(rows))
        return made._replace(tables={**made.tables, chip: rows[:i] + rows[i + 1:]})

    def nowhere(self, question):
        machine = model.Machine(question.machine)
        places = [(chip, i, d) for chip, rows in question.tables.items() for i in range(len(rows)) for d in range(6)]
        places = [(chip, i, d) for chip, i, d in places if machine.is_live_link(chip, d) and not question.tables[chip][i][2] >> d & 1]
        if not places:
            return None
        chip, i, d = self.choice(places)
        end, (key, mask, route) = machine.far(chip, d), question.tables[chip][i]
        rows = question.tables[chip]
        there = [(key, mask, 0), *question.tables.get(end, ())]
        return question._replace(tables={**question.tables, chip: [*rows[:i], (key, mask, route | 1 << d), *rows[i + 1:]], end: there})

    def trees(self, question):
        machine = model.Machine(question.machine)
        trees = {net.name: sorted(Fate(question, machine, net, net.blocks[0][0]).links) for net in question.nets}
        named = [name for name, links in trees.items() if links]
        for name in self.sample(named, min(len(named), self.randrange(3))):
            trees[name] = self.other_way(machine, trees[name])
        for name in self.sample(named, min(len(named), self.randrange(2))):
            trees[name] = self.sample(trees[name], len(trees[name]) - 1)
        made = question._replace(trees=trees)
        return self.route(made) if self.random() < 0.5 else made

    def other_way(self, machine, links):
        """The links with two in place of one, by another chip, where there are such."""
        for x, y, d in self.sample(links, len(links)):
            for first in self.sample(range(6), 6):
                midst = machine.far((x, y), first) if machine.is_live_link((x, y), first) else None
                second = [it for it in range(6) if midst and machine.is_live_link(midst, it) and machine.far(midst, it) == machine.far((x, y), d)]
                if first != d and second:
                    return [*(it for it in links if it != (x, y, d)), (x, y, first), (*midst, second[0])]
        return links

    def joined(self, question):
        tables = neighbour_rows.of_tables(self, question.machine, question.spots, question.nets, question.tables)
        made = question._replace(tables=tables)
        return self.route(made) if self.random() < 0.5 else made


def any_question(dice):
    """A few chips with any rows; None where a net has no targets."""
    part = dice.machine(dice.randint(1, 3), dice.randint(1, 2))
    part.pop("sdram", None)
    part["dead_cores"] = []
    machine = model.Machine(part)
    live = [chip for chip in machine.chips() if machine.is_live(chip)]
    spots = {f"v{x}{y}{core}": (x, y, core) for x, y in live for core in (1, 2)}
    links = [(*chip, link) for chip in live for link in range(6) if not machine.is_live_link(chip, link)]
    spots.update({f"d{x}{y}{link}": (x, y, 18 + link) for x, y, link in dice.sample(links, min(2, len(links)))})
    tables = {}
    for chip in live:
        # (mostly to cores, and to links that lead somewhere or have a device)
        outs = [7, 8, *(link for link in range(6) if machine.is_live_link(chip, link) or (*chip, 18 + link) in spots.values())]
        for _ in range(dice.randint(0, 5)):
            key, mask = any_block(dice, dice.choice([0, 1, 2, 3, 15]))
            tables.setdefault(chip, []).append((key, mask, sum(1 << out for out in dice.sample(outs, min(len(outs), dice.choice([1, 1, 2]))))))
    question, nets = Question(part, spots, [], tables), []
    for i in range(dice.randint(1, 3)):
        source, block = dice.choice(sorted(spots) or [None]), any_block(dice, dice.choice([3, 5, 12, 15]))
        if source is None:
            return None
        net = Net(f"n{i}", source, [], [block] if dice.now_and_then(0.7) else [block, any_block(dice, 15)])
        fate = Fate(question, machine, net, dice.choice(keys_of(net.blocks)))
        nets.append(net._replace(targets=[name for name, spot in spots.items() if spot in fate.got]))
    return question._replace(nets=nets) if all(net.targets for net in nets) else None


def any_block(dice, care):
    """A block of keys of four bits, with those bits among the four that it cares for."""
    mask = model.ALL_ONES - 15 + dice.choice([care, care, dice.randrange(16)])
    return dice.randrange(16) & mask, mask


def trials(program, seeds, most):
    """The seeds of jobs, what is spoiled, and the questions; so many of each kind."""
    counts, kinds = Counter(), ("route", "mask", "order", "missing", "dead_link", "bits", "joined", "merged", "device", "nowhere", "trees")
    for seed in seeds:
        job = model.Dice(seed).job(seed)
        question = compiled(job, program)
        if question is None:
            continue
        if all(counts[kind] == most for kind in ("compiled", "random", *kinds)):
            return
        question_of_any = any_question(model.Dice(seed))
        if question_of_any and counts["random"] < most:
            counts["random"] += 1
            yield seed, "random", question_of_any
        if counts["compiled"] < most:
            counts["compiled"] += 1
            yield seed, "compiled", question
        if sum(count_of(net.blocks) for net in question.nets) > MOST_KEYS or not question.nets:
            continue
        spoiler = Spoiler(seed)
        for kind in kinds:
            other = getattr(spoiler, kind)(question) if counts[kind] < most else None
            if other is not None:
                counts[kind] += 1
                yield seed, kind.replace("_", " "), other


def main():
    parser = argparse.ArgumentParser(description="Compares `verify` with each key's own lookup (see the head of this file).")
    parser.add_argument("--first", type=int, default=0, metavar="SEED")
    parser.add_argument("--jobs", type=int, default=20, metavar="COUNT", help="how many jobs, and spoiled ones of each kind")
    parser.add_argument("program", nargs="?", default=f"{ROOT}/spin")
    asked = parser.parse_args()
    counts, cuts, failed, begun = Counter(), Counter(), 0, time.process_time()
    for seed, kind, question in trials(asked.program, range(asked.first, asked.first + 10**6), asked.jobs):
        # (where masks are no ones followed by zeros, bits change places in the requests, too, and not only where parts would be many)
        verifying.MOST_PARTS = 1 if kind == "bits" else USUAL_PARTS
        verdict, is_cut, kept = verdict_of(question, asked.program)
        name = type(verdict).__name__
        counts[kind, name] += 1
        cuts[kind, "cut"] += name == "Right" and is_cut
        is_few = sum(count_of(net.blocks) for net in question.nets) <= MOST_KEYS
        if (kind == "compiled" and name != "Right") or (is_few and not is_true(question, verdict)):
            failed += 1
            print(f"FAILED: job {seed} of the model, {kind}: {verdict!r}")
        elif verdict and is_few and not has_asked(question, kept):
            failed += 1
            print(f"FAILED: job {seed} of the model, {kind}: the program was not asked for all")
    for kind, answers in EXPECTED.items():
        came = {answer: n for (other, answer), n in sorted([*counts.items(), *cuts.items()]) if other == kind and n}
        print(f"{kind}: " + ", ".join(f"{answer} {n}" for answer, n in came.items()))
        for answer in sorted(answers - set(came)):
            failed += 1
            print(f"FAILED: {kind}: never {answer}")
    print(f"{time.process_time() - begun:.0f} seconds of Python", file=sys.stderr)
    print(f"{sum(counts.values()) - failed} passed, {failed} failed")
    return 1 if failed else 0


if __name__ == "__main__":
    sys.exit(main())
