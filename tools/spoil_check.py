"""Compiled images, each spoiled in one place, and what `check` is to say of them.

    python3 tools/spoil_check.py [PROGRAM]

PROGRAM is ./spin where none is named. Ten jobs of tools/model.py are compiled by the program, and each image has to be `right`
with the trees of the model. Then, many times a job, one thing is spoiled:

    route    one bit of one row's route
    mask     one bit of one row's mask: the row takes twice as many keys, or half of them
    order    two rows of a chip change places
    tree     one link of a net's tree is left out
    bytes    the image ends early

and the answer has to be the one that is worked out here in the plainest way: each key of a net is looked up for itself, row by
row, at each chip of the net's tree. Where all keys are taken by one row, or none by any, the route is the tree's or it is wrong;
where they are not, they are split at the first row that takes one. No blocks are compared, and no code is shared with the program.

It tells how often each answer came, since a spoiled image may still be right; an answer of `EXPECTED` that never came is a
failure. The last line is 'N passed, M failed', and the status 1 where one failed. Python's standard library alone.
"""
import json
import os
import sys
from collections import Counter, namedtuple

import model

ROOT = model.ROOT

SEED = 25
JOBS, TIMES = 10, 6
# Jobs with so many rows show much and are still looked up fast.
ROWS = range(12, 400)

# The answers that have to come, by what is spoiled.
EXPECTED = {
    "nothing": {"right"},
    "route": {"wrong"},
    "mask": {"right", "wrong", "split"},
    "order": {"right", "wrong"},
    "tree": {"bad tree"},
    "bytes": {"bad image"},
}

# A net to check: its name, its keys, its links, and at each chip of its tree the row that it wants.
Net = namedtuple("Net", "name keys tree wanted")


# ---- the rule


def taker(rows, key):
    """The place of the first row that takes a key."""
    return next((i for i, row in enumerate(rows) if key & row.block.mask == row.block.key), None)


def by_default(port):
    """The route of a packet that no row takes: straight on from a link, and nowhere from a core."""
    return 0 if port == model.LOCAL else 1 << model.opposite(port)


def verdict(nets, tables):
    """The line for tables and nets with good trees."""
    for net in nets:
        for chip in sorted(net.wanted):
            rows, wanted = tables.get(chip, []), net.wanted[chip]
            takers = {taker(rows, key) for key in net.keys}
            if len(takers) > 1:
                return f"split {net.name} {chip[0]} {chip[1]} {min(takers - {None})}"
            place = takers.pop()
            route = by_default(wanted.aliases[0][1]) if place is None else rows[place].route
            if route != wanted.route:
                return f"wrong {net.name} {chip[0]} {chip[1]} {net.keys[0]:08x}"
    return "right"


def fields(tables):
    """The lengths of an image's fields, one after the other."""
    yield from (4, 1, 1, 1, 1, 2)
    for rows in tables.values():
        yield from (1, 1, 2)
        yield from (4, 4, 4) * len(rows)


def cut_field(tables, length):
    """Where the field begins that is not there whole in so many bytes."""
    at = 0
    for size in fields(tables):
        if at + size > length:
            return at
        at += size
    return at


# ---- what is spoiled


class Spoiler(model.Dice):
    """Copies of tables and trees with one thing spoiled, by chance; None where there is no such thing."""

    def row_of(self, tables):
        chip = self.choice(list(tables))
        return chip, self.randrange(len(tables[chip]))

    def with_row(self, tables, chip, place, row):
        rows = list(tables[chip])
        rows[place] = row
        return {**tables, chip: rows}

    def route(self, tables):
        chip, place = self.row_of(tables)
        row = tables[chip][place]
        route = row.route ^ 1 << self.randrange(24)
        return self.with_row(tables, chip, place, row._replace(route=route)) if route else None

    def mask(self, tables):
        """A bit among the lower ones, by which keys of these jobs differ. A bit outside the mask is none of the key's."""
        chip, place = self.row_of(tables)
        row, bit = tables[chip][place], 1 << self.randrange(8)
        mask = row.block.mask ^ bit
        return self.with_row(tables, chip, place, row._replace(block=model.Block(row.block.key & mask, mask)))

    def order(self, tables):
        """Two rows of one chip; of those that share a key as often as of any."""
        pairs = [(chip, i, j) for chip, rows in tables.items() for j in range(len(rows)) for i in range(j)]
        meeting = [it for it in pairs if model.meet(tables[it[0]][it[1]].block, tables[it[0]][it[2]].block)]
        if not pairs:
            return None
        chip, i, j = self.choice(meeting if meeting and self.now_and_then(0.5) else pairs)
        rows = list(tables[chip])
        rows[i], rows[j] = rows[j], rows[i]
        return {**tables, chip: rows}


# ---- beside the program


def nets_of(job, plan):
    """The nets of a job, as compiled."""
    machine = model.Machine(job["machine"])
    for net, block, tree in zip(model.placed_nets(job), plan.blocks, plan.trees):
        keys = range(block.key, block.key + model.ALL_ONES - block.mask + 1)
        yield Net(net["name"], keys, tree, model.wanted_rows(machine, plan.spots, net, block, tree))


def spoiled(dice, job, plan):
    """What is spoiled, the trees and the bytes to hand in, and the line that is to come."""
    nets, tables = list(nets_of(job, plan)), plan.tables
    trees, image = [net.tree for net in nets], model.image_of(job["machine"], tables)
    yield "nothing", trees, image, "right"
    for spoil in (dice.route, dice.mask, dice.order):
        for other in filter(None, (spoil(tables) for _ in range(TIMES))):
            yield spoil.__name__, trees, model.image_of(job["machine"], other), verdict(nets, other)
    net = dice.choice([net for net in nets if net.tree])
    left = dice.choice(net.tree)
    yield "tree", [[it for it in net.tree if it != left] if it is net.tree else it for it in trees], image, f"bad tree {net.name}"
    length = dice.randrange(len(image))
    yield "bytes", trees, image[:length], f"bad image {cut_field(tables, length)}"


def request(dice, job, trees, image):
    """The text of a request, in which the links of each tree stand in any order."""
    listed = [[[*chip, link] for chip, link in dice.sample(tree, len(tree))] for tree in trees]
    return json.dumps({"job": job, "trees": listed, "image": list(image)}).encode()


def jobs():
    """The first jobs of the model that can be compiled and have about so many rows, half of them with rows joined."""
    found = 0
    for seed in range(10**6):
        job = model.Dice(seed).job(seed)
        if found == JOBS:
            return
        if len(job["graph"]["nets"]) > 60 or max(job["machine"]["width"], job["machine"]["height"]) > 12:
            continue
        try:
            plan = model.plan_of(job)
        except model.Refused:
            continue
        if model.rows_in_all(plan) in ROWS and any(plan.trees):
            found += 1
            yield seed, job, plan


def kind_of(line):
    """The answer that a line gives, without its numbers."""
    return " ".join(line.split(" ")[:2]) if line.startswith("bad") else line.split(" ")[0]


def is_as_expected(program, words, line, text, what):
    """Whether the program writes the line, or these bytes. The request is kept in out/spoiled.json where it does not."""
    wanted = line if isinstance(line, bytes) else model.text_of([line])
    if model.is_answered(program, what, {words: (0, wanted)}, text):
        return True
    os.makedirs(f"{ROOT}/out", exist_ok=True)
    with open(f"{ROOT}/out/spoiled.json", "wb") as kept:
        kept.write(text)
    return False


def main():
    program = sys.argv[1] if len(sys.argv) > 1 else f"{ROOT}/spin"
    dice, counts, results = Spoiler(SEED), Counter(), Counter()
    for seed, job, plan in jobs():
        what = f"job {seed} of the model"
        image = model.image_of(job["machine"], plan.tables)
        results[is_as_expected(program, "compile", image, json.dumps(job).encode(), what)] += 1
        for kind, trees, image, line in spoiled(dice, job, plan):
            counts[kind, kind_of(line)] += 1
            results[is_as_expected(program, "check", line, request(dice, job, trees, image), f"{what}, {kind} spoiled")] += 1
    for kind, answers in EXPECTED.items():
        print(f"{kind}: " + ", ".join(f"{answer} {n}" for (other, answer), n in sorted(counts.items()) if other == kind))
        for answer in sorted(answers - {answer for other, answer in counts if other == kind}):
            results[False] += 1
            print(f"FAILED: {kind} spoiled, never {answer}")
    print(f"{results[True]} passed, {results[False]} failed")
    return 1 if results[False] else 0


if __name__ == "__main__":
    sys.exit(main())
