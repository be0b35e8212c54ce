"""How many rows `minimise` leaves of random tables, beside two published rules.

    python3 bench/minimising.py [--rows ROWS ..] [--routes ROUTES ..] [--seeds N]

For each kind of table and each number of routes a line: the rows before, those that ordered covering leaves (Mundy, Heathcote and
Garside, 2016), those that joining by pairs leaves, as sPyNNaker's compressor does, and ours, each summed over all numbers of rows and
seeds; then how many tables ours leaves shorter than, as long as, and longer than ordered covering does; and seconds. The two rules
are written here anew, for measuring alone. Each result is looked up key by key: the first row that has a key of a given row has to
have that row's route.

The kinds: `one` populations of 1 to 64 neurons, each with one route; `parts` of which every fourth neuron goes another way; `mixed`
of which three in ten do; `dense` single keys in a row; `sparse` single keys anywhere in eight bits above.
"""
import argparse
import os
import random
import sys
import time

sys.path.insert(0, os.path.join(os.path.dirname(os.path.abspath(__file__)), "..", "python"))
from kulzobad.minimising import minimise  # pylint: disable=wrong-import-position

FULL = 0xFFFFFFFF


def of_populations(draw, count, routes, pick):
    """Rows of populations one behind another: as many as are asked for. `pick` gives the route of a neuron."""
    rows, first = [], 0
    while len(rows) < count:
        size = 1 << draw.randrange(0, 7)
        first += -first % size
        home = draw.choice(routes)
        ways = [pick(draw, i, home, routes) for i in range(size)]
        if len(set(ways)) == 1:
            rows.append((first, FULL ^ (size - 1), ways[0]))
        else:
            rows += [(first + i, FULL, way) for i, way in enumerate(ways)]
        first += size
    return rows[:count]


def single(draw, count, routes, places):
    return [(key, FULL, draw.choice(routes)) for key in sorted(draw.sample(range(places), count))]


KINDS = {
    "one": lambda draw, count, routes: of_populations(draw, count, routes, lambda _, i, home, routes: home),
    "parts": lambda draw, count, routes: of_populations(draw, count, routes, lambda _, i, home, routes: home if i % 4 else routes[0]),
    "mixed": lambda draw, count, routes: of_populations(draw, count, routes, lambda d, i, home, routes: d.choice(routes) if d.random() < 0.3 else home),
    "dense": lambda draw, count, routes: single(draw, count, routes, count),
    "sparse": lambda draw, count, routes: single(draw, count, routes, count << 8),
}


def generality(mask):
    return 32 - bin(mask).count("1")


def meet(one, other):
    return not (one[0] ^ other[0]) & one[1] & other[1]


def joined(blocks):
    """The least block that has all of them."""
    key, mask, differ = blocks[0][0], FULL, 0
    for block in blocks:
        mask &= block[1]
        differ |= block[0] ^ key
    mask &= ~differ
    return key & mask, mask


class Merge:
    """Rows of a table that one is to be made of, by their places."""

    def __init__(self, table, places):
        self.table, self.places, self.goodness = table, frozenset(places), len(places) - 1
        if places:
            self.block = joined([table[i] for i in places])
            self.at = sum(generality(row[1]) < generality(self.block[1]) for row in table)


def without_upper(merge):
    """Without the rows that would pass one that they meet."""
    for i in sorted(merge.places, reverse=True):
        if any(meet(merge.table[i], row) for row in merge.table[i + 1:merge.at]):
            merge = Merge(merge.table, merge.places - {i})
            if merge.goodness <= 0:
                break
    return merge


def without_lower(merge, aliases, least):
    """With fewer rows, till it meets no alias of a row behind."""
    while merge.goodness > least:
        covered = [it for row in merge.table[merge.at:] for it in aliases.get(row[:2], [row[:2]]) if meet(merge.block, it)]
        if not covered:
            return merge
        # (bits that the merge leaves open and the alias does not: one has to differ)
        bits = [(bin(mask & ~merge.block[1]).count("1"), key, mask & ~merge.block[1]) for key, mask in covered]
        fewest = min(it[0] for it in bits)
        if fewest == 0:
            return Merge(merge.table, ())
        choices = []
        for count, key, open_bits in bits:
            for bit in (1 << n for n in range(31, -1, -1)) if count == fewest else ():
                if open_bits & bit:
                    choices.append(frozenset(i for i in merge.places if not merge.table[i][1] & bit or not (merge.table[i][0] ^ key) & bit))
        merge = Merge(merge.table, merge.places - min(choices, key=len))
    return merge


def ordered_covering(rows):
    table, aliases = sorted(rows, key=lambda row: generality(row[1])), {}
    while True:
        best, places = 0, {}
        chosen = None
        for i, row in enumerate(table):
            places.setdefault(row[2], set()).add(i)
        for them in places.values():
            merge = Merge(table, them)
            if merge.goodness > best:
                merge = without_lower(merge, aliases, best)
            if merge.goodness > best:
                upper = without_upper(merge)
                merge = upper if upper.places == merge.places else without_lower(upper, aliases, best)
            if merge.goodness > best:
                best, chosen = merge.goodness, merge
        if chosen is None:
            return table
        taken = [table[i] for i in sorted(chosen.places)]
        aliases[chosen.block] = [it for row in taken for it in aliases.pop(row[:2], [row[:2]])]
        behind = chosen.at - sum(i < chosen.at for i in chosen.places)
        table = [row for i, row in enumerate(table) if i not in chosen.places]
        table.insert(behind, (*chosen.block, taken[0][2]))


def by_pairs(rows):
    groups = {}
    for row in rows:
        groups.setdefault(row[2], []).append(row[:2])
    order, made = sorted(groups, key=lambda route: (len(groups[route]), route)), []
    for n, route in enumerate(order):
        behind, blocks = [block for other in order[n + 1:] for block in groups[other]], []
        for block in groups[route]:
            for i, taken in enumerate(blocks):
                join = joined([taken, block])
                if not any(meet(join, other) for other in behind):
                    blocks[i] = join
                    break
            else:
                blocks.append(block)
        made += [(*block, route) for block in blocks]
    return made


def looked_up(rows, key):
    return next((route for row_key, mask, route in rows if key & mask == row_key), None)


def main():
    words = argparse.ArgumentParser(description="Compares the lengths of shortened tables (see the head of this file).")
    words.add_argument("--rows", type=int, nargs="+", default=[100, 200], help="the numbers of rows")
    words.add_argument("--routes", type=int, nargs="+", default=[2, 8, 40], help="the numbers of routes")
    words.add_argument("--seeds", type=int, default=2, help="how many tables of each")
    words.add_argument("--kinds", nargs="+", choices=KINDS, default=list(KINDS), help="the kinds")
    asked = words.parse_args()
    print("| kind | routes | rows | published | pairs | ours | shorter / equal / longer | s published | s ours |\n|---|---|---|---|---|---|---|---|---|")
    for kind in asked.kinds:
        for routes in asked.routes:
            sums, order, seconds = [0, 0, 0, 0], [0, 0, 0], [0.0, 0.0]
            for count in asked.rows:
                for seed in range(asked.seeds):
                    draw = random.Random(f"{kind} {routes} {count} {seed}")
                    rows = KINDS[kind](draw, count, draw.sample(range(1, 1 << 24), routes))
                    begun = time.time()
                    published = ordered_covering(rows)
                    seconds[0] += time.time() - begun
                    begun = time.time()
                    ours = [(row.key, row.mask, row.route) for row in minimise({(0, 0): rows}).tables[0, 0]]
                    seconds[1] += time.time() - begun
                    results = published, by_pairs(rows), ours
                    for result in results:
                        for key, mask, route in rows:
                            for some in {key, key | (FULL ^ mask), key | (FULL ^ mask) & draw.getrandbits(32)}:
                                if looked_up(result, some) != route:
                                    sys.exit(f"{kind}, {routes} routes, {count} rows, seed {seed}: key {some:08x} has another route")
                    sums = [a + len(b) for a, b in zip(sums, (rows, *results))]
                    order[(len(ours) > len(published)) + (len(ours) >= len(published))] += 1
            print(f"| {kind} | {routes} | {sums[0]} | {sums[1]} | {sums[2]} | {sums[3]} | {' / '.join(map(str, order))} | {seconds[0]:.2f} | {seconds[1]:.2f} |", flush=True)


if __name__ == "__main__":
    main()
