"""Shorter tables: each key looked up before and after by a slow lookup of this test's own, and what is refused."""
import io
import json
import os
import random
import tempfile
import unittest
from contextlib import redirect_stderr, redirect_stdout
from types import SimpleNamespace

from kulzobad import Machine, Minimised, Refused, encode, minimise
from kulzobad.cli import main
from kulzobad.formats import read_csv, read_dump, tables_of_rig, write_csv
from kulzobad.images import decode
from kulzobad.minimising import read_minimised, shares_of, tables_program_of
from kulzobad.kinds import BrokenAnswer
from kulzobad.program import call
from kulzobad.reports import read

ONES = 0xFFFFFFFF
# The keys that random tables tell apart have these bits.
BITS = 7


def looked_up(rows, key):
    """The route of the first row that has the key, or None."""
    return next((route for row_key, mask, route in rows if key & mask == row_key), None)


def words(rows):
    return [(row.key, row.mask, row.route) for row in rows]


def mask_of(rng, kind):
    """A mask: any, ones followed by zeros, or ones but for a bit or two."""
    low = (1 << BITS) - 1
    if kind == "any":
        return rng.getrandbits(BITS)
    if kind == "ranges":
        return low & ~((1 << rng.randrange(BITS + 1)) - 1)
    return low & ~rng.choice([0, 0, 0, 1, 3, 5, 0x12])


def random_rows(rng, kind):
    """Rows of a kind, under a fixed prefix; of some the last has all keys of the prefix."""
    place = rng.randrange(32 - BITS + 1)
    prefix = rng.getrandbits(32) & ~(((1 << BITS) - 1) << place)
    routes = rng.sample([0, 1, 2, 4, 32, 64, 1 << 23, 65], rng.randrange(1, 8))
    rows = []
    for _ in range(rng.randrange(1, 60)):
        mask = mask_of(rng, kind)
        rows.append((prefix | (rng.getrandbits(BITS) & mask) << place, ONES & ~(((1 << BITS) - 1) << place) | mask << place, rng.choice(routes)))
    if rng.random() < 0.3:
        rows.append((prefix, ONES & ~(((1 << BITS) - 1) << place), routes[0]))
    return rows, [prefix | low << place for low in range(1 << BITS)]


def random_tables(seed, kind, count=2000):
    """Tables by chip, and the keys that are to be looked up in each."""
    rng = random.Random(seed)
    made = {(i % 256, i // 256): random_rows(rng, kind) for i in range(count)}
    return {chip: rows for chip, (rows, _) in made.items()}, {chip: keys for chip, (_, keys) in made.items()}


class Lookups(unittest.TestCase):
    """Each key of each row goes where it went."""

    def judge(self, tables, keys, done):
        self.assertEqual(list(done.tables), list(tables))
        for chip, rows in tables.items():
            new = words(done.tables[chip])
            self.assertLessEqual(len(new), len(rows))
            for key in keys[chip]:
                wanted = looked_up(rows, key)
                if wanted is not None:
                    self.assertEqual(looked_up(new, key), wanted, (chip, rows, new, key))

    def test_random(self):
        for seed, kind in enumerate(("any", "ranges", "few")):
            tables, keys = random_tables(seed, kind)
            done = minimise(tables)
            self.judge(tables, keys, done)
            self.assertLess(done.rows, sum(map(len, tables.values())))
            self.assertEqual(done.kept, ())
            # a table that was shortened goes in as it is, and does not get longer
            again = minimise(done.tables)
            self.judge(tables, keys, again)

    def test_target(self):
        tables, keys = random_tables(7, "few", 300)
        least = minimise(tables)
        for target in (5, 10, 20):
            done = minimise(tables, target)
            self.judge(tables, keys, done)
            for chip, rows in tables.items():
                if len(rows) <= target:
                    self.assertEqual(words(done.tables[chip]), rows)
                elif len(least.tables[chip]) <= target:
                    self.assertLessEqual(len(done.tables[chip]), target)

    def test_exact(self):
        for seed, kind in enumerate(("any", "ranges", "few")):
            tables, keys = random_tables(10 + seed, kind, 700)
            rng = random.Random(seed)
            done = minimise(tables, exact=True)
            self.judge(tables, keys, done)
            for chip, rows in tables.items():
                new = words(done.tables[chip])
                others = [rng.getrandbits(32) for _ in range(20)] + [key ^ 1 << rng.randrange(32) for key in keys[chip]]
                for key in keys[chip] + others:
                    if looked_up(rows, key) is None:
                        self.assertIsNone(looked_up(new, key), (chip, rows, new, key))
            self.assertLess(done.rows, sum(map(len, tables.values())))
            self.assertEqual(done.kept, ())
            least = minimise(tables, exact=True, target=9)
            self.judge(tables, keys, least)
            for chip, rows in tables.items():
                self.assertEqual(len(least.tables[chip]) <= 9, len(rows) <= 9 or len(done.tables[chip]) <= 9, chip)

    def test_exact_by_hand(self):
        rows = [(0, ONES, 1), (1, ONES, 1), (3, ONES, 1)]
        self.assertEqual(words(minimise({(0, 0): rows}).tables[0, 0]), [(0, 0xFFFFFFFC, 1)])
        self.assertEqual(words(minimise({(0, 0): rows}, exact=True).tables[0, 0]), [(3, ONES, 1), (0, 0xFFFFFFFE, 1)])
        self.assertEqual(words(minimise({(0, 0): [*rows, (2, ONES, 1)]}, exact=True).tables[0, 0]), [(0, 0xFFFFFFFC, 1)])
        # with a row of all keys none is without a row
        self.assertEqual(minimise({(0, 0): [*rows, (0, 0, 2)]}, exact=True), minimise({(0, 0): [*rows, (0, 0, 2)]}))
        # the routes of the rows are those that a wall would have
        walls = [(key, ONES, 0xFFFFFE - key) for key in range(4)] + [(8, ONES, 0xFFFFFF), (9, ONES, 0xFFFFFF)]
        self.assertEqual(words(minimise({(0, 0): walls}, exact=True).tables[0, 0]), walls[:4] + [(8, 0xFFFFFFFE, 0xFFFFFF)])
        self.assertEqual(words(minimise({(0, 0): []}, exact=True).tables[0, 0]), [])

    def test_pairs_by_hand(self):
        # covering joins route 1 first, and leaves the three others; by pairs, 6 takes in 7, and then 1 takes in 2 and 4
        rows = [(0, ONES, 1), (1, ONES, 2), (2, ONES, 2), (4, ONES, 2), (6, ONES, 1), (7, ONES, 1)]
        pairs = [(0, ONES, 1), (6, 0xFFFFFFFE, 1), (0, 0xFFFFFFF8, 2)]
        self.assertEqual(words(minimise({(0, 0): rows}).tables[0, 0]), pairs)
        self.assertEqual(words(minimise({(0, 0): rows}, 3).tables[0, 0]), pairs)
        # four rows will do: covering makes them, and no pair is tried
        covered = [(1, ONES, 2), (2, ONES, 2), (4, ONES, 2), (0, 0xFFFFFFF8, 1)]
        self.assertEqual(words(minimise({(0, 0): rows}, 4).tables[0, 0]), covered)
        # 3 has no row: so 1 takes in 5 and not 7
        rows = [(key, ONES, 2) for key in (1, 5, 6, 7)]
        self.assertEqual(words(minimise({(0, 0): rows}, exact=True).tables[0, 0]), [(1, 0xFFFFFFFB, 2), (6, 0xFFFFFFFE, 2)])

    def test_borders_of_overlaps(self):
        rows = [(0x10000000, 0xFFFFFFFF, 1), (0x1FFFFFFF, 0xFFFFFFFF, 2), (0x10000000, 0xF0000000, 4), (0, 0x80000000, 8), (0, 0, 16)]
        new = words(minimise({(0, 0): rows}).tables[0, 0])
        for key in (0, 0x0FFFFFFF, 0x10000000, 0x10000001, 0x1FFFFFFE, 0x1FFFFFFF, 0x20000000, 0x7FFFFFFF, 0x80000000, ONES):
            self.assertEqual(looked_up(new, key), looked_up(rows, key), hex(key))

    def test_rows_that_decide_for_no_key_go(self):
        rows = [(0, 0xFFFFFFF0, 1), (5, ONES, 2), (16, ONES, 4)]
        self.assertEqual(words(minimise({(3, 4): rows}).tables[3, 4]), [(16, ONES, 4), (0, 0xFFFFFFF0, 1)])

    def test_same_rows_same_answer(self):
        tables, _ = random_tables(3, "any", 50)
        self.assertEqual(minimise(tables), minimise(tables))

    def test_rows_that_overlap_in_too_many_ways(self):
        rng = random.Random(1)
        rows = []
        for i in range(60):
            mask = sum(1 << bit for bit in rng.sample(range(32), 6))
            rows.append((rng.getrandbits(32) & mask, mask, 1 << i % 5))
        for exact in (False, True):
            done = minimise({(1, 2): rows, (1, 3): [(0, ONES, 1), (1, ONES, 1)]}, exact=exact)
            self.assertEqual(done.kept, ((1, 2),))
            self.assertEqual(words(done.tables[1, 2]), rows)
            self.assertEqual(words(done.tables[1, 3]), [(0, 0xFFFFFFFE, 1)])


# Of the sources that random rows have, those that tell a link are a half.
SOURCES = [None, set(), {0, 3}, {2, 9}, {None}, {1, None}, {6}, {23}, {0}, {1}, {2}, {3}, {4}, {5}, {0}, {3}]


def straight(link):
    """The route of a packet that came by the link and that no row has."""
    return 1 << (link + 3) % 6


def sourced(rng, rows):
    """Rows that say where their packets come in, or not: of some the route is that of a packet that no row has."""
    found = []
    for key, mask, route in rows:
        sources = rng.choice(SOURCES)
        link = next(iter(sources)) if sources and len(sources) == 1 else None
        if link in range(6) and rng.random() < 0.7:
            route = straight(link)
        found.append(SimpleNamespace(key=key, mask=mask, route=route, sources=sources))
    return found


class Arrivals(unittest.TestCase):
    """Rows that tell by which link their packets come in."""

    def judge(self, rows, new, keys, exact):
        """Each key of a row goes where it went, by whatever link its packets may come; says how many go by no row."""
        self.assertLessEqual(len(new), len(rows))
        gone = 0
        for key in keys:
            wanted = next((row for row in rows if key & row.mask == row.key), None)
            found = looked_up(new, key)
            if wanted is None:
                self.assertTrue(found is None or not exact, (rows, new, key))
                continue
            told = wanted.sources or {None}
            for link in told if told <= set(range(6)) else {*range(6), None}:
                gone += found is None
                self.assertEqual(found if found is not None or link is None else straight(link), wanted.route, (rows, new, key, link))
        return gone

    def test_random(self):
        for seed, kind in enumerate(("any", "ranges", "few")):
            for exact in (False, True):
                rng = random.Random(40 + seed)
                plain, keys = random_tables(20 + seed, kind, 700)
                tables = {chip: sourced(rng, rows) for chip, rows in plain.items()}
                done = minimise(tables, exact=exact, arrivals=True)
                gone = sum(self.judge(rows, words(done.tables[chip]), keys[chip], exact) for chip, rows in tables.items())
                self.assertGreater(gone, 0)
                untold = minimise(tables, exact=exact)
                self.assertLess(done.rows, untold.rows)
                self.assertEqual(untold, minimise({chip: words(rows) for chip, rows in tables.items()}, exact=exact, arrivals=True))

    def test_by_hand(self):
        def left(*rows, **asked):
            given = [SimpleNamespace(key=key, mask=mask, route=route, sources=sources) for key, mask, route, sources in rows]
            return words(minimise({(0, 0): given}, arrivals=True, **asked).tables[0, 0])

        # from the east to the west, and not to the east, nor to both, nor to a core
        self.assertEqual(left((0, ONES, 8, {0})), [])
        for route in (1, 9, 0, 64):
            self.assertEqual(left((0, ONES, route, {0})), [(0, ONES, route)])
        for link in range(6):
            self.assertEqual(left((5, ONES, straight(link), {link})), [])
        # a row behind would take the packets
        self.assertEqual(left((0, ONES, 8, {0}), (0, 0xFFFFFFF0, 1, None)), [(0, ONES, 8), (0, 0xFFFFFFF0, 1)])
        self.assertEqual(left((0, ONES, 8, {0}), (0, 0xFFFFFFF0, 16, {1})), [])
        # rows are joined first, and one that tells nothing keeps what it was joined with
        self.assertEqual(left((0, ONES, 8, {0}), (1, ONES, 8, None)), [(0, 0xFFFFFFFE, 8)])
        self.assertEqual(left((0, ONES, 8, {0}), (1, ONES, 8, {1})), [(0, 0xFFFFFFFE, 8)])
        self.assertEqual(left((0, ONES, 8, {0}), (1, ONES, 8, {0}), (3, ONES, 2, None)), [(3, ONES, 2)])
        # a table that is short enough is as it was given
        self.assertEqual(left((0, ONES, 8, {0}), (1, ONES, 1, None), target=2), [(0, ONES, 8), (1, ONES, 1)])
        self.assertEqual(left((0, ONES, 8, {0}), (1, ONES, 1, None), target=1), [(1, ONES, 1)])
        # pieces joined by pairs keep their rows, of which a later one may have the keys
        pairs = [(1, ONES, 2, None), (2, ONES, 2, None), (4, ONES, 2, None), (6, ONES, 1, None), (7, ONES, 1, None)]
        self.assertEqual(left((0, ONES, 1, {3}), *pairs), [(0, ONES, 1), (6, 0xFFFFFFFE, 1), (0, 0xFFFFFFF8, 2)])
        # of as many rows those of covering stay, without one that goes
        covered = [(1, ONES, 2), (2, ONES, 2), (4, ONES, 2), (0, 0xFFFFFFF8, 1)]
        self.assertEqual(left((0, ONES, 1, None), *pairs, (16, ONES, 8, {0})), covered)
        # keys behind a wall
        self.assertEqual(left((0, ONES, 1, None), (1, ONES, 1, None), (3, ONES, 8, {0}), exact=True), [(0, 0xFFFFFFFE, 1)])

    def test_rig(self):
        class Entry(SimpleNamespace):
            pass

        rows = [Entry(route={3}, key=0, mask=ONES, sources={0}), Entry(route={3}, key=1, mask=ONES, sources={None}), Entry(route={3}, key=7, mask=ONES)]
        tables = tables_of_rig({(0, 0): rows})
        self.assertEqual([getattr(row, "arrival", None) for row in tables[0, 0]], [0, None, None])
        self.assertEqual(minimise(tables, exact=True).rows, 2)
        self.assertEqual(words(minimise(tables_of_rig({(0, 0): rows[:1] + rows[2:]}), arrivals=True, exact=True).tables[0, 0]), [(7, ONES, 8)])


class Refusals(unittest.TestCase):
    """What is no table."""

    def line(self, value, *more):
        text = value if isinstance(value, bytes) else json.dumps(value).encode()
        return call(list(more), text, tables_program_of())

    def test_lines(self):
        table = {"x": 0, "y": 0, "rows": [[0, 0, 1]]}
        for value, status, line in (
            (b"", 4, b"bad job: not json\n"),
            (b"[", 4, b"bad job: not json\n"),
            ([], 4, b"bad job: shape in.tables\n"),
            ({"target": -1, "tables": []}, 4, b"bad job: shape in.target\n"),
            ({"target": 2**32, "tables": []}, 4, b"bad job: range in.target\n"),
            ({"exact": 1, "tables": {}}, 4, b"bad job: shape in.exact\n"),
            ({"exact": "true", "tables": []}, 4, b"bad job: shape in.exact\n"),
            ({"exact": None, "tables": []}, 0, b""),
            ({"target": "0", "exact": "no"}, 4, b"bad job: shape in.target\n"),
            ({"exact": True, "tables": {}}, 4, b"bad job: shape in.tables\n"),
            ({"tables": {}}, 4, b"bad job: shape in.tables\n"),
            ({"tables": [table, 5]}, 4, b"bad job: shape in.tables[1].x\n"),
            ({"tables": [{**table, "x": 256}]}, 4, b"bad job: range in.tables[0].x\n"),
            ({"tables": [{**table, "y": "0"}]}, 4, b"bad job: shape in.tables[0].y\n"),
            ({"tables": [{"x": 0, "y": 0}]}, 4, b"bad job: shape in.tables[0].rows\n"),
            ({"tables": [{**table, "rows": [[0, 0]]}]}, 4, b"bad job: shape in.tables[0].rows[0]\n"),
            ({"tables": [{**table, "rows": [[0, 0, 1], [0, 0, 1, 1, 1]]}]}, 4, b"bad job: shape in.tables[0].rows[1]\n"),
            ({"tables": [{**table, "rows": [[0, 0, 1, 0], [0, 0, 1, "0"]]}]}, 4, b"bad job: shape in.tables[0].rows[1]\n"),
            ({"tables": [{**table, "rows": [[0, 0, 1, 5], [0, 0, 1, None]]}]}, 4, b"bad job: shape in.tables[0].rows[1]\n"),
            ({"tables": [{**table, "rows": [[0, 0, 1], [0, 0, 1, 6]]}]}, 4, b"bad job: range in.tables[0].rows[1]\n"),
            ({"tables": [{**table, "rows": [[0, 0, 1, 24]]}]}, 4, b"bad job: range in.tables[0].rows[0]\n"),
            ({"tables": [{**table, "rows": [[0, 0, 1, -1]]}]}, 4, b"bad job: shape in.tables[0].rows[0]\n"),
            ({"tables": [{**table, "rows": [[0, 0, 2**24, []]]}]}, 4, b"bad job: range in.tables[0].rows[0]\n"),
            ({"tables": [{**table, "rows": [[0, 0, 8, 3]]}]}, 0, b"table 0 0 1\n00000000 00000000 000008\n"),
            ({"tables": [{**table, "rows": [[0, 0, 8, 0]]}]}, 0, b"table 0 0 0\n"),
            ({"target": 1, "tables": [{**table, "rows": [[0, 0, 8, 0]]}]}, 0, b"table 0 0 1\n00000000 00000000 000008\n"),
            ({"tables": [{**table, "rows": [[2**32, 0, 1]]}]}, 4, b"bad job: range in.tables[0].rows[0]\n"),
            ({"tables": [{**table, "rows": [[0, 2**32, 1]]}]}, 4, b"bad job: range in.tables[0].rows[0]\n"),
            ({"tables": [{**table, "rows": [[0, 0, 2**24]]}]}, 4, b"bad job: range in.tables[0].rows[0]\n"),
            ({"tables": [{**table, "rows": [[2, 1, 1]]}]}, 4, b"bad job: range in.tables[0].rows[0]\n"),
            ({"tables": [{**table, "rows": [[0, 0, 1]] * 65537}]}, 4, b"bad job: too many in.tables[0].rows 65537\n"),
            ({"tables": []}, 0, b""),
            ({"tables": [{**table, "rows": []}]}, 0, b"table 0 0 0\n"),
            ({"tables": [table]}, 0, b"table 0 0 1\n00000000 00000000 000001\n"),
        ):
            self.assertEqual(self.line(value), (status, line), str(value)[:200])
        self.assertEqual(self.line(b"{}", "run"), (1, b"usage: no words, and tables as JSON on standard input\n"))

    def test_too_long_for_a_router(self):
        rows = [[i, ONES, i + 1] for i in range(1025)]
        status, text = self.line({"tables": [{"x": 1, "y": 1, "rows": rows}]})
        self.assertEqual((status, text.split(b"\n", 1)[0]), (8, b"table 1 1 1025"))
        self.assertEqual(self.line({"tables": [{"x": 1, "y": 1, "rows": rows[1:]}]})[0], 0)

    def test_calls(self):
        with self.assertRaises(Refused) as refused:
            minimise({(0, 0): [(1, 1, 1 << 24)]})
        self.assertEqual((refused.exception.fault, refused.exception.path), ("range", "in.tables[0].rows[0]"))
        for wrong in ({(0, 0): 5}, {(0, 0): [(1, 2)]}):
            with self.assertRaises((TypeError, ValueError)):
                minimise(wrong)
        with self.assertRaises((TypeError, ValueError)):
            minimise({}, "7")
        with self.assertRaises(TypeError):
            minimise({}, exact=1)
        with self.assertRaises(TypeError):
            minimise({}, arrivals=1)
        for sources in (0, "0", [0], {"0"}, {0.0}, {True}):
            with self.assertRaises(TypeError, msg=sources) as refused_sources:
                minimise({(1, 2): [(1, 1, 1), SimpleNamespace(key=0, mask=0, route=1, sources=sources)]}, arrivals=True)
            self.assertTrue(str(refused_sources.exception).startswith("row 1 of chip (1, 2): sources"), sources)
        self.assertEqual(minimise({}), Minimised({}))
        self.assertEqual(words(minimise({(0, 0): [(ONES, 0, 0), (1, 1, 1)]}).tables[0, 0]), [(1, 1, 1)])

    def test_broken_answers(self):
        for text in ("table 0 0 1\n", "table 0 0 0\ntable 0 0 0\n", "kept 0 0 1\n", "00000000 00000000 000001\n", "table 0 0 1\n0 0 0\n", "table 0 0 0"):
            with self.assertRaises(BrokenAnswer, msg=text):
                read_minimised(text)

    def test_shares(self):
        given = {(i, 0): [None] * (i % 7) for i in range(200)}
        shares = list(shares_of(given))
        self.assertEqual([chip for share in shares for chip in share], list(given))


class Command(unittest.TestCase):
    """The command, with files of each form."""

    def setUp(self):
        self.folder = tempfile.TemporaryDirectory()
        self.addCleanup(self.folder.cleanup)

    def call(self, data, *options):
        file, out = (os.path.join(self.folder.name, name) for name in ("in", "out"))
        with open(file, "wb") as made:
            made.write(data)
        told = io.StringIO()
        with redirect_stderr(told), redirect_stdout(io.StringIO()):
            status = main(["minimise", file, "-o", out, *options])
        written = b""
        if os.path.exists(out):
            with open(out, "rb") as made:
                written = made.read()
        return status, written, told.getvalue()

    def test_forms(self):
        rows = [(0, ONES, 1), (1, ONES, 1), (16, 0xFFFFFFF0, 2)]
        short = [(0, 0xFFFFFFFE, 1), (16, 0xFFFFFFF0, 2)]
        csv = write_csv({(0, 1): rows}).encode()
        status, written, told = self.call(csv)
        self.assertEqual((status, told, words(read_csv(written.decode())[0, 1])), (0, "", short))
        status, written, _ = self.call(csv, "--form", "dump")
        self.assertEqual((status, words(read_dump(written.decode())[0, 1])), (0, short))
        status, written, _ = self.call(b"0 1 00000000 ffffffff 000001\n0 1 00000001 ffffffff 000001\n")
        self.assertEqual((status, written), (0, b"0 1 00000000 fffffffe 000001\n"))
        status, written, _ = self.call(encode(Machine(1, 2), {(0, 1): rows}))
        self.assertEqual((status, words(decode(written).tables[0, 1].rows)), (0, short))
        plan = b"place a 0 0 1\nkeys n 00000000 ffffffff\ntable 0 1 2\n00000000 ffffffff 000001\n00000001 ffffffff 000001\nend rows 2\n"
        status, written, _ = self.call(plan)
        self.assertEqual((status, written), (0, b"place a 0 0 1\nkeys n 00000000 ffffffff\ntable 0 1 1\n00000000 fffffffe 000001\nend rows 1\n"))
        self.assertEqual(words(read(written.decode()).plan.tables[0, 1].rows), [(0, 0xFFFFFFFE, 1)])

    def test_target_and_length(self):
        csv = write_csv({(2, 2): [(i, ONES, i + 1) for i in range(1030)]}).encode()
        status, written, told = self.call(csv)
        self.assertEqual((status, len(read_csv(written.decode())[2, 2])), (8, 1030))
        self.assertIn("chip (2, 2) has 1030 rows", told)
        csv = write_csv({(2, 2): [(i, ONES, 1) for i in range(8)]}).encode()
        self.assertEqual(self.call(csv, "--target", "8")[1], csv)
        csv = write_csv({(2, 2): [(i, ONES, 1) for i in (0, 1, 3)]}).encode()
        self.assertEqual(len(read_csv(self.call(csv)[1].decode())[2, 2]), 1)
        self.assertEqual(words(read_csv(self.call(csv, "--exact")[1].decode())[2, 2]), [(3, ONES, 1), (0, 0xFFFFFFFE, 1)])

    def test_sources(self):
        csv = b"x,y,key,mask,route,source\n0,0,0,0xffffffff,8,0\n0,0,2,0xffffffff,8,\n0,0,0x13,0xffffffff,4,3\n"
        status, written, told = self.call(csv, "--arrivals", "--exact")
        self.assertEqual((status, told, words(read_csv(written.decode())[0, 0])), (0, "", [(0x13, ONES, 4), (0, 0xFFFFFFFD, 8)]))
        csv = csv.replace(b"0xffffffff,8,\n", b"0xffffffff,1,\n")
        self.assertEqual(words(read_csv(self.call(csv, "--arrivals")[1].decode())[0, 0]), [(2, ONES, 1), (0x13, ONES, 4)])
        self.assertEqual(len(read_csv(self.call(csv)[1].decode())[0, 0]), 3)
        plain = write_csv({(0, 0): [(0, ONES, 8)]}).encode()
        self.assertEqual(self.call(plain, "--arrivals"), (0, plain, "kulzobad: no row tells by which link its packets come in\n"))
        for source in (b"6", b"-1", b"E", b"0,0"):
            status, written, told = self.call(csv.replace(b"4,3\n", b"4," + source + b"\n"), "--arrivals")
            self.assertEqual(status, 4, source)
            self.assertIn("line 4: ", told)

    def test_spoiled(self):
        for data in (b"x,y,key\n", b"\xff\xfe", b"SPNT", b"0 0 1 2\n", b"table 0 0 1\n", b"x,y,key,mask,route\n0,0,1,1,0x1000000\n"):
            status, written, told = self.call(data)
            self.assertEqual((status, written), (4, b""), data)
            self.assertTrue(told.strip(), data)


if __name__ == "__main__":
    unittest.main()
