"""Tables are verified: each answer by hand, and by the program. Random tables are those of tools/verify_trials.py."""
import itertools
import random
import unittest
from unittest import mock

from kulzobad import BadTree, Job, Machine, Net, Refused, Right, Vertex, asking, check, compile, encode, tables, verifying
from kulzobad.blocks import USUAL, WORD, Block, Meeting, Order, block_of, blocks_of_range, cut, halves, order_of
from kulzobad.links import Links, Routes
from kulzobad.verdicts import Dies, Foreign, Full, Loops, Misses, OffTree, OffTrees, Stops, Strays, TooLong, Twice, Unfollowed, Unmet, lines_of, note_lines, value_of
from kulzobad.verifying import KeyedNet, TooManyParts, Verifier, notes, verify
from kulzobad.walks import Hop

E, NE, N, W, SW, S = (1 << link for link in range(6))


def core(number):
    return 1 << 6 + number


def keys_of(blocks):
    """The keys of blocks with few keys."""
    found = []
    for key, mask in blocks:
        keys = [key]
        for bit in range(32):
            keys += [it | 1 << bit for it in keys] if not mask >> bit & 1 else []
        found += keys
    return sorted(found)


class Blocks(unittest.TestCase):
    def test_a_range_is_as_few_runs_as_can_be(self):
        for first, count in ((0, 1), (5, 11), (8, 8), (7, 2), (1, 63), (WORD, 1)):
            blocks = blocks_of_range(first, count)
            self.assertEqual(keys_of(blocks), list(range(first, first + count)))
            self.assertTrue(all(not USUAL.opened(it.mask) for it in blocks))
        self.assertEqual(blocks_of_range(0, 2**32), [(0, 0)])
        self.assertEqual(blocks_of_range(6, 10), [(6, 0xFFFFFFFE), (8, 0xFFFFFFF8)])
        for first, count in ((0, 0), (-1, 2), (1, 2**32), (2**32, 1)):
            with self.assertRaises(ValueError):
                blocks_of_range(first, count)

    def test_halves_differ_in_the_highest_bit_that_is_cared_for(self):
        self.assertEqual(halves(Block(0x10, 0xFFFFFFF0), 0xFFFFFFF6), (Block(0x10, 0xFFFFFFF4), Block(0x14, 0xFFFFFFF4)))
        self.assertEqual(halves(Block(0, 0), WORD), (Block(0, 1 << 31), Block(1 << 31, 1 << 31)))
        with self.assertRaises(ValueError):
            halves(Block(0, WORD), WORD)

    def test_parts_have_each_key_once(self):
        dice = random.Random(1)
        for _ in range(50):
            bits = dice.sample(range(32), 6)
            mask = WORD & ~sum(1 << bit for bit in bits)
            block = Block(dice.randrange(2**32) & mask, mask)
            parts = list(cut(block, USUAL.opened(mask)))
            self.assertEqual(keys_of(parts), keys_of([block]))
            self.assertTrue(all(not USUAL.opened(it.mask) and it.key & ~it.mask == 0 for it in parts))

    def test_an_order_makes_masks_runs_and_comes_back(self):
        masks = [0x0000FF00, 0x0000FF01, 0x8000FF0F]
        order = order_of([*masks, masks[0]])
        for mask in masks:
            self.assertEqual(USUAL.opened(order.word(mask)), 0)
            self.assertEqual(order.opened(mask), 0)
        for word in (0, WORD, 1, 0x12345678):
            self.assertEqual((order.back(order.word(word)), USUAL.word(word)), (word, word))
        with self.assertRaises(ValueError):
            order_of([0b01, 0b10])
        with self.assertRaises(ValueError):
            Order([0] * 32)

    def test_blocks_that_meet(self):
        dice = random.Random(2)
        for _ in range(40):
            masks = [dice.randrange(64) for _ in range(3)]
            blocks = [Block(dice.randrange(64) & mask, mask) for mask in masks for _ in range(20)]
            meeting = Meeting((block, i) for i, block in enumerate(blocks))
            for mask in (0, 63, *masks, dice.randrange(64)):
                block = Block(dice.randrange(64) & mask, mask)
                self.assertEqual(set(meeting.of(block)), {i for i, it in enumerate(blocks) if (it.key ^ block.key) & it.mask & mask == 0})

    def test_words_that_are_none(self):
        for key, mask in ((1, 0), (-1, WORD), (0, 2**32)):
            with self.assertRaises(ValueError):
                block_of(key, mask)
        for key, mask in ((0.0, 0), (True, 1)):
            with self.assertRaises(TypeError):
                block_of(key, mask)


class Verdicts(unittest.TestCase):
    """Three chips in a row. `a` stands on the first, `b` on the second and `c` on the third; `motor` hangs on link N of the third."""

    machine = Machine(3, 1)
    places = {"a": (0, 0, 1), "b": (1, 0, 4), "c": (2, 0, 17), "motor": (2, 0, "N")}
    key = (0x50, 0xFFFFFFF0)

    def verdict(self, tables, targets=("c",), blocks=None, trees=None, machine=None):
        net = KeyedNet("n", "a", list(targets), blocks or [self.key])
        return verify(machine or self.machine, self.places, [net], tables, trees)

    def test_a_net_that_reaches_its_target(self):
        # (chip (1, 0) has no row: straight on)
        verdict = self.verdict({(0, 0): [(*self.key, E)], (2, 0): [(*self.key, core(17))]})
        self.assertEqual(verdict, Right())
        self.assertTrue(verdict)
        tables = {(0, 0): [(*self.key, E)], (1, 0): [(0, 0, E | core(4))], (2, 0): [(*self.key, core(17) | N)]}
        self.assertEqual(self.verdict(tables, ["motor", "c", "b", "c"]), Right())

    def test_a_core_that_is_no_target(self):
        verdict = self.verdict({(0, 0): [(*self.key, E)], (2, 0): [(1, WORD, E), (*self.key, core(17) | core(0))]})
        self.assertEqual(verdict, Strays("n", 0x50, (Hop(0, 0, "L", 0, "E"), Hop(1, 0, "W", None, "E"), Hop(2, 0, "W", 1, "c0"))))
        self.assertFalse(verdict)

    def test_a_device_that_is_no_target(self):
        verdict = self.verdict({(0, 0): [(*self.key, E)], (2, 0): [(*self.key, core(17) | N)]})
        self.assertEqual(verdict, Strays("n", 0x50, (Hop(0, 0, "L", 0, "E"), Hop(1, 0, "W", None, "E"), Hop(2, 0, "W", 0, "N"))))

    def test_a_link_that_is_not_live(self):
        tables = {(0, 0): [(*self.key, E)], (2, 0): [(*self.key, core(17) | E)]}
        self.assertEqual(self.verdict(tables).way[-1], Hop(2, 0, "W", 0, "E"))
        for machine in (Machine(3, 1, dead_links=[(2, 0, 3)]), Machine(3, 1, dead_links=[(1, 0, 0)])):
            self.assertEqual(self.verdict(tables, machine=machine), Dies("n", 0x50, (Hop(0, 0, "L", 0, "E"), Hop(1, 0, "W", None, "E"))))

    def test_a_dead_chip(self):
        places = {"a": (0, 0, 1), "c": (2, 0, 1)}
        tables = {(0, 0): [(*self.key, E)], (2, 0): [(*self.key, core(1))]}
        verdict = verify(Machine(3, 1, dead_chips=[(1, 0)]), places, [KeyedNet("n", "a", ["c"], [self.key])], tables)
        self.assertEqual(verdict, Dies("n", 0x50, (Hop(0, 0, "L", 0, "E"),)))

    def test_a_target_that_nothing_comes_to(self):
        self.assertEqual(self.verdict({}), Misses("n", 0x50, "c", (Hop(0, 0, "L", None, None),)))
        verdict = self.verdict({(0, 0): [(*self.key, E)], (1, 0): [(*self.key, core(4))]}, ["b", "c"])
        self.assertEqual(verdict, Misses("n", 0x50, "c", (Hop(0, 0, "L", 0, "E"), Hop(1, 0, "W", 0, None))))

    def test_a_way_that_goes_round(self):
        verdict = self.verdict({(0, 0): [(*self.key, E)], (1, 0): [(*self.key, W)]})
        self.assertEqual(verdict, Loops("n", 0x50, (Hop(0, 0, "L", 0, "E"), Hop(1, 0, "W", 0, "W"), Hop(0, 0, "E", 0, None))))

    def test_a_chip_that_is_come_to_by_two_ways(self):
        tables = {(0, 0): [(*self.key, E | N)], (1, 0): [(*self.key, N)], (0, 1): [(*self.key, E)], (1, 1): [(*self.key, core(1))]}
        verdict = verify(Machine(2, 2), {"a": (0, 0, 1), "b": (1, 1, 1)}, [KeyedNet("n", "a", ["b"], [self.key])], tables)
        self.assertEqual(verdict, Twice("n", 0x50, (Hop(0, 0, "L", 0, "N"), Hop(0, 1, "S", 0, "E"), Hop(1, 1, "W", 0, None))))

    def test_a_way_that_leads_to_no_target(self):
        tables = {(0, 0): [(*self.key, E | core(2))], (1, 0): [(*self.key, 0)]}
        nets, places = [KeyedNet("n", "a", ["c"], [self.key])], {"a": (0, 0, 1), "c": (0, 0, 2)}
        verdict = verify(self.machine, places, nets, tables)
        self.assertEqual(verdict, Stops("n", 0x50, (Hop(0, 0, "L", 0, "E"), Hop(1, 0, "W", 0, None))))
        # (the program says so of the tree: its end has no target)
        job = Job(self.machine, [Vertex("a", at=(0, 0)), Vertex("c", at=(0, 0))], [Net("n", "a", ["c"], 16, self.key)])
        self.assertEqual(check(job, {"n": [(0, 0, 0)]}, encode(self.machine, {(0, 0): tables[0, 0]})), BadTree("n"))
        tables[1, 0].insert(0, (0x5F, WORD, 0))
        self.assertEqual(verify(self.machine, places, nets, tables).key, 0x50)
        tables[0, 0].insert(0, (0x50, 0xFFFFFFF8, core(2)))
        self.assertEqual(verify(self.machine, places, nets, tables).key, 0x58)

    def test_the_first_net_with_anything_amiss_is_told(self):
        # (three nets from chip to chip, each with a tree; what is amiss with one of them is found by walks, by `bad tree` or by `wrong`)
        machine = Machine(2, 2)
        places = {f"s{i}": (0, 0, i + 1) for i in range(3)} | {f"t{i}": (1, 1, i + 1) for i in range(3)}
        for masks in ([0xFFFFFFF0] * 3, [0xFFFFFFF0, 0x0FF00FF0, 0xFFFF0F0F]):
            blocks = [(i << 8 & mask | i << 4 & mask | i << 20 & mask, mask) for i, mask in enumerate(masks)]
            nets = [KeyedNet(f"n{i}", f"s{i}", [f"t{i}"], [block]) for i, block in enumerate(blocks)]
            good = {(0, 0): [(*it, E) for it in blocks], (1, 0): [(*it, N) for it in blocks]}
            good[1, 1] = [(*it, core(i + 1)) for i, it in enumerate(blocks)]
            trees = {net.name: [(0, 0, 0), (1, 0, 2)] for net in nets}
            self.assertEqual(verify(machine, places, nets, good, trees), Right())
            for kinds in itertools.product((None, Strays, BadTree, OffTree), repeat=3):
                rows, given = {chip: list(listed) for chip, listed in good.items()}, dict(trees)
                for i, kind in enumerate(kinds):
                    if kind is Strays:
                        rows[1, 1][i] = (*blocks[i], core(17))
                    elif kind:
                        given[f"n{i}"] = [(0, 0, 0)] if kind is BadTree else [(0, 0, 2), (0, 1, 0)]
                verdict = verify(machine, places, nets, rows, given)
                first = next((i for i, kind in enumerate(kinds) if kind), None)
                self.assertEqual(type(verdict), Right if first is None else kinds[first], kinds)
                self.assertEqual(getattr(verdict, "net", None), None if first is None else f"n{first}", kinds)

    def test_rows_that_take_parts_of_a_net(self):
        # (even keys by the first row, which the program alone would leave open)
        parts = [(0x50, 0xFFFFFFF1, E), (0x51, 0xFFFFFFFF, E), (0x50, 0xFFFFFFF0, E)]
        ends = [(*self.key, core(17))]
        self.assertEqual(self.verdict({(0, 0): parts, (2, 0): ends}), Right())
        parts[1] = (0x53, 0xFFFFFFFF, NE)
        self.assertEqual(self.verdict({(0, 0): parts, (2, 0): ends}), Dies("n", 0x53, (Hop(0, 0, "L", 1, "NE"),)))

    def test_keys_of_one_net_may_go_by_several_trees(self):
        tables = {
            (0, 0): [(0x50, 0xFFFFFFF8, E), (0x58, 0xFFFFFFF8, N)],
            (1, 0): [(*self.key, N)], (0, 1): [(*self.key, E)], (1, 1): [(*self.key, core(1))],
        }
        places, nets = {"a": (0, 0, 1), "b": (1, 1, 1)}, [KeyedNet("n", "a", ["b"], [self.key])]
        self.assertEqual(verify(Machine(2, 2), places, nets, tables), Right())
        way = (Hop(0, 0, "L", 1, "N"),)
        self.assertEqual(verify(Machine(2, 2), places, nets, tables, {"n": [(0, 0, 0), (1, 0, 2)]}), OffTree("n", 0x58, way))
        self.assertEqual(verify(Machine(2, 2), places, nets, tables, {"n": [(0, 0, 0)]}), BadTree("n"))
        for trees, told in (({"zoe": []}, "zoe"), ({"n": [(0, 0, 6)]}, "no link"), ({"n": [(2, 0, 0)]}, "no link")):
            with self.assertRaisesRegex(ValueError, told):
                verify(Machine(2, 2), places, nets, tables, trees)
        self.assertEqual(verify(Machine(2, 2), places, nets, tables, {"n": [(0, 0, 1)]}), OffTree("n", 0x50, (Hop(0, 0, "L", 0, "E"),)))

    def test_masks_with_any_bits(self):
        # (2^31 odd keys, all bits of which but one are open)
        odd = (1, 1)
        tables = {(0, 0): [(*odd, E)], (2, 0): [(0x80000001, 0x80000001, core(17)), (*odd, core(17))]}
        self.assertEqual(self.verdict(tables, blocks=[odd]), Right())
        tables[2, 0][0] = (0x80000001, 0x80000001, core(16))
        self.assertEqual(self.verdict(tables, blocks=[odd]).key, 0x80000001)
        self.assertEqual(self.verdict({(0, 0): [(0, 0, E)], (2, 0): [(0, 0, core(17))]}, blocks=[(0x00FF0000, 0x00FF00FF), (0, 0xFF0000FF)]), Right())

    def test_a_first_key_and_a_count(self):
        net = KeyedNet.counted("n", "a", ["c"], 0x51, 15)
        tables = {(0, 0): [(0x50, WORD, W), (*self.key, E)], (2, 0): [(*self.key, core(17))]}
        self.assertEqual(verify(self.machine, self.places, [net], tables), Right())
        net = KeyedNet.counted("n", "a", ["c"], 0x50, 15)
        self.assertEqual(verify(self.machine, self.places, [net], tables).key, 0x50)

    def test_nets_that_share_keys(self):
        nets = [KeyedNet("n", "a", ["c"], [self.key, self.key]), KeyedNet("m", "b", ["c"], [(0x54, 0xFFFFFFFC)])]
        tables = {(0, 0): [(*self.key, E)], (1, 0): [(*self.key, E)], (2, 0): [(*self.key, core(17))]}
        self.assertEqual(verify(self.machine, self.places, nets, tables), Right())
        self.assertEqual(verify(self.machine, self.places, nets, {**tables, (1, 0): []}).net, "m")

    def test_rows_that_send_nowhere_and_entries_without_use(self):
        tables = {(0, 0): [(WORD, 0, 0xFF000000), (*self.key, E)], (2, 0): [(0x5F, WORD, 0), (*self.key, core(17))]}
        verdict = self.verdict(tables)
        self.assertEqual((type(verdict), verdict.key, verdict.way[0].row, verdict.way[-1]), (Misses, 0x5F, 1, Hop(2, 0, "W", 0, None)))
        self.assertEqual(self.verdict(tables, blocks=[(0x50, 0xFFFFFFF8)]), Right())

    def test_a_source_that_is_a_device(self):
        nets = [KeyedNet("n", "motor", ["b"], [self.key])]
        machine, places = Machine(3, 1), {"motor": (2, 0, 18), "b": (1, 0, 4)}
        self.assertEqual(verify(machine, places, nets, {(1, 0): [(*self.key, core(4))]}), Right())
        self.assertEqual(verify(machine, places, nets, {(1, 0): [(*self.key, core(4))], (2, 0): [(*self.key, W)]}), Right())
        full = {(1, 0): [(*self.key, core(4))], (2, 0): [(i, WORD, E) for i in range(0x1000, 0x1400)]}
        self.assertEqual(verify(machine, places, nets, full), Right())
        verdict = verify(machine, places, nets, {})
        self.assertEqual(verdict, Dies("n", 0x50, (Hop(2, 0, "E", None, "W"), Hop(1, 0, "E", None, "W"), Hop(0, 0, "E", None, "W"))))

    def test_a_table_that_no_router_holds(self):
        rows = [(i, WORD, E) for i in range(1025)]
        self.assertEqual(self.verdict({(1, 0): rows}), TooLong(1, 0, 1025))
        self.assertEqual(type(self.verdict({(1, 0): rows[:1024]})), Misses)

    def test_what_is_compiled_is_right(self):
        job = Job(Machine(1, 1), [Vertex("a"), Vertex("b")], [Net("n", "a", ["b"], 4, (0, 0xFFFFFFFC)), Net("m", "b", ["a", "b"], 1, (4, WORD))])
        self.assertEqual(verify(job.machine, {"a": (0, 0, 1), "b": (0, 0, 2)}, job.nets, compile(job)), Right())

    def test_without_nets(self):
        self.assertEqual(verify(self.machine, {}, [], {}), Right())

    def test_a_machine_that_is_none(self):
        for machine in (Machine(0, 1), Machine(1, 65), Machine(10**9, 1), Machine(1, -1), Machine(2, 1, dead_links=[(0, 0, 6)]), Machine(1, 1, dead_cores=[(0, 0, 18)])):
            with self.assertRaises(Refused):
                verify(machine, {}, [], {})

    def test_rows_that_are_none(self):
        for row, error in (((0, 0, 1 << 24), ValueError), ((0, 2**32, 1), ValueError), ((0, 0, -1), ValueError), ((0.0, 0, 1), TypeError), ((0, 0), TypeError)):
            with self.assertRaisesRegex(error, r"row 1 of chip \(1, 0\)"):
                self.verdict({(0, 0): [(*self.key, E)], (1, 0): [(1, WORD, E), row]})
        with self.assertRaisesRegex(ValueError, "outside"):
            self.verdict({(3, 0): []})

    def test_nets_that_are_none(self):
        for net in (
            KeyedNet("n", "a", "c", [self.key]), KeyedNet("n", "a", [], [self.key]), KeyedNet("n", "a", ["c"], []),
            KeyedNet("n", "a", ["zoe"], [self.key]), KeyedNet("n", "zoe", ["c"], [self.key]), KeyedNet("n", "a", ["c"], [(1, 0)]), Net("n", "a", ["c"]),
        ):
            with self.assertRaises(ValueError):
                verify(self.machine, self.places, [net], {})
        with self.assertRaisesRegex(ValueError, "two nets"):
            verify(self.machine, self.places, [KeyedNet("n", "a", ["c"], [self.key])] * 2, {})

    def test_places_are_refused_as_by_the_program(self):
        machine = Machine(2, 1, dead_chips=[(1, 0)], dead_cores=[(0, 0, 3)])
        good = {"a": (0, 0, 1), "led": (0, 0, "E"), "b": (0, 0, 17)}
        self.assertEqual(verify(machine, good, [], {}), Right())
        self.assertEqual(tables(Job(machine, [Vertex("a", at=(0, 0)), Vertex("led", device=(0, 0, 0))])).places["led"].core, 18)
        for places, vertices in (
            ({"a": (1, 0, 1)}, [Vertex("a", at=(1, 0))]),
            ({"a": (0, 1, 1)}, [Vertex("a", at=(0, 1))]),
            ({"led": (1, 0, "E")}, [Vertex("led", device=(1, 0, 0))]),
            ({"led": (0, 0, "N"), "lid": (0, 0, 20)}, [Vertex("led", device=(0, 0, 2)), Vertex("lid", device=(0, 0, 2))]),
        ):
            with self.assertRaises(Refused):
                tables(Job(machine, vertices))
            with self.assertRaises(ValueError):
                verify(machine, places, [], {})
        for place in ((0, 0, 3), (0, 0, 0), (0, 0, 24), (0, 0, "X")):
            with self.assertRaises(ValueError):
                verify(machine, {"a": place}, [], {})
        for place in ((0, 0, 1.0), (0, 0), "N"):
            with self.assertRaises(TypeError):
                verify(machine, {"a": place}, [], {})
        for named, spot in ((Links.N, (0, 0, 20)), (Routes.N, (0, 0, 20)), ("N", (0, 0, 20)), (20, (0, 0, 20)), (Routes.C5, (0, 0, 5)), (5, (0, 0, 5))):
            self.assertEqual(Verifier(machine, {"a": (0, 0, named)}, [], {}).spots, {"a": spot})
        with self.assertRaisesRegex(ValueError, "live link"):
            verify(Machine(2, 1), {"led": (0, 0, "E")}, [], {})
        with self.assertRaisesRegex(ValueError, "one place"):
            verify(machine, {"a": (0, 0, 1), "b": (0, 0, 1)}, [], {})


class AsText(unittest.TestCase):
    way = (Hop(0, 0, "L", 3, "E"), Hop(1, 0, "W", None, "N"), Hop(1, 1, "S", 0, "c5"))

    def test_verdicts(self):
        self.assertEqual(str(Strays("n", 0x1F, self.way)).split("\n"), [
            "strays n 0000001f", "at 0 0 from L row 3 to E", "at 1 0 from W default to N", "at 1 1 from S row 0 to c5",
        ])
        self.assertEqual(lines_of(Misses("n", 1, "b", (Hop(0, 0, "L", None, None),))), ["misses n 00000001 b", "at 0 0 from L no row"])
        self.assertEqual([lines_of(it)[0] for it in (Right(), BadTree("n"), TooLong(1, 2, 1025), OffTree("n", 2, ()), Twice("n", 3, ()))], [
            "right", "bad tree n", "table long 1 2 1025", "off tree n 00000002", "twice n 00000003",
        ])
        self.assertEqual(repr(Loops("n", 0x10, ())), "Loops(net='n', key=0x00000010, way=())")

    def test_verdicts_as_json(self):
        found = value_of(Misses(("a", 1), 5, object, self.way[:1]))
        hop = {"x": 0, "y": 0, "port": "L", "row": 3, "out": "E"}
        self.assertEqual(found, {"answer": "Misses", "net": ("a", 1), "key": 5, "target": "<class 'object'>", "way": (hop,)})
        self.assertEqual([value_of(it) for it in (Right(), BadTree("n"))], [{"answer": "Right"}, {"answer": "BadTree", "net": "n"}])
        self.assertEqual(value_of(Unmet(1, 2, 3)), {"answer": "Unmet", "x": 1, "y": 2, "row": 3})

    def test_notes(self):
        notes = [Unmet(0, 0, 1), Unmet(0, 0, 2), Foreign("n", 1, 0, 3, "m"), Full(2, 0, 1024)]
        self.assertEqual(note_lines(notes), [
            "note at 2 0 1024 rows: no entry is left for a board's own software",
            "note at 0 0 row 1: no net has a key of it (and 1 more like this)",
            "note at 1 0 row 3: takes packets of m, and has keys of n, whose packets do not come there",
        ])
        self.assertEqual(len(note_lines(notes, True)), 4)


class Requests(unittest.TestCase):
    """A torus of 4 by 4 chips, with 40 nets of 4 keys from chip to chip."""

    def setUp(self):
        dice = random.Random(3)
        self.machine = Machine(4, 4, wrap=True)
        vertices = [Vertex(f"v{i}", at=(i % 4, i // 4 % 4)) for i in range(64)]
        nets = [Net(f"n{i}", f"v{dice.randrange(64)}", [f"v{dice.randrange(64)}" for _ in range(3)], 4, (4 * i, WORD - 3)) for i in range(40)]
        job = Job(self.machine, vertices, nets, target=0)
        self.places = {name: (it.x, it.y, it.core) for name, it in tables(job).places.items()}
        self.nets, self.image = nets, compile(job)

    def verifier(self, tables=None):
        return Verifier(self.machine, self.places, self.nets, tables or self.image)

    def test_two_requests_are_enough(self):
        verifier = self.verifier()
        self.assertEqual((verifier.verdict(), verifier.requests, verifier.asked), (Right(), 2, 40))

    def test_more_than_goes_into_one(self):
        for limits, least in (({"MOST_NETS": 70}, 8), ({"MOST_VERTICES": 9}, 10), ({"MOST_FOR_ROWS": 500}, 4), ({"MOST_FOR_ROWS": 0, "MOST_BYTES": 72000}, 3)):
            with mock.patch.multiple(asking if "MOST_NETS" in limits or "MOST_VERTICES" in limits else verifying, **limits):
                verifier = self.verifier()
                self.assertEqual((verifier.verdict(), verifier.asked), (Right(), 40))
                self.assertGreaterEqual(verifier.requests, least)

    def test_a_block_that_is_too_much_by_itself(self):
        with mock.patch.multiple(verifying, MOST_FOR_ROWS=0, MOST_BYTES=66500):
            verifier = self.verifier()
            with mock.patch.object(verifying, "met", wraps=verifying.met) as met:
                self.assertEqual(verifier.verdict(), Right())
            self.assertTrue(met.called)

    def test_what_the_program_calls_split_is_cut(self):
        # (the block is asked for as a whole)
        rows = {chip: list(table.rows) for chip, table in self.image.tables.items()}
        net = self.verifier().nets[0]
        chip, key = net.source[:2], net.blocks[0].key
        table = rows[chip]
        row = next(it for it in table if key & it.mask == it.key)
        rows[chip] = [(key + 1, WORD, row.route), (key + 2, WORD, row.route), *table]
        verifier = self.verifier(rows)
        links = self.verifier().walk(net, net.blocks[0]).links
        self.assertIsNone(verifier._ask([verifying.Part(net, net.blocks[0], links, None)], USUAL, None))
        self.assertEqual(verifier.verdict(), Right())
        self.assertGreater(verifier.asked, 40 + 1)
        rows[chip][1] = (key + 2, WORD, row.route ^ core(1))
        verifier = self.verifier(rows)
        found = verifier._ask([verifying.Part(net, net.blocks[0], links, None)], USUAL, None)
        found = found.what if found else verifier.verdict()
        self.assertEqual((found.net, found.key, found.way[0].row), (net.name, key + 2, 1))

    def scattered(self, count, last=()):
        """Rows of two chips that care for bits here and there, all of them right, and what is the matter behind them."""
        dice = random.Random(4)
        masks = [sum(1 << bit for bit in dice.sample(range(32), 6)) for _ in range(count)]
        rows = [(dice.randrange(2**32) & mask, mask, E) for mask in masks]
        tables = {(0, 0): [*rows, (0, 0, E)], (1, 0): [*last, (0, 0, core(1))]}
        nets = [KeyedNet("m", "a", ["b"], [(0x10, WORD)]), KeyedNet("n", "a", ["b"], [(0, 0x00000001)])]
        return Verifier(Machine(2, 1), {"a": (0, 0, 1), "b": (1, 0, 1)}, nets, tables)

    def test_parts_that_double_with_each_bit(self):
        verifier = self.scattered(2)
        self.assertEqual((verifier.verdict(), verifier.notes()), (Right(), []))
        for limits in ({"MOST_CUTS": 40}, {"MOST_ORDERS": 3}):
            with mock.patch.multiple(verifying, CUTS_OF_A_ROW=1, **limits):
                verifier = self.scattered(5)
                with self.assertRaisesRegex(TooManyParts, "net 'n' is not decided") as caught:
                    verifier.verdict()
                bits = {bit for row in verifier.rows[0, 0] for bit in range(1, 32) if row.mask >> bit & 1 and not row.key & row.mask & 1}
                self.assertEqual(caught.exception.bits, len(bits))
                told = verifier.notes()
                if "MOST_CUTS" in limits:
                    self.assertEqual([it for it in told if not isinstance(it, Unmet)], [Unfollowed("n", caught.exception.bits)])
                    self.assertEqual(note_lines(told)[:1], ["note net n: its keys are in too many parts, so chips that no packets come to are not told"])
                # (what is amiss with an earlier net comes first)
                self.assertEqual(self.scattered(5, [(0x10, WORD, core(2))]).verdict().net, "m")
                verifier = self.scattered(5)
                verifier.trees["m"] = []
                self.assertEqual(verifier.verdict(), BadTree("m"))
        with self.assertRaises(TooManyParts):
            self.scattered(12).verdict()

    def test_a_row_may_cut_at_each_of_its_bits(self):
        rows = [(i << 20, WORD, E) for i in range(1000)]
        with mock.patch.multiple(verifying, MOST_CUTS=1):
            verifier = Verifier(Machine(2, 1), {"a": (0, 0, 1), "b": (1, 0, 1)}, [KeyedNet("n", "a", ["b"], [(0, 0)])], {(0, 0): [*rows, (0, 0, E)], (1, 0): [(0, 0, core(1))]})
            self.assertEqual(verifier.verdict(), Right())

    def test_a_tree_that_a_walk_can_not_have_found(self):
        verifier = self.verifier()
        net = next(it for it in verifier.nets if any(spot[:2] != it.source[:2] for spot in it.targets))
        with self.assertRaises(RuntimeError):
            verifier._ask([verifying.Part(net, net.blocks[0], [], None)], USUAL, None)


class Notes(unittest.TestCase):
    def test_what_is_noted(self):
        machine, places = Machine(3, 1), {"a": (0, 0, 1), "b": (1, 0, 1), "c": (2, 0, 1)}
        nets = [KeyedNet("n", "a", ["b"], [(0x10, 0xFFFFFFF0)]), KeyedNet("m", "b", ["b"], [(0x20, 0xFFFFFFF0)])]
        rows = {(0, 0): [(0x70, 0xFFFFFFF0, W), (0, 0xFFFFFF00, E)], (1, 0): [(0, 0, core(1))], (2, 0): [(0x20, WORD, core(1))]}
        self.assertEqual(verify(machine, places, nets, rows), Right())
        self.assertEqual(notes(machine, places, nets, rows), [Unmet(0, 0, 0), Foreign("m", 0, 0, 1, "n"), OffTrees(2, 0, 1)])
        rows[1, 0] += [(0x20, 0xFFFFFFF0, E)] * 1023
        self.assertEqual(notes(machine, places, nets, rows)[2], Full(1, 0, 1024))


if __name__ == "__main__":
    unittest.main()
