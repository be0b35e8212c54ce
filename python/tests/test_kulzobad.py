"""python3 -m unittest, in the folder python/. The program is that of KULZOBAD_SPIN, else ./spin of the repository."""
import json
import unittest
from pathlib import Path

from kulzobad import Delivery, Job, Keys, Machine, Net, Packet, Place, Refused, Row, Summary, Vertex, cores_of, links_of, run, tables
from kulzobad import RUN, AlreadyLoaded, CutOff, KeysOut, Loaded, MemoryOut, NoRoom, NotLoaded, Ran, RowsOut, Unloaded, Waiting, apps, load, unload
from kulzobad import BadImage, BadTree, OtherMachine, Right, Split, Wrong, check, encode
from kulzobad import collect, compile, decode, gen, inject, reinject, send, take, trace
from kulzobad.applications import read_answers
from kulzobad.checks import read_verdict
from kulzobad.reports import Dump, Wait, read, read_summary


EXAMPLES = Path(__file__).resolve().parents[2] / "examples"


def row_of_chips(**more):
    return Job(Machine(4, 1), [Vertex("a", at=(0, 0)), Vertex("b", at=(3, 0))], [Net("n", "a", ["b"])], **more)


def pair(**more):
    return Job(Machine(1, 1), [Vertex("a"), Vertex("b")], [Net("n", "a", ["b"])], [Packet("n", payload=7)], **more)


class Jobs(unittest.TestCase):
    def test_a_packet_reaches_its_target(self):
        report = run(pair())
        self.assertEqual(report.plan.places, {"a": Place("a", 0, 0, 1), "b": Place("b", 0, 0, 2)})
        self.assertEqual(report.plan.keys, {"n": Keys("n", 0, 0xFFFFFFFF)})
        self.assertEqual(report.deliveries, [Delivery("b", 0, 0, 7)])
        self.assertEqual((report.dumps, report.waiting, report.unsent), ([], [], 0))

    def test_copies_that_were_dropped_are_put_back(self):
        # (queues of one copy, and ten packets: whatever was dropped on the way, all arrive)
        job = pair(queue=1, patience=1, workers=2)
        job.packets = [Packet("n", payload=i) for i in range(10)]
        report = reinject(job)
        self.assertEqual(report.deliveries, [Delivery("b", i, 0, i) for i in range(10)])
        self.assertEqual((report.dumps, report.waiting, report.unsent), ([], [], 0))

    def test_each_packet_of_a_run_arrives_or_is_dropped(self):
        job = pair(queue=1, patience=1, workers=2, turns=1)
        job.packets = [Packet("n", payload=i) for i in range(10)]
        report = run(job)
        self.assertEqual(sorted([it.packet for it in report.deliveries] + [it.packet for it in report.dumps]), list(range(10)))
        self.assertTrue(all((it.x, it.y, it.out) == (0, 0, "c2") for it in report.dumps))
        self.assertEqual((report.waiting, report.unsent), ([], 0))

    def test_a_row_of_chips_has_tables_at_its_ends(self):
        plan = tables(row_of_chips())
        self.assertEqual(list(plan.tables), [(0, 0), (3, 0)])
        self.assertEqual(plan.tables[0, 0].rows, (Row(0, 0xFFFFFFFF, 1),))
        self.assertEqual(links_of(plan.tables[0, 0].rows[0].route), ["E"])
        self.assertEqual(cores_of(plan.tables[3, 0].rows[0].route), [1])

    def test_an_image_has_its_bytes_and_its_tables(self):
        image = compile(row_of_chips(workers=2))
        self.assertEqual(image.data, (EXAMPLES / "image.report").read_bytes())
        self.assertEqual((image.width, image.height, image.wrap, image.rows), (4, 1, False, 2))
        self.assertEqual(image.tables, tables(row_of_chips()).tables)
        self.assertEqual(image.tables[3, 0].rows, (Row(0, 0xFFFFFFFF, 0x80),))

    def test_rows_are_joined_down_to_the_target(self):
        def job(target):
            nets = [Net("n0", "a", ["b"]), Net("n1", "a", ["c"]), Net("n2", "a", ["b"]), Net("n3", "a", ["b"])]
            return Job(Machine(1, 1), [Vertex("a"), Vertex("b"), Vertex("c")], nets, target=target)

        self.assertEqual(compile(job(0)).tables[0, 0].rows, (Row(1, 0xFFFFFFFF, 0x200), Row(0, 0xFFFFFFFC, 0x100)))
        self.assertEqual(compile(job(None)).rows, 4)

    def test_a_machine_without_nets_has_an_empty_image(self):
        image = compile(Job(Machine(64, 2, wrap=True)))
        self.assertEqual((image.data, image.tables), (bytes.fromhex("53504e54 01 40 02 01 0000"), {}))

    def test_a_table_that_is_too_long(self):
        names = [f"v{j}" for j in range(11)]
        nets = [Net(f"n{i}", "v0", [names[j] for j in range(11) if i >> j & 1]) for i in range(1, 1026)]
        for call in (tables, compile):
            with self.assertRaises(Refused) as caught:
                call(Job(Machine(2, 1), [Vertex(it, at=(1, 0)) for it in names], nets))
            refused = caught.exception
            self.assertEqual((refused.status, refused.kind, refused.line), (8, "table long", "table long: 1 0 1025"))
            self.assertEqual((refused.chip, refused.rows, refused.name), ((1, 0), 1025, None))

    def test_a_target_that_is_cut_off(self):
        with self.assertRaises(Refused) as caught:
            tables(Job(Machine(2, 1, dead_links=[(0, 0, 0)]), [Vertex("a"), Vertex("b", at=(1, 0))], [Net("n", "a", ["b"])]))
        refused = caught.exception
        self.assertEqual((refused.status, refused.kind, refused.name, refused.chip, refused.rows), (7, "cut off", "n", (1, 0), None))

    def test_a_refusal_names_what_is_wrong(self):
        with self.assertRaises(Refused) as caught:
            run(Job(Machine(1, 1), [Vertex("a")], [Net("n", "a", ["a", "zoe"])]))
        refused = caught.exception
        self.assertEqual((refused.status, refused.kind, refused.fault), (4, "bad job", "unknown name"))
        self.assertEqual((refused.path, refused.member), ("job.graph.nets[0].targets[1]", "zoe"))

    def test_a_vertex_without_room(self):
        with self.assertRaises(Refused) as caught:
            run(Job(Machine(1, 1), [Vertex(f"v{i}") for i in range(18)]))
        self.assertEqual((caught.exception.status, caught.exception.kind, caught.exception.line), (5, "no room", "no room: v17"))
        self.assertEqual((caught.exception.name, caught.exception.chip), ("v17", None))

    def test_a_trace_tells_which_events_moved_and_where_the_copy_waits(self):
        report = trace(pair(events=[take(0, 0, "L"), inject("a"), take(0, 0, "L")]))
        self.assertEqual(report.moved, [False, True, True])
        self.assertEqual((report.deliveries, report.waiting, report.unsent), ([], [Wait(0, 0, 0, "hand", "c2")], 0))

    def test_a_trace_to_the_end_delivers(self):
        report = trace(pair(events=[inject("a"), take(0, 0, "L"), send(0, 0, "c2"), collect("b")]))
        self.assertEqual((report.moved, report.deliveries, report.waiting), ([True] * 4, [Delivery("b", 0, 0, 7)], []))

    def test_a_device_on_a_link_gets_its_packet(self):
        job = Job(Machine(1, 1), [Vertex("a"), Vertex("led", device=(0, 0, 0))], [Net("n", "a", ["led"])], [Packet("n")])
        report = run(job)
        self.assertEqual(job.version(), 3)
        self.assertEqual(report.plan.places["led"], Place("led", 0, 0, 18))
        self.assertEqual(report.plan.tables[0, 0].rows, (Row(0, 0xFFFFFFFF, 1),))
        self.assertEqual(report.deliveries, [Delivery("led", 0, 0, None)])

    def test_a_net_has_the_keys_that_are_fixed_for_it(self):
        nets = [Net("n", "a", ["b"]), Net("m", "a", ["b"], fixed=(0, 0xFFFFFFFC)), Net("o", "a", ["b"], keys=3)]
        job = Job(Machine(1, 1), [Vertex("a"), Vertex("b")], nets)
        keys = tables(job).keys
        self.assertEqual(job.version(), 2)
        self.assertEqual([(it.key, it.mask) for it in keys.values()], [(4, 0xFFFFFFFF), (0, 0xFFFFFFFC), (8, 0xFFFFFFFC)])

    def test_a_generated_job_tells_its_numbers(self):
        # (rows and deliveries are those of `python3 tools/model.py --generated N`)
        self.assertEqual(gen(7), Summary(7, 48, 200, 300, 1200, 1258, 5356, 0))
        self.assertEqual(gen(2**64 - 1), Summary(2**64 - 1, 48, 200, 300, 1200, 1229, 5072, 0))

    def test_a_number_that_is_none(self):
        for number in (-1, 2**64):
            with self.assertRaises(Refused) as caught:
                gen(number)
            self.assertEqual((caught.exception.status, caught.exception.kind, caught.exception.path), (1, "usage", None))

    def test_a_job_is_text(self):
        self.assertEqual(json.loads(pair(queue=3).text())["run"], {"queue": 3, "packets": [{"net": "n", "index": 0, "payload": 7}]})


class Checks(unittest.TestCase):
    """The row of chips: a net from (0, 0) to core 1 of (3, 0), with key 0."""

    way = {"n": [(2, 0, 0), (0, 0, 0), (1, 0, 0)]}
    east, core = (0, 0xFFFFFFFF, 1), (0, 0xFFFFFFFF, 0x80)

    def verdict(self, tables, job=None, way=None):
        job = job or row_of_chips()
        return check(job, self.way if way is None else way, encode(job.machine, tables))

    def test_tables_that_are_right(self):
        for tables in ({(0, 0): [self.east], (3, 0): [self.core]}, {(x, 0): [self.core if x == 3 else self.east] for x in range(4)}):
            verdict = self.verdict(tables)
            self.assertEqual(verdict, Right())
            self.assertTrue(verdict)

    def test_what_is_compiled_is_right(self):
        job = Job(Machine(1, 1), [Vertex("a"), Vertex("b")], [Net("n", "a", ["b"], keys=3), Net("m", "b", ["a", "b"])], target=0)
        self.assertEqual(check(job, {}, compile(job)), Right())

    def test_a_row_with_another_route(self):
        verdict = self.verdict({(0, 0): [self.east], (3, 0): [self.east]})
        self.assertEqual(verdict, Wrong("n", 3, 0, 0))
        self.assertFalse(verdict)

    def test_a_row_for_the_second_of_two_keys(self):
        nets = [Net("n", "a", ["b"], keys=2, fixed=(0xAB0, 0xFFFFFFFE))]
        job = Job(Machine(4, 1), [Vertex("a", at=(0, 0)), Vertex("b", at=(3, 0))], nets)
        verdict = self.verdict({(0, 0): [(7, 0xFFFFFFFF, 1), (0xAB1, 0xFFFFFFFF, 1)]}, job)
        self.assertEqual(verdict, Split("n", 0, 0, 1))
        self.assertFalse(verdict)
        self.assertEqual(self.verdict({(0, 0): [(0xAB0, 0xFFFFFFFE, 2)]}, job), Wrong("n", 0, 0, 0xAB0))

    def test_a_tree_that_ends_before_the_target(self):
        self.assertEqual(self.verdict({}, way={"n": [(0, 0, 0)]}), BadTree("n"))
        self.assertEqual(self.verdict({}, way={}), BadTree("n"))

    def test_bytes_that_are_no_image(self):
        self.assertEqual(check(row_of_chips(), self.way, b"SPNT\2"), BadImage(4))
        # (route 0 in the row of chip (0, 0), which begins at 14)
        self.assertEqual(self.verdict({(0, 0): [(0, 0xFFFFFFFF, 0)]}), BadImage(22))

    def test_an_image_of_another_machine(self):
        self.assertEqual(check(row_of_chips(), self.way, encode(Machine(4, 1, wrap=True), {})), OtherMachine())

    def test_the_bytes_of_tables(self):
        data = encode(Machine(4, 1), {(3, 0): [self.core], (1, 0): [], (0, 0): [self.east]})
        self.assertEqual(data, (EXAMPLES / "image.report").read_bytes())

    def refused(self, job, way, image=b""):
        with self.assertRaises(Refused) as caught:
            check(job, way, image)
        return caught.exception

    def test_a_link_outside_the_grid(self):
        refused = self.refused(row_of_chips(), {"n": [(0, 0, 0), (4, 0, 3)]})
        self.assertEqual((refused.status, refused.kind, refused.fault), (4, "bad job", "range"))
        self.assertEqual((refused.path, refused.member), ("in.trees[0][1]", [4, 0, 3]))

    def test_a_fault_of_the_job(self):
        refused = self.refused(Job(Machine(1, 1), [Vertex("a")], [Net("n", "a", ["zoe"])]), {})
        self.assertEqual((refused.fault, refused.path, refused.member), ("unknown name", "job.graph.nets[0].targets[0]", "zoe"))

    def test_a_vertex_without_room(self):
        refused = self.refused(Job(Machine(1, 1), [Vertex("a", at=(1, 0))]), {})
        self.assertEqual((refused.status, refused.kind, refused.name), (5, "no room", "a"))

    def test_the_tree_of_no_net(self):
        with self.assertRaisesRegex(ValueError, "zoe"):
            check(row_of_chips(), {"zoe": []}, b"")

    def test_lines_that_are_none(self):
        for wrong in ("", "right", "right\n\n", "wrong n 0 0\n", "wrong n 0 0 0\n", "split n 0 0\n", "bad tree\n", "bad image x\n"):
            with self.assertRaises(ValueError):
                read_verdict(wrong)


class Applications(unittest.TestCase):
    """Each application is two vertices on one chip, a net between them, and a packet."""

    def test_applications_come_and_go(self):
        steps = [load(1, pair()), load(2, pair()), RUN, unload(1), load(3, pair()), unload(9)]
        answers = apps(steps)
        self.assertEqual(answers, [Loaded(1), Loaded(2), Ran(), Unloaded(1, 1, 0), Loaded(3), NotLoaded(9)])
        self.assertEqual(list(map(bool, answers)), [True, True, True, True, True, False])

    def test_an_application_whose_packet_is_unsent_stays(self):
        # (packet 0 is that of application 7, and packet 1 that of application 8)
        self.assertEqual(apps([load(7, pair()), load(8, pair()), unload(8)]), [Loaded(7), Loaded(8), Waiting(8, 1)])

    def test_a_number_is_loaded_once(self):
        self.assertEqual(apps([load(0, pair()), load(0, Job(Machine(1, 1), []))]), [Loaded(0), AlreadyLoaded(0)])

    def test_cores_are_used_up(self):
        # (seventeen cores for vertices, and two for each application)
        self.assertEqual(apps([load(i, pair()) for i in range(1, 10)])[7:], [Loaded(8), NoRoom(9, "b")])

    def test_memory_is_used_up(self):
        job = Job(Machine(2, 1, sdram=150), [Vertex("a", sdram=100)])
        elsewhere = Job(Machine(2, 1), [Vertex("a", sdram=100, at=(1, 0))])
        self.assertEqual(apps([load(1, job), load(2, job), load(2, elsewhere)]), [Loaded(1), MemoryOut(2, "a"), Loaded(2)])

    def test_keys_are_used_up(self):
        job = Job(Machine(1, 1), [Vertex("a")], [Net("n", "a", ["a"], keys=2**32)])
        self.assertEqual(apps([load(1, job), load(2, job), unload(1), load(2, job)]), [Loaded(1), KeysOut(2, "n"), Unloaded(1, 0, 0), Loaded(2)])

    def test_entries_are_used_up(self):
        full = Job(Machine(1, 1), [Vertex("a")], [Net(f"n{i}", "a", ["a"]) for i in range(1024)])
        self.assertEqual(apps([load(1, full), load(2, pair())]), [Loaded(1), RowsOut(2, 0, 0)])

    def test_a_target_is_cut_off(self):
        job = Job(Machine(2, 1, dead_links=[(0, 0, 0)]), [Vertex("a", at=(0, 0)), Vertex("b", at=(1, 0))], [Net("n", "a", ["b"])])
        self.assertEqual(apps([load(1, job)]), [CutOff(1, "n", 1, 0)])

    def test_no_steps(self):
        self.assertEqual(apps([]), [])
        self.assertEqual(apps([RUN, unload(4)]), [Ran(), NotLoaded(4)])

    def test_a_fault_of_a_job_has_the_path_of_its_step(self):
        with self.assertRaises(Refused) as caught:
            apps([RUN, load(1, Job(Machine(1, 1), [Vertex("a")], [Net("n", "a", ["zoe"])]))])
        refused = caught.exception
        self.assertEqual((refused.status, refused.kind, refused.fault), (4, "bad job", "unknown name"))
        self.assertEqual((refused.path, refused.member), ("job[1][2].graph.nets[0].targets[0]", "zoe"))

    def test_a_step_that_is_none(self):
        for steps, fault, member in (([RUN, ("jump",)], "range", ["jump"]), ([RUN, ("unload", -1)], "shape", ["unload", -1])):
            with self.assertRaises(Refused) as caught:
                apps(steps)
            self.assertEqual((caught.exception.fault, caught.exception.path, caught.exception.member), (fault, "job[1]", member))

    def test_devices_are_no_part_of_an_application(self):
        with self.assertRaises(Refused) as caught:
            apps([load(1, Job(Machine(1, 1), [Vertex("led", device=(0, 0, 0))]))])
        self.assertEqual((caught.exception.fault, caught.exception.path, caught.exception.member), ("range", "job[0][2].version", 3))

    def test_lines_are_read(self):
        text = "load 1 cut off 7 3 4\nload 2 rows out 5 6\nunload 3 got 8 dumped 9\n"
        self.assertEqual(read_answers(text), [CutOff(1, "7", 3, 4), RowsOut(2, 5, 6), Unloaded(3, 8, 9)])
        for wrong in ("run", "\n", "load 1\n", "load x ok\n", "unload 1 ok\n", "load 1 no room\n", "unload 1 got 1\n", "run 1\n"):
            with self.assertRaises(ValueError):
                read_answers(wrong)


class Reports(unittest.TestCase):
    def test_dumps_and_waits_are_read(self):
        text = "dump 0 0 c2 1\nwait 0 at 3 4 hand NE\nend delivered 0 dumped 1 waiting 1 unsent 5\n"
        report = read(text)
        self.assertEqual((report.dumps, report.waiting, report.unsent), ([Dump(0, 0, "c2", 1)], [Wait(0, 3, 4, "hand", "NE")], 5))

    def test_four_lines_are_read(self):
        text = "gen 5\nchips 1 vertices 2 nets 3 packets 4\nrows 6\ndelivered 7 dumped 8\n"
        self.assertEqual(read_summary(text), Summary(number=5, chips=1, vertices=2, nets=3, packets=4, rows=6, delivered=7, dumped=8))
        for wrong in ("", text[:-1], text[6:], text + "\n", "out of memory\n"):
            with self.assertRaises(ValueError):
                read_summary(wrong)

    def test_bytes_that_are_no_image(self):
        data = (EXAMPLES / "image.report").read_bytes()
        for wrong in (b"", data[:9], b"X" + data[1:], data[:4] + b"\x02" + data[5:], data[:-1], data[:12], data + b"\0"):
            with self.assertRaises(ValueError):
                decode(wrong)


if __name__ == "__main__":
    unittest.main()
