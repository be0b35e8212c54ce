"""Ways in and out. Bytes and objects are written by hand, after what their tools say of them."""
import contextlib
import enum
import io
import json
import tempfile
import unittest
from pathlib import Path
from unittest import mock

from kulzobad import Job, KeyedNet, Machine, Net, Packet, Right, Row, Vertex, compile, tables, verify
from kulzobad import verifying
from kulzobad.cli import main
from kulzobad.formats import Network, Rig, RigEndpoint, RigEntry, RigMachine, RigNet, from_rig, network_of_job, read_csv, read_dump, read_network
from kulzobad.formats import read_router_entries, read_rows, to_rig, write_csv, write_dump, write_network, write_router_entries
from kulzobad.program import answer_to_text

EAST, CORE_1 = Row(0x1000, 0xFFFFFFF0, 0x1), Row(0x1000, 0xFFFFFFF0, 0x80)
ROWS = {(0, 0): (EAST,), (2, 1): (Row(0xDEADBEEF, 0xFFFFFFFF, 0xABCDEF), CORE_1)}


class RouterEntries(unittest.TestCase):
    """An entry has its place and a zero in two bytes each, then route, key and mask, each with its lowest byte first."""

    data = bytes.fromhex("0000 0000 efcdab00 efbeadde ffffffff" "0100 0000 80000000 00100000 f0ffffff")

    def test_the_bytes_of_entries(self):
        self.assertEqual(write_router_entries(ROWS)[2, 1], self.data)
        self.assertEqual(read_router_entries({(2, 1): self.data}), {(2, 1): ROWS[2, 1]})

    def test_entries_without_use(self):
        # (as on a board: ones in the route's highest byte, an application and a core in the second word)
        data = self.data[:16] + bytes.fromhex("0200 0142 000000ff ffffffff 00000000") + self.data[16:]
        self.assertEqual(read_router_entries({(2, 1): data}), {(2, 1): ROWS[2, 1]})

    def test_an_image_goes_there_and_back(self):
        job = Job(Machine(4, 1), [Vertex("a", at=(0, 0)), Vertex("b", at=(3, 0))], [Net("n", "a", ["b"])])
        image = compile(job)
        entries = write_router_entries(image)
        self.assertEqual({chip: len(data) for chip, data in entries.items()}, {(0, 0): 16, (3, 0): 16})
        self.assertEqual(read_router_entries(entries), {chip: table.rows for chip, table in image.tables.items()})

    def test_what_are_no_entries(self):
        with self.assertRaises(ValueError):
            read_router_entries({(0, 0): self.data[:-1]})
        with self.assertRaises(ValueError):
            write_router_entries({(0, 0): [EAST] * 1025})
        self.assertEqual(len(write_router_entries({(0, 0): [EAST] * 1024})[0, 0]), 16384)


class Text(unittest.TestCase):
    csv = "x,y,key,mask,route\n0,0,0x00001000,0xfffffff0,0x000001\n2,1,0xdeadbeef,0xffffffff,0xabcdef\n2,1,0x00001000,0xfffffff0,0x000080\n"
    dump = "0 0 00001000 fffffff0 000001\n2 1 deadbeef ffffffff abcdef\n2 1 00001000 fffffff0 000080\n"

    def test_comma_separated_values(self):
        self.assertEqual(read_csv(self.csv), ROWS)
        self.assertEqual(write_csv(ROWS), self.csv)
        other = "mask, route, key, x, y\r\n4294967280, 1, 4096, 0, 0\r\n\r\n0xFFFFFFFF,11259375,0XDEADBEEF,2,1\r\n4294967280,128,4096,2,1"
        self.assertEqual(read_csv(other), ROWS)

    def test_a_dump(self):
        self.assertEqual(read_dump(self.dump), ROWS)
        self.assertEqual(write_dump(ROWS), self.dump)
        self.assertEqual(read_dump("\n2  1\tDEADBEEF 0xffffffff abcdef\n"), {(2, 1): ROWS[2, 1][:1]})

    def test_either(self):
        for text in (self.csv, "\n" + self.dump):
            self.assertEqual(read_rows(text), ROWS)
        self.assertEqual(read_rows(""), {})

    def test_lines_of_values_end_in_any_way(self):
        for end in ("\r", "\r\n"):
            self.assertEqual(read_rows(self.csv.replace("\n", end)), ROWS)

    def test_what_the_program_writes(self):
        job = Job(Machine(4, 1), [Vertex("a", at=(0, 0)), Vertex("b", at=(3, 0))], [Net("n", "a", ["b"])], [Packet("n")])
        rows = {chip: table.rows for chip, table in compile(job).tables.items()}
        for word in ("tables", "run"):
            text = answer_to_text([word], job.text().encode(), None).decode()
            self.assertEqual(read_rows(text), rows)
            for other in (text[:-1], text.replace("table 3 0 1", "table 3 0 2"), text.replace("table 0", "table 4"), text.replace("\n", "\r\n")):
                with self.assertRaisesRegex(ValueError, r"^line \d+"):
                    read_rows(other)

    def test_lines_that_are_none(self):
        for text, told in (
            ("x,y,key,mask\n0,0,1,1", "first line"), ("x,y,key,mask,route,core\n", "first line"), ("x,y,key,key,route\n", "first line"),
            (self.csv + "0,0,1,1\n", "line 5: 4 items"), (self.csv + "0,0,1,1,1,1\n", "line 5: 6 items"), (self.csv + "0,0,1,f,1\n", "line 5: no number: 'f'"),
            ("x,y,key,mask,route\n0,-1,1,1,1\n", "line 2: no number"), ("x,y,key,mask,route\n0,0,1_0,1,1\n", "line 2"),
            ("x,y,key,mask,route\n0,0,\u0661,1,1\n", "line 2"), (self.csv + "0,0,1,1," + "1" * 131073, "line 5: field larger than"),
            (self.csv + '0,0,1,1,"1', "line 5: unexpected end"), (self.csv + "0,0,1,\0,1\n", "line 5"), (self.dump + "0 0 1 1\n", "line 4"), ("0 0 1 1 1 1\n", "line 1"), ("a 0 1 1 1\n", "line 1"),
        ):
            with self.assertRaisesRegex(ValueError, told):
                read_rows(text)


class Routes(enum.IntEnum):
    """The numbers of outputs, as Rig has them."""

    east = 0
    south_west = 4
    core_1 = 7
    core_3 = 9


class Sentinel:
    """A key of resources, which shows itself by its name."""

    def __init__(self, name):
        self.name = name

    def __repr__(self):
        return f"<{self.name}>"


Cores, SDRAM = Sentinel("Cores"), Sentinel("SDRAM")


class Thing:
    """An object with these attributes alone."""

    def __init__(self, **attributes):
        self.__dict__.update(attributes)


class RigObjects(unittest.TestCase):
    """Two chips: `eye` on the first, `two` on cores 1 and 2 of the second, where a led hangs on link S."""

    def setUp(self):
        eye, two, led, memory = Thing(), Thing(), Thing(), Thing()
        edge = {(x, 0, link) for x in (0, 1) for link in range(6)} - {(0, 0, 0), (1, 0, 3)}
        self.machine = Thing(
            width=2, height=1, chip_resources={Cores: 18, SDRAM: 1}, chip_resource_exceptions={(1, 0): {Cores: 17, SDRAM: 1}}, dead_chips=set(), dead_links=edge
        )
        self.vertices = eye, two, led
        net = Thing(source=eye, sinks=[two, led], weight=3.0)
        entry = Thing(route={Routes.core_1, 8, 5}, key=0x10, mask=0xFFFFFFF0)
        self.rig = [
            self.machine, {eye: (0, 0), two: (1, 0), led: (1, 0), memory: (0, 0)}, {memory: {SDRAM: slice(0, 9)}, eye: {Cores: slice(3, 4), SDRAM: slice(0, 1)}, two: {Cores: slice(1, 3)}, led: {}},
            [net], {net: (0x10, 0xFFFFFFF0)}, {(0, 0): [Thing(route={Routes.east}, key=0, mask=0)], (1, 0): [entry]}, [Thing(vertex=led, route=5), Thing(chip=1)],
        ]

    def test_objects_by_their_attributes(self):
        network = from_rig(*self.rig)
        eye, two, led = self.vertices
        self.assertEqual(network.machine, Machine(2, 1, dead_cores=[(1, 0, 17)]))
        self.assertEqual(network.places, {eye: (0, 0, 3), (two, 0): (1, 0, 1), (two, 1): (1, 0, 2), led: (1, 0, "S")})
        self.assertEqual(network.nets, [KeyedNet(0, eye, [(two, 0), (two, 1), led], [(0x10, 0xFFFFFFF0)])])
        self.assertEqual(network.tables, {(0, 0): (Row(0, 0, 1),), (1, 0): (Row(0x10, 0xFFFFFFF0, 0x1A0),)})
        self.assertEqual(verify(*network), Right())
        self.rig[5][1, 0][0].route.discard(8)
        self.assertEqual(verify(*from_rig(*self.rig, cores=Cores)).target, (two, 1))

    def test_a_torus(self):
        self.machine.dead_links = {(0, 0, 1)}
        machine = from_rig(self.machine, {}, {}, [], {}, {}).machine
        self.assertEqual((machine.wrap, machine.dead_links), (True, [(0, 0, 1)]))

    def test_a_network_becomes_a_job(self):
        job = from_rig(*self.rig).job()
        plan = tables(job)
        self.assertEqual([(it.x, it.y, it.core) for it in plan.places.values()], [(0, 0, 3), (1, 0, 1), (1, 0, 2), (1, 0, 23)])
        self.assertEqual([(it.key, it.mask) for it in plan.keys.values()], [(0x10, 0xFFFFFFF0)])

    def test_what_is_lacking(self):
        for spoil in (lambda two: self.rig[1].pop(two), lambda two: self.rig[2][two].clear(), lambda _: self.rig[4].clear()):
            self.setUp()
            spoil(self.vertices[1])
            with self.assertRaises(ValueError):
                from_rig(*self.rig)

    def test_there_and_back(self):
        for wrap in (False, True):
            machine = Machine(3, 2, wrap, None, [(1, 1)], [(0, 0, 17), (2, 0, 16), (2, 0, 17)], [(0, 0, 0), (1, 0, 3)])
            network = Network(machine, {"a": (0, 0, 1), "led": (1, 0, "NE")}, [KeyedNet(0, "a", ["led"], [(0x10, 0xFFFFFFF0)])], {(0, 0): (EAST,)})
            rig = to_rig(network)
            self.assertEqual((rig.placements, rig.constraints), ({"a": (0, 0), "led": (1, 0)}, [RigEndpoint("led", 1)]))
            self.assertEqual((rig.routing_tables, rig.allocations["a"]), ({(0, 0): [RigEntry({0}, 0x1000, 0xFFFFFFF0)]}, {"Cores": slice(1, 2)}))
            self.assertEqual(from_rig(*rig), network)
            made = to_rig(network, Cores, RigMachine, RigNet, lambda *row: Thing(route=row[0], key=row[1], mask=row[2]), RigEndpoint)
            self.assertEqual(from_rig(*made), network)
            self.assertIsInstance(rig, Rig)

    def test_what_rig_can_not_say(self):
        for network in (
            Network(Machine(1, 1, dead_cores=[(0, 0, 3)])),
            Network(Machine(1, 1), {"a": (0, 0, 1)}, [KeyedNet("n", "a", ["a"], [(0, 0xFFFFFFFF), (2, 0xFFFFFFFF)])]),
        ):
            with self.assertRaises(ValueError):
                to_rig(network)


class Networks(unittest.TestCase):
    text = """{"machine": {"width": 3, "height": 2, "dead_links": [[0, 0, 1]]},
     "places": {"eye": [0, 0, 1], "left": [2, 0, 1], "motor": [2, 1, "N"]},
     "nets": [{"name": "spikes", "source": "eye", "targets": ["left", "motor"], "blocks": [["0x1000", 4294967280]]},
              {"name": "gain", "source": "eye", "targets": ["left"], "first": 4112, "count": 3}],
     "trees": {"gain": [[0, 0, 0], [1, 0, 0]]}}"""

    def test_a_network_of_text(self):
        network = read_network(self.text)
        self.assertEqual(network.machine, Machine(3, 2, dead_links=[(0, 0, 1)]))
        self.assertEqual(network.places, {"eye": (0, 0, 1), "left": (2, 0, 1), "motor": (2, 1, "N")})
        self.assertEqual(network.nets[0], KeyedNet("spikes", "eye", ["left", "motor"], [(0x1000, 0xFFFFFFF0)]))
        self.assertEqual(network.nets[1].blocks, [(0x1010, 0xFFFFFFFE), (0x1012, 0xFFFFFFFF)])
        self.assertEqual(network.trees, {"gain": [(0, 0, 0), (1, 0, 0)]})
        self.assertEqual(read_network(write_network(network)), network)

    def test_texts_that_are_none(self):
        whole = json.loads(self.text)
        spoiled = [
            ({**whole, "vertices": []}, "vertices"), ({**whole, "machine": {"width": 3}}, "machine has no height"),
            ({**whole, "machine": {"width": "3", "height": 2}}, "Machine.width"), ({**whole, "machine": {"width": 3, "height": 2, "dead_link": []}}, "dead_link"),
            ({**whole, "places": {"eye": [0, 0]}}, "places.eye"), ({**whole, "places": []}, "places"), ({**whole, "nets": [{"name": "n"}]}, "no source"),
            ({**whole, "nets": [{"name": "n", "source": "eye", "targets": ["left"]}]}, "either"),
            ({**whole, "nets": [{"name": "n", "source": "eye", "targets": ["left"], "first": 1}]}, "either"),
            ({**whole, "nets": [{"name": "n", "source": "eye", "targets": "left", "first": 1, "count": 1}]}, "targets"),
            ({**whole, "nets": [{"name": "n", "source": "eye", "targets": ["left"], "blocks": [["x", 1]]}]}, "no number: 'x'"),
            ({**whole, "nets": [{"name": "n", "source": "eye", "targets": ["left"], "blocks": [[1]]}]}, "list of 2"),
            ({**whole, "trees": {"gain": [[0, 0, "X"]]}}, "trees.gain.*'X'"), ({**whole, "trees": {"gain": [[0, 0]]}}, "trees.gain.*and should be .x, y, link."), ([], "no object"),
        ]
        for value, told in spoiled:
            with self.assertRaisesRegex(ValueError, told):
                read_network(json.dumps(value))
        for text, told in (("{", "Expecting"), (self.text.replace('"left": [', '"eye": ['), "the member eye stands twice")):
            with self.assertRaisesRegex(ValueError, told):
                read_network(text)

    def test_the_network_of_a_job(self):
        job = Job(Machine(2, 1), [Vertex("a"), Vertex("b"), Vertex("led", device=(1, 0, 0))], [Net("n", "a", ["b", "led"], 3)])
        network = network_of_job(job)
        self.assertEqual(network.places, {"a": (0, 0, 1), "b": (0, 0, 2), "led": (1, 0, 18)})
        self.assertEqual(verify(*network), Right())
        self.assertEqual(verify(*network_of_job(network.job())), Right())

    def test_names_and_masks_that_a_job_has_not(self):
        nets = [KeyedNet((1, 2), "the eye", ["v0"], [(0b100, 0xFFFFFFFD)]), KeyedNet("m", "v0", ["the eye"], [(0x10, 0xFFFFFFFF)])]
        job = Network(Machine(1, 1), {"the eye": (0, 0, 5), "v0": (0, 0, 2)}, nets).job(target=0)
        self.assertEqual([(it.name, it.at) for it in job.vertices], [("v0", (0, 0)), ("v1", (0, 0))])
        self.assertEqual([(it.name, it.source, it.targets, it.fixed) for it in job.nets], [
            ("n0.0", "v1", ["v0"], (4, 0xFFFFFFFF)), ("n0.1", "v1", ["v0"], (6, 0xFFFFFFFF)), ("m", "v0", ["v1"], (0x10, 0xFFFFFFFF)),
        ])
        self.assertEqual([(it.vertex, it.core) for it in tables(job).places.values()], [("v0", 2), ("v1", 5)])


class Command(unittest.TestCase):
    rows = "x,y,key,mask,route\n0,0,0x1000,0xffffffe0,1\n2,0,0x1000,0xffffffe0,0x82\n"

    def called(self, network, rows, *words):
        """The status of the command on files of these texts, and what it wrote."""
        with tempfile.TemporaryDirectory() as room:
            (Path(room) / "network").write_text(network)
            (Path(room) / "rows").write_bytes(rows if isinstance(rows, bytes) else rows.encode())
            told = io.StringIO()
            with contextlib.redirect_stderr(told):
                status = main(["verify", f"{room}/network", f"{room}/rows", "--out", f"{room}/out", *words])
            out = Path(room) / "out"
            return status, out.read_text() if out.exists() else told.getvalue().replace(room, "")

    def test_tables_that_are_right(self):
        text = json.loads(Networks.text)
        text["places"]["motor"] = [2, 0, "S"]
        text["nets"][1]["targets"] = ["left", "motor"]
        rows = self.rows.replace("0x82", "0xa0")
        self.assertEqual(self.called(json.dumps(text), rows), (0, "right\n"))
        self.assertEqual(self.called(json.dumps(text), rows, "--json"), (0, '{"answer": "Right", "notes": []}\n'))

    def test_the_way_of_a_key(self):
        status, out = self.called(Networks.text, self.rows + "1,1,9,0xffffffff,1\n")
        self.assertEqual((status, out.splitlines()), (20, [
            "dies spikes 00001000", "at 0 0 from L row 0 to E", "at 1 0 from W default to E", "at 2 0 from W row 0 to NE",
            "note at 1 1 row 0: no net has a key of it", "note at 1 1 1 rows: no packets come there",
        ]))

    def test_a_question_that_is_not_decided(self):
        bits = [(i, j) for i in range(4, 12) for j in range(16, 24)]
        rows = "".join(f"0 0 0 {1 << i | 1 << j:x} 1\n" for i, j in bits) + "0 0 0 0 1\n2 0 0 0 a0\n"
        text = Networks.text.replace('"0x1000", 4294967280', "0, 0").replace('[2, 1, "N"]', '[2, 0, "S"]')
        with mock.patch.multiple(verifying, MOST_CUTS=30, CUTS_OF_A_ROW=0):
            status, out = self.called(text, rows)
        self.assertEqual((status, out.count("\n")), (4, 1))
        self.assertIn("net 'spikes' is not decided: rows cut its keys into too many parts. They care for 16 bits", out)

    def test_tables_of_a_job(self):
        job = Job(Machine(2, 1), [Vertex("a"), Vertex("b", at=(1, 0))], [Net("n", "a", ["b"], 3)])
        self.assertEqual(self.called(job.text(), compile(job).data), (0, "right\n"))
        self.assertEqual(self.called(job.text(), answer_to_text(["tables"], job.text().encode(), None)), (0, "right\n"))
        self.assertEqual(self.called(job.text(), "0 0 0 0 000001\n"), (20, "dies n 00000000\nat 0 0 from L row 0 to E\nat 1 0 from W default to E\n"))

    def test_files_that_are_none(self):
        for network, rows, told in (
            ("{", self.rows, "/network: Expecting"), (Networks.text, "0 0 1", "/rows: line 1"), ('{"graph": 1}', self.rows, "/network: "),
            (Networks.text.replace("[2, 1,", "[2, 2,"), self.rows, "outside the grid"), (Networks.text, "table 0 0 1\nend rows 0\n", "/rows: line 2 is"),
            (Networks.text, b"SPNT\1\5\7\0\0\0", "other machine: the image is of 5 by 7 chips without wrap, and the machine has 3 by 2"),
            (Networks.text, b"SPNT\1\3\2\2\0\0", "/rows: bad image 7: wrap is 2"), (Networks.text, b"SPNT", "/rows: bad image 4: the bytes end"),
        ):
            status, out = self.called(network, rows)
            self.assertEqual(status, 4)
            self.assertIn(told, out)


if __name__ == "__main__":
    unittest.main()
