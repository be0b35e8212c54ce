"""Arguments that are none: each call says so itself, with a TypeError or a ValueError that it raises and that tells what is wrong."""
import itertools
import traceback
import unittest

from kulzobad import Job, KeyedNet, Machine, Net, Packet, Refused, Vertex, check, formats, frames, graphs, notes, spinntools, trees, verify
from kulzobad.drawing import draw
from kulzobad.explaining import explain
from kulzobad.images import Image, decode, encode
from kulzobad.links import word_of
from kulzobad.program import gen
from kulzobad.linting import remarks_on
from kulzobad.page import page, verified_page
from kulzobad.reports import Keys, Place, Plan, Report, Row, Table, cores_of, links_of, read
from kulzobad.applications import load, unload


class Thing:
    """An object with these attributes alone."""

    def __init__(self, **attributes):
        self.__dict__.update(attributes)


ALL = 0xFFFFFFFF
MACHINE, JOB = Machine(2, 1), Job(Machine(1, 1), [Vertex("a")], [Net("n", "a", ["a"])])
PLACES, NETS = {"a": (0, 0, 1)}, [KeyedNet("n", "a", ["a"], [(0, ALL)])]
ROWS = {(0, 0): [(0, ALL, 0x80)]}
NETWORK = formats.Network(MACHINE, PLACES, NETS, ROWS)
RIG = formats.to_rig(NETWORK)
REPORT = Report(Plan({"a": Place("a", 0, 0, 1)}, {"n": Keys("n", 0, ALL)}, {(0, 0): Table(0, 0, (Row(0, ALL, 0x80),))}))

# What stands in the place of arguments and of their parts.
JUNK = [
    None, True, 5, -1, 1 << 40, 1.5, "x", b"x", "E", [], {}, set(), [5], (1,), (1, 2), (1, 2, 3), (1, 2, 3, 4), [[]], [None], ["x"], [(1, 2)], [{}],
    {5: 6}, {"a": None}, {"a": (1,)}, {(1,): []}, {(1, 2, 3): []}, {("x", 0): []}, {(0, 0): 5}, {(0, 0): None}, {(0, 0): [5]}, {(0, 0): [(1, 2)]},
    {(0, 0): [("x", 1, 2)]}, {(0, 0): [(-1, 0, 0)]}, {(0, 0): [(0, 1 << 32, 1)]}, {(0, 0): b"12345"}, Thing(), [Thing()], {(0, 0): [Thing()]},
    {(0, 0): [Thing(key=0, mask=0, route={99})]}, {(0, 0): [Thing(key=0, mask=0, route=5)]}, {(0, 0): [Thing(key=0, mask=0, route={"x"})]},
    {"a": slice(1, 2)}, {"a": {"Cores": slice(None)}}, {"a": {"Cores": slice(2, 1)}}, {"a": {"Cores": slice("x", 2)}}, {"a": {"Cores": 5}},
    {"a": {"Cores": slice(0, 9, 2)}}, [Thing(vertex="a", route="x")], [Thing(vertex="a", route=24)], [Thing(vertex=[], route=0)],
    [KeyedNet([], "a", ["a"], [(0, ALL)])], [KeyedNet("n", [], ["a"], [(0, ALL)])], [KeyedNet("n", "a", 5, [(0, ALL)])],
    [KeyedNet("n", "a", [[]], [(0, ALL)])], [KeyedNet("n", "a", ["a"], 5)], [KeyedNet("n", "a", ["a"], [5])], [KeyedNet("n", "a", ["a"], [(0, None)])],
    [KeyedNet("n", "a", None, None)], [Net("n", "a", ["a"])], [Vertex("a")], Thing(width=1, height=1), Thing(width="x", height=1, chip_resources={}),
    Thing(width=1, height=1, chip_resources=5, dead_chips=[], dead_links=[]), Thing(width=10**9, height=1, chip_resources={}, dead_chips=[], dead_links=[]),
    Thing(width=1, height=1, chip_resources={"Cores": None}, dead_chips=[], dead_links=[]), Image(1, 1, False, b"", {(0, 0): [(1, 2)]}),
    Thing(width=1, height=1, chip_resources={}, dead_chips=[5], dead_links=[]), Thing(width=1, height=1, chip_resources={}, dead_chips=[], dead_links=None),
]

# Each call with arguments that it takes.
CALLS = [
    (verify, MACHINE, PLACES, NETS, ROWS, {"n": []}), (notes, MACHINE, PLACES, NETS, ROWS), (KeyedNet.counted, "n", "a", ["a"], 0, 1),
    (encode, MACHINE, ROWS), (decode, b""), (check, JOB, {}, b""), (trees, JOB), (links_of, 1), (cores_of, 1), (gen, 1), (read, ""),
    (formats.write_router_entries, ROWS), (formats.read_router_entries, {(0, 0): b""}), (formats.read_rows, ""), (formats.read_csv, ""),
    (formats.read_dump, ""), (formats.write_csv, ROWS), (formats.write_dump, ROWS), (formats.rows_by_chip, ROWS), (formats.read_network, "{}"),
    (formats.write_network, NETWORK), (formats.network_of_job, JOB), (formats.Network, MACHINE, PLACES, NETS, ROWS, {"n": []}), (formats.to_rig, NETWORK),
    (formats.from_rig, *RIG), (lambda *them: formats.Network(MACHINE, *them).job(), PLACES, NETS), (Machine, 1, 1, False, None, [], [], []),
    (lambda *them: formats.write_network(formats.Network(MACHINE, *them)), PLACES, NETS, ROWS, {"n": []}), (word_of, [1]),
    (lambda *them: formats.to_rig(formats.Network(MACHINE, *them)), PLACES, NETS, ROWS), (Job, MACHINE, [], [], [], []), (Vertex, "a", 0, (0, 0), (0, 0, 0)),
    (draw, "mesh", JOB, REPORT, None), (draw, "tree", JOB, REPORT, "n"), (explain, Refused(4, "bad job: not json"), JOB), (remarks_on, b"{}"),
    (page, JOB, "title", "run"), (verified_page, NETWORK, "title"),
    (spinntools.from_spinntools, Thing(width=1, height=1, chips=[]), [], [], [], []), (spinntools.to_routing_tables, ROWS), (spinntools.to_spinntools, NETWORK), (spinntools.read_tables, "[]"),
    (spinntools.write_tables, ROWS), (spinntools.read_machine, "{}"), (spinntools.write_machine, MACHINE), (spinntools.read_placements, "[]"),
    (spinntools.write_placements, PLACES), (graphs.from_networkx, None, MACHINE), (frames.table_of, None, "keys"), (frames.write_csv_of, None, "keys"),
    (Net, "n", "a", ["a"], 1, (0, ALL)), (Packet, "n", 0, 0), (load, 1, JOB), (unload, 1), (Job.from_json, {}), (Job.from_text, "{}"),
]


class Calls(unittest.TestCase):
    def tried(self, call, arguments):
        """Calls, and looks at what is raised, if anything: the package raises it by itself."""
        try:
            found = call(*arguments)
            list(found) if hasattr(found, "__next__") else None
        except Refused:
            pass
        except Exception as error:
            last = traceback.extract_tb(error.__traceback__)[-1]
            told = f"{getattr(call, '__name__', call)}{arguments}: {type(error).__name__}: {error}"
            self.assertIsInstance(error, (TypeError, ValueError), told)
            self.assertNotIsInstance(error, UnicodeError, told)
            self.assertTrue(last.line.startswith("raise ") and "kulzobad" in last.filename, f"{told}, at {last.filename}:{last.lineno}: {last.line}")

    def test_each_argument_is_looked_at(self):
        for call, *arguments in CALLS:
            for i, junk in itertools.product(range(len(arguments)), JUNK):
                self.tried(call, [*arguments[:i], junk, *arguments[i + 1:]])

    def test_parts_of_what_other_tools_have(self):
        for spoil in ("machine", "placements", "allocations", "nets", "net_keys", "routing_tables", "constraints"):
            for junk in JUNK:
                self.tried(formats.from_rig, RIG._replace(**{spoil: junk}))
                self.tried(formats.from_rig, RIG._replace(**{spoil: [junk]}))
                self.tried(formats.from_rig, RIG._replace(**{spoil: {"a": junk}}))
        for junk in JUNK:
            for net in (Thing(source="a"), Thing(source="a", sinks=junk), Thing(source=junk, sinks=["a"]), Thing(source="a", sinks=[junk])):
                self.tried(formats.from_rig, RIG._replace(nets=[net]))

    def test_texts_of_networks(self):
        whole = {"machine": {"width": 1, "height": 1}, "places": {"a": [0, 0, 1]}, "nets": [{"name": "n", "source": "a", "targets": ["a"], "blocks": [[0, ALL]]}]}
        values = [None, True, 5, 1.5, "x", [], {}, [5], [[]], [[1]], [["x", "y"]], [None], [{}], {"a": None}, {"a": [0, 0, None]}, {"a": [0, 0, 0, 0]}, 1 << 70]
        for name, value in itertools.product([*whole, "trees", "other"], values):
            self.tried(formats.read_network, [formats.json.dumps({**whole, name: value})])
        for part in ("machine", "nets"):
            for name, value in itertools.product(["width", "wrap", "dead_links", "name", "source", "targets", "blocks", "first", "count"], values):
                inner = {**(whole[part] if part == "machine" else whole[part][0]), name: value}
                self.tried(formats.read_network, [formats.json.dumps({**whole, part: inner if part == "machine" else [inner]})])
        for text in ("[" * 100000, "1" * 10000, '{"a": ' * 5000, b"\xff", "\0"):
            self.tried(formats.read_network, [text])


if __name__ == "__main__":
    unittest.main()
