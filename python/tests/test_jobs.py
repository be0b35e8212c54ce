"""Jobs as they are written and read: arguments of a wrong kind, members that are none, and trees."""
import builtins
import importlib
import json
import types
import unittest
from pathlib import Path

import kulzobad
from kulzobad import calls, events, steps
from kulzobad import Job, Machine, Net, Packet, Refused, Right, UnknownMembers, Vertex
from kulzobad.links import Links, Routes, routes_of, word_of
from kulzobad.reports import cores_of, links_of
from kulzobad import apps, check, collect, compile, decode, dump, encode, gen, inject, load, run, send, take, trees, unload
from kulzobad.members import MEMBERS
from kulzobad.schema import schema

EXAMPLES = Path(__file__).resolve().parents[2] / "examples"


def pair(**more):
    return Job(Machine(1, 1), [Vertex("a"), Vertex("b")], [Net("n", "a", ["b"])], **more)


class Kinds(unittest.TestCase):
    def test_arguments_of_a_wrong_kind_are_told_where_they_are_made(self):
        for made, told in (
            (lambda: Net("n", "a", "ab"), r"Net\.targets is 'ab', and should be a list of texts"),
            (lambda: Net("n", "a", {"a", "b"}), r"Net\.targets is .*, and should be a list of texts"),
            (lambda: Net("n", "a", ["a", 3]), r"Net\.targets\[1\] is 3, and should be a text"),
            (lambda: Net("n", 4, ["a"]), r"Net\.source is 4, and should be a text"),
            (lambda: Net(None, "a", ["a"]), r"Net\.name is None"),
            (lambda: Net("n", "a", ["a"], keys=2.0), r"Net\.keys is 2\.0, and should be a whole number"),
            (lambda: Net("n", "a", ["a"], fixed=7), r"Net\.fixed is 7, and should be \(key, mask\)"),
            (lambda: Net("n", "a", ["a"], fixed=(1, 2, 3)), r"Net\.fixed is \(1, 2, 3\)"),
            (lambda: Vertex(b"a"), r"Vertex\.name is b'a'"),
            (lambda: Vertex("a", sdram="9"), r"Vertex\.sdram is '9'"),
            (lambda: Vertex("a", at=3), r"Vertex\.at is 3, and should be \(x, y\)"),
            (lambda: Vertex("a", at=(0, "0")), r"Vertex\.at\[1\] is '0'"),
            (lambda: Vertex("a", device=(0, 0)), r"Vertex\.device is \(0, 0\), and should be \(x, y, link\)"),
            (lambda: Packet(Net("n", "a", ["a"])), r"Packet\.net is Net"),
            (lambda: Packet("n", True), r"Packet\.index is True, and should be a whole number"),
            (lambda: Packet("n", payload=b"\1"), r"Packet\.payload is b"),
            (lambda: Machine("8", 8), r"Machine\.width is '8'"),
            (lambda: Machine(8, 8, 1), r"Machine\.wrap is 1, and should be True or False"),
            (lambda: Machine(8, 8, dead_chips=(0, 1)), r"Machine\.dead_chips\[0\] is 0, and should be \(x, y\)"),
            (lambda: Machine(8, 8, dead_links=[(0, 1, "e")]), r"Machine\.dead_links\[0\]\[2\] is 'e', and should be the number of a link, or one of E, NE, N, W, SW, S"),
            (lambda: Machine(8, 8, dead_links=[(0, "1", 1)]), r"Machine\.dead_links\[0\]\[1\] is '1', and should be a whole number"),
            (lambda: Vertex("a", device=(0, 0, "EE")), r"Vertex\.device\[2\] is 'EE', and should be the number of a link"),
            (lambda: Machine(8, 8, dead_cores={}), r"Machine\.dead_cores is \{\}, and should be a list of \(x, y, core\)"),
            (lambda: Job((8, 8)), r"Job\.machine is \(8, 8\), and should be a Machine"),
            (lambda: Job(Machine(1, 1), ["a"]), r"Job\.vertices\[0\] is 'a', and should be a Vertex"),
            (lambda: Job(Machine(1, 1), Vertex("a")), r"Job\.vertices is Vertex.*, and should be a list of Vertex"),
            (lambda: Job(Machine(1, 1), nets=[Vertex("a")]), r"Job\.nets\[0\] is Vertex"),
            (lambda: Job(Machine(1, 1), packets="n"), r"Job\.packets is 'n', and should be a list of Packet"),
            (lambda: Job(Machine(1, 1), events=["inject"]), r"Job\.events\[0\] is 'inject', and should be a list"),
            (lambda: Job(Machine(1, 1), queue=1.5), r"Job\.queue is 1\.5"),
            (lambda: inject(3), r"inject: vertex is 3"),
            (lambda: collect(Vertex("a")), r"collect: vertex is Vertex"),
            (lambda: take("0", 0, "L"), r"take: x is '0'"),
            (lambda: send(0, 0, 2), r"send: out is 2, and should be a text"),
            (lambda: dump(0, None, "E"), r"dump: y is None"),
            (lambda: load("1", pair()), r"load: number is '1'"),
            (lambda: load(1, pair().as_json()), r"load: job is .*, and should be a Job"),
            (lambda: unload(None), r"unload: number is None"),
            (lambda: run("job.json"), r"run: job is 'job.json', and should be a Job"),
            (lambda: trees({}), r"trees: job is \{\}"),
            (lambda: gen("3"), r"gen: number is '3'"),
            (lambda: apps(load(1, pair())), r"apps: steps\[0\] is 'load', and should be a step"),
            (lambda: check(pair(), [], b""), r"check: trees is \[\], and should be a mapping"),
            (lambda: check(pair(), {"n": [3]}, b""), r"check: trees\['n'\]\[0\] is 3, and should be \(x, y, link\)"),
            (lambda: check(pair(), {}, "SPNT"), r"check: image is 'SPNT', and should be an Image or its bytes"),
            (lambda: decode("SPNT"), r"decode: data is 'SPNT', and should be bytes"),
            (lambda: encode(Machine(1, 1), {(0, 0): [(1, 2)]}), r"encode: tables\[\(0, 0\)\]\[0\] is \(1, 2\), and should be \(key, mask"),
        ):
            with self.assertRaisesRegex(TypeError, told):
                made()

    def test_links_by_letters_and_by_names(self):
        for i, name in enumerate(("E", "NE", "N", "W", "SW", "S")):
            for link in (name, i, Links(i), Links[name], Routes[name]):
                self.assertEqual(Machine(2, 2, dead_links=[(0, 1, link)]), Machine(2, 2, dead_links=[(0, 1, i)]))
                self.assertEqual(Vertex("a", device=(0, 1, link)).as_json(), {"name": "a", "sdram": 0, "device": [0, 1, i]})
                self.assertEqual(check(pair(), {"n": [(0, 0, link)]}, b"").net, "n")
        self.assertEqual([it.opposite.name for it in Links], ["W", "SW", "S", "E", "NE", "N"])
        for word in (0, 1, 0x820, 0xFFFFFF):
            self.assertEqual([it.name for it in sorted(routes_of(word)) if it.is_link], links_of(word))
            self.assertEqual([it.core for it in sorted(routes_of(word)) if not it.is_link], cores_of(word))
            self.assertEqual(word_of(routes_of(word)), word)
        self.assertEqual((word_of([0, Routes.C17]), routes_of(1 << 7)), (0x800001, {Routes.C1}))
        for made in (lambda: word_of([24]), lambda: Routes.S.core):
            with self.assertRaises(ValueError):
                made()

    def test_values_are_kept_as_they_are(self):
        self.assertEqual(Net("n", "a", (it for it in "bc")).targets, ["b", "c"])
        self.assertEqual(Net("n", "a", ("b", "c")), Net("n", "a", ("b", "c"), 1, None))
        self.assertEqual(Machine(8, 8, dead_chips=[[0, 1]]), Machine(8, 8, dead_chips=[(0, 1)]))
        nets = []
        job = Job(Machine(1, 1), nets=nets)
        nets.append(Net("n", "a", ["a"]))
        self.assertIs(job.nets, nets)


class Texts(unittest.TestCase):
    def test_each_example_is_read_and_written(self):
        for file in sorted(EXAMPLES.glob("*.json")):
            value = json.loads(file.read_text())
            if not isinstance(value, dict) or "trees" in value or "bad job" in file.with_suffix(".report").read_text(errors="replace"):
                continue
            job = Job.from_json(value)
            self.assertEqual(Job.from_text(job.text()), job, file.name)

    def test_members_that_are_none(self):
        value = pair().as_json()
        value["machine"]["dead_link"] = [[0, 0, 0]]
        value["graph"]["nets"][0].update(keyz=3, fixed=[0, 0])
        value["graph"]["vertices"][1]["device"] = [0, 0, 0]
        value["packets"] = []
        with self.assertRaises(UnknownMembers) as caught:
            Job.from_json(value)
        self.assertEqual(str(caught.exception).splitlines(), [
            "job.machine.dead_link: not a member; dead_links?",
            "job.graph.vertices[1].device: not a member of this version; one from version 3 on",
            "job.graph.nets[0].keyz: not a member; keys?",
            "job.graph.nets[0].fixed: not a member of this version; one from version 2 on",
            "job.packets: not a member; job.run has one of this name",
        ])
        self.assertEqual(Job.from_json(value, lenient=True), pair())
        with self.assertRaisesRegex(UnknownMembers, r"^job\.\\x1b\[31m\\ud800: not a member$"):
            Job.from_json({**pair().as_json(), "\x1b[31m\ud800": 1})

    def test_parts_that_are_absent_or_of_a_wrong_kind(self):
        def spoiled(**parts):
            return {**pair().as_json(), **parts}

        for value, told in (
            ([], r"^job is \[\], and should be an object"),
            ({"version": 1}, r"^job.graph is not there"),
            (spoiled(version=None), r"^job.version is not there"),
            (spoiled(version="1"), r"^job.version is '1', and should be a whole number"),
            (spoiled(version=4), r"^job.version is 4, and should be from 1 to 3"),
            (spoiled(machine=None), r"^job.machine is not there"),
            (spoiled(machine={"width": 1}), r"^job.machine.height is not there"),
            (spoiled(machine={"width": 1, "height": "1"}), r"^job.machine.height is '1', and should be a whole number"),
            (spoiled(machine={"width": 1, "height": 1, "dead_links": [[0, 0, "E"]]}), r"^job.machine.dead_links\[0\]\[2\] is 'E', and should be a whole"),
            (spoiled(version=3, graph={"vertices": [{"name": "a", "device": [0, 0, "E"]}], "nets": []}), r"^job.graph.vertices\[0\].device\[2\] is 'E'"),
            (spoiled(graph={"vertices": {}, "nets": []}), r"^job.graph.vertices is \{\}, and should be a list"),
            (spoiled(graph={"vertices": [3], "nets": []}), r"^job.graph.vertices\[0\] is 3, and should be an object"),
            (spoiled(graph={"vertices": [], "nets": [{"name": "n", "source": "a", "targets": "b"}]}), r"^job.graph.nets\[0\].targets is"),
            (spoiled(run={"queue": "3"}), r"^job.run.queue is '3', and should be a whole number"),
            (spoiled(run={"events": [3]}), r"^job.run.events\[0\] is 3, and should be a list"),
            (spoiled(run={"packets": [{"net": "n"}]}), r"^job.run.packets\[0\].index is not there"),
        ):
            with self.assertRaisesRegex(ValueError, told):
                Job.from_json(value)
        with self.assertRaises(ValueError):
            Job.from_text("{")


    def test_the_members_are_those_of_the_schema(self):
        strict = schema()
        parts = {"job": strict, **{kind: strict["$defs"][kind] for kind in MEMBERS if kind not in ("job", "request")}}
        for kind, part in parts.items():
            self.assertEqual(set(part["properties"]), set(MEMBERS[kind]), kind)
            self.assertIs(part["additionalProperties"], False)


class Names(unittest.TestCase):
    def test_a_dozen_stand_at_the_top(self):
        self.assertEqual((len(set(kulzobad.__all__) - {"__version__"}), dir(kulzobad)), (12, sorted(kulzobad.__all__)))
        self.assertEqual([it for it in kulzobad.__all__ if hasattr(builtins, it)], [])

    def test_each_name_is_that_of_its_module(self):
        for module, names in kulzobad._MOVED.items():
            home = importlib.import_module(f"kulzobad.{module}")
            for name in names.split():
                self.assertIs(getattr(kulzobad, name), getattr(home, name))
                self.assertNotIsInstance(getattr(home, name), types.ModuleType)
        for module in (calls, events, steps):
            self.assertEqual([it for it in module.__all__ if not hasattr(module, it)], [])
        with self.assertRaises(AttributeError):
            kulzobad.nothing


class Trees(unittest.TestCase):
    def test_a_tree_by_hand(self):
        # (the one of docs/formats.md)
        vertices = [Vertex("retina", at=(0, 1)), Vertex("left", at=(0, 0)), Vertex("right", at=(3, 1))]
        job = Job(Machine(4, 3), vertices, [Net("spikes", "retina", ["right", "left"])])
        self.assertEqual(trees(job), {"spikes": [(0, 1, 5), (0, 0, 0), (1, 0, 0), (2, 0, 1)]})

    def test_a_tree_has_the_links_of_its_ways(self):
        vertices = [Vertex("a", at=(0, 0)), Vertex("b", at=(3, 1)), Vertex("c")]
        job = Job(Machine(4, 3, dead_chips=[(2, 0)]), vertices, [Net("n", "a", ["b"]), Net("m", "a", ["c"])])
        found = trees(job)
        self.assertEqual(found["m"], [])
        self.assertEqual([it[:2] for it in found["n"]][0], (0, 0))
        self.assertEqual(check(job, found, compile(job)), Right())

    def test_a_device_is_no_part_of_a_tree(self):
        job = Job(Machine(2, 1), [Vertex("a"), Vertex("led", device=(1, 0, 0))], [Net("n", "a", ["led"])])
        self.assertEqual(trees(job), {"n": [(0, 0, 0)]})
        self.assertEqual(check(job, trees(job), compile(job)), Right())

    def test_a_job_whose_table_is_too_long_has_trees(self):
        names = [f"v{j}" for j in range(11)]
        nets = [Net(f"n{i}", "v0", [names[j] for j in range(11) if i >> j & 1]) for i in range(1, 1026)]
        job = Job(Machine(2, 1), [Vertex(it, at=(1, 0)) for it in names] + [Vertex("far", at=(0, 0))], nets + [Net("n", "v0", ["far"])])
        found = trees(job)
        self.assertEqual((len(found), found["n1"], found["n"]), (1026, [], [(1, 0, 3)]))

    def test_a_job_without_trees(self):
        with self.assertRaises(Refused) as caught:
            trees(Job(Machine(2, 1, dead_links=[(0, 0, 0)]), [Vertex("a"), Vertex("b", at=(1, 0))], [Net("n", "a", ["b"])]))
        self.assertEqual(caught.exception.kind, "cut off")


if __name__ == "__main__":
    unittest.main()
