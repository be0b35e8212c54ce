"""What is told behind a refusal, beside the program's own answers."""
import json
import random
import subprocess
import unittest
from pathlib import Path

from kulzobad import Job, Machine, Net, Packet, Refused, Vertex, apps, check, explain, load, run, tables
from kulzobad.explaining import longest_aligned, reached_from
from kulzobad.grid import Grid
from kulzobad.json_faults import json_fault
from kulzobad.linting import remarks_on
from kulzobad.program import answer_to_text, program_of

EXAMPLES = Path(__file__).resolve().parents[2] / "examples"
PAIR = {
    "version": 2, "machine": {"width": 2, "height": 1},
    "graph": {"vertices": [{"name": "a"}, {"name": "b"}], "nets": [{"name": "n", "source": "a", "targets": ["b"], "keys": 3}]},
    "run": {"packets": [{"net": "n", "index": 0}]},
}


def explained(value, word="run"):
    """What is told of a refused job, and the refusal."""
    text = value if isinstance(value, bytes) else value.encode() if isinstance(value, str) else json.dumps(value).encode()
    try:
        answer_to_text([word], text, None)
    except Refused as refused:
        return explain(refused), refused
    raise AssertionError(f"not refused: {text[:200]!r}")


def with_part(path, part, value=None):
    """The pair with another part at a path."""
    job = json.loads(json.dumps(PAIR if value is None else value))
    *steps, last = path
    inner = job
    for step in steps:
        inner = inner[step]
    inner[last] = part
    return job


class NotJson(unittest.TestCase):
    def test_where_a_text_stops_being_json(self):
        for text, told in (
            ("", "line 1, column 1: a value should stand here; there stands the end of the text"),
            ('{"version":1,}', "line 1, column 13: a comma stands behind the last item; there stands ,}"),
            ('{"a": [1, 2,\n ]}', "line 1, column 12: a comma stands behind the last item"),
            ('{"a": 1\n "b": 2}', 'line 2, column 2: a comma, or the end of the list or object, should stand here; there stands "b": 2}'),
            ("{'a': 1}", "line 1, column 2: a member's name in double quotes should stand here; there stands 'a': 1}"),
            ('{"a" 1}', "line 1, column 6: a colon should stand here"),
            ('{"a": 1} x', "line 1, column 10: the text should end here; there stands x"),
            ('{"a": "b', "line 1, column 7: this text has no end"),
            ('{"a": "\\x"}', "line 1, column 8: there is no such escape"),
            ('{"a": 1e400}', "line 1, column 7: this number is beyond the greatest double; there stands 1e400}"),
            ('{"a": -Infinity}', "line 1, column 7: this is no number"),
            ('{"a": [NaN]}', "line 1, column 8: this is no number"),
            ('{"a": "b\\ud800c"}', "line 1, column 9: this is half of a pair of surrogates"),
            ("[" * 128 + "]" * 128, "line 1, column 128: the text is nested more than 127 deep"),
            ('{"a": \x1b[31m}', "line 1, column 7: a value should stand here; there stands \\x1b[31m}"),
            ("\ufeff{}", "line 1, column 1: a byte order mark stands before the text"),
            (b'{"a":\n"\xff\xfe"}', "line 2, column 2: these bytes are not UTF-8; there stands \\xff\\xfe"),
            ('{"a": "b\nc"}', "line 1, column 9: a line end or another control character stands inside a text; there stands the end of"),
        ):
            found, refused = explained(text)
            self.assertEqual(refused.line, "bad job: not json", text)
            self.assertTrue(found.startswith(told), f"{text!r}: {found}")

    def test_a_fault_is_found_just_where_the_program_finds_one(self):
        dice = random.Random(45)
        texts = [json.dumps(PAIR), '{"a": [1, -2.5e3, true, null, "\\u00e9\\ud83d\\ude00", "\\""], "b": {"c": []}, "d": 0.1E-2}']
        pieces = [*',}][{":.e+- /0é', "", "\\", "\\u", "\\ud800", "\\udc00", "1e999", "\n", "\t", "\x0b", "null", "NaN"]
        for _ in range(300):
            text = dice.choice(texts)
            at = dice.randrange(len(text))
            spoiled = (text[:at] + dice.choice(pieces) + text[at + dice.randrange(3):]).encode()
            done = subprocess.run([program_of(None), "tables"], input=spoiled, stdout=subprocess.PIPE, check=False)
            self.assertEqual(json_fault(spoiled) is not None, done.stdout == b"bad job: not json\n", spoiled)

    def test_a_text_that_is_too_long(self):
        text, bare = json.dumps(PAIR) + " " * 2**24, json.dumps(PAIR, separators=(",", ":"))
        told = f"the text has {len(text)} bytes, and may have 16777216; without blanks it has {len(bare)}"
        self.assertEqual(explained(text)[0], told)


class BadJobs(unittest.TestCase):
    def test_values_with_what_is_allowed(self):
        for path, part, told in (
            (("machine", "width"), 70, "it is 70; it should be a whole number from 1 to 64 (Chips along x)"),
            (("machine", "width"), 4.0, "it is 4.0; it should be a whole number from 1 to 64"),
            (("machine",), {"width": 2}, "it is not there; it should be a whole number from 1 to 64"),
            (("machine", "dead_chips"), [[2, 0]],
             "it is [2, 0]; it should be a list of 2 whole numbers: 0 to 63, 0 to 63 (A chip as [x, y])\nthe grid is 2 by 1: x is 0 to 1, and y 0 to 0"),
            (("machine", "dead_links"), [[0, 0, 6]], "it is [0, 0, 6]; it should be a list of 3 whole numbers: 0 to 63, 0 to 63, 0 to 5"),
            (("graph", "vertices", 0, "name"), "a b", 'it is "a b"; it should be a name of 1 to 64 characters'),
            (("graph", "nets", 0, "targets"), [], "it is []; it should be a list of 1 or more (Names of vertices; the source"),
            (("graph", "nets", 0, "targets"), "b", 'it is "b"; it should be a list'),
            (("graph", "nets", 0, "fixed"), [0, 5], "it is [0, 5]; it should be a list of 2 whole numbers: 0 to 4294967295, a mask"),
            (("graph", "vertices", 0, "at"), [0], "it is [0]; it should be a list of 2 whole numbers: 0 to 63, 0 to 63 (The chip"),
            (("graph", "vertices", 0), None, "it is null; it should be an object"),
            (("graph", "vertices"), None, "it is null; it should be a list"),
            (("graph", "nets", 0, "fixed"), [0, 4294967294], "mask fffffffe has 2 keys, and the net needs 3"),
            (("graph", "nets", 0, "fixed"), [1, 4294967292], "key 00000001 has bits outside mask fffffffc"),
            (("run", "packets", 0, "index"), 3, "net n has 3 keys, so index is 0 to 2"),
            (("run", "events"), [["jump"]], 'it is ["jump"]; it should be an event: '),
            (("run", "queue"), 0, "it is 0; it should be a whole number from 1 to 65536"),
            (("graph", "vertices", 0, "name"), "\x9b31m", 'it is "\\u009b31m"; it should be a name'),
            (("version",), 4, "it is 4; it should be a whole number from 1 to 3"),
        ):
            found, refused = explained(with_part(path, part))
            self.assertIn(refused.fault, ("shape", "range"))
            self.assertIn(told, found)

    def test_names(self):
        for path, part, told in (
            (("graph", "nets", 0, "targets"), ["b", "B"], "no vertex is called B; there is b"),
            (("graph", "nets", 0, "source"), "zoe", "no vertex is called zoe; there are 2"),
            (("run", "packets", 0, "net"), "nn", "no net is called nn; there is n"),
            (("run", "events"), [["inject", "aa"]], "no vertex is called aa; there is a"),
            (("graph", "vertices", 1, "name"), "a", "job.graph.vertices[0] is called a already"),
        ):
            self.assertEqual(explained(with_part(path, part))[0], told)
        device = {**PAIR, "version": 3}
        found, _ = explained(with_part(("graph", "vertices", 0, "device"), [0, 0, 2], device))
        self.assertEqual(found, "a is a device, which takes packets and sends none")

    def test_clashes_and_counts(self):
        nets = [{"name": name, "source": "a", "targets": ["b"], "fixed": fixed} for name, fixed in (("n", [0, 4294967292]), ("m", [2, 4294967294]))]
        self.assertEqual(explained(with_part(("graph", "nets"), nets))[0], "n, which is job.graph.nets[0], has keys 00000000 to 00000003")
        vertices = [{"name": name, "device": [0, 0, 2]} for name in "ab"]
        found, _ = explained({**with_part(("graph", "vertices"), vertices), "version": 3})
        self.assertEqual(found, "a, which is job.graph.vertices[0], has device [0, 0, 2]")
        self.assertEqual(explained(with_part(("graph", "nets"), [0] * 4097))[0], "there are 4097, and may be 4096")
        found, _ = explained({**with_part(("machine", "width"), 37), "run": {"queue": 65536}})
        queues = "37 live chips and 2 vertices have 261 queues, 17104896 places in all; there may be 16777216"
        self.assertEqual(found, f"{queues}\nqueue may be 64280 here")

    def test_requests_and_steps(self):
        for value, word, told in (
            (PAIR, "check", "it should be a request: an object with job, trees and image"),
            ({"job": PAIR, "trees": [], "image": []}, "check", "as many as job.graph.nets has nets"),
            ({"job": PAIR, "trees": [[[9, 0, 0]]], "image": []}, "check", "it is [9, 0, 0]; it should be a link [x, y, link] inside"),
            ({"job": PAIR, "trees": [[]], "image": [256]}, "check", "it is 256; it should be a whole number from 0 to 255"),
            ({"job": with_part(("machine", "width"), 70), "trees": [], "image": []}, "check", "it is 70; it should be a whole number"),
            (PAIR, "apps", "or for apps a list of steps"),
            ([["jump"]], "apps", 'it is ["jump"]; it should be a step: ["load", N, JOB]'),
            ([["load", 1, with_part(("machine", "width"), 70)]], "apps", "it is 70; it should be a whole number from 1 to 64"),
            ([["load", 1, {**PAIR, "version": 3}]], "apps", "jobs of version 1 or 2"),
            ([["load", 1, 3]], "apps", "it is 3; it should be a job"),
        ):
            self.assertIn(told, explained(value, word)[0])


class Causes(unittest.TestCase):
    def told(self, job, call=run):
        with self.assertRaises(Refused) as caught:
            call(job)
        self.assertEqual(explain(caught.exception), explain(caught.exception, job))
        self.assertEqual(explain(caught.exception), explain(caught.exception, job.text()))
        return explain(caught.exception)

    def test_no_room(self):
        few = Machine(2, 1, sdram=100, dead_cores=[(0, 0, core) for core in range(1, 16)], dead_chips=[])
        for vertices, told in (
            ([Vertex("a", at=(2, 0))], "outside the grid: it asks for chip (2, 0), and the grid is 2 by 1"),
            ([Vertex(f"v{i}", at=(0, 0)) for i in range(3)],
             "cores: it asks for chip (0, 0), whose 17 cores for vertices are taken: 15 dead, 2 by vertices before it (v0, v1)"),
            ([Vertex("a", 60), Vertex("b", 41, at=(0, 0))],
             "memory: it needs 41 bytes, and chip (0, 0) has 100, of which vertices before it need 60 (a): 40 are left"),
            ([Vertex("a", 60), Vertex("b", 90), Vertex("c", 41)],
             "memory: it needs 41 bytes; 2 chips have a free core, and (0, 0) has the most left: chip (0, 0) has 100"),
            ([Vertex(f"v{i}") for i in range(20)],
             "cores: 2 live chips have 19 cores for vertices, and the vertices before it have them all"),
            ([Vertex("a", device=(0, 0, 0))], "live link: it hangs on link 0 (E) of chip (0, 0), which leads to live chip (1, 0)"),
            ([Vertex("a", device=(2, 0, 0))], "outside the grid: it hangs on chip (2, 0)"),
        ):
            self.assertTrue(self.told(Job(few, vertices)).startswith(told), self.told(Job(few, vertices)))
        dead = Machine(2, 1, dead_chips=[(1, 0)])
        for vertex, what in ((Vertex("a", at=(1, 0)), "asks for"), (Vertex("a", device=(1, 0, 0)), "hangs on")):
            self.assertEqual(self.told(Job(dead, [vertex])), f"dead chip: it {what} chip (1, 0), which is listed in job.machine.dead_chips")
        self.assertEqual(self.told(Job(Machine(1, 1, dead_chips=[(0, 0)]), [Vertex("a")])), "dead chip: the machine has no live chip")

    def test_keys_out(self):
        vertices = [Vertex("a")]
        job = Job(Machine(1, 1), vertices, [Net("m", "a", ["a"], keys=2**31 + 1), Net("n", "a", ["a"])])
        told = "its 1 key takes an aligned range of 1; of 4294967296 keys 0 are free, and the longest aligned range has 0"
        self.assertEqual(self.told(job), told)
        nets = [Net("m", "a", ["a"], keys=2**30), Net("n", "a", ["a"], keys=2**31 + 1), Net("o", "a", ["a"], fixed=(2**31, 2**32 - 2))]
        free = f"of {2**32} keys {2**32 - 2**30 - 2} are free, and the longest aligned range has {2**30}"
        self.assertEqual(self.told(Job(Machine(1, 1), vertices, nets)), f"its {2**31 + 1} keys take an aligned range of {2**32}; {free}")

    def test_the_longest_aligned_range(self):
        for begin, end, wanted in ((0, 0, 0), (0, 1, 1), (1, 4, 2), (3, 4, 1), (3, 9, 4), (5, 8, 2), (0, 2**32, 2**32), (1, 2**32, 2**31)):
            self.assertEqual(longest_aligned(begin, end), wanted)

    def test_cut_off(self):
        machine = Machine(4, 1, dead_chips=[(2, 0)])
        job = Job(machine, [Vertex("a"), Vertex("b", at=(3, 0))], [Net("n", "a", ["b"])])
        self.assertEqual(self.told(job), "\n".join([
            "from chip (0, 0), where a stands, live links lead to 1 other chip, and not to (3, 0), where b stands",
            "the last chip that is reached on the way is (1, 0), 2 links from there as if nothing were dead; "
            "its link E leads to dead chip (2, 0), NE N SW S lead out of the grid",
            "of the target's chip its link W leads to dead chip (2, 0), E NE N SW S lead out of the grid",
        ]))

    def test_a_torus_one_chip_wide_has_links_that_lead_nowhere(self):
        grid = Grid(Machine(1, 3, wrap=True))
        self.assertEqual([grid.far((0, 0), link) for link in range(6)], [None, (0, 1), (0, 1), None, (0, 2), (0, 2)])
        machine = Machine(1, 3, True, dead_chips=[(0, 1)], dead_links=[(0, 0, 4), (0, 0, 5)])
        job = Job(machine, [Vertex("a"), Vertex("b", at=(0, 2))], [Net("n", "a", ["b"])])
        self.assertIn("NE leads to dead chip (0, 1), N leads to dead chip (0, 1), SW is a dead link, S is a dead link, "
                      "E W lead back to the chip itself", self.told(job))

    def test_chips_are_reached_just_where_the_program_has_a_tree(self):
        dice = random.Random(7)
        for _ in range(40):
            wide, high = dice.randint(1, 6), dice.randint(1, 6)
            chips = [(x, y) for x in range(wide) for y in range(high)]
            machine = Machine(wide, high, wrap=dice.random() < 0.5,
                              dead_chips=[chip for chip in chips if chip != (0, 0) and dice.random() < 0.25],
                              dead_links=[(*chip, link) for chip in chips for link in range(6) if dice.random() < 0.3])
            grid = Grid(machine)
            live = [chip for chip in chips if grid.is_live(chip)]
            vertices = [Vertex(f"{x},{y}", at=(x, y)) for x, y in live]
            job = Job(machine, vertices, [Net(it.name, "0,0", [it.name]) for it in vertices])
            reached = reached_from(grid, (0, 0))
            lost = [chip for chip in live if chip not in reached]
            try:
                tables(job)
            except Refused as refused:
                self.assertEqual(refused.chip, lost[0])
                self.assertIn("the last chip that is reached", explain(refused))
            else:
                self.assertEqual(lost, [])

    def test_table_long(self):
        names = [f"v{j}" for j in range(11)]
        nets = [Net(f"n{i}", "v0", [names[j] for j in range(11) if i >> j & 1]) for i in range(1, 1026)] + [Net("n", "v1", ["v0"])]
        lines = self.told(Job(Machine(2, 1), [Vertex(it, at=(1, 0)) for it in names], nets), tables).splitlines()
        self.assertTrue(lines[0].startswith("1026 nets come through chip (1, 0), with 1025 routes; "), lines[0])
        self.assertEqual(lines[1], "sources with the most nets there: v0 (1025), v1 (1)")
        self.assertTrue(lines[2].startswith("routes with the most nets: c1 has 2 (n1, n); "), lines[2])

    def test_refusals_of_calls(self):
        with self.assertRaises(Refused) as caught:
            apps([load(1, Job(Machine(70, 1)))])
        self.assertIn("it is 70", explain(caught.exception))
        with self.assertRaises(Refused) as caught:
            check(Job(Machine(1, 1), [Vertex("a", at=(1, 0))]), {}, b"")
        self.assertIn("outside the grid", explain(caught.exception))

    def test_nothing_is_told_of_another_job(self):
        with self.assertRaises(Refused) as caught:
            run(Job(Machine(1, 1), [Vertex("a", at=(1, 0))]))
        self.assertEqual(explain(caught.exception, Job(Machine(1, 1), [Vertex("b")])), "")
        self.assertEqual(explain(Refused(125, "")), "the launcher could not build the program; it says why on standard error")
        self.assertEqual(explain(Refused(-9, "")), "the program was ended by signal 9")
        self.assertEqual(explain(Refused(77, "")), "")


class Lint(unittest.TestCase):
    def texts(self, value):
        return [str(it) for it in remarks_on(value if isinstance(value, bytes) else json.dumps(value).encode())]

    def test_a_job_without_remarks(self):
        self.assertEqual(self.texts(PAIR), [])

    def test_faults(self):
        self.assertTrue(self.texts(b"{")[0].startswith("fault: not JSON: line 1, column 2: "))
        self.assertEqual(self.texts(with_part(("machine", "dead_link"), [])), ["fault: job.machine.dead_link: not a member; dead_links?"])
        both = with_part(("machine", "width"), 70, with_part(("graph", "nets", 0, "keys"), 0))
        self.assertEqual([it.split(" is ")[0] for it in self.texts(both)], ["fault: job.machine.width", "fault: job.graph.nets[0].keys"])
        found = self.texts(with_part(("graph", "nets", 0, "targets"), ["z"]))[0]
        self.assertEqual(found, "fault: bad job: unknown name job.graph.nets[0].targets[0]; no vertex is called z; there are 2")

    def test_hints(self):
        for job, told in (
            (Job(Machine(1, 1), [Vertex("a"), Vertex("b"), Vertex("c")], [Net("n", "a", ["b"])]), "1 vertex is in no net: c"),
            (Job(Machine(1, 1), [Vertex("a")], [Net("n", "a", ["a", "a"])]), "1 net has a target twice, which counts once: n"),
            (Job(Machine(1, 1), [Vertex("a")], [Net("n", "a", ["a"], keys=17)]),
             "1 net needs one key more than a power of two, and so gets twice as many: n"),
            (Job(Machine(1, 1), [Vertex("a")], [Net("n", "a", ["a"]), Net("m", "a", ["a"])], [Packet("n")]), "1 net has no packets: m"),
            (Job(Machine(1, 1), [Vertex("a")], [Net("n", "a", ["a"])], [Packet("n")] * 17),
             "there are 17 packets and queues of 16 copies: run may drop some, and reinject drops none"),
        ):
            self.assertEqual(self.texts(job.as_json()), [f"hint: {told}"])
        vertices = [Vertex(f"v{i}", 10, at=(0, 0)) for i in range(18)]
        net = [Net("n", "v0", [it.name for it in vertices])]
        hints = self.texts(Job(Machine(2, 1, sdram=100), vertices, net).as_json())
        self.assertIn("hint: 18 vertices ask for chip (0, 0), which has 17 cores for vertices", hints)
        self.assertIn("hint: vertices that ask for chip (0, 0) need 180 bytes of its 100", hints)
        twice = b'{"version":1,"machine":{"width":1,"height":1},"graph":{"vertices":[{"name":"a","at":[0,0],"at":[0,0]}],"nets":[]}}'
        self.assertIn("hint: a member stands twice in one object, and the last counts: at", self.texts(twice))


if __name__ == "__main__":
    unittest.main()
