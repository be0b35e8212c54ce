"""Pictures."""
import os
import tempfile
import unittest
import xml.etree.ElementTree as ElementTree
from pathlib import Path

from kulzobad import Job, Machine, Net, Packet, Vertex, run
from kulzobad.drawing import Paper, crosses, draw, letters, meets
from kulzobad.reports import read
from tests.test_cli import called

EXAMPLES = Path(__file__).resolve().parents[2] / "examples"
DOCS = (EXAMPLES.parent / "docs" / "pictures" / "board.json").is_file()
SVG = "{http://www.w3.org/2000/svg}"
KINDS = ("mesh", "tree", "rows", "copies")


def job_with_devices():
    machine = Machine(3, 3, dead_chips=[(2, 1)], dead_links=[(1, 1, 2)], dead_cores=[(0, 0, 1)])
    devices = [Vertex("motor", device=(1, 1, 0)), Vertex("led", device=(0, 2, 3))]
    vertices = [Vertex("a"), *devices, *(Vertex(f"v{i}", at=(2, 0)) for i in range(9))]
    return Job(machine, vertices, [Net("n", "a", [it.name for it in vertices[1:]]), Net("m", "a", ["a"])], [Packet("n")])


def star(side):
    """A net from the middle of a grid to two cores of each chip."""
    vertices = [Vertex("a", at=(side // 2, side // 2)), *(Vertex(f"v{x}.{y}.{i}", at=(x, y)) for x in range(side) for y in range(side) for i in (0, 1))]
    return Job(Machine(side, side), vertices, [Net("n", "a", [it.name for it in vertices[1:]])], [Packet("n")])


def is_in(corners, x, y):
    """Whether a point lies inside a polygon whose corners go round one way."""
    sides = [(bx - ax) * (y - ay) - (by - ay) * (x - ax) for (ax, ay), (bx, by) in zip(corners, [*corners[1:], corners[0]])]
    return all(it >= 0 for it in sides) or all(it <= 0 for it in sides)


def texts_of(svg):
    return [it.text for it in ElementTree.fromstring(svg).iter("{http://www.w3.org/2000/svg}text")]


def titles_of(svg):
    return [it.text for it in ElementTree.fromstring(svg).iter("{http://www.w3.org/2000/svg}title")]


class Pictures(unittest.TestCase):
    def test_each_kind_is_a_picture(self):
        job = job_with_devices()
        report = run(job)
        for kind in KINDS:
            svg = draw(kind, job, report, "n")
            self.assertIn("2,2", texts_of(svg))
            self.assertEqual(sum(title.startswith("(2, 1): ") for title in titles_of(svg)), 1)

    def test_a_device_has_a_mark_of_its_own(self):
        job = job_with_devices()
        report = run(job)
        for kind in ("mesh", "tree"):
            titles = titles_of(draw(kind, job, report, "n"))
            self.assertIn("device motor on link E of (1, 1)", titles)
            self.assertIn("device led on link W of (0, 2)", titles)
        self.assertLess({"(1, 1): E (motor)", "(0, 2): W (led)", "(2, 1): dead"}, set(titles))
        self.assertNotIn("device motor on link E of (1, 1)", titles_of(draw("tree", job, report, "m")))

    def test_the_legend_lists_what_is_there(self):
        plain = Job(Machine(2, 1), [Vertex("a"), Vertex("b", at=(1, 0))], [Net("n", "a", ["b"])], [Packet("n")])
        for kind, absent in (("mesh", {"dead", "dead link", "has dead cores", "device"}), ("tree", {"dead", "dead link", "on the way"})):
            self.assertFalse(absent & set(texts_of(draw(kind, plain, run(plain), "n"))))
            full = job_with_devices()
            self.assertLessEqual(absent - {"on the way"}, set(texts_of(draw(kind, full, run(full), "n"))))

    def test_labels_keep_clear_of_arrows(self):
        # (at a chip with arrows on all six links its words are still inside it, or left out)
        machine = Machine(3, 3)
        vertices = [Vertex("a", at=(1, 1)), *(Vertex(f"v{x}{y}", at=(x, y)) for x in range(3) for y in range(3))]
        job = Job(machine, vertices, [Net("n", "a", [it.name for it in vertices])], [Packet("n")])
        words = texts_of(draw("tree", job, run(job), "n"))
        self.assertIn("1,1", words)
        self.assertIn("c1 c2", words)

    def test_names_of_a_tree_can_be_read(self):
        # (a page of text shows a picture at most 800 wide: letters are 11 high then, meet no arrow, and stand inside one chip)
        job = Job.from_text((EXAMPLES.parent / "docs" / "pictures" / "board.json").read_text()) if DOCS else star(8)
        tried = 0
        for drawn, nets in ((job, [it.name for it in job.nets[::40]]), (star(3), ["n"]), (star(8), ["n"]), (star(12), ["n"])):
            report = run(drawn)
            for net in nets:
                shapes = ElementTree.fromstring(draw("tree", drawn, report, net))
                share = min(1.0, 800 / float(shapes.get("width")))
                arrows = [[float(it.get(name)) for name in ("x1", "y1", "x2", "y2")] for it in shapes.iter(f"{SVG}line") if it.get("marker-end")][:-1]
                hexagons = [[[float(part) for part in point.split(",")] for point in it.get("points").split()] for it in shapes.iter(f"{SVG}polygon")]
                middles = [tuple(sum(axis) / 6 for axis in zip(*corners)) for corners in hexagons]
                for text in shapes.iter(f"{SVG}text"):
                    size, x, y = (float(text.get(name)) for name in ("font-size", "x", "y"))
                    self.assertGreaterEqual(size * share, 11)
                    inside = [corners for corners, middle in zip(hexagons, middles) if abs(middle[0] - x) + abs(middle[1] - y) < 45 * share]
                    if text.get("text-anchor") != "middle" or not any(is_in(corners, x, y - size / 3) for corners in inside):
                        continue
                    half, tried = 0.3 * size * len(text.text), tried + 1
                    box = [(x + dx, y + dy) for dx in (-half, half) for dy in (0, -0.7 * size)]
                    self.assertTrue(any(all(is_in(corners, *point) for point in box) for corners in inside), text.text)
                    for x1, y1, x2, y2 in arrows:
                        points = [(x1 + (x2 - x1) * i / 40, y1 + (y2 - y1) * i / 40) for i in range(41)]
                        self.assertFalse(any(x - half < px < x + half and y - 0.7 * size < py < y for px, py in points), text.text)
        self.assertGreater(tried, 400)

    def test_names_are_text(self):
        job = Job(Machine(1, 1), [Vertex("<a&b>")], [Net('"]]>', "<a&b>", ["<a&b>"])], [Packet('"]]>')])
        for kind in KINDS:
            ElementTree.fromstring(draw(kind, job, run(job), '"]]>'))

    def test_what_does_not_fit(self):
        job = job_with_devices()
        report = run(job)
        other = Job(Machine(3, 3), [*job.vertices, Vertex("z")], job.nets)
        for kind, drawn, net, told in (
            ("tree", job, None, "a tree is of a net"),
            ("tree", job, "zoe", "the job has no net zoe"),
            ("plan", job, None, "no kind of picture: plan"),
            ("mesh", other, None, "no place of vertex z"),
            ("mesh", Job(job.machine, job.vertices, [Net("o", "a", ["a"])]), None, "no keys of net o"),
            ("mesh", Job(Machine(2, 2), job.vertices, job.nets), None, "outside the grid"),
            ("mesh", Job(Machine(3, 3, dead_links=[(0, 0, 6)]), job.vertices, job.nets), None, "a dead link that is none"),
            ("mesh", Job(Machine(100, 3), []), None, "no machine has 100 by 3 chips"),
        ):
            with self.assertRaisesRegex(ValueError, told):
                draw(kind, drawn, report if drawn.vertices else read("end rows 0\n"), net)


class Commands(unittest.TestCase):
    def test_a_picture_of_an_output_is_that_of_the_program(self):
        with tempfile.TemporaryDirectory() as folder:
            job = EXAMPLES / "fan_out.json"
            net = Job.from_text(job.read_text()).nets[0].name
            for kind in KINDS:
                more = ["--net", net] if kind == "tree" else []
                with_output = called("draw", kind, job, EXAMPLES / "fan_out.report", *more)
                self.assertEqual(with_output, called("draw", kind, job, *more))
                self.assertEqual(called("draw", kind, job, *more, "--out", f"{folder}/a.svg"), (0, b"", ""))
                self.assertEqual(Path(folder, "a.svg").read_bytes(), with_output[1])

    def test_a_png_where_the_tool_is_found(self):
        before = os.environ["PATH"]
        with tempfile.TemporaryDirectory() as folder:
            try:
                os.environ["PATH"] = folder
                status, written, told = called("draw", "mesh", EXAMPLES / "fan_out.json", EXAMPLES / "fan_out.report", "--png")
                self.assertEqual((status, written), (127, b""))
                self.assertIn("rsvg-convert", told)
                tool = Path(folder, "rsvg-convert")
                tool.write_text("#!/bin/sh\nread -r line; echo \"$*: $line\"\n")
                tool.chmod(0o755)
                status, written, told = called("draw", "mesh", EXAMPLES / "fan_out.json", EXAMPLES / "fan_out.report", "--png")
                self.assertEqual((status, told), (0, ""))
                self.assertTrue(written.startswith(b"--format png: <svg "))
            finally:
                os.environ["PATH"] = before


class Geometry(unittest.TestCase):
    def test_where_chips_lie(self):
        paper = Paper(3, 3)
        (ax, ay), (bx, by) = paper.at(0, 0), paper.at(1, 1)
        self.assertAlmostEqual(bx - ax, paper.unit / 2)
        self.assertGreater(ay, by)
        self.assertEqual(len(paper.corners(0, 0)), 6)
        for whole, part in zip(paper.toward(0, 0, 1, 1.0), (bx, by)):
            self.assertAlmostEqual(whole, part)

    def test_boxes_and_lines(self):
        box = (0, 0, 2, 1)
        for line in ((-1, 0.5, 3, 0.5), (1, -1, 1, 3), (-1, -1, 0.5, 0.5)):
            self.assertTrue(crosses(box, line), line)
        for line in ((-1, 2, 3, 2), (3, 0, 4, 1)):
            self.assertFalse(crosses(box, line), line)
        self.assertEqual([meets(box, other) for other in ((1, 0, 3, 1), (3, 0, 4, 1), (0, 2, 2, 3))], [True, False, False])

    def test_the_letters_of_a_route(self):
        self.assertEqual([letters(route) for route in (1, 0b100010, 0x80, 0x800041, 0)], ["E", "NE S", "c1", "E c0 c17", ""])


if __name__ == "__main__":
    unittest.main()
