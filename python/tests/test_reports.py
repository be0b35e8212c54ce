"""Reports that are not whole: cut off, or spoiled in one place. Each is a ValueError that names a line, and no picture."""
import argparse
import subprocess
import sys
import tempfile
import unittest
from pathlib import Path

from kulzobad import Loaded, Refused, Unloaded, draw_command
from kulzobad.applications import read_answers
from kulzobad.command import Stopped
from kulzobad.reports import Delivery, Keys, Place, Row, read
from tests.test_cli import called

EXAMPLES = Path(__file__).resolve().parents[2] / "examples"
THREE = ("short_tables", "trace_full_queue", "fan_out")
# Two vertices and a net of two keys.
HEAD = "place a 0 0 1\nplace b 1 0 18\nkeys n 00000000 fffffffe\n"


def written(report):
    """A report as the program writes it, but for the kind of its last line."""
    plan = report.plan
    yield from (f"place {it.vertex} {it.x} {it.y} {it.core}" for it in plan.places.values())
    yield from (f"keys {it.net} {it.key:08x} {it.mask:08x}" for it in plan.keys.values())
    for table in plan.tables.values():
        yield f"table {table.x} {table.y} {len(table.rows)}"
        yield from (f"{row.key:08x} {row.mask:08x} {row.route:06x}" for row in table.rows)
    yield from (f"event {i + 1} {'moved' if moved else 'idle'}" for i, moved in enumerate(report.moved))
    for it in report.deliveries:
        yield f"got {it.vertex} {it.packet} {it.key:08x} {'-' if it.payload is None else f'{it.payload:08x}'}"
    yield from (f"dump {it.x} {it.y} {it.out} {it.packet}" for it in report.dumps)
    yield from (f"wait {it.packet} at {it.x} {it.y} {it.kind} {it.at}" for it in report.waiting)


def ends(report):
    """The last lines that the report may have."""
    counts = len(report.deliveries), len(report.dumps), len(report.waiting), report.unsent
    return f"end rows {report.plan.rows}", "end delivered {} dumped {} waiting {} unsent {}".format(*counts)


def spoiled(text):
    """The text with one character left out, doubled or replaced, or a line left out, doubled, or swapped with the next."""
    for at in range(len(text)):
        for new in ("", text[at] * 2, "0", "9", "f", "E", " ", "\n", "\x0b", "-"):
            yield text[:at] + new + text[at + 1:]
    lines = text.splitlines(keepends=True)
    for at in range(len(lines)):
        yield "".join(lines[:at] + lines[at + 1:])
        yield "".join(lines[:at] + lines[at:at + 1] * 2 + lines[at + 1:])
        yield "".join(lines[:at] + lines[at:at + 2][::-1] + lines[at + 2:])


class Whole(unittest.TestCase):
    def texts(self):
        return [(name, (EXAMPLES / f"{name}.report").read_text()) for name in THREE]

    def test_a_report_that_is_cut_off(self):
        for name, text in self.texts():
            read(text)
            for at in range(len(text)):
                with self.assertRaisesRegex(ValueError, r"^line \d+", msg=f"{name} cut at {at}"):
                    read(text[:at])

    def test_a_report_that_is_spoiled_is_refused_or_read_as_it_stands(self):
        for name, text in self.texts():
            for other in spoiled(text):
                try:
                    report = read(other)
                except ValueError as error:
                    self.assertRegex(str(error), r"^line \d+")
                else:
                    *lines, last = other.splitlines()
                    self.assertEqual(list(written(report)), lines, name)
                    self.assertIn(last, ends(report))

    def test_lines_that_are_in_no_report(self):
        end = "end delivered 0 dumped 0 waiting 0 unsent 0\n"
        for text, told in (
            ("", "line 1: nothing is there"),
            ("end rows 1\n", r"line 1 is 'end rows 1': before it are 0"),
            (end + end, "line 2 is .*: it comes behind the last line"),
            ("end rows 0\n" + end, "line 2 is .*: it comes behind the last line"),
            (HEAD + "got a 0 00000001 -\n" + end, "line 5 is .*: before it are 1, 0, 0"),
            (HEAD + "got a 0 00000001 -\nend rows 0\n", "line 5 is .*: so ends the text of tables"),
            ("table 0 0 2\n00000000 ffffffff 000001\nend rows 1\n", "line 3 is 'end rows 1': it is no row"),
            ("table 0 0 2\n00000000 ffffffff 000001\n", "line 3 is not there: the report was cut off"),
            ("table 0 0 0\nend rows 0\n", "line 1 is .*: a line of table has another form"),
            ("table 0 1 1\n00000000 ffffffff 000001\ntable 0 0 1\n", "line 3 is 'table 0 0 1': the chip does not come after"),
            ("keys n 00000000 ffffffff\nplace a 0 0 1\n", "line 2 is .*: it comes behind a line of keys"),
            ("place a 0 0 1\nplace a 0 0 2\n", "line 2 is .*: the name stands in a line before it"),
            ("place a 0 0\n" + end, "line 1 is .*: a line of place has another form"),
            ("event 2 moved\n" + end, "line 1 is .*: it should be event 1"),
            ("bad job: not json\n", "line 1 is .*: no line of a report begins so"),
            ("end rows 0", "line 1 is 'end rows 0': it has no end"),
        ):
            with self.assertRaisesRegex(ValueError, told):
                read(text)

    def test_each_report_of_the_program_is_read(self):
        count = 0
        for words in sorted(EXAMPLES.glob("*.words")):
            text = words.with_suffix(".report").read_text(errors="replace")
            if words.read_text().strip() in ("run", "reinject", "trace", "tables") and words.with_suffix(".status").read_text().strip() == "0":
                count += 1
                self.assertEqual(list(written(read(text))), text.splitlines()[:-1], words.name)
        self.assertGreater(count, 20)

    def test_lines_out_of_their_order(self):
        ends = "end delivered {} dumped {} waiting {} unsent 0\n"
        for last, lines in (
            ("2 0 0", ["got a 0 00000000 -", "got b 0 00000000 -"]),
            ("2 0 0", ["got b 0 00000000 -", "got a 1 00000001 00000007"]),
            ("0 2 0", ["dump 0 0 E 1", "dump 0 0 S 1"]), ("0 2 0", ["dump 0 0 S 1", "dump 0 0 c1 1"]), ("0 2 0", ["dump 0 0 c2 1", "dump 0 0 c10 1"]),
            ("0 2 0", ["dump 0 1 E 1", "dump 1 0 E 1"]), ("0 2 0", ["dump 1 0 E 1", "dump 0 0 E 2"]), ("0 2 0", ["dump 9 0 E 2", "dump 10 0 E 2"]),
            ("0 0 2", ["wait 1 at 0 0 in S", "wait 1 at 0 0 in L"]), ("0 0 2", ["wait 1 at 0 0 in L", "wait 1 at 0 0 hand E"]),
            ("0 0 2", ["wait 1 at 0 0 hand S", "wait 1 at 0 0 hand c0"]), ("0 0 2", ["wait 1 at 0 0 hand c3", "wait 1 at 0 0 core 1"]),
            ("0 0 2", ["wait 1 at 0 0 core 1", "wait 1 at 1 0 core 18"]), ("0 0 2", ["wait 1 at 3 0 in E", "wait 2 at 0 0 in E"]),
        ):
            end = ends.format(*last.split())
            read(HEAD + "\n".join([*lines, end]))
            for other in (lines[::-1], lines[:1] * 2):
                with self.assertRaisesRegex(ValueError, f"line 5 is '{other[1]}': it does not come after the line"):
                    read(HEAD + "\n".join([*other, end]))

    def test_lines_that_no_program_writes(self):
        end = "end delivered 0 dumped 0 waiting 0 unsent 0\n"
        for line, told in (
            ("place c 0 0 0", "cores 1 to 17"), ("place c 0 0 24", "cores 1 to 17"), ("place c 64 0 1", "no machine has a chip"),
            ("place c 0 64 1", "no machine has"), ("place c 0 0 1", "stands there"), ("keys m 00000001 fffffffe", "outside the mask"),
            ("keys m 00000000 00000001", "not ones followed by zeros"), ("keys m 00000000 fffffffd", "not ones followed by zeros"),
            ("keys m 00000001 ffffffff", "has some of these keys"), ("keys m 00000000 00000000", "has some of these keys"),
            ("table 64 0 1", "no machine has a chip"), ("table 0 0 1025", "1,024 entries"), ("got c 0 00000000 -", "no line of place has this vertex"),
            ("got a 0 00000002 -", "no net has this key"), ("dump 0 64 E 0", "no machine has a chip"), ("wait 0 at 64 0 in E", "no machine has a chip"),
            ("wait 0 at 0 0 core 2", "no vertex stands there"), ("wait 0 at 1 0 core 1", "no vertex stands there"),
        ):
            head = HEAD.rpartition("keys")[0] if line.startswith("place") else HEAD
            with self.assertRaisesRegex(ValueError, f"^line {head.count(chr(10)) + 1} is '{line}': .*{told}"):
                read(f"{head}{line}\n{end}")
        for row, told in (("00000001 fffffffe 000001", "outside the mask"), ("00000000 ffffffff 000000", "the route is 0")):
            with self.assertRaisesRegex(ValueError, f"^line 5 is '{row}': .*{told}"):
                read(f"{HEAD}table 0 0 1\n{row}\n{end}")
        read(HEAD + "keys m 00000002 ffffffff\nkeys o 80000000 80000000\ntable 63 63 1\n00000000 00000000 ffffff\n" + end)

    def test_a_broken_report_gives_no_picture(self):
        with tempfile.TemporaryDirectory() as folder:
            file, out = Path(folder, "report"), Path(folder, "out")
            for name, text in self.texts():
                known = {"kind": "copies", "job": EXAMPLES / f"{name}.json", "output": file, "out": out, "net": None, "program": None}
                options = argparse.Namespace(**known, png=False, lenient=False)
                file.write_text(text)
                self.assertEqual(draw_command.run(options), 0)
                out.unlink()
                for other in [text[:at] for at in range(len(text))] + list(spoiled(text))[::41]:
                    file.write_text(other)
                    try:
                        draw_command.run(options)
                        out.unlink()
                    except Stopped as stopped:
                        self.assertEqual((stopped.status, out.exists()), (4, False))

    def test_the_picture_of_a_broken_report_by_the_script(self):
        script = EXAMPLES.parent / "tools" / "picture.py"
        if not script.exists():
            self.skipTest("there is no tools/picture.py")
        with tempfile.TemporaryDirectory() as folder:
            file, job = Path(folder, "report"), EXAMPLES / "short_tables.json"
            text = (EXAMPLES / "short_tables.report").read_text()
            for there, is_drawn in ((text, True), (text[:-1], False), (text[:60], False), ("", False)):
                file.write_text(there)
                done = subprocess.run([sys.executable, script, "rows", job, file], capture_output=True, text=True, check=False)
                ended = done.returncode, done.stdout.startswith("<svg"), done.stderr.count("\n")
                self.assertEqual(ended, (0, True, 0) if is_drawn else (1, False, 1))
            for what in (f"{folder}/nowhere", folder, EXAMPLES / "image.report"):
                done = subprocess.run([sys.executable, script, "rows", job, what], capture_output=True, text=True, check=False)
                self.assertEqual((done.returncode, done.stdout, done.stderr.count("\n")), (1, "", 1))

    def test_files_that_are_no_report(self):
        for what in ("/nowhere", EXAMPLES, EXAMPLES / "image.report"):
            status, picture, told = called("draw", "mesh", EXAMPLES / "one_chip.json", what)
            self.assertEqual((bool(status), picture, told.count("\n")), (True, b"", 1))


class Answers(unittest.TestCase):
    def test_fewer_lines_than_steps(self):
        steps = [("load", 1, {}), ("unload", 1)]
        self.assertEqual(read_answers("load 1 ok\nunload 1 got 1 dumped 0\n", steps), [Loaded(1), Unloaded(1, 1, 0)])
        for text, told in (
            ("", "line 1: there are 0 lines for 2 steps"),
            ("load 1 ok\n", "line 2: there are 1 lines for 2 steps, and the last is 'load 1 ok'"),
            ("load 1 ok\nunload 1 got 1 dumped 0\nrun\n", "line 3: there are 3 lines for 2 steps"),
            ("load 1 ok\nunload 1 got 1 dumped 0", "line 2 is 'unload 1 got 1 dumped 0': it has no end"),
            ("load 1 ok\nload 1 ok\n", r"line 2 is 'load 1 ok': it answers no step"),
            ("load 2 ok\nunload 1 not loaded\n", r"line 1 is 'load 2 ok': it answers no step \('load', 1\)"),
        ):
            with self.assertRaisesRegex(ValueError, told):
                read_answers(text, steps)


class Shown(unittest.TestCase):
    def test_a_refusal_shows_the_beginning_of_a_long_member(self):
        names = [f"v{i}" for i in range(1000)]
        refused = Refused(4, "bad job: shape job.graph.nets[0].targets", {"job": {"graph": {"nets": [{"targets": names}]}}})
        self.assertEqual(refused.member, names)
        self.assertLess(len(str(refused)), 300)

    def test_keys_are_shown_as_in_lines(self):
        self.assertEqual(repr(Keys("n", 0x1010, 0xFFFFFFF0)), "Keys(net='n', key=0x00001010, mask=0xfffffff0)")
        self.assertEqual(repr(Row(0, 0xFFFFFFFF, 0x80)), "Row(key=0x00000000, mask=0xffffffff, route=0x000080)")
        self.assertEqual(repr(Delivery("a", 1, 2, None)), "Delivery(vertex='a', packet=1, key=0x00000002, payload=None)")
        self.assertEqual(eval(repr(Row(1, 2, 3))), Row(1, 2, 3))
        self.assertEqual(repr(Place("a", 0, 0, 1)), "Place(vertex='a', x=0, y=0, core=1)")


if __name__ == "__main__":
    unittest.main()
