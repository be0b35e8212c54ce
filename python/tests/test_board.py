"""The loaders of python/examples, without a board: the calls that they make, and what is said of what was read back."""
import contextlib
import io
import os
import shutil
import subprocess
import sys
import tempfile
import unittest
from pathlib import Path

from kulzobad import Job, tables
from kulzobad.formats import write_router_entries
from kulzobad.program import program_of

HERE = Path(__file__).resolve().parents[1] / "examples"
EXAMPLES = HERE.parents[1] / "examples"
BOARD = HERE.parents[1] / "docs" / "pictures" / "board.json"
sys.path.insert(0, str(HERE))

import load_by_rig  # noqa: E402
import load_by_sark  # noqa: E402
import load_by_spinnman  # noqa: E402
import on_board  # noqa: E402

LOADERS = (load_by_spinnman, load_by_rig, load_by_sark)

# SARK for a test: it writes its calls, and the chip is the first word behind the program.
SARK = """
#include <stdio.h>
#include <stdlib.h>
typedef unsigned int uint;
static uint chip, next = 1, refused = 9999;
static uint rtr_alloc (uint size) { printf ("rtr_alloc %u\\n", size); next += size; return next > 1024 ? 0 : next - size; }
static uint rtr_mc_set (uint entry, uint key, uint mask, uint route)
{ printf ("rtr_mc_set %u %08x %08x %06x\\n", entry, key, mask, route); return entry != refused; }
static uint sark_chip_id (void) { return chip; }
"""
MAIN = """
int main (int count, char **words)
{ chip = strtoul (words[1], 0, 16); if (count > 2) refused = atoi (words[2]); return load_tables () == 1 ? 0 : 1; }
"""


def called(loader, *words):
    """The status of a loader, what it wrote, and what it told on standard error."""
    out, told = io.StringIO(), io.StringIO()
    with contextlib.redirect_stdout(out), contextlib.redirect_stderr(told):
        try:
            status = loader.main([str(word) for word in words])
        except SystemExit as ended:
            status = ended.code
    return status, out.getvalue(), told.getvalue()


def job_of(file):
    return Job.from_text(file.read_text())


class Loaders(unittest.TestCase):
    def test_what_is_loaded_is_read_back_and_right(self):
        for loader in LOADERS:
            for file in (EXAMPLES / "one_chip.json", EXAMPLES / "device.json", EXAMPLES / "torus_back.json", BOARD):
                plan = tables(job_of(file))
                counts = f"{plan.rows} row{'s' * (plan.rows != 1)} of {len(plan.tables)} chip{'s' * (len(plan.tables) != 1)}"
                self.assertEqual(called(loader, file), (0, f"read back: {counts}\nright\n", ""), (loader, file))

    def test_the_calls_are_those_of_the_tools(self):
        shown = {loader: called(loader, EXAMPLES / "image.json", "--show", "--app", 77)[1].splitlines()[:-2] for loader in LOADERS}
        plan = tables(job_of(EXAMPLES / "image.json"))
        at = sorted(plan.tables)
        self.assertEqual(shown[load_by_spinnman], [
            *(f"load_multicast_routes({x}, {y}, {len(plan.tables[x, y].rows)} routes, 77)" for x, y in at),
            *(f"get_multicast_routes({x}, {y}, 77)" for x, y in at)])
        self.assertEqual(shown[load_by_rig], [
            f"load_routing_tables({{{len(at)} chips, {plan.rows} entries}}, 77)", *(f"get_routing_table_entries({x}, {y})" for x, y in at)])
        self.assertEqual(shown[load_by_sark], [line for chip in at for line in (
            f"rtr_alloc({len(plan.tables[chip].rows)})",
            *(f"rtr_mc_set({1 + i}, 0x{row.key:08x}, 0x{row.mask:08x}, 0x{row.route:06x})" for i, row in enumerate(plan.tables[chip].rows)))])

    def test_entries_are_those_of_the_routers_own_bytes(self):
        # (16 bytes an entry, from the same tables: key, mask and route are the same by all ways)
        plan = tables(job_of(BOARD))
        for chip, data in write_router_entries(plan.tables).items():
            words = [[int.from_bytes(data[at + i:at + i + 4], "little") for i in (8, 12, 4)] for at in range(0, len(data), 16)]
            for loader in (load_by_spinnman, load_by_rig):
                entries = [loader.entry_of(row) for row in plan.tables[chip].rows]
                self.assertEqual([list(loader.row_of(it)) for it in entries], words)

    def test_a_board_that_loses_or_changes_an_entry_is_found_out(self):
        network = on_board.compiled(EXAMPLES / "short_tables.json")
        found = 0
        for loader, dry in ((load_by_spinnman, load_by_spinnman.DryTransceiver), (load_by_rig, load_by_rig.DryController)):
            for spoil in (lambda rows: rows[:-1], lambda rows: [(key, mask, route << 1) for key, mask, route in rows], lambda rows: []):
                board = dry()
                loader.load(board, network.tables, 30)
                rows = loader.read_back(board, network.tables, 30)
                chip = (0, 0)
                rows[chip] = spoil(rows[chip])
                with contextlib.redirect_stdout(io.StringIO()) as told:
                    self.assertEqual(on_board.told(network, rows), 20)
                self.assertNotIn("right\n", told.getvalue())
                found += 1
            # (entries of another application are not read back)
            board = dry()
            loader.load(board, network.tables, 31)
            self.assertEqual(sum(map(len, loader.read_back(board, network.tables, 30).values())), 0)
        self.assertEqual(found, 6)

    def test_what_cannot_be_loaded(self):
        for loader in LOADERS:
            told = "chip (0, 0) has 1024 rows, and 1023 can be loaded: give the job a smaller run.target\n"
            self.assertEqual(called(loader, EXAMPLES / "full_router.json"), (4, "", told))
            self.assertEqual(called(loader, EXAMPLES / "no_room.json"), (5, "", "no room: v17\n"))
            self.assertEqual(called(loader, "/nowhere")[:2], (4, ""))
            for number in ("15", "256", "x", "-1", "1e2"):
                self.assertEqual(called(loader, EXAMPLES / "one_chip.json", "--app", number)[:2], (2, ""))
        router = load_by_sark.DryRouter((0, 0))
        network = on_board.compiled(EXAMPLES / "one_chip.json")
        self.assertFalse(load_by_sark.load(router, network.tables[0, 0] * 1024))
        self.assertEqual(router.entries, {})

    def test_as_scripts(self):
        environment = {**os.environ, "KULZOBAD_SPIN": os.path.realpath(program_of())}
        for loader in LOADERS:
            words = [sys.executable, Path(loader.__file__).name, EXAMPLES / "one_chip.json"]
            done = subprocess.run(words, cwd=HERE, env={**environment, "PYTHONPATH": os.pathsep.join(sys.path)}, capture_output=True, text=True, check=False)
            self.assertEqual((done.returncode, done.stdout, done.stderr), (0, "read back: 1 row of 1 chip\nright\n", ""))

    @unittest.skipUnless(shutil.which("cc"), "there is no cc")
    def test_the_c_makes_the_calls_of_the_dry_run(self):
        with tempfile.TemporaryDirectory() as folder:
            name = f"{folder}/a*/b.json"
            os.mkdir(f"{folder}/a*")
            shutil.copy(BOARD, name)
            self.assertEqual(called(load_by_sark, name, "--board", f"{folder}/tables.c"), (0, "", ""))
            Path(folder, "sark.h").write_text(SARK)
            Path(folder, "main.c").write_text(f'#include "tables.c"\n{MAIN}')
            words = ["cc", "-Wall", "-Werror", "-I", folder, "-o", f"{folder}/loader", f"{folder}/main.c"]
            done = subprocess.run(words, capture_output=True, text=True, check=False)
            self.assertEqual((done.returncode, done.stderr), (0, ""))
            plan = tables(job_of(BOARD))
            for x, y in [*sorted(plan.tables), (7, 0)]:
                rows = plan.tables[x, y].rows if (x, y) in plan.tables else ()
                wanted = [f"rtr_alloc {len(rows)}"] * bool(rows)
                wanted += [f"rtr_mc_set {1 + i} {row.key:08x} {row.mask:08x} {row.route:06x}" for i, row in enumerate(rows)]
                done = subprocess.run([f"{folder}/loader", f"{x << 8 | y:x}"], capture_output=True, text=True, check=False)
                self.assertEqual((done.returncode, done.stdout.splitlines()), (0, wanted))
            # (an entry that is not set is told)
            done = subprocess.run([f"{folder}/loader", "0", "1"], capture_output=True, text=True, check=False)
            self.assertEqual(done.returncode, 1)


if __name__ == "__main__":
    unittest.main()
