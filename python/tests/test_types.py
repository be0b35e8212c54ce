"""The package's types, as mypy sees them; and those of a program that uses it."""
import shutil
import subprocess
import tempfile
import unittest
from pathlib import Path

import kulzobad

PACKAGE = Path(kulzobad.__file__).resolve().parent
PROGRAM = """
from kulzobad import Job, Machine, Net, Vertex, run, verify
from kulzobad.links import Links
from kulzobad.reports import Delivery
from kulzobad.verifying import KeyedNet

machine = Machine(2, 1, dead_links=[(0, 0, "NE"), (1, 0, Links.S), (1, 0, 2)])
job = Job(machine, [Vertex("a"), Vertex("b", device=(1, 0, "N"))], [Net("n", "a", ["b"])])
first: Delivery = run(job).deliveries[0]
payload: int = first.payload  # (may be None)
is_right: bool = bool(verify(machine, {"a": (0, 0, 1), "b": (1, 0, "N")}, [KeyedNet("n", "a", ["b"], [(0, 0)])], {(0, 0): [(0, 0, 1)]}))
"""


@unittest.skipUnless(shutil.which("mypy"), "there is no mypy")
class Types(unittest.TestCase):
    def faults(self, *files):
        """What `mypy --strict` writes of files."""
        with tempfile.TemporaryDirectory() as cache:
            words = ["mypy", "--strict", "--python-version", "3.9", "--cache-dir", cache, "--no-error-summary", *map(str, files)]
            done = subprocess.run(words, capture_output=True, text=True, check=False, cwd=PACKAGE.parent)
        return [line for line in (done.stdout + done.stderr).splitlines() if ": note: " not in line]

    def test_the_package_is_clean(self):
        self.assertEqual(self.faults(PACKAGE), [])

    def test_a_program_that_uses_it(self):
        with tempfile.TemporaryDirectory() as room:
            file = Path(room) / "used.py"
            file.write_text(PROGRAM)
            found = self.faults(file)
        self.assertEqual([it.partition(": error: ")[0].rpartition(":")[2] for it in found], ["10"], found)


if __name__ == "__main__":
    unittest.main()
