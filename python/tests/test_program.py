"""How the program is found and called, what is shown meanwhile, and how the package is built."""
import base64
import contextlib
import email
import hashlib
import io
import json
import os
import pty
import re
import select
import shutil
import subprocess
import sys
import tarfile
import tempfile
import time
import unittest
import zipfile
from pathlib import Path

import kulzobad
from kulzobad import Job, Machine, Refused, gen, run
from kulzobad.program import NoProgram, program_of
from kulzobad.progress import is_shown, several, showing, speak
from kulzobad.versions import VERSION, version_text
from tests.test_cli import called

PACKAGE = Path(kulzobad.__file__).parent

try:
    import building
except ImportError:
    # (an installed copy has not what builds it)
    building = None


def elsewhere(folder, words, **environment):
    """A command of a copy of the package that lies in no clone."""
    shutil.copytree(PACKAGE, f"{folder}/kulzobad", ignore=shutil.ignore_patterns("__pycache__", "compiled"), dirs_exist_ok=True)
    known = {**{name: value for name, value in os.environ.items() if name != "KULZOBAD_SPIN"}, **environment}
    return subprocess.run([sys.executable, *words], cwd=folder, env=known, stdin=subprocess.DEVNULL, capture_output=True, text=True, check=False)


class Found(unittest.TestCase):
    def test_without_a_program_one_sentence_says_what_to_set(self):
        with tempfile.TemporaryDirectory() as folder:
            done = elsewhere(folder, ["-m", "kulzobad", "gen", "1"])
            self.assertEqual((done.returncode, done.stdout), (127, ""))
            what = "set KULZOBAD_SPIN to the path of spin, as in KULZOBAD_SPIN=/path/to/clone/spin"
            self.assertEqual(done.stderr, f"kulzobad: there is no program to call: {what}\n")
            done = elsewhere(folder, ["-m", "kulzobad", "--version"])
            self.assertEqual((done.returncode, done.stdout.splitlines()[0]), (0, f"kulzobad {VERSION}"))
            self.assertIn("KULZOBAD_SPIN", done.stdout)
            done = elsewhere(folder, ["-c", "from kulzobad import gen; print(gen(7).rows)"], KULZOBAD_SPIN=os.path.realpath(program_of()))
            self.assertEqual((done.stdout, done.stderr), ("1258\n", ""))

    def test_a_program_that_cannot_be_started(self):
        with tempfile.TemporaryDirectory() as folder:
            text = Path(folder, "text")
            text.write_text("no program")
            for path in (f"{folder}/nowhere", folder, str(text)):
                with self.assertRaisesRegex(NoProgram, "can't be started: .*KULZOBAD_SPIN"):
                    gen(1, path)
                status, written, told = called("gen", "1", "--program", path)
                self.assertEqual((status, written, told.count("\n")), (127, b"", 1))

    def test_the_version(self):
        lines = version_text(program_of()).splitlines()
        self.assertEqual(lines[:2], [f"kulzobad {VERSION}", f"program {program_of()}"])
        self.assertEqual(called("--version")[0], 0)
        self.assertEqual(kulzobad.__version__, VERSION)

    def test_an_answer_that_is_not_whole(self):
        with tempfile.TemporaryDirectory() as folder:
            program = Path(folder, "spin")
            program.write_text("#!/bin/sh\ncat >/dev/null\necho place a 0 0 1\n")
            program.chmod(0o755)
            job = b'{"version":1,"machine":{"width":1,"height":1},"graph":{"vertices":[],"nets":[]}}'
            for words in (("tables", "--json"), ("compile", "--json"), ("check", "--json", "--lenient"), ("apps", "--json"), ("trees",), ("draw", "mesh")):
                status, written, told = called(*words, "-", "--program", program, given=job)
                self.assertEqual((status, written, told.count("\n")) if "--json" not in words else (status, json.loads(written)["refused"]["kind"], told),
                                 (70, b"", 1) if "--json" not in words else (70, "not whole", ""), words)
            self.assertEqual(called("gen", "1", "--json", "--program", program)[::2], (70, ""))

    def test_a_program_of_another_kind(self):
        with tempfile.TemporaryDirectory() as folder:
            program = Path(folder, "spin")
            bodies = {"exit 0": ValueError, "echo place a 0 0 1": ValueError, "kill -9 $$": Refused, "echo; exit 77": Refused}
            for body, error in bodies.items():
                program.write_text(f"#!/bin/sh\n{body}\n")
                program.chmod(0o755)
                with self.assertRaises(error):
                    run(Job(Machine(1, 1)), str(program))


class Terminal(io.StringIO):
    """Standard error that is a terminal."""

    def isatty(self):
        return True


class Shown(unittest.TestCase):
    def test_calls_are_counted(self):
        with contextlib.redirect_stderr(Terminal()) as told:
            self.assertTrue(is_shown())
            with several(2):
                for what in ("tables", "run"):
                    with showing(what) as tick:
                        tick()
            with showing("gen 1"):
                pass
        # (whatever the seconds are: a busy machine may take its time)
        shown = re.sub(r": \d+ s", ": 0 s", told.getvalue().replace("\r\x1b[K", "|"))
        self.assertEqual(shown, "|kulzobad: tables, 1 of 2: 0 s||kulzobad: run, 2 of 2: 0 s|")

    def test_work_of_python_is_shown_too_and_nothing_where_somebody_asked_for_quiet(self):
        for is_quiet, wanted in ((False, r"\A(\|kulzobad: page: ways of nets: \d+ s)+\|\Z"), (True, r"\A\Z")):
            with contextlib.redirect_stderr(Terminal()) as told:
                speak(is_quiet=is_quiet)
                try:
                    with showing("page"), showing("page: ways of nets"):
                        time.sleep(1.2)
                finally:
                    speak()
            self.assertRegex(told.getvalue().replace("\r\x1b[K", "|"), wanted)

    def test_each_command_is_shown_while_it_works(self):
        # (also while it waits for what it reads; a busy machine may take its time)
        kept, terminal = pty.openpty()
        try:
            words = [sys.executable, "-m", "kulzobad", "trees", "-"]
            with subprocess.Popen(words, cwd=PACKAGE.parent, stdin=subprocess.PIPE, stdout=subprocess.DEVNULL, stderr=terminal) as process:
                is_there = select.select([kept], [], [], 60)[0]
                process.communicate(b"[]")
            self.assertTrue(is_there)
            self.assertRegex(os.read(kept, 10000), rb"\A(\r\x1b\[Kkulzobad: trees: [1-9]\d* s)+\r\x1b\[K")
        finally:
            os.close(kept)
            os.close(terminal)

    def test_a_program_that_is_ended_by_a_signal(self):
        with tempfile.TemporaryDirectory() as folder:
            program = Path(folder, "spin")
            program.write_text("#!/bin/sh\nkill -9 $$\n")
            program.chmod(0o755)
            self.assertEqual(called("gen", "1", "--program", program), (137, b"", "signal\n  the program was ended by signal 9\n"))

    def test_long_work_is_shown_on_a_terminal_alone(self):
        with tempfile.TemporaryDirectory() as folder:
            program = Path(folder, "spin")
            program.write_text(f"#!/bin/sh\nsleep 1.3\nexec {program_of()} \"$@\"\n")
            program.chmod(0o755)
            words = [sys.executable, "-m", "kulzobad", "gen", "7", "--program", str(program)]
            kept, terminal = pty.openpty()
            try:
                on_terminal = subprocess.run(words, cwd=PACKAGE.parent, stdout=subprocess.PIPE, stderr=terminal, check=False)
                shown = os.read(kept, 10000)
            finally:
                os.close(kept)
                os.close(terminal)
            self.assertEqual((on_terminal.returncode, on_terminal.stdout.splitlines()[0]), (0, b"gen 7"))
            # (a busy machine may take longer, and show more seconds)
            self.assertRegex(shown, rb"\A(\r\x1b\[Kkulzobad: gen 7: [1-9]\d* s)+\r\x1b\[K\Z")
            elsewhere_ = subprocess.run(words, cwd=PACKAGE.parent, capture_output=True, check=False)
            self.assertEqual((elsewhere_.stdout, elsewhere_.stderr), (on_terminal.stdout, b""))


@unittest.skipIf(building is None, "the package is an installed one")
class Built(unittest.TestCase):
    def test_a_wheel_has_all_files_with_their_sums(self):
        with tempfile.TemporaryDirectory() as folder:
            name = building.build_wheel(folder)
            self.assertEqual(name, f"kulzobad-{VERSION}-py3-none-any.whl")
            with zipfile.ZipFile(f"{folder}/{name}") as wheel:
                files = {it: wheel.read(it) for it in wheel.namelist()}
            there = (it.relative_to(PACKAGE.parent) for it in PACKAGE.rglob("*") if it.is_file())
            package = {it.as_posix() for it in there if not {"__pycache__", "compiled"} & set(it.parts)}
            self.assertLess({"kulzobad/py.typed", "kulzobad/job.schema.json", "kulzobad/job.lenient.schema.json"}, package)
            self.assertEqual({it for it in files if it.startswith("kulzobad/")}, package)
            record = files.pop(f"kulzobad-{VERSION}.dist-info/RECORD").decode().splitlines()
            sums = {it: base64.urlsafe_b64encode(hashlib.sha256(data).digest()).rstrip(b"=").decode() for it, data in files.items()}
            told = [f"{it},sha256={sums[it]},{len(data)}" for it, data in files.items()]
            self.assertEqual(record, [*told, f"kulzobad-{VERSION}.dist-info/RECORD,,"])
            first = Path(folder, name).read_bytes()
            building.build_wheel(folder)
            self.assertEqual(Path(folder, name).read_bytes(), first)

    def test_what_the_package_says_of_itself(self):
        told = email.message_from_string(building.metadata())
        names = ("Name", "Version", "License", "Requires-Python")
        self.assertEqual(tuple(told[name] for name in names), ("kulzobad", VERSION, "Apache-2.0", ">=3.9"))
        self.assertIn("Typing :: Typed", told.get_all("Classifier"))
        self.assertTrue(told.get_payload().startswith("# kulzobad\n"))
        self.assertIn("Apache License", building.text_of("LICENSE"))

    def test_a_release_is_tagged(self):
        root = PACKAGE.parents[1]
        with tempfile.TemporaryDirectory() as folder:
            scripts = ("tools/release.py", "tools/proved.py", "tools/compile.py")
            for name in (*scripts, "python/building.py", "python/pyproject.toml", "CHANGELOG.md"):
                Path(folder, name).parent.mkdir(exist_ok=True)
                shutil.copy(root / name, Path(folder, name))
            Path(folder, ".gitignore").write_text("dist/\n__pycache__/\n")

            def git(*words):
                known = ["-c", "user.name=a", "-c", "user.email=a@b", "-c", "commit.gpgsign=false", "-c", "tag.gpgsign=false"]
                return subprocess.run(["git", *known, *words], cwd=folder, capture_output=True, text=True, check=True).stdout.strip()

            def tagged():
                known = {**os.environ, "GIT_AUTHOR_NAME": "a", "GIT_AUTHOR_EMAIL": "a@b", "GIT_COMMITTER_NAME": "a", "GIT_COMMITTER_EMAIL": "a@b"}
                words = [sys.executable, "tools/release.py", "--tag"]
                done = subprocess.run(words, cwd=folder, env=known, capture_output=True, text=True, check=False)
                return done.returncode, done.stdout

            git("init", "-q")
            git("add", "-A")
            git("commit", "-qm", "first")
            commit = git("rev-parse", "HEAD")
            self.assertEqual(tagged(), (1, f"FAILED: dist/ has no wheel of {VERSION}: make it by tools/release.py\n"))
            Path(folder, "dist").mkdir()
            for made_from, status in (("another", 1), (f"{commit} with changes", 1), (commit, 0), (commit, 1)):
                with zipfile.ZipFile(f"{folder}/dist/kulzobad-{VERSION}-py3-none-linux_x86_64.whl", "w") as wheel:
                    wheel.writestr("kulzobad/compiled/built.json", json.dumps({"commit": made_from}))
                self.assertEqual(tagged()[0], status, made_from)
            self.assertEqual((git("tag"), git("rev-parse", f"v{VERSION}^{{commit}}")), (f"v{VERSION}", commit))
            git("tag", "-d", f"v{VERSION}")
            Path(folder, "more").write_text("")
            self.assertEqual(tagged()[0], 1)
            Path(folder, "more").unlink()
            Path(folder, "CHANGELOG.md").write_text("# Changes\n\n## 0.1.0\n")
            self.assertEqual(tagged(), (1, f"FAILED: CHANGELOG.md has no part on {VERSION}\n"))

    def test_an_archive_of_sources_builds_the_same_wheel(self):
        with tempfile.TemporaryDirectory() as folder:
            with tarfile.open(f"{folder}/{building.build_sdist(folder)}") as archive:
                for entry in archive.getmembers():
                    self.assertTrue(entry.isfile() and entry.name.startswith(f"kulzobad-{VERSION}/"))
                    file = Path(folder, entry.name)
                    file.parent.mkdir(parents=True, exist_ok=True)
                    file.write_bytes(archive.extractfile(entry).read())
            name = building.build_wheel(folder)
            words = [sys.executable, "-c", "import building; print(building.build_wheel('.'))"]
            other = subprocess.run(words, cwd=f"{folder}/kulzobad-{VERSION}", capture_output=True, text=True, check=False)
            self.assertEqual((other.stdout, other.stderr), (f"{name}\n", ""))
            self.assertEqual(Path(folder, f"kulzobad-{VERSION}", name).read_bytes(), Path(folder, name).read_bytes())


if __name__ == "__main__":
    unittest.main()
