"""Runs the commands of README.md and of each document of docs/ that has some, and compares what they write with what stands there.

    python3 tools/doc_check.py [--write] [PROGRAM]

PROGRAM is ./spin where none is named. With --write the outputs in docs/guide.md, and its pictures, are made anew. Those of all
others are worked out by hand from docs/formats.md, and always only compared. Each difference is printed. The last line is
'N passed, M failed', and the status 1 where one failed.

Each document has a folder of its own, in which `spin` is PROGRAM and all else is the repository's. The commands of docs/guide.md are
given in an empty folder beside it, with the folder's path in KULZOBAD, and PATH and PYTHONPATH as the guide sets them. The parts of a
document that count, in order:

    ```json row.json            a block with a file's name is written to that file
    ```console                  a line `$ COMMAND` is run by sh; the lines behind it are what it writes
    ```console in a new clone   the same, in a clone without a build, on a machine without the toolchain
    <!-- a.svg is docs/b.svg -->    the first file, made before, has the bytes of the second

Commands that are not to be run here, as those of the toolchain, stand in blocks of another kind: ```sh or ```text.

A command has to end with status 0, unless the next one is `echo $?`, and to write nothing to standard error. One line `...`
stands for at least two lines of output that are left out; --write leaves as many lines before and after it as there were.
"""
import os
import re
import shutil
import subprocess
import sys
import tempfile

ROOT = os.path.dirname(os.path.dirname(os.path.realpath(__file__)))
MADE = "docs/guide.md"
CUT = "..."
MOST_SECONDS = 1000
# What the launcher needs beside the toolchain.
TOOLS = ("cat", "dirname", "find", "readlink", "sh")


def documents():
    """README.md, and the documents of docs/ that have a command with its output."""
    for file in ("README.md", *(f"docs/{it}" for it in sorted(os.listdir(f"{ROOT}/docs")) if it.endswith(".md"))):
        with open(f"{ROOT}/{file}", encoding="utf-8") as text:
            if re.search(r"^```console", text.read(), re.M):
                yield file


def folder_of(room, program):
    """The folder for a document's commands."""
    folder = f"{room}/repository"
    os.mkdir(folder)
    for name in os.listdir(ROOT):
        if name not in ("spin", "out", ".git"):
            os.symlink(f"{ROOT}/{name}", f"{folder}/{name}")
    os.symlink(program, f"{folder}/spin")
    return folder


def new_clone(room):
    """A folder with the launcher, and one with the tools that it needs but for the toolchain."""
    folder, path = f"{room}/new", f"{room}/path"
    if not os.path.isdir(folder):
        os.makedirs(f"{folder}/tools")
        os.mkdir(path)
        os.symlink(f"{ROOT}/examples", f"{folder}/examples")
        for name in ("spin", "tools/compile.py"):
            shutil.copy(f"{ROOT}/{name}", f"{folder}/{name}")
        os.symlink(os.path.realpath(sys.executable), f"{path}/python3")
        for name in TOOLS:
            os.symlink(os.path.realpath(shutil.which(name)), f"{path}/{name}")
    return folder, path


def shortened(lines, as_before):
    """The lines, cut where the lines of before were cut."""
    if CUT not in as_before:
        return lines
    head = as_before.index(CUT)
    tail = len(as_before) - head - 1
    return lines if len(lines) < head + tail + 2 else [*lines[:head], CUT, *lines[len(lines) - tail:]]


class Document:
    """A document that is gone through once: its lines as they should be, and what was found."""

    def __init__(self, file, room, program, is_made):
        self.file, self.room, self.is_made = file, room, is_made
        self.environment = {**os.environ, "KULZOBAD_SPIN": program, "PYTHONDONTWRITEBYTECODE": "1"}
        self.folder = folder_of(room, program)
        if file == MADE:
            path = {"KULZOBAD": self.folder, "PATH": f"{self.folder}:{os.environ['PATH']}", "PYTHONPATH": f"{self.folder}/python"}
            self.environment.update(path)
            self.folder = f"{room}/own"
            os.mkdir(self.folder)
        self.lines, self.passed, self.failed, self.status = [], 0, 0, 0

    def note(self, place, what, *told):
        """Counts a check, which has failed where something is told."""
        if told:
            self.failed += 1
            print("\n  ".join([f"FAILED: {self.file}:{place}: {what}", *told]))
        else:
            self.passed += 1

    def go(self):
        with open(f"{ROOT}/{self.file}", encoding="utf-8") as text:
            lines = text.read().split("\n")
        at = 0
        while at < len(lines):
            opened, same = re.fullmatch(r"```(\w+)(?: (.+))?", lines[at]), re.fullmatch(r"<!-- (\S+) is (\S+) -->", lines[at])
            self.lines.append(lines[at])
            at += 1
            if same:
                self.compare(at, *same.groups())
            if opened:
                end = lines.index("```", at)
                self.block(at + 1, *opened.groups(), lines[at:end])
                self.lines.append("```")
                at = end + 1
        if self.is_made:
            with open(f"{ROOT}/{self.file}", "w", encoding="utf-8") as text:
                text.write("\n".join(self.lines))

    def block(self, place, kind, name, lines):
        if kind == "console":
            return self.console(place, name, lines)
        if name:
            with open(f"{self.folder}/{name}", "w", encoding="utf-8") as text:
                text.write("\n".join([*lines, ""]))
        self.lines += lines

    def console(self, place, where, lines):
        folder, environment = self.folder, self.environment
        if where:
            folder, path = new_clone(self.room)
            environment = {**environment, "PATH": path}
        starts = [i for i, line in enumerate(lines) if line.startswith("$ ")]
        if not starts or starts[0]:
            self.note(place, "a block of commands begins with '$ '", *lines[:1])
        self.status = 0
        for start, end in zip(starts, [*starts[1:], len(lines)]):
            is_told = end < len(lines) and lines[end] == "$ echo $?"
            self.lines.append(lines[start])
            self.lines += self.command(place + start, folder, environment, lines[start][2:], lines[start + 1:end], is_told)

    def command(self, place, folder, environment, command, wanted, is_told):
        """Runs a command, and gives the lines that stand behind it."""
        # (a command sees the status of the one before it)
        words = ["sh", "-c", f"(exit {self.status}); {command}"]
        done = subprocess.run(words, cwd=folder, env=environment, stdin=subprocess.DEVNULL, capture_output=True, timeout=MOST_SECONDS)
        self.status = done.returncode
        text, told = done.stdout.decode(errors="backslashreplace"), []
        *given, rest = text.split("\n")
        if rest:
            given.append(rest)
            told.append("the last line has no end")
        given = shortened(given, wanted)
        if given != wanted and not self.is_made:
            told += ["wanted", *[f"  {it}" for it in wanted], "given", *[f"  {it}" for it in given]]
        if self.status and not is_told:
            told.append(f"it ends with status {self.status}")
        if done.stderr:
            told.append(f"standard error: {done.stderr.decode(errors='backslashreplace')}")
        self.note(place, command, *told)
        return given if self.is_made else wanted

    def compare(self, place, made, kept):
        if self.is_made:
            shutil.copy(f"{self.folder}/{made}", f"{ROOT}/{kept}")
        with open(f"{self.folder}/{made}", "rb") as first, open(f"{ROOT}/{kept}", "rb") as second:
            self.note(place, f"{made} is {kept}", *([] if first.read() == second.read() else ["they differ"]))


def main(words):
    is_made = "--write" in words
    program = os.path.realpath(next((it for it in words if not it.startswith("--")), f"{ROOT}/spin"))
    passed = failed = 0
    for file in documents():
        with tempfile.TemporaryDirectory(prefix="doc-check-") as room:
            document = Document(file, room, program, is_made and file == MADE)
            document.go()
        passed, failed = passed + document.passed, failed + document.failed
    print(f"{passed} passed, {failed} failed")
    return 1 if failed else 0


if __name__ == "__main__":
    sys.exit(main(sys.argv[1:]))
