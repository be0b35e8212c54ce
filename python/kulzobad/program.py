"""Calls the program."""
from __future__ import annotations

import json
import os
import re
import subprocess
import time
from pathlib import Path
from typing import Any, Dict, Iterable, List, Mapping, Optional, Tuple, Union

from .applications import Answer, Step, read_answers
from .checks import Verdict, read_verdict
from .images import Image, decode
from .jobs import Chip, Job, part_at
from .kinds import items, links, mapping, one, shown, whole, wrong
from .progress import showing, tell
from .reports import Plan, Report, Summary, read, read_summary

REPOSITORY = Path(__file__).resolve().parents[2]
# The program inside a wheel of tools/release.py.
INSIDE = Path(__file__).resolve().with_name("compiled") / "spin"

# How many characters of a member a refusal shows.
MOST_SHOWN = 200

KINDS = {
    1: "usage", 2: "read fault", 3: "write fault", 4: "bad job", 5: "no room", 6: "keys out", 7: "cut off", 8: "table long",
    9: "out of memory", 11: "words", 125: "no build",
}


class Refused(Exception):
    """The program gave no output; `explain` says what stands behind it. `status` is its status and `kind` that status in words; for a
    bad job `fault` is what is wrong ("shape", "range", ..), `path` where, and `member` the part that stands there, of the job or, where
    the path begins with `in`, of what is to be checked. `name` is the vertex without room, or the net without keys or with a target
    that is cut off; `chip` the chip of that target, or the one whose table is too long, and `rows` how many rows that has. `text` is
    what the program read, and `parts` the values to which paths lead in it."""

    def __init__(self, status: int, line: str, parts: Optional[Mapping[str, Any]] = None, text: bytes = b"") -> None:
        self.status, self.line, self.text = status, line, text
        self.parts: Mapping[str, Any] = parts or {}
        self.kind = "signal" if status < 0 else KINDS.get(status, "unknown")
        self.fault: Optional[str] = None
        self.path: Optional[str] = None
        self.member: Any = None
        self.name: Optional[str] = None
        self.chip: Optional[Chip] = None
        self.rows: Optional[int] = None
        rest = line[len("bad job: "):].split(" ") if line.startswith("bad job: ") else []
        at = next((i for i, word in enumerate(rest) if re.match(r"(job|in)\b", word)), None)
        if at is not None:
            self.fault, self.path = " ".join(rest[:at]), rest[at]
            self.member = part_at(parts, self.path)
        named = re.fullmatch(r"(?:no room|keys out|cut off): (\S+)(?: (\d+) (\d+))?", line)
        if named:
            self.name = named[1]
            self.chip = (int(named[2]), int(named[3])) if named[2] else None
        long = re.fullmatch(r"table long: (\d+) (\d+) (\d+)", line)
        if long:
            self.chip, self.rows = (int(long[1]), int(long[2])), int(long[3])
        which = f", which is {shown(self.member, MOST_SHOWN)}" if self.member is not None else ""
        super().__init__(f"{line or self.kind} (status {status}){which}")


class NoProgram(FileNotFoundError):
    """There is no program to call, or it can't be started. The text says what to do."""


def program_of(program: Optional[str] = None) -> str:
    """The program to call: the one named, that of the variable KULZOBAD_SPIN, the one inside the package, or the launcher of the clone
    in which the package stands."""
    asked = program or os.environ.get("KULZOBAD_SPIN")
    if asked:
        return asked
    if INSIDE.is_file():
        return str(INSIDE)
    if (REPOSITORY / "spin").is_file() and (REPOSITORY / "crates.txt").is_file():
        return str(REPOSITORY / "spin")
    raise NoProgram("there is no program to call: set KULZOBAD_SPIN to the path of spin, as in KULZOBAD_SPIN=/path/to/clone/spin")


def call(words: List[str], text: bytes, program: Optional[str]) -> Tuple[int, bytes]:
    """The status of the program and what it wrote, for the words and the text that it reads."""
    path = program_of(program)
    begun = time.monotonic()
    try:
        with subprocess.Popen([path, *words], stdin=subprocess.PIPE, stdout=subprocess.PIPE) as process:
            try:
                status, written = communicate(process, words, text)
                tell(f"{path} {' '.join(words)}: status {status}, {len(text)} bytes in, {len(written)} out, {time.monotonic() - begun:.2f} s")
                return status, written
            except BaseException:
                process.kill()
                raise
    except OSError as error:
        if isinstance(error, BrokenPipeError):
            raise
        raise NoProgram(f"{path} can't be started: {error.strerror or error}; KULZOBAD_SPIN should be the path of spin") from None


def communicate(process: subprocess.Popen[bytes], words: List[str], text: bytes) -> Tuple[int, bytes]:
    """Hands the text in and waits for the end; on a terminal it is shown how long that takes."""
    # (the program of tables alone takes no words)
    with showing(" ".join(words) or "tables"):
        written, _ = process.communicate(text)
    return process.returncode, written


def answer(words: List[str], parts: Mapping[str, Any], program: Optional[str]) -> bytes:
    """What the program writes for the words and what they read: a request (`in`), else a job or steps (`job`), if they need one.
    Refused where its status is not 0."""
    handed_in = parts.get("in", parts.get("job"))
    return answer_to_text(words, b"" if handed_in is None else json.dumps(handed_in).encode(), program, parts)


def answer_to_text(words: List[str], text: bytes, program: Optional[str], parts: Optional[Mapping[str, Any]] = None) -> bytes:
    """What the program writes for the words where it reads this text. Refused where its status is not 0; `parts` are then the values
    to which paths lead, and those of the text where none are given."""
    status, written = call(words, text, program)
    if status:
        line = written.decode(errors="replace").rstrip("\n")
        raise Refused(status, line, parts_of(words, text) if parts is None else parts, text)
    return written


def parts_of(words: List[str], text: bytes) -> Mapping[str, Any]:
    """The values to which paths lead, of a text that may be no JSON."""
    try:
        value = json.loads(text)
    except (ValueError, RecursionError):
        return {}
    if words == ["check"]:
        return {"in": value, "job": value.get("job") if isinstance(value, dict) else None}
    return {"job": value}


def answer_to(word: str, job: Job, program: Optional[str]) -> bytes:
    """What the program writes for a word that reads a job."""
    return answer([word], {"job": one(f"{word}: job", job, Job).as_json()}, program)


def run(job: Job, program: Optional[str] = None) -> Report:
    """Compiles the job, on as many workers as it says, and runs its packets. Where the job's queues hold fewer copies than there
    are packets, some may be dropped; `dumps` of the report tells them."""
    return read(answer_to("run", job, program).decode())


def reinject(job: Job, program: Optional[str] = None) -> Report:
    """Compiles the job and runs its packets, and puts copies that were dropped back where they were, until each has arrived. The
    report is that of a run in which none is dropped."""
    return read(answer_to("reinject", job, program).decode())


def tables(job: Job, program: Optional[str] = None) -> Plan:
    """Compiles the job: where its vertices stand, which keys its nets have, and its tables."""
    return read(answer_to("tables", job, program).decode()).plan


def compile(job: Job, program: Optional[str] = None) -> Image:
    """Compiles the job: the image of its tables. `data` of the image is its bytes, for a loader."""
    return decode(answer_to("compile", job, program))


def trace(job: Job, program: Optional[str] = None) -> Report:
    """Compiles the job and takes its events one by one; `moved` of the report says of each whether it was enabled."""
    return read(answer_to("trace", job, program).decode())


def gen(number: int, program: Optional[str] = None) -> Summary:
    """Compiles and runs the job that the program makes of the number, from 0 to 2**64 - 1: a board of 48 chips with 200 vertices,
    300 nets and 1,200 packets."""
    return read_summary(answer(["gen", str(whole("gen: number", number))], {}, program).decode())


def apps(steps: Iterable[Step], program: Optional[str] = None) -> List[Answer]:
    """Does steps with applications on one machine (`load`, `unload`, `RUN`), one after the other, and gives the answer to each. A
    fault of any step is told before the first is done; its path begins with the step's place, as `job[0][2].graph`."""
    given = [items(f"apps: steps[{i}]", step, "a step") for i, step in enumerate(items("apps: steps", steps, "a list of steps"))]
    listed = [[part.as_json() if isinstance(part, Job) else part for part in step] for step in given]
    return read_answers(answer(["apps"], {"job": listed}, program).decode(), listed)


def check(
    job: Job,
    trees: Mapping[str, Iterable[Tuple[int, int, int]]],
    image: Union[Image, bytes],
    program: Optional[str] = None,
) -> Verdict:
    """Whether the tables of an image, whoever made them, route each key of each net by the net's tree. `trees` has, by the names
    of nets, the links of each tree in any order, as (x, y, link); a net that it has not is one without links. Vertices and keys are
    placed as for `tables`; of `run` of the job nothing counts."""
    one("check: job", job, Job)
    unknown = set(mapping("check: trees", trees, "nets' names to lists of links")) - {net.name for net in job.nets}
    if unknown:
        raise ValueError(f"trees of nets that the job has not: {', '.join(sorted(map(str, unknown)))}")
    data = image.data if isinstance(image, Image) else image
    if not isinstance(data, (bytes, bytearray, memoryview)):
        raise wrong("check: image", image, "an Image or its bytes")
    request: Dict[str, Any] = {"job": job.as_json(), "image": list(data)}
    listed = (links(f"check: trees[{net.name!r}]", trees.get(net.name, ())) for net in job.nets)
    request["trees"] = [[list(link) for link in links] for links in listed]
    return read_verdict(answer(["check"], {"job": request["job"], "in": request}, program).decode())
