"""Holds the schemas of jobs to the program's own answers, by a stock validator (the Python package jsonschema).

    python3 tools/schema_check.py [--write]

Each job that the table of faults (examples/faults/faults.json) or examples/ says is accepted has to be valid by the lenient schema,
and each that it says has a shape or range fault has to be invalid, but for what a schema can't say (the schemas list it). By the
strict schema a job has to be valid where it is so by the lenient one and the package finds no member that its version does not know.
Fifty jobs with a slip in a name are valid by the lenient one and refused by the strict one, and the package tells each with the path
of the member and the name that it should be. The package's own validator has to agree with the stock one. Where no stock validator is installed
that is left out, and the script says so.

The strict schema is made of the lenient one, and docs/ has a copy of both: with --write these are made anew, and else compared. The
last line is 'N passed, M failed'.
"""
import filecmp
import glob
import json
import os
import re
import shutil
import sys

ROOT = os.path.dirname(os.path.dirname(os.path.realpath(__file__)))
FOLDER = f"{ROOT}/python/kulzobad"
COPIES = f"{ROOT}/docs"
sys.path.insert(0, f"{ROOT}/python")

from kulzobad import schema  # noqa: E402
from kulzobad.members import slips_of  # noqa: E402

# Faults that depend on another member, so that no schema can say them.
BEYOND = re.compile(r"bad job: range job\.(machine\.dead_(chips|cores|links)\[\d+\]|run\.packets\[\d+\]\.index|graph\.nets\[\d+\]\.fixed)$")

MASKS = [2**32 - 2**zeros for zeros in range(33)]


def is_beyond_a_schema(job, line):
    """Whether a dead part is refused only for the size of the grid, an index or a block only for its net's keys, or a block for
    a key outside its mask."""
    found = re.search(r"(dead_\w+)\[(\d+)\]", line)
    if found:
        entry = job["machine"][found[1]][int(found[2])]
        top = {"dead_chips": (63, 63), "dead_cores": (63, 63, 17), "dead_links": (63, 63, 5)}[found[1]]
        return all(0 <= it <= most for it, most in zip(entry, top))
    found = re.search(r"nets\[(\d+)\]\.fixed", line)
    if found:
        key, mask = job["graph"]["nets"][int(found[1])]["fixed"]
        return key <= 4294967295 and mask in MASKS
    found = re.search(r"packets\[(\d+)\]", line)
    return job["run"]["packets"][int(found[1])]["index"] <= 4294967295


def has_odd_number(text):
    """Whether the text has a number with a point or an exponent, or -0, which a validator takes for a whole number."""
    return re.search(r"[-0-9.][.eE]|-0[^.0-9]", re.sub(r'"[^"]*"', "", text)) is not None


def cases():
    with open(f"{ROOT}/examples/faults/faults.json", encoding="utf-8") as table:
        for case in json.load(table):
            yield case["why"], case["job"], case.get("line")
    for name in sorted(glob.glob(f"{ROOT}/examples/*.json")):
        with open(name[:-5] + ".words", encoding="utf-8") as words:
            if words.read().split() in (["check"], ["apps"]):
                continue  # a request or steps, and no job
        # (the report of `compile` is no text)
        with open(name, encoding="utf-8") as job, open(name[:-5] + ".report", encoding="utf-8", errors="replace") as report:
            yield os.path.basename(name), job.read(), report.readline().rstrip("\n")


def strict_text(lenient):
    """The text of the strict schema: that of the lenient one, in which objects have no members but those that are named, and a
    member of a later version is known, and told as one."""
    text = re.sub(r'^( *)("properties": \{)$', r'\1"additionalProperties": false,\n\1\2', lenient, flags=re.M)
    for version, inside, name in ((2, "nets", "fixed"), (3, "vertices", "device")):
        then = f'"items": {{ "properties": {{ "{name}": {{ "$ref": "#/$defs/{name}" }} }} }} }} }} }} }} }}\n'
        earlier = f'{{ "type": "null", "description": "A member from version {version} on." }}'
        branch = f'      "else": {{ "properties": {{ "graph": {{ "properties": {{ "{inside}": {{ "items": {{ "properties": {{ "{name}": {earlier} }} }} }} }} }} }} }}\n'
        text = text.replace(then, f"{then[:-1]},\n{branch}")
    for member, name in (('"at": { "description": "The chip', "device"), ('"keys": { "description": "How many', "fixed")):
        text = re.sub(rf"^( *)({re.escape(member)}.*)$", rf'\1\2,\n\1"{name}": true', text, flags=re.M)
    text = text.replace("; below, they may be anything.", "; before, they are no members.")
    return re.sub(r"as the program reads it: .*? is valid by this schema\.", STRICT_DESCRIPTION, text)


STRICT_DESCRIPTION = (
    "to write jobs with: members that are not named here are refused, so a typing error in a name is told. The program ignores such members; "
    "job.lenient.schema.json beside this file does so too. Each job that the program accepts, and that has no others, is valid by this schema."
)


def slips():
    """Fifty jobs with one slip each, with the path that is told and the name or version that it should be."""
    base = {
        "version": 3,
        "machine": {"width": 4, "height": 1, "wrap": False, "sdram": 1000, "dead_chips": [], "dead_cores": [], "dead_links": [[0, 0, 0]]},
        "graph": {
            "vertices": [{"name": "a", "sdram": 0, "at": [0, 0]}, {"name": "b"}, {"name": "led", "device": [0, 0, 2]}],
            "nets": [{"name": "n", "source": "a", "targets": ["b", "led"], "keys": 2, "fixed": [0, 4294967294]}],
        },
        "run": {"queue": 16, "patience": 16, "workers": 1, "turns": 16, "target": 0, "packets": [{"net": "n", "index": 0, "payload": 1}], "events": []},
    }
    for at, name, wrong in (
        ((), "run", "Run"), ((), "run", "runs"), ((), "run", "rum"),
        (("machine",), "wrap", "wraps"), (("machine",), "wrap", "wrapped"), (("machine",), "wrap", "warp"),
        (("machine",), "sdram", "sram"), (("machine",), "sdram", "SDRAM"), (("machine",), "sdram", "sdrams"),
        (("machine",), "dead_chips", "dead_chip"), (("machine",), "dead_chips", "deadchips"), (("machine",), "dead_chips", "dead-chips"),
        (("machine",), "dead_cores", "dead_core"), (("machine",), "dead_cores", "deadCores"), (("machine",), "dead_cores", "broken_cores"),
        (("machine",), "dead_links", "dead_link"), (("machine",), "dead_links", "dead links"), (("machine",), "dead_links", "deadlinks"),
        (("graph", "vertices", 0), "sdram", "sdam"), (("graph", "vertices", 0), "sdram", "sdramm"), (("graph", "vertices", 0), "sdram", "Sdram"),
        (("graph", "vertices", 0), "at", "At"), (("graph", "vertices", 0), "at", "att"), (("graph", "vertices", 0), "at", "at_"),
        (("graph", "vertices", 2), "device", "devices"), (("graph", "vertices", 2), "device", "devise"), (("graph", "vertices", 2), "device", "Device"),
        (("graph", "nets", 0), "keys", "keyz"), (("graph", "nets", 0), "keys", "key"), (("graph", "nets", 0), "keys", "Keys"),
        (("graph", "nets", 0), "fixed", "fixd"), (("graph", "nets", 0), "fixed", "fix"), (("graph", "nets", 0), "fixed", "fixed_"),
        (("run",), "queue", "queues"), (("run",), "queue", "que"), (("run",), "queue", "Queue"),
        (("run",), "patience", "patients"), (("run",), "patience", "patence"), (("run",), "workers", "worker"), (("run",), "workers", "wokers"),
        (("run",), "turns", "turn"), (("run",), "target", "targets"), (("run",), "packets", "packet"), (("run",), "events", "event"),
        (("run", "packets", 0), "payload", "pay_load"), (("run", "packets", 0), "payload", "payloads"), (("run", "packets", 0), "payload", "Payload"),
    ):
        job = json.loads(json.dumps(base))
        part = job
        for step in at:
            part = part[step]
        part[wrong] = part.pop(name)
        path = "job" + "".join(f"[{step}]" if isinstance(step, int) else f".{step}" for step in (*at, wrong))
        yield job, f"{path}: not a member; {name}?"
    for version, at, name in ((1, ("graph", "nets", 0), "fixed"), (1, ("graph", "vertices", 2), "device"), (2, ("graph", "vertices", 2), "device")):
        job = json.loads(json.dumps(base))
        job["version"] = version
        if name == "device":
            del job["graph"]["nets"][0]["fixed"]
        else:
            del job["graph"]["vertices"][2]["device"]
        path = "job." + ".".join(str(step) for step in at).replace(".0", "[0]").replace(".2", "[2]")
        yield job, f"{path}.{name}: not a member of this version; one from version {2 if name == 'fixed' else 3} on"


class Tally:
    """Counts checks, and prints those that fail."""

    def __init__(self):
        self.passed = self.failed = 0

    def note(self, is_right, what):
        if is_right:
            self.passed += 1
        else:
            self.failed += 1
            print(f"FAILED: {what}")


def wanted_of(text, job, line):
    """Whether a job with this answer is to be valid; None where a schema can't say."""
    if not line or not line.startswith("bad job: "):
        return True
    if line.startswith(("bad job: shape", "bad job: range")) and not has_odd_number(text):
        return None if BEYOND.search(line) and is_beyond_a_schema(job, line) else False
    return None


def stock_validators():
    """The validators of the two schemas, lenient first; none where the package is not installed."""
    try:
        from jsonschema import Draft202012Validator
    except ImportError:
        print("SKIPPED schemas: the package's own validator is tried alone, since the Python package jsonschema is not installed")
        return []
    found = []
    for lenient in (True, False):
        Draft202012Validator.check_schema(schema.schema(lenient))
        found.append(Draft202012Validator(schema.schema(lenient)).is_valid)
    return found


def main(words):
    tally = Tally()
    with open(f"{FOLDER}/{schema.LENIENT}", encoding="utf-8") as text:
        strict = strict_text(text.read())
    if "--write" in words:
        with open(f"{FOLDER}/{schema.STRICT}", "w", encoding="utf-8") as text:
            text.write(strict)
    with open(f"{FOLDER}/{schema.STRICT}", encoding="utf-8") as text:
        tally.note(text.read() == strict, f"{schema.STRICT} is not what is made of {schema.LENIENT}")
    for name in (schema.LENIENT, schema.STRICT):
        if "--write" in words:
            shutil.copyfile(f"{FOLDER}/{name}", f"{COPIES}/{name}")
        tally.note(filecmp.cmp(f"{FOLDER}/{name}", f"{COPIES}/{name}", shallow=False), f"docs/{name} is not the package's")
    own = [lambda job, of=schema.schema(lenient): schema.is_valid(job, of, of) for lenient in (True, False)]
    stock = stock_validators()
    for why, text, line in cases():
        try:
            job = json.loads(text)
        except ValueError:
            continue
        lenient_wanted = wanted_of(text, job, line)
        if lenient_wanted is None:
            continue
        slip = next(slips_of(job), None)
        for name, (is_lenient, is_strict) in (("stock", stock), ("own", own)) if stock else (("own", own),):
            tally.note(is_lenient(job) == lenient_wanted, f"the lenient schema, {name}: {why} ({line}): {text[:200]}")
            tally.note(slip is not None or is_strict(job) == lenient_wanted, f"the strict schema, {name}: {why} ({line}): {text[:200]}")
        tally.note(not (slip and stock and stock[1](job)), f"the strict schema takes a member that is none: {why}: {slip}")
    count = 0
    for count, (job, told) in enumerate(slips(), 1):
        tally.note([str(it) for it in slips_of(job)] == [told], f"the package says {[str(it) for it in slips_of(job)]}, and not {told}")
        for is_lenient, is_strict in [stock] * bool(stock):
            tally.note(is_lenient(job) and not is_strict(job), f"a slip is not refused by the strict schema alone: {told}")
    tally.note(count == 50, f"there are {count} slips")
    print(f"{tally.passed} passed, {tally.failed} failed")
    return 1 if tally.failed else 0


if __name__ == "__main__":
    sys.exit(main(sys.argv[1:]))
