"""Compares `out/spin` with a plain Rust program for the same words: what they cost, and whether they write the same bytes.

    python3 bench/plain.py [--instructions] [--runs RUNS] [--kind KIND ..] [--part PART] [--program PROGRAM]
    python3 bench/plain.py --check N [--first SEED] [--program PROGRAM]

The plain program stands in bench/plain/ as a crate that needs no other, and this script builds it with cargo, into out/plain. It was
made from docs/formats.md, has one thread and no unsafe code, and takes valid jobs. `./spin` must have built out/spin, which is
PROGRAM where none is named.

The table has a row for each kind: milliseconds of processor time of the plain program and of PROGRAM, the least of some runs in
turn, and how many times as long the latter takes. With --instructions there are as many columns for millions of instructions,
which valgrind counts. With a PART of 10 each kind has a tenth of its nets and packets. A row ends with OTHER BYTES where the two
wrote different ones. The kinds:

    rows       `tables`, 64 chips, 4,096 nets of 1 to 16 targets: some 900 rows on each chip, target 0
    two        one chip, 4,096 rows of two routes at random, target 0
    two_sizes  the same with blocks of 1, 4, 16 and 64 keys at random
    ten_sizes, forty_sizes     the same with 10 and 40 routes
    hundred    64 by 64 chips, 4,096 nets of 100 targets anywhere
    all        64 chips, 1,024 nets of 750 targets
    eight      64 by 64 chips, 4,096 nets of eight targets anywhere
    dead       the same with five links in a hundred dead
    holes      one chip, 4,096 nets of one route, of which every second has a fixed block, and holes are between these
    text       64 by 64 chips, a job of all limits with names of 64 bytes: 16.7 MB
    generated  `run`, the board of `gen 1`
    near       `run`, 65,536 packets to four targets near on 48 chips, 48 nets

--check N makes the random jobs of tools/model.py for N seeds, which have all that a job may have, with queues for all packets; of
every eighth seed one with long tables and one of `gen`. It runs `tables` and `run` of each and of the valid jobs in examples/ by both
programs. Status and bytes have to be the same. (In examples with short queues only those of `tables`: which copies are dropped is
not promised.) A job on which they differ is written to out/plain-NAME.json. The last line is 'N passed, M failed', and the status 1
where one failed.
"""
import argparse
import glob
import json
import os
import random
import re
import shutil
import subprocess
import sys
import tempfile

from in_turn import ROOT, measured

sys.path.insert(0, f"{ROOT}/tools")
import gen_reference  # noqa: E402
import model  # noqa: E402
import reading  # noqa: E402
import tables  # noqa: E402
import tables_command  # noqa: E402
import threads  # noqa: E402

FOLDER = f"{ROOT}/bench/plain"
PLAIN = f"{ROOT}/out/plain/release/plain"


# ---- the kinds


def sizes(count, routes):
    """Rows of one chip, with routes and sizes of blocks at random."""
    draw = random.Random(routes)
    return tables.one_chip([tables.net_of(i, 1 + draw.randrange(routes), keys=draw.choice([1, 4, 16, 64])) for i in range(count)])


def anywhere(nets, targets):
    """Nets on a torus of 64 by 64 chips with 16,384 vertices."""
    return tables_command.job(nets, lambda _, drawn: [f"v{next(drawn) % tables_command.VERTICES}" for _ in range(targets)])


def to_nearly_all(nets):
    draw = random.Random(6)
    listed = [{"name": f"n{i}", "source": f"v{i}", "targets": [f"v{it}" for it in draw.sample(range(1024), 750)]} for i in range(nets)]
    graph = {"vertices": [{"name": f"v{i}"} for i in range(1088)], "nets": listed}
    return {"version": 1, "machine": {"width": 8, "height": 8, "wrap": True}, "graph": graph}


def with_holes(nets):
    """Every second net has a fixed block of 1 to 8 keys, with as many free ones behind it; all others need 1 to 8 keys."""
    draw, at, listed = random.Random(7), 0, []
    for i in range(nets):
        size = 2 ** draw.randrange(4)
        listed.append(tables.net_of(i, 1, keys=size))
        if i % 2 == 0:
            at = -(-at // size) * size
            listed[-1]["fixed"] = [at, 2**32 - size]
            at += 2 * size
    return tables.one_chip(listed)


def full_text(part):
    return {**reading.full_job(part, 64), "run": {}} if part > 1 else reading.full_job(1, 64)


# Of each kind the word, and the job of which a part is asked for.
KINDS = {
    "rows": ("tables", lambda part: tables.KINDS["torus"](4096 // part)),
    "two": ("tables", lambda part: tables.at_random(4096 // part, 2)),
    "two_sizes": ("tables", lambda part: sizes(4096 // part, 2)),
    "ten_sizes": ("tables", lambda part: sizes(4096 // part, 10)),
    "forty_sizes": ("tables", lambda part: sizes(4096 // part, 40)),
    "hundred": ("tables", lambda part: anywhere(4096 // part, 100)),
    "all": ("tables", lambda part: to_nearly_all(1024 // part)),
    "eight": ("tables", lambda part: tables_command.job(4096 // part, tables_command.eight_anywhere)),
    "dead": ("tables", lambda part: tables_command.job(4096 // part, tables_command.eight_anywhere, 5)),
    "holes": ("tables", lambda part: with_holes(4096 // part)),
    "text": ("tables", lambda part: reading.full_job(part, 64)),
    "generated": ("run", lambda _: gen_reference.job(1)),
    "near": ("run", lambda part: threads.near(65536 // part, **threads.BOARD)),
}


# ---- what they cost


def built():
    if shutil.which("cargo") is None:
        sys.exit("there is no cargo to build the plain program with")
    subprocess.run(["cargo", "build", "--release", "--offline", "--quiet"], cwd=FOLDER, check=True)
    return PLAIN


def instructions(program, word, job):
    """How many millions of instructions a command takes."""
    with tempfile.TemporaryFile() as source, tempfile.NamedTemporaryFile() as log:
        source.write(json.dumps(job, separators=(",", ":")).encode())
        source.seek(0)
        counted = ["valgrind", "--tool=callgrind", "--callgrind-out-file=/dev/null", f"--log-file={log.name}", program, word]
        subprocess.run(counted, stdin=source, stdout=subprocess.DEVNULL, check=False)
        return int(re.search(rb"Collected : (\d+)", log.read())[1]) / 1e6


def row_of(kind, programs, asked):
    word, maker = KINDS[kind]
    job = maker(asked.part)
    runs = measured(programs, [word], job, asked.runs)
    spent = [1000 * min(it.spent for it in listed) for listed in runs]
    cells = [kind, *(f"{it:.1f}" for it in spent), f"{spent[1] / spent[0]:.2f}"]
    if asked.instructions:
        counts = [instructions(program, word, job) for program in programs]
        cells += [*(f"{it:.1f}" for it in counts), f"{counts[1] / counts[0]:.2f}"]
    same = len({(it.status, it.sum) for listed in runs for it in listed}) == 1
    return f"| {' | '.join(cells)} |{'' if same else ' OTHER BYTES'}"


def compare(programs, asked):
    print(f"load {os.getloadavg()[0]:.1f}; least of {asked.runs} runs; ours is {programs[1]}")
    head = ["kind", "plain, ms", "ours, ms", "ratio"]
    if asked.instructions:
        head += ["plain, million instructions", "ours", "ratio"]
    print(f"| {' | '.join(head)} |\n|{'---|' * len(head)}", flush=True)
    for kind in asked.kind:
        print(row_of(kind, programs, asked), flush=True)


# ---- whether they write the same


def jobs(first, count):
    for seed in range(first, first + count):
        yield f"{seed}", model.Dice(seed).job(seed)
        if seed % 8 == 0:
            name = list(tables.KINDS)[seed // 8 % len(tables.KINDS)]
            made = tables.KINDS[name](30 + 7 * (seed % 37))
            # so that packets are sent over merged rows, too
            made["run"].update(target=random.Random(seed).choice([0, 0, 5, 50]), queue=100)
            made["run"]["packets"] = [{"net": net["name"], "index": net.get("keys", 1) - 1} for net in made["graph"]["nets"][:100]]
            yield f"{name}-{seed}", made
        if seed % 8 == 4:
            yield f"gen-{seed}", gen_reference.job(seed)
    for file in sorted(glob.glob(f"{ROOT}/examples/*.json")):
        with open(f"{file[:-5]}.status", encoding="ascii") as status, open(file, "rb") as text:
            if status.read().strip() in ("0", "5", "6", "7", "8"):
                yield os.path.basename(file)[:-5], text.read()


def words_of(job):
    """The words by which both have to give the same answer to a job: none for what is no job."""
    value = json.loads(job) if isinstance(job, bytes) else job
    if not isinstance(value, dict) or "graph" not in value:
        return []
    run = value.get("run") or {}
    return ["tables", "run"] if (run.get("queue") or 16) >= len(run.get("packets") or []) else ["tables"]


def check(programs, asked):
    passed = failed = 0
    for name, job in jobs(asked.first, asked.check):
        text = job if isinstance(job, bytes) else json.dumps(job).encode()
        for word in words_of(job):
            plain, ours = (model.spin(program, [word], text) for program in programs)
            if plain == ours:
                passed += 1
                continue
            failed += 1
            print(f"FAILED: {word} of out/plain-{name}.json\n{model.first_difference(ours, plain)}", flush=True)
            with open(f"{ROOT}/out/plain-{name}.json", "wb") as kept:
                kept.write(text)
    print(f"{passed} passed, {failed} failed")
    return 1 if failed else 0


def main():
    parser = argparse.ArgumentParser(description="Compares the program with a plain one (see the head of this file).")
    parser.add_argument("--instructions", action="store_true", help="count instructions, too")
    parser.add_argument("--runs", type=int, default=7, help="how often each command is run")
    parser.add_argument("--kind", nargs="+", choices=KINDS, default=list(KINDS))
    parser.add_argument("--part", type=int, default=1, help="the part of each kind's nets and packets: 10 for a tenth")
    parser.add_argument("--check", type=int, metavar="N", help="compare bytes on the jobs of so many seeds")
    parser.add_argument("--first", type=int, default=0, metavar="SEED", help="the first of them")
    parser.add_argument("--program", default=f"{ROOT}/out/spin", help="the program; out/spin where none is named")
    asked = parser.parse_args()
    if not os.access(asked.program, os.X_OK):
        sys.exit(f"{asked.program} is no program (./spin makes out/spin)")
    if asked.instructions and shutil.which("valgrind") is None:
        sys.exit("there is no valgrind to count instructions with")
    programs = [built(), os.path.realpath(asked.program)]
    if asked.check is not None:
        return check(programs, asked)
    return compare(programs, asked)


if __name__ == "__main__":
    sys.exit(main())
