"""Times `run` on threads, beside another program's `run`, and `reinject` beside `run` with ample queues.

    python3 bench/rounds_of_runs.py [--beside PROGRAM] [PART ..]

`./spin` must have built the program. PROGRAM is an older one, which is given the same jobs. PARTs are these, all where none is named:

    ample      31,300 packets on the board of 48 chips, with the vertices and nets of `gen 1`, and queues for all of them, which are
               the longest that a job may have there: one, two and four workers, 16 and 64 turns
    long       65,536 packets, the most that a job may have, with the same queues: copies may be dropped
    gen        `gen 1`: 1,200 packets on that board, four workers, 64 turns
    reinject   the packets of `gen 1`, and of `ample`, with queues for a tenth of them and a patience of 1: `run`, which drops some,
               and `reinject`, beside `run` with queues for all

Each command is run five times. Told are the medians of wall-clock time and of processor time, and the last line. `tables` of the same
text is told beside them: reading the job, compiling it and writing the plan are in every time.
"""
import argparse
import json
import os
import resource
import statistics
import subprocess
import sys
import tempfile
import time

ROOT = os.path.dirname(os.path.dirname(os.path.realpath(__file__)))
sys.path.insert(0, f"{ROOT}/tools")
import gen_reference  # noqa: E402

RUNS = 5
MOST_PACKETS, MOST_PLACES = 65536, 16777216
PARTS = ("ample", "long", "gen", "reinject")
USAGE = 1


def board(packets, **run):
    """The generated job of the number 1 with so many packets, net by net in turn."""
    job = gen_reference.job(1)
    nets = job["graph"]["nets"]
    sent = [{"net": nets[i % len(nets)]["name"], "index": 0} for i in range(packets)]
    return {**job, "run": {**job["run"], "packets": sent, "target": 1024, **run}}


def longest_queue():
    """Of the board: seven queues for each of 48 chips, and one for each vertex."""
    return MOST_PLACES // (7 * 48 + 200)


def one_run(program, words, source):
    source.seek(0)
    before, begun = resource.getrusage(resource.RUSAGE_CHILDREN), time.monotonic()
    done = subprocess.run([program, *words], stdin=source, stdout=subprocess.PIPE, check=False)
    taken, after = time.monotonic() - begun, resource.getrusage(resource.RUSAGE_CHILDREN)
    spent = after.ru_utime + after.ru_stime - before.ru_utime - before.ru_stime
    return taken, spent, done.returncode, done.stdout


def show(name, program, words, job):
    """Prints the medians for a command, and gives what it wrote."""
    with tempfile.TemporaryFile() as source:
        source.write(b"" if job is None else json.dumps(job, separators=(",", ":")).encode())
        found = [one_run(program, words.split(), source) for _ in range(RUNS)]
    taken, spent = (statistics.median(run[i] for run in found) * 1000 for i in (0, 1))
    status, wrote = found[0][2:]
    last = "no such word in this program" if status == USAGE else wrote.splitlines()[-1].decode()
    same = "" if len({run[3] for run in found}) == 1 else ", not always the same bytes"
    print(f"  {name:44} {taken:9.1f} ms, processors {spent:9.1f} ms: {last}{same}", flush=True)
    return wrote


def beside(programs, name, words, job):
    for title, program in programs.items():
        show(f"{title}{name}", program, words, job)


def by_workers(programs, packets):
    job = board(packets, queue=longest_queue(), patience=16)
    print(f"{packets} packets, queues of {job['run']['queue']}")
    show("tables", programs[""], "tables", job)
    for turns in (16, 64):
        for workers in (1, 2, 4):
            beside({"": programs[""]}, f"run, {workers} workers, {turns} turns", "run", board(packets, queue=longest_queue(), workers=workers, turns=turns))
    beside({title: program for title, program in programs.items() if title}, "run", "run", job)


def put_back(programs, packets):
    print(f"{packets} packets, queues for all and for a tenth")
    ample = show("run, queues for all", programs[""], "run", board(packets, queue=packets))
    short = board(packets, queue=packets // 10, patience=1)
    show("run, queues for a tenth", programs[""], "run", short)
    given = show("reinject, queues for a tenth", programs[""], "reinject", short)
    print(f"  reinject writes {'the bytes of run with queues for all' if given == ample else 'OTHER BYTES than run with queues for all'}")


def main():
    parser = argparse.ArgumentParser(description="Times runs on threads (see the head of this file).")
    parser.add_argument("--beside", metavar="PROGRAM", help="an older program")
    parser.add_argument("parts", nargs="*", metavar="PART", help=", ".join(PARTS))
    asked = parser.parse_args()
    parts = asked.parts or PARTS
    programs = {"": f"{ROOT}/out/spin", **({"older: ": asked.beside} if asked.beside else {})}
    print(f"load {os.getloadavg()[0]:.1f}, medians of {RUNS} runs")
    if "ample" in parts:
        by_workers(programs, longest_queue())
    if "long" in parts:
        by_workers(programs, MOST_PACKETS)
    if "gen" in parts:
        print("gen 1")
        beside(programs, "gen 1", "gen 1", None)
    if "reinject" in parts:
        put_back(programs, 1200)
        put_back(programs, longest_queue())


if __name__ == "__main__":
    main()
