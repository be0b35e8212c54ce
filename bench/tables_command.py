"""Times `out/spin tables` on jobs at the limits: 16,384 vertices on a torus of 64 by 64 chips, and 4,096 nets.

    python3 bench/tables_command.py
    python3 bench/tables_command.py --eight PROGRAM OTHER..     nets of eight targets anywhere alone, by each program in turn
    python3 bench/tables_command.py --write FOLDER              the jobs of `--eight` as files, to count instructions or memory

`./spin` must have built the program. Nets have four targets anywhere, or eight near their source; then some links are dead:
5% of them and four targets anywhere, and 10% of them and 680 targets anywhere. Each job is run three times; the least
processor time and wall-clock time are told, with the greatest memory. With `--eight` there are seven turns, in each of which
each program runs once, and what they write must be the same.
"""
import json
import os
import resource
import subprocess
import sys
import tempfile
import time

ROOT = os.path.dirname(os.path.dirname(os.path.realpath(__file__)))

SIDE, VERTICES = 64, 16384
# So many links of a hundred are dead in the jobs of `--eight`.
DEAD = [0, 1, 5]


def numbers():
    """Numbers that look random and are the same each time."""
    seed = 7
    while True:
        seed = (seed * 1664525 + 1013904223) % 2**32
        yield seed >> 8


def dead_links(percent, drawn):
    """So many of the three links E, NE and N of each chip; each link of the torus is one of them."""
    return [[x, y, d] for x in range(SIDE) for y in range(SIDE) for d in range(3) if next(drawn) % 100 < percent]


def job(nets, targets_of, dead=0):
    vertices = [{"name": f"v{i}"} for i in range(VERTICES)]
    drawn = numbers()
    listed = []
    for i in range(nets):
        source = 4 * i % VERTICES
        listed.append({"name": f"n{i}", "source": f"v{source}", "targets": targets_of(source, drawn), "keys": 16})
    machine = {"width": SIDE, "height": SIDE, "wrap": True}
    if dead:
        machine["dead_links"] = dead_links(dead, drawn)
    return {"version": 1, "machine": machine, "graph": {"vertices": vertices, "nets": listed}}


def anywhere(_, drawn):
    return [f"v{next(drawn) % VERTICES}" for _ in range(4)]


def eight_anywhere(_, drawn):
    return [f"v{next(drawn) % VERTICES}" for _ in range(8)]


def to_680(_, drawn):
    return [f"v{next(drawn) % VERTICES}" for _ in range(680)]


def near(source, drawn):
    return [f"v{(source + next(drawn) % 64) % VERTICES}" for _ in range(8)]


def timed(name, value):
    with tempfile.TemporaryFile() as source:
        source.write(json.dumps(value, separators=(",", ":")).encode())
        spent, taken = [], []
        for _ in range(3):
            source.seek(0)
            before = resource.getrusage(resource.RUSAGE_CHILDREN).ru_utime
            begun = time.monotonic()
            done = subprocess.run([f"{ROOT}/out/spin", "tables"], stdin=source, capture_output=True)
            taken.append(time.monotonic() - begun)
            spent.append(resource.getrusage(resource.RUSAGE_CHILDREN).ru_utime - before)
        last = done.stdout.splitlines()[-1].decode()
        most = resource.getrusage(resource.RUSAGE_CHILDREN).ru_maxrss // 1024
        print(f"{name}: {min(spent):.2f} s of a processor, {min(taken):.2f} s in all, {most} MiB, status {done.returncode}: {last}")


def in_turn(name, value, programs):
    """The least processor time of each program over seven turns."""
    with tempfile.TemporaryFile() as source:
        source.write(json.dumps(value, separators=(",", ":")).encode())
        spent, written = {program: [] for program in programs}, set()
        for _ in range(7):
            for program in programs:
                source.seek(0)
                before = resource.getrusage(resource.RUSAGE_CHILDREN).ru_utime
                written.add(subprocess.run([program, "tables"], stdin=source, capture_output=True).stdout)
                spent[program].append(resource.getrusage(resource.RUSAGE_CHILDREN).ru_utime - before)
    for program in programs:
        print(f"{name}: {min(spent[program]):.3f} s of a processor, {program}")
    if len(written) != 1:
        print(f"{name}: not the same bytes")


def main():
    if sys.argv[1:2] == ["--eight"]:
        for percent in DEAD:
            in_turn(f"{percent}% of the links dead", job(4096, eight_anywhere, percent), sys.argv[2:])
        return
    if sys.argv[1:2] == ["--write"]:
        for percent in DEAD:
            with open(f"{sys.argv[2]}/dead_{percent}.json", "w", encoding="utf-8") as file:
                json.dump(job(4096, eight_anywhere, percent), file, separators=(",", ":"))
        return
    for nets in [1024, 2048, 4096]:
        timed(f"{nets} nets, eight targets near their source", job(nets, near))
    for nets in [1024, 2048, 4096]:
        timed(f"{nets} nets, four targets anywhere", job(nets, anywhere))
    for nets in [1024, 2048, 4096]:
        timed(f"{nets} nets, four targets anywhere, 5% of the links dead", job(nets, anywhere, 5))
    for nets in [40, 500, 1000]:
        timed(f"{nets} nets, 680 targets anywhere, 10% of the links dead", job(nets, to_680, 10))


if __name__ == "__main__":
    main()
