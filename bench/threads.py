"""Times `run` with several numbers of workers, and prints the table of docs/performance.md on threads.

    python3 bench/threads.py [--program PROGRAM] [--beside OTHER] [--runs RUNS] [--workers WORKERS ..] [--job JOB ..] [--part PART]

PROGRAM is out/spin, where none is named. OTHER runs the same jobs in turn with it, and has a line of its own for each. With a PART of
10 each job has a tenth of its packets. The jobs:

    near       65,536 packets to four targets near, on a torus of 8 by 6 chips with 192 vertices; queue 31,300, 64 turns
    near_wide  the same on a torus of 64 by 64 chips with 16,384 vertices and 1,024 nets; queue 370
    far_wide   65,536 packets to eight targets anywhere on that torus, 512 nets; queue 370, 64 turns
    short      the packets of `near`, with queues of one copy, patience 1 and one turn
    few        100 packets on the torus of 8 by 6
    generated  the job of `gen 1`: 1,200 packets on 48 chips

As placement fills chips, the vertices of these stand on a quarter of the chips, all in the first worker's share. So `near_spread`,
`near_wide_spread` and `far_wide_spread` are the first three with vertices that ask for chips, four for each.

In a cell stand the least seconds of the whole command by the clock, in brackets the same less the least of `tables`: reading,
compiling and writing the plan are in every time. A cell ends with `!` where runs wrote other bytes than one another: where copies
are dropped, they may. Behind each job stands what `tables` takes, and the most memory of all its runs. More workers than free processors show nothing of
threads: the load is told first.
"""
import argparse
import os
import random
import sys

import rounds
from in_turn import add_programs, measured, programs_of

PACKETS, FEW, SIDE = 65536, 100, 64
WORKERS = (1, 2, 4, 64)
# (a job's queues have 16,777,216 places together at most)
BOARD, WIDE = {"queue": 31300, "turns": 64}, {"queue": 370, "turns": 64}
LEAST = {"queue": 1, "patience": 1, "turns": 1}


def near(packets, **run):
    nets = [rounds.net(i, 4 * i, [(4 * i + 11 * k) % 192 for k in range(1, 5)]) for i in range(48)]
    return rounds.on_machine(8, 6, True, rounds.named(192), nets, packets, **run)


def near_wide(packets, **run):
    count = 4 * SIDE * SIDE
    nets = [rounds.net(i, 16 * i, [(16 * i + 11 * k) % count for k in range(1, 5)]) for i in range(1024)]
    return rounds.on_machine(SIDE, SIDE, True, rounds.named(count), nets, packets, **run)


def far_wide(packets, **run):
    draw, count = random.Random(5), 4 * SIDE * SIDE
    nets = [rounds.net(i, draw.randrange(count), draw.sample(range(count), 8)) for i in range(512)]
    return rounds.on_machine(SIDE, SIDE, True, rounds.named(count), nets, packets, **run)


def spread(make):
    """The job of a maker whose vertices ask for chips: as many on each chip as on any other."""
    def made(packets, **run):
        job = make(packets, **run)
        width, height, vertices = job["machine"]["width"], job["machine"]["height"], job["graph"]["vertices"]
        each = len(vertices) // (width * height)
        for i, vertex in enumerate(vertices):
            vertex["at"] = [i // each % width, i // each // width]
        return job
    return made


def generated(_packets, **run):
    job = rounds.gen_reference.job(1)
    return {**job, "run": {**job["run"], **run}}


# Of each job its maker, how many packets, and how they are run.
JOBS = {
    "near": (near, PACKETS, BOARD),
    "near_wide": (near_wide, PACKETS, WIDE),
    "far_wide": (far_wide, PACKETS, WIDE),
    "near_spread": (spread(near), PACKETS, BOARD),
    "near_wide_spread": (spread(near_wide), PACKETS, WIDE),
    "far_wide_spread": (spread(far_wide), PACKETS, WIDE),
    "short": (near, PACKETS, LEAST),
    "few": (near, FEW, BOARD),
    "generated": (generated, 0, {}),
}


def least(runs):
    return min(it.taken for it in runs)


def rows_of(name, asked, programs):
    """The row of each program: its cells, then what `tables` takes and the most memory."""
    maker, packets, run = JOBS[name]
    packets = max(1, packets // asked.part)
    plain = [least(it) for it in measured(programs, ["tables"], maker(packets, **run), asked.runs)]
    cells, memory = [[] for _ in programs], [0.0] * len(programs)
    for workers in asked.workers:
        found = measured(programs, ["run"], maker(packets, **run, workers=workers), asked.runs)
        same = len({it.sum for listed in found for it in listed}) == 1
        for i, listed in enumerate(found):
            wrong = [it.status for it in listed if it.status]
            mark = f" STATUS {wrong[0]}" if wrong else "" if same else " !"
            cells[i].append(f"{least(listed):.3f} ({least(listed) - plain[i]:.3f}){mark}")
            memory[i] = max(memory[i], *(it.memory for it in listed))
    for program, told, alone, most in zip(programs, cells, plain, memory):
        yield [name, *[program] * (len(programs) > 1), *told, f"{alone:.3f}", f"{most:.0f} MiB"]


def main():
    parser = argparse.ArgumentParser(description="Times runs with several numbers of workers (see the head of this file).")
    parser.add_argument("--workers", nargs="+", type=int, default=list(WORKERS), help="the numbers of workers")
    parser.add_argument("--job", nargs="+", choices=JOBS, default=list(JOBS))
    parser.add_argument("--part", type=int, default=1, help="the part of its packets that each job has: 10 for a tenth")
    add_programs(parser, 5)
    asked = parser.parse_args()
    programs = programs_of(asked)
    print(f"load {os.getloadavg()[0]:.1f}, {os.cpu_count()} processors; least of {asked.runs} runs of {' and of '.join(programs)}")
    head = ["job", *["program"] * (len(programs) > 1), *(f"{it} workers" if it > 1 else "1 worker" for it in asked.workers), "`tables`", "memory"]
    print("| " + " | ".join(head) + " |\n|" + "---|" * len(head), flush=True)
    for name in asked.job:
        for row in rows_of(name, asked, programs):
            print("| " + " | ".join(row) + " |", flush=True)


if __name__ == "__main__":
    sys.exit(main())
