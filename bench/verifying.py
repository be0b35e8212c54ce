"""Times `kulzobad.verify` on compiled tables, and on rows of another rule.

    python3 bench/verifying.py [PART ..]

`./spin` must have built the program. PARTs are these, all where none is named:

    board    4,000 nets of four keys on a board of 48 chips, with tables up to 1,024 rows
    short    1,000 nets of eight keys on the board, with target 0
    joined   1,000 nets of one to eight keys on the board, from 20 vertices to 10 sets of targets, whose rows are made anew by
             tools/neighbour_rows.py: they take parts of nets
    near     4,096 nets on a torus of 64 by 64 chips with eight targets near their source (bench/tables_command.py)
    far      the same with four targets anywhere
    covered  the same with target 0
    few_bits     one net of all keys over two chips, 3 rows on each before the last that care for eight bits here and there; all are right
    more_bits    the same with 40 rows: it is not decided
    wrong_bits   8 nets over four chips, 40 such rows on each, with routes by chance: something is amiss, and notes have the work

The first six are verified from their images, three times; the others once. It tells the least time of Python, that of the program that it calls, both together on the
clock, how many requests were made and how many parts they asked for; and the time of notes.
"""
import os
import random
import resource
import sys
import time

ROOT = os.path.dirname(os.path.dirname(os.path.realpath(__file__)))
sys.path[:0] = [f"{ROOT}/bench", f"{ROOT}/tools", f"{ROOT}/python"]
os.environ.setdefault("KULZOBAD_SPIN", f"{ROOT}/out/spin")
import neighbour_rows  # noqa: E402
import tables_command  # noqa: E402
from kulzobad import Job, KeyedNet, Machine, Net, Vertex  # noqa: E402
from kulzobad.calls import compile  # noqa: E402
from kulzobad.formats import Network, network_of_job  # noqa: E402
from kulzobad.verifying import TooManyParts, Verifier  # noqa: E402


def board(nets, keys, target):
    dice = random.Random(5)
    corners = [(x, y) for x in range(8) for y in range(8) if x - y > 4 or y - x > 3]
    names = [f"v{i}" for i in range(800)]
    listed = [Net(f"n{i}", dice.choice(names), dice.choices(names, k=6), keys=keys) for i in range(nets)]
    return Job(Machine(8, 8, dead_chips=corners), [Vertex(name) for name in names], listed, target=target)


def few_routes(nets):
    dice = random.Random(5)
    corners = [(x, y) for x in range(8) for y in range(8) if x - y > 4 or y - x > 3]
    names = [f"v{i}" for i in range(800)]
    sources, targets = dice.sample(names, 20), [dice.sample(names, 6) for _ in range(10)]
    listed = [Net(f"n{i}", dice.choice(sources), dice.choice(targets), keys=dice.choice([1, 1, 2, 4, 8])) for i in range(nets)]
    return Job(Machine(8, 8, dead_chips=corners), [Vertex(name) for name in names], listed)


def torus(targets, target):
    job = tables_command.job(4096, targets)
    return Job.from_json({**job, "run": {**job.get("run", {}), "target": target}})


def joined(job, network):
    """The network with rows of another rule."""
    spots = {name: place for name, place in network.places.items()}
    tables = {chip: [(row.key, row.mask, row.route) for row in rows] for chip, rows in network.tables.items()}
    network.tables = neighbour_rows.of_tables(random.Random(1), job.machine.as_json(), spots, network.nets, tables)


JOBS = {
    "board": lambda: board(4000, 4, 1024),
    "short": lambda: board(1000, 8, 0),
    "joined": lambda: few_routes(1000),
    "near": lambda: torus(tables_command.near, 1024),
    "far": lambda: torus(tables_command.anywhere, 1024),
    "covered": lambda: torus(tables_command.anywhere, 0),
}


def scattered(chips, nets, rows, outs):
    """A row of chips with rows that care for eight bits of 32; nets share all keys, and go to the chip after their source's, or from the
    first to the last where there is one alone. `outs` gives the route of a chip's row."""
    dice = random.Random(1)
    places = {f"{it}{x}": (x, 0, core) for x in range(chips) for core, it in ((1, "a"), (2, "b"))}
    bits = (nets - 1).bit_length()
    ends = [(i % chips, (i + 1) % chips) for i in range(nets)] if nets > 1 else [(0, chips - 1)]
    listed = [KeyedNet(f"n{i}", f"a{x}", [f"b{y}"], [(i << 32 - bits, 2**32 - (1 << 32 - bits))]) for i, (x, y) in enumerate(ends)]
    tables = {}
    for x in range(chips):
        masks = [sum(1 << bit for bit in dice.sample(range(32), 8)) for _ in range(rows)]
        tables[x, 0] = [(dice.randrange(2**32) & mask, mask, outs(dice, x)) for mask in masks]
        if nets == 1:
            tables[x, 0].append((0, 0, outs(dice, x)))
    return Network(Machine(chips, 1), places, listed, tables)


def straight(dice, x):
    """East from the first of two chips, and on the second its core 2."""
    return (1, 1 << 8)[x]


def by_chance(dice, x):
    return dice.choice([1, 8, 1 << 7, 1 << 8, 9])


NETWORKS = {
    "few_bits": lambda: scattered(2, 1, 3, straight),
    "more_bits": lambda: scattered(2, 1, 40, straight),
    "wrong_bits": lambda: scattered(4, 8, 40, by_chance),
}


def time_of_program():
    used = resource.getrusage(resource.RUSAGE_CHILDREN)
    return used.ru_utime + used.ru_stime


def compiled(name):
    """The network of a job, with its image's tables, or those of another rule."""
    job = JOBS[name]()
    network = network_of_job(job)
    if name == "joined":
        joined(job, network)
    else:
        network.tables = compile(job).tables
    return network


def measured(name):
    network = NETWORKS[name]() if name in NETWORKS else compiled(name)
    python, program, clock, noting = [], [], [], []
    for _ in range(1 if name in NETWORKS else 3):
        begun = time.process_time(), time_of_program(), time.perf_counter()
        verifier = Verifier(*network)
        try:
            verdict = str(verifier.verdict()).partition("\n")[0]
        except TooManyParts as error:
            verdict = f"not decided, {error.bits} bits"
        python.append(time.process_time() - begun[0])
        program.append(time_of_program() - begun[1])
        clock.append(time.perf_counter() - begun[2])
        begun = time.process_time()
        verifier.notes()
        noting.append(time.process_time() - begun)
    rows = sum(map(len, verifier.rows.values()))
    times = f"{min(python):5.2f} s of Python {min(program):5.2f} s of the program {min(clock):6.2f} s on the clock"
    print(f"{name:10} {rows:6} rows {times} {verifier.requests:3} requests {verifier.asked:6} parts {min(noting):5.2f} s of notes: {verdict}", flush=True)


def main():
    print(f"{len(os.sched_getaffinity(0))} processors, load {os.getloadavg()[0]:.1f}")
    for name in sys.argv[1:] or [*JOBS, *NETWORKS]:
        measured(name)


if __name__ == "__main__":
    main()
