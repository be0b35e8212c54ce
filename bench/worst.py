"""Times the worst that a user can do: small texts of legal jobs that take the program long, or much memory.

    python3 bench/worst.py [--program PROGRAM] [--beside OTHER] [--runs RUNS] [--limit MIB] [--doubled TIMES] [--limits] [KIND[=SIZE] ..]

PROGRAM is out/spin where none is named; OTHER is run in turn with it, and is what it is compared with. A SIZE is a number, or `most` for
what a job may have at most. Without one a kind has a size that takes seconds, and without KINDs all are run. A program that wants more
than MIB of memory, 4,096 where no number is given, ends with status 9. Told are processor time, wall-clock time and peak memory. With
TIMES each kind is run at its size and so many times at twice the size before, so that growth can be read off. With --limits each kind, and
each of bench/worst_apps.py, is run at its most, and those are named at the end that took above 60 s or 1 GiB.

    loads          `apps`: so many loads of an empty graph on 64 by 64 chips
    small_loads    `apps`: the same with four vertices, two nets and two packets each, while there is room
    empty_runs     `apps`: a load, and so many runs in which nothing is to do
    in_turn        `apps`: so many times a load of a small application, a run and an unload
    across         `run`: so many packets of one net across 64 by 64 chips: queue 1, patience 255, turns 1
    into_one       `reinject`: so many nets into one vertex of 64 by 64 chips: queue 1, patience 1, turns 1
    ring           `reinject`: so many packets round a ring of 64 chips: queue 1, patience 1, 64 turns, 64 workers
    behind_a_long  `compile`: so many nets of 100 targets on a torus of 16 by 16 chips, target 0: from 2,048 on most tables are too long
    far_and_wide   `compile`: so many nets of 740 targets on a torus of 64 by 64 chips with 1,200 dead links, target 0
    serpentine     `tables`: so many nets of two targets along a serpentine of live links through 64 by 64 chips, target 0
    uncovered      `tables`: the same where rows have no target to get below: 1,024
    by_parity      `tables`: 2,046 nets along a path of so many chips, target 0: those of whose number the bits add up to an even sum also
                   go to each chip, so that two routes lie in one another as on a checkerboard
    in_groups      `tables`: 4,096 nets along such a path, of which four each go to the same chips, drawn at random: target 0
    alike          `tables`: so many vertices, and 200,000 targets that name the last; all names have one word modulo sixteen times their
                   number and one: so they have one slot
    in_a_bucket    `tables`: the same; the words of all names agree on the bits by which std's hash map tells names apart at first
    holes          `apps`: loads of so many nets together with fixed blocks of a key, each with a hole behind, upwards
    holes_down     `apps`: the same downwards
    last_rows      `run`: so many packets along a path that turns at nearly each of 31 by 32 chips, of the net whose rows match last
    deep_lists     `tables`: so many MiB of lists, 126 deep, in a member that nobody reads
    thin_objects   `tables`: so many MiB of objects with one member each, in such a member
"""
import argparse
import json
import os
import random

from in_turn import MEBI, add_programs, programs_of, show
from rounds import SHORT, across, net, on_machine, round_a_ring

SIDE = 64
SMALLEST = {"version": 1, "machine": {"width": 1, "height": 1}, "graph": {"vertices": [], "nets": []}}


# ---- applications


def application(vertices, nets, packets):
    machine = {"width": SIDE, "height": SIDE}
    return {"version": 1, "machine": machine, "graph": {"vertices": vertices, "nets": nets}, "run": {"packets": packets}}


NOTHING = application([], [], [])
SMALL = application(
    [{"name": f"v{i}"} for i in range(4)], [net(0, 0, [1, 2, 3]), net(1, 3, [0])], [{"net": "n0", "index": 0}, {"net": "n1", "index": 0}]
)


def loads(size, job=NOTHING):
    return [["load", i, job] for i in range(size)]


def empty_runs(size):
    return [["load", 0, SMALL], *[["run"]] * size]


def in_turn(size):
    return [step for i in range(size) for step in (["load", i, SMALL], ["run"], ["unload", i])]


# ---- runs


def into_one(size):
    """Sixteen vertices on each of 256 chips, the first of them the target of the nets of all others."""
    vertices = [{"name": f"v{i}", "at": [4 * (i // 16 % 16), 4 * (i // 256 % 16)]} for i in range(size + 1)]
    return on_machine(SIDE, SIDE, False, vertices, [net(i, i, [0]) for i in range(1, size + 1)], size, queue=1, patience=1, turns=1)


# ---- tables


def long_tables(size, side, targets, dead_links):
    """Nets of so many targets anywhere on a torus, and a target of no row."""
    draw, vertices = random.Random(6), 4 * side * side
    dead = random.Random(7).sample([[x, y, link] for x in range(side) for y in range(side) for link in range(3)], dead_links)
    nets = [net(i, 4 * i % vertices, draw.sample(range(vertices), targets)) for i in range(size)]
    machine = {"width": side, "height": side, "wrap": True, "dead_links": dead}
    graph = {"vertices": [{"name": f"v{i}"} for i in range(vertices)], "nets": nets}
    return {"version": 1, "machine": machine, "graph": graph, "run": {"target": 0}}


ROWS = [(x if y % 2 == 0 else SIDE - 1 - x, y) for y in range(SIDE) for x in range(SIDE)]


def serpentine(size, target, path=ROWS, sides=(SIDE, SIDE)):
    """Along each row to its end, and then up: all other links are dead. Each net goes from the first chip to the middle and the last."""
    steps = {frozenset(pair) for pair in zip(path, path[1:])}
    dead = []
    for x, y in path:
        for link, (right, above) in enumerate(((1, 0), (1, 1), (0, 1))):
            end = (x + right, y + above)
            if end[0] < sides[0] and end[1] < sides[1] and frozenset([(x, y), end]) not in steps:
                dead.append([x, y, link])
    ends = [path[0]] * 8 + [path[len(path) // 2], path[-1]]
    vertices = [{"name": f"v{i}", "at": list(chip)} for i, chip in enumerate(ends)]
    nets = [net(i, i % 8, [8, 9]) for i in range(size)]
    machine = {"width": sides[0], "height": sides[1], "dead_links": dead}
    return {"version": 1, "machine": machine, "graph": {"vertices": vertices, "nets": nets}, "run": {"target": target}}


def along(size, numbers):
    """Nets of the first chip to the last of a path, each of which also goes to the chips of these numbers on the way."""
    path, rows = ROWS[:size], (size + SIDE - 1) // SIDE
    job = serpentine(1, 0, path, (min(size, SIDE), rows))
    job["machine"]["dead_chips"] = [list(chip) for chip in ROWS[size : rows * SIDE]] if rows > 1 else []
    vertices = [{"name": f"v{i}", "at": list(chip)} for i, chip in enumerate(path)]
    nets = [net(i, 0, [*of_net, size - 1]) for i, of_net in enumerate(numbers)]
    return {**job, "graph": {"vertices": vertices, "nets": nets}}


def by_parity(size):
    between = list(range(1, size - 1))
    return along(size, [[] if i.bit_count() % 2 else between for i in range(2046)])


def in_groups(size):
    """As many targets as a text has room for, at most every second chip."""
    draw = random.Random(8)
    each = min(size // 2, 500)
    groups = [sorted(draw.sample(range(1, size - 1), each)) for _ in range(1024)]
    return along(size, [group for group in groups for _ in range(4)])


# ---- names

FULL = 2**64 - 1
REFERENCES = 200_000


def folded(state, read, length):
    product = (state ^ read) * (0x9E3779B97F4A7C15 ^ 2 * length)
    return product & FULL ^ product >> 64


def word_of(name):
    """The word by which a name of four to eight bytes gets its slot."""
    ends = int.from_bytes(name[:4], "little") | int.from_bytes(name[-4:], "little") << 32
    return folded(0x243F6A8885A308D3, ends, len(name))


def hash_of(name):
    """What std's hash map makes of the name: a byte more goes into the word."""
    word = folded(word_of(name), 0xFFFFFF, 1)
    return (word ^ word >> 32) & 0xFFFFFFFF


def names_with(size, wanted):
    """So many names of eight letters that pass the test."""
    found, i = [], 0
    while len(found) < size:
        name = f"{i:08x}".encode()
        if wanted(name):
            found.append(name.decode())
        i += 1
    return found


def referred_to(names):
    """The last of the names is named by all targets."""
    nets, vertices = 64, [{"name": name} for name in names]
    listed = [{"name": f"n{i}", "source": names[-1], "targets": [names[-1]] * (REFERENCES // nets)} for i in range(nets)]
    return {"version": 1, "machine": {"width": SIDE, "height": SIDE}, "graph": {"vertices": vertices, "nets": listed}}


def alike(size):
    return referred_to(names_with(size, lambda name: word_of(name) % (16 * size + 1) == 0))


def in_a_bucket(size):
    groups = 1
    while 9 * groups < size:
        groups *= 2
    return referred_to(names_with(size, lambda name: hash_of(name) & (0xFF000000 | groups - 1) == 0x1000000))


# ---- holes

EACH = 4096


def load_with(number, keys):
    """A load of nets with these keys, each from a core to itself. It has four chips of its own, since a chip has 1,024 rows."""
    vertices = [{"name": f"v{i}", "at": [(4 * number + i) % SIDE, (4 * number + i) // SIDE]} for i in range(4)]
    nets = [{**net(i, i % 4, [i % 4]), "fixed": [key, FULL >> 32]} for i, key in enumerate(keys)]
    machine = {"width": SIDE, "height": SIDE}
    return ["load", number, {"version": 2, "machine": machine, "graph": {"vertices": vertices, "nets": nets}}]


def holes(size, order=1):
    """Every second key is a fixed block of its own: so many, in loads of as many nets as one may have."""
    keys = [2 * i for i in range(size)][::order]
    return [load_with(begin // EACH, keys[begin : begin + EACH]) for begin in range(0, size, EACH)]


# ---- lookups


def last_rows(packets):
    """The path goes up and down between two rows of chips, and then between the next two. Its rows can't go by default."""
    width, height, nets = 31, 32, 1024
    path = []
    for pair in range(height // 2):
        columns = range(width) if pair % 2 == 0 else range(width - 1, -1, -1)
        for place, x in enumerate(columns):
            path += [(x, 2 * pair + (place + k) % 2) for k in range(2)]
    job = serpentine(nets, 1024, path, (width, height))
    return {**job, **sent_by(nets - 1, packets)}


def sent_by(number, packets):
    sent = [{"net": f"n{number}", "index": 0} for _ in range(packets)]
    return {"run": {"queue": 64, "turns": 64, "target": 1024, "packets": sent}}


# ---- texts


def text_with(part, size):
    """A job with a member that nobody reads, a list of so many MiB of such parts."""
    listed = ",".join([part] * (size * MEBI // (len(part) + 1) - 1))
    text = json.dumps({**SMALLEST, "more": []}, separators=(",", ":"))
    return text.replace('"more":[]', f'"more":[{listed}]').encode()


DEEP = 124
# Of each kind the word, what makes it of a size, the size for a try, and the most.
KINDS = {
    "loads": ("apps", loads, 2048, 65535),
    "small_loads": ("apps", lambda size: loads(size, SMALL), 1024, 16384),
    "empty_runs": ("apps", empty_runs, 1024, 65534),
    "in_turn": ("apps", in_turn, 512, 21845),
    "across": ("run", lambda size: across(size, queue=1, patience=255, turns=1), 128, 65536),
    "into_one": ("reinject", into_one, 32, 4095),
    "ring": ("reinject", lambda size: round_a_ring(size, **SHORT, workers=64), 64, 65536),
    "behind_a_long": ("compile", lambda size: long_tables(size, 16, 100, 0), 2048, 4096),
    "far_and_wide": ("compile", lambda size: long_tables(size, SIDE, 740, 1200), 128, 4096),
    "serpentine": ("tables", lambda size: serpentine(size, 0), 64, 4096),
    "uncovered": ("tables", lambda size: serpentine(size, 1024), 64, 4096),
    "by_parity": ("tables", by_parity, 64, 2100),
    "in_groups": ("tables", in_groups, 64, 4096),
    "alike": ("tables", alike, 512, 16384),
    "in_a_bucket": ("tables", in_a_bucket, 256, 16384),
    "holes": ("apps", holes, 8192, 220000),
    "holes_down": ("apps", lambda size: holes(size, -1), 8192, 220000),
    "last_rows": ("run", last_rows, 128, 65536),
    "deep_lists": ("tables", lambda size: text_with("[" * DEEP + "]" * DEEP, size), 1, 16),
    "thin_objects": ("tables", lambda size: text_with('{"a":' * DEEP + "0" + "}" * DEEP, size), 1, 16),
}


def main():
    parser = argparse.ArgumentParser(description="Times the worst that a user can do (see the head of this file).")
    parser.add_argument("kinds", nargs="*", metavar="KIND[=SIZE]", help=", ".join(KINDS))
    parser.add_argument("--limit", type=int, default=4096, help="MiB of memory that a program may take")
    parser.add_argument("--doubled", type=int, default=0, metavar="TIMES", help="how often the size is doubled")
    add_programs(parser, 1)
    parser.add_argument("--limits", action="store_true", help="each kind at its most; at the end those above a minute or a gibibyte")
    asked = parser.parse_args()
    programs = programs_of(asked)
    kinds = KINDS
    if asked.limits:
        import worst_apps

        kinds = {**KINDS, **{name: ("apps", *kind) for name, kind in worst_apps.KINDS.items()}}
    print(f"load {os.getloadavg()[0]:.1f}; least of {asked.runs} runs of {' and of '.join(programs)}")
    above = []
    for kind in asked.kinds or kinds:
        name, _, size = kind.partition("=")
        if name not in kinds or not (size in ("", "most") or size.isdigit()):
            parser.error(f"{kind} is no kind, or its size no number")
        word, make, small, most = kinds[name]
        size = most if size == "most" or asked.limits else int(size or small)
        for size in [size << times for times in range(asked.doubled + 1)]:
            job = make(size)
            text = job if isinstance(job, bytes) else json.dumps(job, separators=(",", ":")).encode()
            title = f"{name}={size}: {word}, {len(text) / 1e6:.2f} MB"
            runs = show(title, programs, [word], text, asked.runs, asked.limit * MEBI)
            if min(it.spent for it in runs[-1]) > 60 or max(it.memory for it in runs[-1]) > 1024:
                above.append(title)
    if asked.limits:
        print("above 60 s or 1 GiB:", *above or ["none"], sep="\n    ")


if __name__ == "__main__":
    main()
