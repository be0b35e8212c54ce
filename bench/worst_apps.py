"""Times the worst that a user can do with `apps`, at sizes that double: by what factor the time grows tells how it depends on the size.

    python3 bench/worst_apps.py [--program PROGRAM] [--beside OTHER] [--runs RUNS] [--doublings COUNT] [--limit MIB] [KIND[=SIZE] ..]

PROGRAM is out/spin where none is named; OTHER is run in turn with it, and is what it is compared with. Each kind is run at a SIZE, and at
COUNT sizes more, each twice the one before; without a SIZE the first is a size that takes a part of a second. A program that wants more
than MIB of memory, 4,096 where no number is given, ends with status 9. Told are processor time, wall-clock time and peak memory of each
size, and the factor by which the processor time grew. Without KINDs all are run.

    kept_unloads     a million deliveries that no unload has handed back, and so many loads and unloads of an empty graph
    own_unloads      the same, where each of these applications has a packet, a run comes between, and all are unloaded from the first on
    kept_deliveries  one net to 16,383 vertices and so many packets: a run, and an unload
    kept_by_turns    the same with two nets of one source, in turn, each to all vertices but one
    kept_by_keys     the same with one net, each of whose packets in a load has a key of its own
    long_pairs       so many loads and unloads of one net along a serpentine of live links through 64 by 64 chips
    long_nets        one load of so many such nets
    nets_in_turn     so many such nets in all, in loads and unloads of 64
    long_packets     so many packets of one such net: a run, and an unload
    small_pairs      so many loads and unloads of four vertices and two nets on 64 by 64 chips
"""
import argparse
import json

from in_turn import MEBI, add_programs, programs_of, show
from worst import NOTHING, SMALL, application, serpentine

FIRST = 256
PACKETS = 65536


def one_net(targets, packets, keys=1):
    """A net from the first vertex to all others, and packets with its keys in turn."""
    vertices = [{"name": f"v{i}"} for i in range(targets + 1)]
    net = {"name": "n", "source": "v0", "targets": [f"v{i + 1}" for i in range(targets)], "keys": keys}
    return application(vertices, [net], [{"net": "n", "index": i % keys} for i in range(packets)])


def kept(others):
    return [["load", 0, one_net(1000, 1000)], ["run"], *others]


def pairs(size, job):
    return [step for i in range(1, size + 1) for step in (["load", i, job], ["unload", i])]


def kept_unloads(size):
    return kept(pairs(size, NOTHING))


def own_unloads(size):
    small = one_net(1, 1)
    loads = [step for i in range(1, size + 1) for step in (["load", i, small], ["run"])]
    return kept([*loads, *(["unload", i] for i in range(1, size + 1))])


def by_loads(size, job_of):
    """So many packets, in loads of as many as one may have, each run and unloaded before the next."""
    loads = [job_of(min(size - begin, PACKETS)) for begin in range(0, size, PACKETS)]
    return [step for i, job in enumerate(loads) for step in (["load", i, job], ["run"], ["unload", i])]


def kept_deliveries(size):
    return by_loads(size, lambda packets: one_net(16383, packets))


def kept_by_turns(size):
    """Packets that come to other vertices than the one before."""
    names = [f"v{i}" for i in range(16384)]
    nets = [{"name": name, "source": "v0", "targets": others} for name, others in (("a", names[1:-1]), ("b", names[2:]))]
    vertices = [{"name": name} for name in names]
    return by_loads(size, lambda packets: application(vertices, nets, [{"net": "ab"[i % 2], "index": 0} for i in range(packets)]))


def kept_by_keys(size):
    """No packet of a load goes where it is known to come from another with its key."""
    return by_loads(size, lambda packets: one_net(16383, packets, packets))


def long_pairs(size, nets=1):
    """The machine is that of the first job."""
    job = serpentine(nets, 1024)
    return [["load", 0, job], ["unload", 0], *pairs(size, {**job, "machine": NOTHING["machine"]})]


def long_nets(size):
    return [["load", 0, serpentine(size, 1024)]]


def nets_in_turn(size):
    return long_pairs(size // 64 - 1, 64)


def long_packets(size):
    """The machine is that of the first job."""
    job = serpentine(1, 1024)
    return by_loads(size, lambda packets: {**job, "run": {"packets": [{"net": "n0", "index": 0}] * packets}})


def small_pairs(size):
    """Without packets: an application of which one is unsent is not unloaded."""
    return pairs(size, {**SMALL, "run": {"packets": []}})


# Of each kind what makes its steps, the first size, and the most that a text has room for.
KINDS = {
    "kept_unloads": (kept_unloads, FIRST, 32766),
    "own_unloads": (own_unloads, FIRST, 21844),
    "kept_deliveries": (kept_deliveries, FIRST, 8 * PACKETS),
    "kept_by_turns": (kept_by_turns, FIRST, 8 * PACKETS),
    "kept_by_keys": (kept_by_keys, FIRST, 519364),
    "long_pairs": (long_pairs, 64, 32766),
    "long_nets": (long_nets, 64, 4096),
    "nets_in_turn": (nets_in_turn, 128, 230000),
    "long_packets": (long_packets, 64, 8 * PACKETS),
    "small_pairs": (small_pairs, FIRST, 32767),
}


def main():
    parser = argparse.ArgumentParser(description="Times the worst of applications (see the head of this file).")
    parser.add_argument("kinds", nargs="*", metavar="KIND[=SIZE]", help=", ".join(KINDS))
    parser.add_argument("--doublings", type=int, default=2, help="how often the size is doubled")
    parser.add_argument("--limit", type=int, default=4096, help="MiB of memory that a program may take")
    add_programs(parser, 3)
    asked = parser.parse_args()
    programs = programs_of(asked)
    for kind in asked.kinds or KINDS:
        name, _, size = kind.partition("=")
        if name not in KINDS or not (size == "" or size.isdigit()):
            parser.error(f"{kind} is no kind, or its size no number")
        make, first, _ = KINDS[name]
        before = None
        for doubling in range(asked.doublings + 1):
            count = int(size or first) << doubling
            text = json.dumps(make(count), separators=(",", ":")).encode()
            found = show(f"{name}={count}: {len(text) / 1e6:.2f} MB", programs, ["apps"], text, asked.runs, asked.limit * MEBI)
            spent = [min(it.spent for it in listed) for listed in found]
            if before:
                print("  times " + ", ".join(f"{now / was:.2f}" for now, was in zip(spent, before)))
            before = spent


if __name__ == "__main__":
    main()
