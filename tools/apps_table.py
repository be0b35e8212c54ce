"""Tries what is answered to steps with applications: each refusal, and what comes free again when an application goes.

    python3 tools/apps_table.py [PROGRAM]

Each list of steps of `cases` is given to `PROGRAM apps`; PROGRAM is ./spin where none is named. The bytes written are to be the lines
that stand beside the list, and the status 0. Each mismatch is printed. The last line is 'N passed, M failed', and the status 1 where one
failed.

The lines were worked out by hand from the formats, and not taken from what a program wrote. What is counted for each: a chip has
17 cores for vertices, as many bytes as `sdram` says, and 1,024 entries; there are 2^32 keys. A net of a job without other chips takes
one entry, and the least block of keys that is free.
"""
import json
import os
import subprocess
import sys

ROOT = os.path.dirname(os.path.dirname(os.path.realpath(__file__)))

RUN = ["run"]
LAST_NUMBER = 4294967295
ALL_KEYS = 4294967296
ONE_KEY = 4294967295  # the mask of a block of one key


def load(number, job):
    return ["load", number, job]


def unload(number):
    return ["unload", number]


def job(vertices, nets=(), packets=0, machine=(), run=()):
    """A job: names of vertices, or vertices; nets as (name, source, targets, more members); so many packets of the first net, or those
    of a list, each a net and an index."""
    sent = [(nets[0][0], 0) for _ in range(packets)] if isinstance(packets, int) else packets
    return {
        "version": 2,
        "machine": {"width": 1, "height": 1, **dict(machine)},
        "graph": {
            "vertices": [it if isinstance(it, dict) else {"name": it} for it in vertices],
            "nets": [{"name": name, "source": source, "targets": targets, **more} for name, source, targets, more in nets],
        },
        "run": {"packets": [{"net": net, "index": index} for net, index in sent], **dict(run)},
    }


def pair(packets=1, **more):
    """Two vertices, and a net from the first to the second."""
    return job(["a", "b"], [("n", "a", ["b"], more)], packets)


def many_nets(count):
    """As many nets as said from a vertex to another."""
    return job(["a", "b"], [(f"n{i}", "a", ["b"], {}) for i in range(count)])


def bytes_of(need, **machine):
    """A vertex that needs so many bytes."""
    return job([{"name": "a", "sdram": need}], machine=machine)


def row(nets=1, machine=()):
    """Two vertices on two chips in a row, and nets from the first to the second."""
    ends = [{"name": "a", "at": [0, 0]}, {"name": "b", "at": [1, 0]}]
    return job(ends, [(f"n{i}", "a", ["b"], {}) for i in range(nets)], 1, {"width": 2, **dict(machine)})


def numbered_cases():
    """Numbers, and steps before the first load."""
    yield "no step", [], []
    yield "a run and an unload before any load", [RUN, unload(0), RUN], ["run", "unload 0 not loaded", "run"]
    yield (
        "the least and the greatest number",
        [load(0, pair()), load(LAST_NUMBER, pair()), unload(LAST_NUMBER), unload(1)],
        ["load 0 ok", "load 4294967295 ok", "unload 4294967295 waiting 1", "unload 1 not loaded"],
    )
    crowd = job([f"v{i}" for i in range(18)])
    yield (
        "a number that is loaded is told before anything else, and may be loaded again once it is free",
        [load(1, pair()), load(1, pair()), load(1, crowd), RUN, unload(1), load(1, pair()), unload(1)],
        ["load 1 ok", "load 1 loaded", "load 1 loaded", "run", "unload 1 got 1 dumped 0", "load 1 ok", "unload 1 waiting 1"],
    )
    yield (
        "packets of loads that are refused have no numbers",
        [load(1, pair(3)), load(1, pair(7)), load(2, pair(2)), unload(2), unload(1), RUN, unload(1), load(3, pair()), unload(3)],
        ["load 1 ok", "load 1 loaded", "load 2 ok", "unload 2 waiting 3", "unload 1 waiting 0", "run", "unload 1 got 3 dumped 0", "load 3 ok", "unload 3 waiting 5"],
    )


def room_cases():
    """Cores: 17 a chip, and those of an application that goes are free again."""
    crowd = job([f"v{i}" for i in range(18)])
    yield (
        "the machine is the first job's, also where that is refused; nothing has changed then",
        [load(1, crowd), load(2, row()), load(3, pair())],
        ["load 1 no room v17", "load 2 no room b", "load 3 ok"],
    )
    full = [load(i, pair(0)) for i in range(8)]
    yield (
        "eight pairs leave one core of a chip; the cores of one that goes are free again",
        [*full, load(8, pair()), load(9, job(["c"])), load(10, job(["d"])), unload(3), load(10, job(["d", "e", "f"])), load(11, job(["d", "e"])), load(12, job(["g"]))],
        [*[f"load {i} ok" for i in range(8)], "load 8 no room b", "load 9 ok", "load 10 no room d", "unload 3 got 0 dumped 0", "load 10 no room f", "load 11 ok", "load 12 no room g"],
    )
    dead = [[0, 0, p] for p in range(3, 18)]
    yield (
        "dead cores are those of the first job, of which two are left",
        [load(1, job(["a"], machine={"dead_cores": dead})), load(2, pair()), load(3, job(["c"])), load(4, job(["d"]))],
        ["load 1 ok", "load 2 no room b", "load 3 ok", "load 4 no room d"],
    )
    yield (
        "where the first chip is full, vertices stand on the next one, unless they name theirs",
        [load(1, job([f"v{i}" for i in range(16)], machine={"width": 2})), load(2, pair()), load(3, job([{"name": "c", "at": [0, 0]}])), load(4, job([{"name": "c", "at": [1, 0]}])), RUN, unload(2), load(3, job([{"name": "c", "at": [0, 0]}]))],
        ["load 1 ok", "load 2 ok", "load 3 no room c", "load 4 ok", "run", "unload 2 got 1 dumped 0", "load 3 ok"],
    )


def road_cases():
    """Ways between chips are those of the first job's machine."""
    broken = {"dead_links": [[0, 0, 0]]}
    yield (
        "a dead link cuts off the second chip, for later jobs too; what stays on one chip is loaded",
        [load(1, row(machine=broken)), load(2, row()), load(3, pair()), RUN, unload(3)],
        ["load 1 cut off n0 1 0", "load 2 cut off n0 1 0", "load 3 ok", "run", "unload 3 got 1 dumped 0"],
    )
    chips = [{"name": f"v{x}", "at": [x, 0]} for x in range(4)]
    nets = [("m", "v0", ["v1"], {}), ("n", "v2", ["v3", "v0", "v1"], {}), ("o", "v0", ["v3"], {})]
    yield (
        "of the first net with a target that is cut off, the nearer one: (1,0) is one link from (2,0)",
        [load(7, job(chips, nets, 1, {"width": 4, "dead_links": [[1, 0, 0]]}))],
        ["load 7 cut off n 1 0"],
    )
    near = [("n", "a", ["b", "a", "b"], {})]
    yield (
        "with queues of one copy, two packets to each of two vertices on two chips; a target that is named twice counts once",
        [load(1, job([{"name": "a", "at": [0, 0]}, {"name": "b", "at": [1, 0]}], near, 2, {"width": 2}, {"queue": 1})), load(2, row()), RUN, unload(1), unload(2)],
        ["load 1 ok", "load 2 ok", "run", "unload 1 got 4 dumped 0", "unload 2 got 1 dumped 0"],
    )


def memory_cases():
    """Memory: the least hole of a chip that is long enough. Placing counts a job's own bytes alone."""
    yield (
        "60 of 100 bytes are taken, so 60 others find no hole, and 40 do; 101 have no room on any chip",
        [load(1, bytes_of(60, sdram=100)), load(2, bytes_of(60)), load(3, bytes_of(101)), load(4, bytes_of(40)), load(5, bytes_of(1)), load(6, bytes_of(0)), unload(1), load(2, bytes_of(60))],
        ["load 1 ok", "load 2 memory out a", "load 3 no room a", "load 4 ok", "load 5 memory out a", "load 6 ok", "unload 1 got 0 dumped 0", "load 2 ok"],
    )
    yield (
        "bytes 0 to 29, 30 to 59 and 60 to 89 are taken; then holes of 30 and 40 bytes are left, and none of 50",
        [load(1, bytes_of(30, sdram=100)), load(2, bytes_of(30)), load(3, bytes_of(30)), unload(1), unload(3), load(4, bytes_of(50)), load(5, bytes_of(40)), load(6, bytes_of(31)), load(7, bytes_of(30)), load(8, bytes_of(1))],
        ["load 1 ok", "load 2 ok", "load 3 ok", "unload 1 got 0 dumped 0", "unload 3 got 0 dumped 0", "load 4 memory out a", "load 5 ok", "load 6 memory out a", "load 7 ok", "load 8 memory out a"],
    )
    two = job([{"name": "a", "sdram": 20}, {"name": "b", "sdram": 60}], machine={"sdram": 100})
    yield (
        "20 of the 30 bytes that are left go to the first vertex, and come back when the second finds none",
        [load(1, bytes_of(70, sdram=100)), load(2, two), load(3, bytes_of(30)), load(4, bytes_of(1))],
        ["load 1 ok", "load 2 memory out b", "load 3 ok", "load 4 memory out a"],
    )
    away = job([{"name": "a", "sdram": 60, "at": [1, 0]}])
    yield (
        "the first chip has cores for the vertex, but no hole, so it names the second",
        [load(1, bytes_of(60, width=2, sdram=100)), load(2, bytes_of(60)), load(2, away), load(3, away)],
        ["load 1 ok", "load 2 memory out a", "load 2 ok", "load 3 memory out a"],
    )


def key_cases():
    """Keys: fixed blocks first, then the least aligned block for each other net."""
    page = {"fixed": [256, 4294967040]}
    yield (
        "keys 256 to 511 are fixed, so no other application may fix key 384, until they are free",
        [load(1, pair(**page)), load(2, pair(fixed=[384, ONE_KEY])), load(3, pair(fixed=[512, 4294967040])), RUN, unload(1), load(2, pair(fixed=[384, ONE_KEY])), load(1, pair(**page))],
        ["load 1 ok", "load 2 keys out n", "load 3 ok", "run", "unload 1 got 1 dumped 0", "load 2 ok", "load 1 keys out n"],
    )
    yield (
        "one key is 0, four are 4 to 7, two are 2 and 3, one is 1; so 8 is free, and 1 is not, until its application goes",
        [load(1, pair()), load(2, pair(keys=4)), load(3, pair(keys=2)), load(4, pair()), load(5, pair(fixed=[1, ONE_KEY])), load(6, pair(fixed=[8, ONE_KEY])), RUN, unload(4), load(5, pair(fixed=[1, ONE_KEY])), load(4, pair()), load(7, pair(fixed=[9, ONE_KEY]))],
        ["load 1 ok", "load 2 ok", "load 3 ok", "load 4 ok", "load 5 keys out n", "load 6 ok", "run", "unload 4 got 1 dumped 0", "load 5 ok", "load 4 ok", "load 7 keys out n"],
    )
    late = job(["a", "b"], [("p", "a", ["b"], {}), ("q", "b", ["a"], {"fixed": [0, ONE_KEY]})], 1)
    every = job(["a", "b"], [("p", "a", ["b"], {"keys": ALL_KEYS}), ("q", "b", ["a"], {"fixed": [0, ONE_KEY]})], 1)
    yield (
        "the fixed block of the second net is taken before the first net's keys; where neither is there, it is told first",
        [load(1, every), load(1, late), load(2, every), RUN, unload(1), load(2, pair(keys=ALL_KEYS)), load(3, pair()), load(4, late)],
        ["load 1 keys out p", "load 1 ok", "load 2 keys out q", "run", "unload 1 got 1 dumped 0", "load 2 ok", "load 3 keys out n", "load 4 keys out q"],
    )


def entry_cases():
    """Entries: one for each net at each chip of its tree, 1,024 a chip, in one piece."""
    yield (
        "1,025 nets have no room in a router; 1,000 and 24 fill it, and not one more is loaded until some go",
        [load(1, many_nets(1025)), load(1, many_nets(1000)), load(2, many_nets(25)), load(2, many_nets(24)), load(3, many_nets(1)), unload(2), load(3, many_nets(1)), load(4, many_nets(24)), load(4, many_nets(23))],
        ["load 1 rows out 0 0", "load 1 ok", "load 2 rows out 0 0", "load 2 ok", "load 3 rows out 0 0", "unload 2 got 0 dumped 0", "load 3 ok", "load 4 rows out 0 0", "load 4 ok"],
    )
    yield (
        "400, 300 and 324 entries are taken; then holes of 400 and 324 are left, and none of 500",
        [load(1, many_nets(400)), load(2, many_nets(300)), load(3, many_nets(324)), unload(1), unload(3), load(4, many_nets(500)), load(5, many_nets(324)), load(6, many_nets(325)), load(6, many_nets(324)), load(7, many_nets(76)), load(8, many_nets(1))],
        ["load 1 ok", "load 2 ok", "load 3 ok", "unload 1 got 0 dumped 0", "unload 3 got 0 dumped 0", "load 4 rows out 0 0", "load 5 ok", "load 6 rows out 0 0", "load 6 ok", "load 7 ok", "load 8 rows out 0 0"],
    )
    second = job([{"name": "a", "at": [1, 0]}], [(f"n{i}", "a", ["a"], {}) for i in range(1024)], machine={"width": 2})
    yield (
        "the second chip is full, and a net to it finds no entry there; with the first one full too, that is told",
        [load(1, second), load(2, row()), load(3, many_nets(1024)), load(4, row()), unload(1), load(4, row()), unload(3), load(4, row()), RUN, unload(4)],
        ["load 1 ok", "load 2 rows out 1 0", "load 3 ok", "load 4 rows out 0 0", "unload 1 got 0 dumped 0", "load 4 rows out 0 0", "unload 3 got 0 dumped 0", "load 4 ok", "run", "unload 4 got 1 dumped 0"],
    )

    most = job(
        [{"name": f"a{i}", "at": [i, 0]} for i in range(4)], [(f"n{i}", f"a{i % 4}", [f"a{i % 4}"], {}) for i in range(4096)], machine={"width": 4}
    )
    yield (
        "4,096 nets, 1,024 on each of four chips, are loaded at once, and so they are when they were unloaded; on one chip they have no room",
        [load(1, most), load(2, many_nets(1)), unload(1), load(2, many_nets(4096)), load(3, most), unload(3)],
        ["load 1 ok", "load 2 rows out 0 0", "unload 1 got 0 dumped 0", "load 2 rows out 0 0", "load 3 ok", "unload 3 got 0 dumped 0"],
    )


def order_cases():
    """Memory is asked for before keys, and keys before entries."""
    hungry = job(["a", {"name": "b", "sdram": 100}], [("n", "a", ["b"], {"keys": ALL_KEYS})], 1, {"sdram": 100})
    wants = job(["a", {"name": "b", "sdram": 1}], [(f"n{i}", "a", ["b"], {}) for i in range(1025)])
    yield (
        "an application that finds neither a byte nor a key nor entries is told of its vertex, one that finds no key of its net",
        [load(1, hungry), load(2, wants), load(3, many_nets(1025)), RUN, unload(1), load(2, wants), load(3, many_nets(1024)), unload(3)],
        ["load 1 ok", "load 2 memory out b", "load 3 keys out n0", "run", "unload 1 got 1 dumped 0", "load 2 rows out 0 0", "load 3 ok", "unload 3 got 0 dumped 0"],
    )


def run_cases():
    """Packets, and what an unload hands back."""
    fan = job(["a", "b", "c"], [("n", "a", ["b", "c", "a"], {})], 5)
    yield (
        "five packets to three vertices, beside another application's two; a second run and a load between change neither",
        [load(1, fan), load(2, pair(2)), RUN, RUN, load(3, pair(4)), unload(3), unload(2), unload(1), RUN, unload(3), unload(3)],
        ["load 1 ok", "load 2 ok", "run", "run", "load 3 ok", "unload 3 waiting 7", "unload 2 got 2 dumped 0", "unload 1 got 15 dumped 0", "run", "unload 3 got 4 dumped 0", "unload 3 not loaded"],
    )
    # Of `m` and `n` each packet has two targets, of `o` one, and of `p`, which another vertex sends, three.
    ends = [{"name": name, "at": [x, 0]} for name, x in (("a", 0), ("b", 0), ("c", 1), ("d", 2))]
    nets = [("m", "a", ["b", "c"], {"keys": 4}), ("n", "a", ["c", "b"], {"keys": 2}), ("o", "a", ["d"], {}), ("p", "d", ["a", "b", "d"], {"keys": 3})]
    sent = [("m", 0), ("m", 3), ("m", 0), ("o", 0), ("p", 2), ("m", 3), ("n", 1), ("o", 0), ("m", 0), ("n", 1), ("p", 0), ("p", 2)]
    mixed = job(ends, nets, sent, {"width": 3}, {"queue": 1})
    yield (
        "packets whose keys come again after others, of nets to the same vertices and to others: 7 of two targets, 2 of one, 3 of three",
        [load(1, mixed), load(2, mixed), RUN, unload(1), load(1, mixed), unload(1), RUN, unload(1), unload(2)],
        ["load 1 ok", "load 2 ok", "run", "unload 1 got 25 dumped 0", "load 1 ok", "unload 1 waiting 24", "run", "unload 1 got 25 dumped 0", "unload 2 got 25 dumped 0"],
    )


def limit_cases():
    """Jobs at the limits: 4,096 chips, 16,384 vertices, 4,096 nets, 65,536 packets."""

    def crowd(packets):
        nets = [(f"n{i}", f"v{4 * i}", [f"v{4 * i + k}" for k in (1, 2, 3)], {}) for i in range(4096)]
        return job([f"v{i}" for i in range(16384)], nets, packets, {"width": 64, "height": 64})

    yield (
        "four times 16,384 vertices leave 4,096 of 69,632 cores, which v0 to v4095 of a fifth job take; each packet has three targets",
        [load(1, crowd(65536)), *[load(i, crowd(1)) for i in (2, 3, 4, 5)], RUN, unload(5), unload(1), load(5, crowd(1)), RUN, unload(5), unload(3)],
        [*[f"load {i} ok" for i in (1, 2, 3, 4)], "load 5 no room v4096", "run", "unload 5 not loaded", "unload 1 got 196608 dumped 0", "load 5 ok", "run", "unload 5 got 3 dumped 0", "unload 3 got 3 dumped 0"],
    )


def cases():
    for kind in (numbered_cases, room_cases, road_cases, memory_cases, key_cases, entry_cases, order_cases, run_cases, limit_cases):
        yield from kind()


def is_answered(program, why, steps, lines):
    """Whether the program writes these lines. It prints what it writes instead."""
    done = subprocess.run([program, "apps"], input=json.dumps(steps).encode(), capture_output=True)
    if done.stdout == "".join(f"{line}\n" for line in lines).encode() and done.returncode == 0:
        return True
    print(f"FAILED: {why}")
    print("  wanted  " + " / ".join(lines))
    print(f"  given   status {done.returncode}, " + " / ".join(done.stdout.decode(errors="backslashreplace").splitlines()))
    return False


def main():
    program = sys.argv[1] if len(sys.argv) > 1 else f"{ROOT}/spin"
    answers = [is_answered(program, *case) for case in cases()]
    print(f"{sum(answers)} passed, {len(answers) - sum(answers)} failed")
    return 0 if all(answers) else 1


if __name__ == "__main__":
    sys.exit(main())
