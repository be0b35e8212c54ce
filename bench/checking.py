"""Times `out/spin check` beside `out/spin compile` of the same job.

    python3 bench/checking.py [PART ..]

`./spin` must have built the program. PARTs are these, all where none is named:

    lines    64 by 64 chips and 4,096 nets, 64 along each row of chips from its first to its last; so each chip is on 64 trees
    nets     jobs of bench/compiling.py: 4,096 nets on a torus of 64 by 64 chips with eight targets near their source, with four
             anywhere, and with these and target 0, so that all tables are covered. tools/model.py makes their trees, in a minute
    worst    4,096 nets along the same 192 chips, each of which has 1,024 rows, and the last is the first that has a key of theirs
    bytes    as many numbers in the image as 16,777,216 bytes have room for; they are no image

A request has the trees and the image that `compile` writes. `reading` is the same request, with a last number that is no byte: so it
is read and then refused. Each command is run five times; the least processor time and wall-clock time are told, with the greatest
memory of all so far.
"""
import json
import os
import resource
import subprocess
import sys
import tempfile
import time

ROOT = os.path.dirname(os.path.dirname(os.path.realpath(__file__)))
sys.path[:0] = [f"{ROOT}/bench", f"{ROOT}/tools"]
import model  # noqa: E402
import tables_command  # noqa: E402

SIDE, NETS = 64, 4096
LAST_CHIPS, MOST_ROWS = 192, 1024
MOST_BYTES = 16777216
PARTS = ("lines", "nets", "worst", "bytes")


def text_of(value):
    return json.dumps(value, separators=(",", ":")).encode()


def show(what, word, text):
    """Runs the command, prints its times, and gives what it wrote."""
    clock, processor, wrote = [], [], b""
    for _ in range(5):
        with tempfile.TemporaryFile() as source:
            source.write(text)
            source.seek(0)
            before, began = resource.getrusage(resource.RUSAGE_CHILDREN), time.perf_counter()
            done = subprocess.run([f"{ROOT}/out/spin", word], stdin=source, capture_output=True)
            clock.append(time.perf_counter() - began)
            after = resource.getrusage(resource.RUSAGE_CHILDREN)
            processor.append(after.ru_utime + after.ru_stime - before.ru_utime - before.ru_stime)
            wrote = done.stdout
    told = f"{len(wrote)} bytes" if word == "compile" else wrote.decode().rstrip("\n")
    size = len(text) / 1e6
    print(f"    {what:8} {min(processor):6.2f} s of processors {min(clock):6.2f} s {after.ru_maxrss // 1024:5} MiB  {size:5.2f} MB: {told}", flush=True)
    return wrote


def check(job, trees, image):
    whole = {"job": job, "trees": trees, "image": image}
    show("reading", "check", text_of({**whole, "image": [*image, 256]}))
    show("check", "check", text_of(whole))


def beside_compile(name, job, trees):
    print(name)
    check(job, trees, list(show("compile", "compile", text_of(job))))


def lines():
    ends = [{"name": f"{name}{y}", "at": [x, y]} for name, x in (("a", 0), ("b", SIDE - 1)) for y in range(SIDE)]
    nets = [{"name": f"n{y}.{k}", "source": f"a{y}", "targets": [f"b{y}"]} for y in range(SIDE) for k in range(NETS // SIDE)]
    job = {"version": 1, "machine": {"width": SIDE, "height": SIDE}, "graph": {"vertices": ends, "nets": nets}}
    return job, [[[x, y, 0] for x in range(SIDE - 1)] for y in range(SIDE) for _ in range(NETS // SIDE)]


def trees_of(job):
    machine = model.Machine(job["machine"])
    spots = model.spots_of(machine, job["graph"]["vertices"])
    return [[[*chip, link] for chip, link in model.tree_of(machine, spots, net)] for net in model.placed_nets(job)]


def worst():
    """A snake of chips along the rows of the grid, with all nets from its head to its end."""
    chips = [(x if y % 2 == 0 else SIDE - 1 - x, y) for y in range(LAST_CHIPS // SIDE) for x in range(SIDE)]
    links = [model.STEPS.index((after[0] - chip[0], after[1] - chip[1])) for chip, after in zip(chips, chips[1:])]
    vertices = [{"name": "a", "at": chips[0]}, {"name": "b", "at": chips[-1]}]
    nets = [{"name": f"n{i}", "source": "a", "targets": ["b"]} for i in range(NETS)]
    job = {"version": 1, "machine": {"width": SIDE, "height": SIDE}, "graph": {"vertices": vertices, "nets": nets}}
    # (keys from 2^16 on are no net's)
    front = [model.Row(model.Block(2**16 + i, model.ALL_ONES), 1, []) for i in range(MOST_ROWS - 1)]
    routes = [1 << link for link in links] + [1 << 7]
    tables = {chip: [*front, model.Row(model.Block(0, 0), route, [])] for chip, route in sorted(zip(chips, routes))}
    tree = [[*chip, link] for chip, link in zip(chips, links)]
    return job, [tree] * NETS, list(model.image_of(job["machine"], tables))


def main():
    parts = sys.argv[1:] or PARTS
    print(f"{len(os.sched_getaffinity(0))} processors, load {os.getloadavg()[0]:.1f}")
    if "lines" in parts:
        beside_compile("lines: 4,096 nets along the rows of chips", *lines())
    if "nets" in parts:
        near, anywhere = tables_command.job(NETS, tables_command.near), tables_command.job(NETS, tables_command.anywhere)
        beside_compile("nets: eight targets near their source", near, trees_of(near))
        trees = trees_of(anywhere)
        beside_compile("nets: four targets anywhere", anywhere, trees)
        beside_compile("nets: the same, target 0", {**anywhere, "run": {"target": 0}}, trees)
    if "worst" in parts:
        print("worst: 4,096 nets along 192 chips of 1,024 rows")
        check(*worst())
    if "bytes" in parts:
        print("bytes: an image of numbers alone")
        none = {"version": 1, "machine": {"width": 1, "height": 1}, "graph": {"vertices": [], "nets": []}}
        check(none, [], [255] * ((MOST_BYTES - 200) // 4))


if __name__ == "__main__":
    main()
