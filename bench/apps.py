"""Times `out/spin apps`: a thousand small applications on a machine of 64 by 64 chips, and how long each step takes alone.

    python3 bench/apps.py [--count COUNT]      1,000 applications where no number is given

`./spin` must have built the program. An application has four vertices, a net from the first to the other three, one from the last to
the first, and two packets. Its vertices ask for no chip, so they stand near each other on the first free cores; or, `spread`, each of
them asks for a chip, and the applications lie all over the machine.

    machine    a load of an application without vertices, which makes the machine of 64 by 64 chips
    reading    all loads, and a step that is none: so they are read, and refused
    loads      all loads
    run        the same, then a run
    unloads    the same, then each application is unloaded, from the first to the last
    in turn    each is loaded, run and unloaded before the next is loaded, so each finds an empty machine

Each list of steps is run five times. Told are the medians of wall-clock time and of processor time, and behind them what one load, one
unload, and one turn of the last kind take: the difference of processor time from the list that lacks them, by their number.
"""
import argparse
import json
import os
import resource
import statistics
import subprocess
import sys
import tempfile
import time

ROOT = os.path.dirname(os.path.dirname(os.path.realpath(__file__)))

RUNS = 5
SIDE = 64
NOTHING = {"vertices": [], "nets": []}
RUN = ["run"]
NO_STEP = ["jump"]


def application(i, spread):
    """The job of an application. A spread one has each vertex on a chip of its own, some chips apart."""
    chips = [[(7 * i + 5 * k) % SIDE, (3 * i + i // SIDE + 11 * k) % SIDE] for k in range(4)]
    vertices = [{"name": f"v{k}", "sdram": 1000, **({"at": chip} if spread else {})} for k, chip in enumerate(chips)]
    nets = [{"name": "out", "source": "v0", "targets": ["v1", "v2", "v3"], "keys": 4}, {"name": "back", "source": "v3", "targets": ["v0"]}]
    return job({"vertices": vertices, "nets": nets}, [{"net": "out", "index": 3}, {"net": "back", "index": 0}])


def job(graph, packets):
    return {"version": 1, "machine": {"width": SIDE, "height": SIDE, "wrap": True}, "graph": graph, "run": {"packets": packets}}


def timed(steps):
    """The medians of wall-clock time and processor time, and what was written."""
    clock, processor = [], []
    with tempfile.TemporaryFile() as source:
        source.write(json.dumps(steps, separators=(",", ":")).encode())
        for _ in range(RUNS):
            source.seek(0)
            before, begun = resource.getrusage(resource.RUSAGE_CHILDREN), time.monotonic()
            done = subprocess.run([f"{ROOT}/out/spin", "apps"], stdin=source, stdout=subprocess.PIPE, check=False)
            clock.append(time.monotonic() - begun)
            after = resource.getrusage(resource.RUSAGE_CHILDREN)
            processor.append(after.ru_utime + after.ru_stime - before.ru_utime - before.ru_stime)
        if done.stdout.startswith(b"usage"):
            sys.exit("out/spin has no word apps")
        return statistics.median(clock), statistics.median(processor), done.stdout.decode(), source.tell()


def show(name, steps):
    """Prints the medians of a list of steps, and gives the processor time."""
    clock, processor, text, size = timed(steps)
    lines = text.splitlines()
    done = sum(line.endswith(" ok") or " got " in line or line == "run" for line in lines)
    told = f"{len(lines)} lines, {done} done, the last is '{lines[-1]}'"
    print(f"  {name:8} {clock * 1000:9.1f} ms, processors {processor * 1000:9.1f} ms, {size / 1e6:5.2f} MB: {told}", flush=True)
    return processor


def each(what, more, less, count):
    print(f"  one {what}: {(more - less) / count * 1000:.3f} ms")


def measure(title, count, spread):
    print(f"{count} applications, {title}")
    loads = [["load", i, application(i, spread)] for i in range(1, count + 1)]
    unloads = [["unload", i] for i in range(1, count + 1)]
    machine = show("machine", [["load", 0, job(NOTHING, [])]])
    reading = show("reading", [*loads, NO_STEP])
    loaded = show("loads", loads)
    ran = show("run", [*loads, RUN])
    unloaded = show("unloads", [*loads, RUN, *unloads])
    in_turn = show("in turn", [step for load, unload in zip(loads, unloads) for step in (load, RUN, unload)])
    each("load", loaded, reading + machine, count)
    each("unload", unloaded, ran, count)
    each("load, run and unload, in turn", in_turn, reading + machine, count)


def main():
    parser = argparse.ArgumentParser(description="Times steps with applications (see the head of this file).")
    parser.add_argument("--count", type=int, default=1000, help="how many applications")
    asked = parser.parse_args()
    print(f"load {os.getloadavg()[0]:.1f}, medians of {RUNS} runs")
    measure("side by side", asked.count, False)
    measure("spread", asked.count, True)


if __name__ == "__main__":
    main()
