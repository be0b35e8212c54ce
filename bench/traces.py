"""Times `out/spin trace` of many events on the board of 48 chips beside `out/spin tables` of the same job.

    python3 bench/traces.py [--small]

`./spin` must have built the program. The job is the board of docs/pictures/board.json, without its dead links and cores, with 200
vertices and 300 nets. Its packets are sent net by net, and its events bring one after the other to all its targets: `inject`, and
at each chip of the net's tree `take` and a `send` for each output, and `collect` for each target. All are enabled. They are found
by following the packets over the tables that the program writes. The first 100,000 of them are kept (1,000 with --small), and the
packets that they send. `tables` reads the same text, events and all, and compiles it; so what `trace` takes above it is the mesh,
the events and the report.

Each is run five times, in turns. Told are the least processor time and wall-clock time, and their ratios.
"""
import json
import os
import resource
import subprocess
import sys
import tempfile
import time

ROOT = os.path.dirname(os.path.dirname(os.path.realpath(__file__)))
sys.path.insert(0, f"{ROOT}/python")
from kulzobad.grid import Grid, opposite  # noqa: E402
from kulzobad.jobs import Job  # noqa: E402
from kulzobad.reports import LINKS, read  # noqa: E402
from kulzobad.trees import root_of, ways_of_nets  # noqa: E402

TURNS = 5


def board():
    with open(f"{ROOT}/docs/pictures/board.json", encoding="utf-8") as text:
        job = json.load(text)
    machine = {name: job["machine"][name] for name in ("width", "height", "dead_chips")}
    return {"version": 1, "machine": machine, "graph": job["graph"], "run": {}}


def written(word, text):
    return subprocess.run([f"{ROOT}/out/spin", word], input=text, stdout=subprocess.PIPE, check=True).stdout.decode()


def events_of(grid, source, ways, collected):
    """The events that bring a packet of a net from its source to all its targets."""
    events, ahead = [["inject", source[0]]], [(source[1], "L")]
    while ahead:
        at, port = ahead.pop(0)
        links, cores = ways[at].links, ways[at].cores
        events.append(["take", *at, port])
        events += [["send", *at, LINKS[link]] for link in links] + [["send", *at, f"c{core}"] for core in cores]
        events += [["collect", collected[(*at, core)]] for core in cores]
        ahead += [(grid.next_chip(at, link), LINKS[opposite(link)]) for link in links]
    return events


def traced(count):
    """The job with its packets and so many events."""
    job = board()
    plan = read(written("tables", json.dumps(job).encode())).plan
    whole = Job.from_json(job)
    grid = Grid(whole.machine)
    collected = {(it.x, it.y, it.core): it.vertex for it in plan.places.values()}
    nets = []
    for net, ways in ways_of_nets(whole, plan):
        nets.append((net.name, events_of(grid, (net.source, root_of(plan, net)), ways, collected)))
    packets, events = [], []
    while len(events) < count:
        name, of_net = nets[len(packets) % len(nets)]
        packets.append({"net": name, "index": 0})
        events += of_net
    job["run"] = {"packets": packets, "events": events[:count]}
    return job


def timed(word, source):
    source.seek(0)
    before, begun = resource.getrusage(resource.RUSAGE_CHILDREN), time.monotonic()
    done = subprocess.run([f"{ROOT}/out/spin", word], stdin=source, capture_output=True, check=True)
    taken, after = time.monotonic() - begun, resource.getrusage(resource.RUSAGE_CHILDREN)
    return after.ru_utime + after.ru_stime - before.ru_utime - before.ru_stime, taken, done.stdout.decode()


def main():
    job = traced(1000 if "--small" in sys.argv[1:] else 100000)
    runs = {"tables": [], "trace": []}
    with tempfile.TemporaryFile() as source:
        source.write(json.dumps(job, separators=(",", ":")).encode())
        print(f"{len(job['run']['packets'])} packets, {len(job['run']['events'])} events, {source.tell()} bytes, load {os.getloadavg()[0]:.1f}")
        for _ in range(TURNS):
            for word, rounds in runs.items():
                rounds.append(timed(word, source))
    least = {word: [min(run[i] for run in rounds) for i in (0, 1)] for word, rounds in runs.items()}
    for word, (spent, taken) in least.items():
        print(f"{word:8} {spent * 1000:8.1f} ms of processors   {taken * 1000:8.1f} ms in all   {runs[word][0][2].splitlines()[-1]}")
    print(f"trace takes {least['trace'][0] / least['tables'][0]:.2f} times the processor time of tables, {least['trace'][1] / least['tables'][1]:.2f} times its time in all")
    moved = read(runs["trace"][0][2]).moved
    print(f"{sum(moved)} of {len(moved)} events moved a copy")


if __name__ == "__main__":
    main()
