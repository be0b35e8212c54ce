"""Times pages: how long one takes to make, how many bytes it has, and how long it takes to open in a headless Chromium.

    python3 bench/pages.py

`./spin` must have built the program, and a Chromium be installed. The jobs:

    board    the job that `tools/gen_reference.py 1` writes: 48 chips, 300 nets and 1,200 packets
    large    64 by 64 chips with two vertices each, and 4,096 nets to three vertices anywhere
    packets  64 by 64 chips with four vertices each, as many such nets, and a packet of each, which are run with three lengths of queues

Told are the seconds of `kulzobad page`, those of processors with the program's runs, the bytes, and the medians of five openings: seconds until the page has answered, and the
processor time of the page's own thread in that time; then the same for the answer to a net and to a chip.
"""
import json
import os
import random
import resource
import statistics
import subprocess
import sys
import tempfile
import time

ROOT = os.path.dirname(os.path.dirname(os.path.realpath(__file__)))
sys.path.insert(0, f"{ROOT}/python")

from tests.browser import CHROMIUM, Browser  # noqa: E402

RUNS = 5
SIDE = 64


def large(on_each=2, has_packets=False):
    draw, count = random.Random(5), on_each * SIDE * SIDE
    vertices = [{"name": f"v{i}", "at": [i // on_each // SIDE, i // on_each % SIDE]} for i in range(count)]
    targets = [[f"v{draw.randrange(count)}" for _ in range(3)] for _ in range(SIDE * SIDE)]
    nets = [{"name": f"n{i}", "source": f"v{on_each * i}", "targets": listed} for i, listed in enumerate(targets)]
    run = {"packets": [{"net": it["name"], "index": 0} for it in nets] if has_packets else []}
    graph = {"vertices": vertices, "nets": nets}
    return json.dumps({"version": 1, "machine": {"width": SIDE, "height": SIDE}, "graph": graph, "run": run}).encode()


def used():
    """The processor time of all that was called and has ended."""
    found = resource.getrusage(resource.RUSAGE_CHILDREN)
    return found.ru_utime + found.ru_stime


def opened(browser, path, part):
    """Medians of the seconds of an opening, and of the thread's processor time."""
    found = []
    for _ in range(RUNS):
        seconds = browser.open(path, part)
        metrics = {it["name"]: it["value"] for it in browser.call("Performance.getMetrics")["metrics"]}
        found.append((seconds, metrics["TaskDuration"]))
    return [statistics.median(it) for it in zip(*found)]


def main():
    if not CHROMIUM:
        sys.exit("pages: no Chromium is installed")
    environment = {**os.environ, "PYTHONPATH": f"{ROOT}/python", "KULZOBAD_SPIN": f"{ROOT}/out/spin"}
    board = subprocess.run([sys.executable, f"{ROOT}/tools/gen_reference.py", "1"], stdout=subprocess.PIPE, check=True).stdout
    with tempfile.TemporaryDirectory() as folder, Browser(1440, 900) as browser:
        browser.call("Performance.enable", {"timeDomain": "threadTicks"})
        for name, text in (("board", board), ("large", large()), ("packets", large(4, True))):
            path, begun, before = f"{folder}/{name}.html", time.monotonic(), used()
            subprocess.run([sys.executable, "-m", "kulzobad", "page", "-", "-o", path], input=text, env=environment, check=True)
            print(f"{name}: made in {time.monotonic() - begun:.2f} s, of processors {used() - before:.2f} s, {os.path.getsize(path):,} bytes")
            for what, part in (("opened", ""), ("a net", "#net=n53"), ("a chip", "#chip=2,3&show=rows")):
                seconds, thread = opened(browser, path, part)
                print(f"  {what}: {seconds:.2f} s, of the thread {thread:.2f} s")


if __name__ == "__main__":
    main()
