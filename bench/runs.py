"""Processor time of `out/spin run` on the largest jobs: 65,536 packets on one chip, and on a torus of 64 by 64 chips.

    python3 bench/runs.py [PROGRAM]      least of three runs each; PROGRAM is out/spin where none is named (./spin makes it)

Queues are as long as the job may have them: for all packets on the one chip, and for 372 on the torus, where copies may be dropped.
"""
import json
import os
import random
import resource
import subprocess
import sys

ROOT = os.path.dirname(os.path.dirname(os.path.realpath(__file__)))
PACKETS = 65536
MOST_PLACES = 16777216


def job(width, wrap, count, nets):
    graph = {"vertices": [{"name": f"v{i}"} for i in range(count)], "nets": nets}
    packets = [{"net": f"n{i % len(nets)}", "index": 0} for i in range(PACKETS)]
    queue = min(PACKETS, MOST_PLACES // (7 * width * width + count))
    machine = {"width": width, "height": width, "wrap": wrap}
    return {"version": 1, "machine": machine, "graph": graph, "run": {"packets": packets, "queue": queue}}


def net(i, source, targets):
    return {"name": f"n{i}", "source": f"v{source}", "targets": [f"v{it}" for it in targets]}


def jobs():
    yield "one chip, 17 vertices, 1,024 nets of one target", job(1, False, 17, [net(i, i % 17, [(i + 1) % 17]) for i in range(1024)])
    near = [net(i, 4 * i, [(4 * i + 11 * k) % 16384 for k in range(1, 9)]) for i in range(1024)]
    yield "64 by 64, 16,384 vertices, 1,024 nets of eight targets near", job(64, True, 16384, near)
    draw = random.Random(5).randrange
    anywhere = [net(i, draw(16384), [draw(16384) for _ in range(4)]) for i in range(512)]
    yield "64 by 64, 16,384 vertices, 512 nets of four targets anywhere", job(64, True, 16384, anywhere)


def processor_time(program, text):
    before = resource.getrusage(resource.RUSAGE_CHILDREN)
    done = subprocess.run([program, "run"], input=text, capture_output=True, check=True)
    after = resource.getrusage(resource.RUSAGE_CHILDREN)
    return after.ru_utime - before.ru_utime + after.ru_stime - before.ru_stime, done.stdout.splitlines()[-1].decode()


def main():
    program = sys.argv[1] if len(sys.argv) > 1 else f"{ROOT}/out/spin"
    for name, described in jobs():
        text = json.dumps(described).encode()
        times = [processor_time(program, text) for _ in range(3)]
        print(f"{name}: {min(times)[0]:.2f} s: {times[0][1]}")


if __name__ == "__main__":
    main()
