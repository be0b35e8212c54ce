"""Times `out/spin tables` and `compile` with one worker and with four, side by side, and tells how much memory they take.

    python3 bench/compiling.py [--small] [PART ..]

`./spin` must have built the program. PARTs are these, all where none is named; --small takes jobs of a sixteenth of the size, to
see that the script works:

    nets     a torus of 64 by 64 chips with 16,384 vertices and 4,096 nets of 16 keys: eight targets near their source; four
             targets anywhere; the same with one link in twenty dead; and the last one with target 0, so that all tables are
             covered
    rows     4,096 nets of 441 targets, spread over a torus of 64 by 64 chips: 5,477,360 plain rows (see `wide`)
    chip     one chip with 256, 1,024 and 4,096 nets, target 0: how long covering takes

Each job is run by workers 1, workers 4, and workers 4 on one processor, in turns, five times, or once where a run takes above ten
seconds. Told are the least wall-clock time and processor time of each, and the greatest memory of one process (what Python
takes, some 15 MiB, is the least that can be told). `run.workers` is the number of workers that shorten tables; nets are routed by
as many threads as the process has processors, whatever it says. So the third way is the one in which nothing is done side by side.
"""
import json
import os
import subprocess
import sys
import tempfile
import time

ROOT = os.path.dirname(os.path.dirname(os.path.realpath(__file__)))
sys.path.insert(0, f"{ROOT}/bench")
import tables_command  # noqa: E402

LETTERS = [chr(code) for code in range(ord("!"), ord("~") + 1) if chr(code) not in '"\\']
WAYS = (("workers 1", 1, False), ("workers 4", 4, False), ("workers 4, one processor", 4, True))
TURNS = 5
LONG = 10


def nets(side):
    """Jobs of tables_command.py, each with as many nets as a torus of this side has chips."""
    count = side * side
    yield "eight targets near their source", tables_command.job(count, tables_command.near)
    yield "four targets anywhere", tables_command.job(count, tables_command.anywhere)
    dead = tables_command.job(count, tables_command.anywhere, 5)
    yield "four targets anywhere, one link in twenty dead", dead
    yield "the same, target 0", {**dead, "run": {"target": 0}}


def wide(side):
    """Many plain rows: one vertex on each chip of a torus, and as many nets as chips. The targets of a net are every third chip
    along both axes (441 on 64 by 64 chips), so that its tree has about three chips for each. Sixteen nets one behind the other
    have one source and the same targets, so that their keys are neighbours and their rows can be joined: with about 1,300 nets
    at each chip no table would fit otherwise. (The trees of one net of each sixteen were counted, by following them over the tables
    that the program writes: 342,335 chips.) Names are two letters long, since a job has at most 16,777,216 bytes."""
    names = [LETTERS[i // len(LETTERS)] + LETTERS[i % len(LETTERS)] for i in range(side * side)]
    vertices = [{"name": names[x * side + y], "at": [x, y]} for x in range(side) for y in range(side)]
    drawn = tables_command.numbers()
    listed = []
    for _ in range(side * side // 16):
        source, right, up = next(drawn) % (side * side), next(drawn) % 3, next(drawn) % 3
        targets = [names[x * side + y] for x in range(right, side, 3) for y in range(up, side, 3)]
        listed += [(names[source], targets)] * 16
    graph = {"vertices": vertices, "nets": [{"name": f"n{i}", "source": source, "targets": to} for i, (source, to) in enumerate(listed)]}
    return {"version": 1, "machine": {"width": side, "height": side, "wrap": True}, "graph": graph}


def one_chip(count):
    """So many nets between the 17 vertices of one chip, each to one or two of them."""
    drawn = tables_command.numbers()
    vertices = [{"name": f"v{i}"} for i in range(17)]
    listed = [{"name": f"n{i}", "source": "v0", "targets": [f"v{next(drawn) % 17}", f"v{next(drawn) % 17}"]} for i in range(count)]
    return {"version": 1, "machine": {"width": 1, "height": 1}, "graph": {"vertices": vertices, "nets": listed}, "run": {"target": 0}}


def one_run(word, file, processors):
    """Wall-clock time, processor time and memory in MiB of one run, and its status with the last line or the number of bytes."""
    os.sched_setaffinity(0, [int(it) for it in processors.split(",")])
    with open(file, "rb") as source, tempfile.TemporaryFile() as sink:
        begun = time.monotonic()
        process = subprocess.Popen([f"{ROOT}/out/spin", word], stdin=source, stdout=sink)
        _, ended, used = os.wait4(process.pid, 0)
        taken = time.monotonic() - begun
        status = process.returncode = os.WEXITSTATUS(ended) if os.WIFEXITED(ended) else -os.WTERMSIG(ended)
        size = os.fstat(sink.fileno()).st_size
        sink.seek(max(0, size - 80))
        last = f"{size} bytes" if word == "compile" and not status else sink.read().splitlines()[-1].decode()
        return taken, used.ru_utime + used.ru_stime, used.ru_maxrss / 1024, f"status {status}, {last}"


def measured(word, job, workers, is_pinned):
    """What `one_run` tells. It is called in a process of its own, since the memory of the one that begins a program counts as
    the program's, and this one has the jobs."""
    described = {**job, "run": {**job.get("run", {}), "workers": workers}}
    mine = sorted(os.sched_getaffinity(0))
    with tempfile.NamedTemporaryFile() as file:
        file.write(json.dumps(described, separators=(",", ":")).encode())
        file.flush()
        words = ["--one", word, file.name, ",".join(map(str, mine[:1] if is_pinned else mine))]
        return json.loads(subprocess.run([sys.executable, __file__, *words], stdout=subprocess.PIPE, check=True).stdout)


def show(name, word, job):
    runs = {way: [] for way in WAYS}
    for turn in range(TURNS):
        if turn and runs[WAYS[-1]][0][0] > LONG:
            break
        for way in WAYS:
            runs[way].append(measured(word, job, *way[1:]))
    told = {run[3] for rounds in runs.values() for run in rounds}
    print(f"{word}, {name}: {' / '.join(sorted(told))}")
    for way, rounds in runs.items():
        wall, spent, memory = (choose(run[i] for run in rounds) for i, choose in enumerate((min, min, max)))
        print(f"    {way[0]:26} {wall:8.3f} s   {spent:8.3f} s of processors   {memory:6.0f} MiB   least of {len(rounds)}", flush=True)


def main():
    words = sys.argv[1:]
    if words[:1] == ["--one"]:
        print(json.dumps(one_run(*words[1:])))
        return
    is_small = "--small" in words
    parts = [it for it in words if it != "--small"] or ["nets", "rows", "chip"]
    print(f"{len(os.sched_getaffinity(0))} processors, load {os.getloadavg()[0]:.1f}")
    if "nets" in parts:
        for name, job in nets(16 if is_small else 64):
            show(f"{len(job['graph']['nets'])} nets, {name}", "tables", job)
    if "rows" in parts:
        job = wide(16 if is_small else 64)
        show(f"{len(job['graph']['nets'])} nets of {len(job['graph']['nets'][0]['targets'])} targets", "compile", job)
    if "chip" in parts:
        for count in (16, 64, 256) if is_small else (256, 1024, 4096):
            show(f"{count} nets at one chip, target 0", "tables", one_chip(count))


if __name__ == "__main__":
    main()
