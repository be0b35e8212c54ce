#!/usr/bin/env python3
"""Looks for races between the threads of the program, by ThreadSanitizer. It stands outside the gate.

    python3 tools/thread_races.py [COUNT] [SEED]      so many random jobs (300, from seed 0)
    python3 tools/thread_races.py --selftest          the check itself, on a program whose atomic steps order nothing

The program is out/spin_races. The kit lowers the sources to one LLVM module, as for the launcher (tools/compile.py). In the module's
text the checks are taken out that a proof vouches for, and each function that the kit marks for address checks is marked
for thread checks in their place. The kit's clang compiles that text at -O2 with -fsanitize=thread, and `cc -fsanitize=thread` links
it with the runtime of ThreadSanitizer. The kit's clang is newer than many of these runtimes, so that a small C text is linked in,
which gives its calls for copying and filling memory as those of the C library, which the runtime watches.

So every access of memory in the program's own text is watched, with that of the proved libraries below it, and each of its atomic
steps is seen as what it is. Not watched are the system's calls and the C library, but for what the runtime knows of it.

The jobs are those of tools/stress_runs.py, with short queues and 2 to 8 workers, which compile and run. (A thread that is watched
takes long to begin.) Each goes through `run`, and each tenth through `reinject`, too. A job is right where the program ends with status 0, nothing is told of a race, and the report
of `run` is one that tools/stress_runs.py finds right. With --selftest the atomic steps are relaxed, and order no other access: then
races have to be told. Where there is no `cc`, or none that has the runtime, a line SKIPPED says so, and the script ends with 0.

A job that fails is written to out/races-SEED.json, and what was told to out/races-SEED.out. The last line is 'N passed, M failed',
and the status 1 where one failed. Python's standard library alone.
"""
import concurrent.futures
import fcntl
import json
import os
import re
import shutil
import subprocess
import sys
import tempfile
from collections import Counter

import compile as launcher
import stress_runs

ROOT = os.path.dirname(os.path.dirname(os.path.realpath(__file__)))
RACES, UNORDERED = "spin_races", "spin_races_unordered"
MOST_SECONDS = 1000
# One job in so many goes through `reinject`, too.
AGAIN = 10
MOST_WORKERS = 8
# The status of a program that told of a race, and how many jobs the selftest runs.
RACED, SELFTEST = 66, 8
ATOMIC = re.compile(rb"(= load atomic |store atomic |= cmpxchg |= atomicrmw )(.*)")

MEMORY = r"""
#include <string.h>
void *__tsan_memcpy(void *to, const void *from, size_t size) { return memcpy(to, from, size); }
void *__tsan_memmove(void *to, const void *from, size_t size) { return memmove(to, from, size); }
void *__tsan_memset(void *to, int byte, size_t size) { return memset(to, byte, size); }
"""


def watched(lines):
    """A module's text whose functions are marked for thread checks."""
    for line in lines:
        yield line.replace(b"sanitize_address", b"sanitize_thread") if line.startswith(b"attributes ") else line


def unordered(lines):
    """A module's text whose atomic steps order nothing."""
    for line in lines:
        found = ATOMIC.search(line)
        yield line.replace(b"seq_cst", b"monotonic") if found else line


def has_runtime():
    """Whether `cc` links programs with ThreadSanitizer."""
    if not shutil.which("cc"):
        return False
    with tempfile.TemporaryDirectory() as folder:
        with open(f"{folder}/empty.c", "w", encoding="ascii") as file:
            file.write("int main(void) { return 0; }\n")
        words = ["cc", "-fsanitize=thread", "-o", f"{folder}/empty", f"{folder}/empty.c"]
        return subprocess.run(words, stderr=subprocess.DEVNULL, check=False).returncode == 0


def build(name, changes):
    """Makes out/NAME, where it isn't of these sources."""
    kit, made, program = launcher.kit_of_path(), f"{ROOT}/out/{name}", "spin_mesh"
    more = launcher.More(os.path.realpath(__file__), None, MEMORY)
    os.makedirs(f"{ROOT}/out", exist_ok=True)
    with open(f"{ROOT}/out/spin.lock", "w", encoding="utf-8") as lock:
        fcntl.flock(lock, fcntl.LOCK_EX)
        wanted = launcher.told_of(ROOT, kit, name, program, more)
        if launcher.is_of(made, wanted):
            return made
        with launcher.room_of(f"{ROOT}/out/spin") as room, launcher.Told(launcher.TOLD) as told:
            module, words = launcher.lower(ROOT, kit, room, program, told)
            text = launcher.text_in(room, kit, module, [launcher.without_checks, *changes], told)
            compiled = launcher.object_in(room, kit, [*words, "-fsanitize=thread"], text, told)
            link(room, kit, compiled, f"{room}/spin", told)
            os.replace(f"{room}/spin", made)
        with open(f"{made}.sum", "w", encoding="utf-8") as kept:
            kept.write(wanted + "\n")
    return made


def link(room, kit, compiled, made, told):
    """Links the object with the runtime of ThreadSanitizer."""
    with open(f"{room}/memory.c", "w", encoding="ascii") as file:
        file.write(MEMORY)
    for words in (
        ["cc", "-O1", "-fno-builtin", "-fPIE", "-c", f"{room}/memory.c", "-o", f"{room}/memory.o"],
        ["cc", "-fsanitize=thread", "-o", made, compiled, f"{room}/memory.o", *launcher.archives_of(kit)],
    ):
        status, said = launcher.run(words, room, told)
        if status:
            sys.exit(f"spin: the program does not link:\n{said[-4000:]}")


def run(program, word, job):
    """What the program ends with, writes and tells. (The runtime places memory where some kernels put other things at random.)"""
    words = ["setarch", os.uname().machine, "-R"] if shutil.which("setarch") else []
    environment = {**os.environ, "TSAN_OPTIONS": f"exitcode={RACED}"}
    text = json.dumps(job).encode()
    return subprocess.run([*words, program, word], input=text, capture_output=True, check=False, timeout=MOST_SECONDS, env=environment)


def faults_in(program, seed):
    """The job of a seed, what is amiss with it, and what was told."""
    job, plan = stress_runs.Dice(seed).planned_job(seed % stress_runs.LARGE == stress_runs.LARGE - 1)
    job, faults, said = stress_runs.with_run(job, workers=2 + seed % (MOST_WORKERS - 1)), [], b""
    for word in ["run"] + ["reinject"] * (seed % AGAIN == 0):
        try:
            done = run(program, word, job)
        except subprocess.TimeoutExpired:
            faults.append(f"{word} gives no answer after {MOST_SECONDS} seconds")
            continue
        said += done.stderr
        if done.returncode or done.stderr:
            faults.append(f"{word} ends with status {done.returncode}, and tells {done.stderr.decode(errors='backslashreplace')[:2000]}")
        elif word == "run":
            faults += stress_runs.faults_of(job, plan, done.stdout.decode(errors="backslashreplace"))
    return job, faults, said


def trials(program, seeds):
    """How many jobs were right, and how many not."""
    results = Counter()
    with concurrent.futures.ThreadPoolExecutor(max(1, (os.cpu_count() or 1) // 2)) as pool:
        for seed, (job, faults, said) in zip(seeds, pool.map(lambda seed: faults_in(program, seed), seeds)):
            results[not faults] += 1
            if faults:
                print("\n  ".join([f"FAILED: seed {seed}", *faults[:3]]), flush=True)
                for name, kept in (("json", json.dumps(job).encode()), ("out", said)):
                    with open(f"{ROOT}/out/races-{seed}.{name}", "wb") as file:
                        file.write(kept)
    return results


def selftest():
    """Races are told of a program whose atomic steps order nothing."""
    program, results = build(UNORDERED, [watched, unordered]), Counter()
    for seed in range(SELFTEST):
        done = run(program, "run", stress_runs.Dice(seed).planned_job(False)[0])
        results[done.returncode == RACED and b"ThreadSanitizer: data race" in done.stderr] += 1
    return results


def main(words):
    if not has_runtime():
        print("SKIPPED races: nothing was looked for, since there is no cc with the runtime of ThreadSanitizer")
        return 0
    if words == ["--selftest"]:
        results = selftest()
    else:
        count, seed = [*map(int, words), *(300, 0)[len(words):]]
        results = trials(build(RACES, [watched]), range(seed, seed + count))
    print(f"{results[True]} passed, {results[False]} failed")
    return 1 if results[False] else 0


if __name__ == "__main__":
    if sys.argv[1:] != ["--selftest"] and not (len(sys.argv) < 4 and all(it.isdigit() for it in sys.argv[1:])):
        sys.exit(__doc__)
    sys.exit(main(sys.argv[1:]))
