"""Tries what the program does where it asks for memory or a thread, and is refused.

    python3 tools/broken_memory.py [PROGRAM]          the examples named below; the gate runs this
    python3 tools/broken_memory.py --all [PROGRAM]    every example; takes minutes
    python3 tools/broken_memory.py --selftest         the check itself, on stand-ins for the program

PROGRAM is out/spin where none is named. A small library is compiled with `cc` and loaded before the C library. It counts what is
asked for, and refuses the Nth time, or each time from the Nth on: memory (malloc, calloc, realloc and their kin), or a thread
(pthread_create). Where there is no `cc`, a line SKIPPED says so, and the script ends with 0.

A refused run may write two things: the example's own report with the example's own status, or the line `out of memory` with
status 9. Where nothing was read yet, status 9 may come without the line: there was no memory for the command's words. Anything else is
wrong: a part of a report, another status, the end by a signal, a byte on standard error, no end at all. Words that are no command are
always told how the program is used, once there was memory for them.

Each N is tried of four examples, and of three small jobs: one compiled, whose image is that of tools/model.py, and two run with
short queues, by two workers on two chips and by four on four, whose report may be any that tools/stress_runs.py finds right. Of
other jobs with threads, whose count may differ from run to run, a sample of N is tried, and each of their threads: two examples,
and the generated job of tools/gen_reference.py, compiled and run. Its report is what the program writes where nothing is refused.
With --all each N is tried of every example, or some 2,000 where it asks for memory more often.

First the threads of a run are counted. With four workers `run` has to ask for three more than `tables` asks for, at least; with one
worker neither asks for any. The last line is 'N passed, M failed', and the status 1 where one failed. Python's standard library
alone.
"""
import argparse
import concurrent.futures
import json
import os
import shutil
import struct
import subprocess
import sys
import tempfile
from collections import Counter, namedtuple

import model
import stress_runs

ROOT = os.path.dirname(os.path.dirname(os.path.realpath(__file__)))
MOST_SECONDS = 600
SHOWN = 20
EVERY = ("one_chip", "check_right", "apps_unsent", "usage_word_more")
THREADED = ("ample_queues", "reinject_fan_out")
GENERATED = ("compile", "run")
COMPILED, SHORT, FOUR = "compile of two_chips", "run of two_chips with short queues", "run of four chips by four workers"
SAMPLE = 60
SAMPLE_OF_ALL = 2000
# The status of words that are no command.
USAGE = 1

# The counts stand in a file that library and script share: so they are there however the program ends.
LIBRARY = r"""
#define _GNU_SOURCE
#include <dlfcn.h>
#include <errno.h>
#include <fcntl.h>
#include <pthread.h>
#include <stdatomic.h>
#include <stdlib.h>
#include <sys/mman.h>
#include <unistd.h>

extern void *__libc_malloc(size_t);
extern void *__libc_calloc(size_t, size_t);
extern void *__libc_realloc(void *, size_t);
extern void *__libc_memalign(size_t, size_t);

typedef int create_type(pthread_t *, const pthread_attr_t *, void *(*)(void *), void *);

struct counts { _Atomic long memory, threads, refused, reads; };
static struct counts *counts;
static long memory_first, memory_last, thread_first, thread_last;
static create_type *create;
static ssize_t (*read_next)(int, void *, size_t);

static long number(const char *name) {
    const char *text = getenv(name);
    return text ? atol(text) : 0;
}

__attribute__((constructor)) static void begin(void) {
    const char *path = getenv("BROKEN_COUNTS");
    create = (create_type *)dlsym(RTLD_NEXT, "pthread_create");
    read_next = (ssize_t (*)(int, void *, size_t))dlsym(RTLD_NEXT, "read");
    memory_first = number("BROKEN_MEMORY_FIRST");
    memory_last = number("BROKEN_MEMORY_LAST");
    thread_first = number("BROKEN_THREAD_FIRST");
    thread_last = number("BROKEN_THREAD_LAST");
    int file = path ? open(path, O_RDWR) : -1;
    if (file < 0) return;
    void *shared = mmap(0, sizeof *counts, PROT_READ | PROT_WRITE, MAP_SHARED, file, 0);
    close(file);
    if (shared != MAP_FAILED) counts = shared;
}

static int refused(_Atomic long *count, long first, long last) {
    long now = atomic_fetch_add(count, 1) + 1;
    if (first == 0 || now < first || now > last) return 0;
    atomic_fetch_add(&counts->refused, 1);
    return 1;
}

static int no_memory(void) {
    if (!counts || !refused(&counts->memory, memory_first, memory_last)) return 0;
    errno = ENOMEM;
    return 1;
}

void *malloc(size_t size) { return no_memory() ? 0 : __libc_malloc(size); }
void *calloc(size_t many, size_t size) { return no_memory() ? 0 : __libc_calloc(many, size); }
void *realloc(void *old, size_t size) { return no_memory() ? 0 : __libc_realloc(old, size); }
void *memalign(size_t to, size_t size) { return no_memory() ? 0 : __libc_memalign(to, size); }
void *aligned_alloc(size_t to, size_t size) { return no_memory() ? 0 : __libc_memalign(to, size); }

int posix_memalign(void **given, size_t to, size_t size) {
    if (no_memory()) return ENOMEM;
    void *made = __libc_memalign(to, size);
    if (!made) return ENOMEM;
    *given = made;
    return 0;
}

ssize_t read(int from, void *to, size_t size) {
    if (counts) atomic_fetch_add(&counts->reads, 1);
    return read_next(from, to, size);
}

int pthread_create(pthread_t *thread, const pthread_attr_t *with, void *(*task)(void *), void *of) {
    if (counts && refused(&counts->threads, thread_first, thread_last)) return EAGAIN;
    return create(thread, with, task, of);
}
"""

# A stand-in for the program: it asks for memory five times and writes its report; where it is refused it does as its word says.
STAND_IN = r"""
#include <signal.h>
#include <stdio.h>
#include <stdlib.h>
#include <string.h>
#include <unistd.h>

static const char *report = "got p v 0 0\nend delivered 1 dumped 0 waiting 0 unsent 0\n";

static int end(const char *text, size_t size, int status) {
    if (write(1, text, size) < 0) return 3;
    _exit(status);
}

int main(int count, char **words) {
    const char *way = count > 1 ? words[1] : "";
    char byte;
    if (strcmp(way, "no-words") && read(0, &byte, 1) < 0) return 2;
    for (int asked = 0; asked < 5; asked++) {
        void *volatile made = malloc(8);
        if (made) continue;
        if (!strcmp(way, "goes-on")) continue;
        if (!strcmp(way, "half")) return end(report, 12, 0);
        if (!strcmp(way, "half-then-line")) { end("got p v 0 0\nout of memory\n", 26, 9); }
        if (!strcmp(way, "write-fault")) return end(report, 12, 3);
        if (!strcmp(way, "nothing") || !strcmp(way, "no-words")) return end(report, 0, 9);
        if (!strcmp(way, "zero")) return end("out of memory\n", 14, 0);
        if (!strcmp(way, "other-status")) return end(report, strlen(report), 9);
        if (!strcmp(way, "signal")) raise(SIGSEGV);
        if (!strcmp(way, "error")) { if (write(2, "oh\n", 3) < 0) return 3; }
        return end("out of memory\n", 14, 9);
    }
    if (!strcmp(way, "always")) return end("out of memory\n", 14, 9);
    return end(report, strlen(report), 0);
}
"""
STAND_IN_REPORT = b"got p v 0 0\nend delivered 1 dumped 0 waiting 0 unsent 0\n"
RIGHT = ("line", "goes-on", "no-words")
WRONG = ("half", "half-then-line", "write-fault", "nothing", "zero", "other-status", "signal", "error", "always")

# What is run, and what it says where nothing is refused: a report, or whatever this function finds right.
Case = namedtuple("Case", "name words job report status")
# What is refused: memory or threads, from the first to the last of them; none where the first is 0.
Refusal = namedtuple("Refusal", "kind first last")
# What came of it.
Came = namedtuple("Came", "status text error memory threads refused reads")

NONE = Refusal("MEMORY", 0, 0)
EVER = 2**62


def read(path):
    with open(path, "rb") as file:
        return file.read()


def case_of(name):
    front = f"{ROOT}/examples/{name}"
    words = read(f"{front}.words").decode().split()
    return Case(name, words, read(f"{front}.json"), read(f"{front}.report"), int(read(f"{front}.status")))


def generated(program, word):
    """The generated job of number 1, with what the program writes of it."""
    job = subprocess.run([sys.executable, f"{ROOT}/tools/gen_reference.py", "1"], stdout=subprocess.PIPE, check=True).stdout
    report = subprocess.run([program, word], input=job, stdout=subprocess.PIPE, check=True).stdout
    return Case(f"{word} of a generated job", [word], job, report, 0)


def two_chips():
    """A job of two chips, compiled; and with three packets and queues of one copy, run by two workers."""
    text = read(f"{ROOT}/examples/two_chips.json")
    job = json.loads(text)
    plan = model.plan_of(job)
    yield Case(COMPILED, ["compile"], text, model.image_of(job["machine"], plan.tables), 0)
    yield run_with_short_queues(SHORT, stress_runs.with_run(job, packets=job["run"]["packets"] * 3, queue=1, patience=1, workers=2, turns=4))


def four_chips(workers):
    """Packets from each of four chips to the three others, through queues of two copies."""
    names = {"a": [0, 0], "b": [1, 0], "c": [0, 1], "d": [1, 1]}
    vertices = [{"name": name, "at": at} for name, at in names.items()]
    nets = [{"name": f"n{name}", "source": name, "targets": [it for it in names if it != name]} for name in names]
    run = {"packets": [{"net": net["name"], "index": 0} for net in nets] * 3, "queue": 2, "patience": 3, "workers": workers, "turns": 4}
    return {"version": 1, "machine": {"width": 2, "height": 2}, "graph": {"vertices": vertices, "nets": nets}, "run": run}


def run_with_short_queues(name, job):
    """A run of a job, whose report may be any that is right."""
    plan = model.plan_of(job)

    def is_right(report):
        return not stress_runs.faults_of(job, plan, report.decode(errors="backslashreplace"))

    return Case(name, ["run"], json.dumps(job).encode(), is_right, 0)


def is_own(case, came):
    """Whether the case's own report came, with its own status."""
    right = case.report(came.text) if callable(case.report) else came.text == case.report
    return right and (came.status, came.error) == (case.status, b"")


def compiled(folder, name, text, *options):
    """A C text, compiled into a folder."""
    source = f"{folder}/{name}.c"
    with open(source, "w", encoding="ascii") as file:
        file.write(text)
    subprocess.run(["cc", "-O1", *options, "-o", f"{folder}/{name}", source, "-ldl"], check=True)
    return f"{folder}/{name}"


class Trials:
    """Runs of a program with the library, and the count of those that were right."""

    def __init__(self, program, folder, library, shown=SHOWN):
        self.program, self.folder, self.library, self.shown = program, folder, library, shown
        self.passed, self.failed, self.ways = 0, 0, Counter()

    def came(self, case, refusal):
        """What came of a run with a refusal."""
        with tempfile.NamedTemporaryFile(dir=self.folder) as counts:
            counts.write(bytes(32))
            counts.flush()
            environment = {
                "LD_PRELOAD": self.library,
                "BROKEN_COUNTS": counts.name,
                f"BROKEN_{refusal.kind}_FIRST": str(refusal.first),
                f"BROKEN_{refusal.kind}_LAST": str(refusal.last),
                **{name: value for name, value in os.environ.items() if name == "SPIN_COVERED"},
            }
            command = [self.program, *case.words]
            try:
                done = subprocess.run(command, input=case.job, capture_output=True, check=False, timeout=MOST_SECONDS, env=environment)
            except subprocess.TimeoutExpired:
                return Came("no end", b"", b"", 0, 0, 0, 0)
            return Came(done.returncode, done.stdout, done.stderr, *struct.unpack("llll", read(counts.name)))

    def told(self, right, way, case, refusal, came):
        """Counts a run, and prints it where it is wrong."""
        if right:
            self.passed += 1
            self.ways[way] += 1
            return
        self.failed += 1
        if self.failed <= self.shown:
            print(f"FAILED: {case.name}, {refusal}: {way}; status {came.status}, {came.text[:80]!r}, {came.error[:80]!r}")

    def whole(self, case):
        """A run without a refusal: it has to be right, and to have been counted."""
        came = self.came(case, NONE)
        right = is_own(case, came)
        self.told(right and came.memory > 0, "whole" if right else "nothing was refused", case, NONE, came)
        return came

    def judge(self, case, refusal, came):
        own = is_own(case, came)
        line = case.status != USAGE and (came.status, came.text, came.error) == (9, b"out of memory\n", b"")
        if not came.refused:
            self.told(own, "never came to it", case, refusal, came)
        elif (came.status, came.text, came.error, came.reads) == (9, b"", b"", 0):
            self.told(True, "no memory for the words", case, refusal, came)
        else:
            self.told(own or line, "own report" if own else "out of memory", case, refusal, came)

    def try_all(self, case, refusals):
        with concurrent.futures.ThreadPoolExecutor(os.cpu_count()) as pool:
            for refusal, came in zip(refusals, pool.map(lambda one: self.came(case, one), refusals)):
                self.judge(case, refusal, came)


def refusals(kind, numbers):
    """For each number, that one alone, and all from it on."""
    return [Refusal(kind, first, last) for first in numbers for last in (first, EVER)]


def sample(count, most):
    """At most so many numbers from 1 to a count, the first and the last ones with them."""
    if count <= most:
        return range(1, count + 1)
    return sorted({1 + place * (count - 1) // (most - 1) for place in range(most)})


def try_case(trials, case, most):
    """A case without a refusal, then with those of memory, at most so many, and with each of a thread."""
    whole = trials.whole(case)
    trials.try_all(case, refusals("MEMORY", sample(whole.memory, most)) + refusals("THREAD", range(1, whole.threads + 1)))
    return whole


def count_threads(trials):
    """Whether a run has threads of its own: more than compiling has, where there are four workers, and none where there is one."""
    for workers, least in ((4, 3), (1, 0)):
        job = json.dumps(four_chips(workers)).encode()
        compiling, whole = (trials.came(Case("", [word], job, b"", 0), NONE) for word in ("tables", "run"))
        own = whole.threads - compiling.threads
        right = own >= least if least else (whole.threads, compiling.threads) == (0, 0)
        trials.told(right, f"threads of {workers} workers", Case(f"{own} threads of a run's own", [], b"", b"", 0), NONE, whole)


def selftest(folder, library):
    """Whether each stand-in that is right passes, and each that is wrong is found out."""
    stand_in = compiled(folder, "stand_in", STAND_IN)
    passed = failed = 0
    for way in RIGHT + WRONG:
        trials = Trials(stand_in, folder, library, 0)
        case = Case(way, [way], b"", STAND_IN_REPORT, 0)
        whole = trials.came(case, NONE)
        trials.whole(case)
        before = trials.failed
        for refusal in refusals("MEMORY", range(1, 6)):
            trials.judge(case, refusal, trials.came(case, refusal))
        # The one that always says so is wrong without a refusal, the others at each refusal.
        found = before == 1 if way == "always" else before == 0 and trials.failed == (10 if way in WRONG else 0)
        if found and whole.memory == 5:
            passed += 1
        else:
            failed += 1
            print(f"SELFTEST FAILED: the stand-in {way}: {trials.failed} runs were found wrong, {whole.memory} requests were counted")
    return passed, failed


def main():
    words = argparse.ArgumentParser(description="The program where memory or a thread is refused.")
    words.add_argument("program", nargs="?", default=f"{ROOT}/out/spin")
    words.add_argument("--all", action="store_true", help="every example")
    words.add_argument("--selftest", action="store_true", help="the check itself, on stand-ins")
    given = words.parse_args()
    if not shutil.which("cc"):
        print("SKIPPED memory: nothing that is refused memory or a thread was tried, since there is no cc")
        return 0
    with tempfile.TemporaryDirectory() as folder:
        library = compiled(folder, "broken.so", LIBRARY, "-shared", "-fPIC")
        if given.selftest:
            passed, failed = selftest(folder, library)
        else:
            program = os.path.realpath(given.program)
            trials = Trials(program, folder, library)
            names = EVERY + THREADED
            if given.all:
                names = sorted(name[:-5] for name in os.listdir(f"{ROOT}/examples") if name.endswith(".json"))
            cases = [*map(case_of, names), *two_chips(), run_with_short_queues(FOUR, four_chips(4))]
            cases += [generated(program, word) for word in GENERATED]
            count_threads(trials)
            threads = 0
            for case in cases:
                most = SAMPLE_OF_ALL if given.all else EVER if case.name in (*EVERY, COMPILED, SHORT, FOUR) else SAMPLE
                whole = try_case(trials, case, most)
                threads += whole.threads
                print(f"{case.name}: {whole.memory} requests for memory, {whole.threads} for a thread", flush=True)
            if not threads:
                trials.failed += 1
                print("FAILED: no thread was ever asked for")
            print(", ".join(f"{way}: {count}" for way, count in sorted(trials.ways.items())))
            passed, failed = trials.passed, trials.failed
    print(f"{passed} passed, {failed} failed")
    return 1 if failed else 0


if __name__ == "__main__":
    sys.exit(main())
