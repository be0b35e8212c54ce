"""Runs a command of one program, or of two in turn, and tells what each took. Other scripts of bench/ call it; by itself it does nothing.

Told of each command: the least processor time and the least wall-clock time of its runs, the greatest memory, and its last line. Where
two programs are measured, each run of the one is followed by a run of the other, and told are the second one's time as a share of
the first one's, and whether they wrote the same bytes.
"""
import hashlib
import json
import os
import subprocess
import sys
import tempfile
from dataclasses import dataclass

ROOT = os.path.dirname(os.path.dirname(os.path.realpath(__file__)))
KILO, MEBI = 1024, 1048576
# A command above so many seconds is run once only.
LONG = 10
# A small process of its own begins each command: the system counts the memory of the one that begins a program as the program's.
SMALL = """
import os, sys, time
limit, output, program = int(sys.argv[1]), sys.argv[2], sys.argv[3]
if limit:
    import resource
    resource.setrlimit(resource.RLIMIT_AS, (limit, limit))
begun = time.monotonic()
into = [(os.POSIX_SPAWN_OPEN, 1, output, os.O_WRONLY | os.O_TRUNC, 0o600)]
child = os.posix_spawn(program, sys.argv[3:], os.environ, file_actions=into)
_, ended, used = os.wait4(child, 0)
taken = time.monotonic() - begun
print([used.ru_utime + used.ru_stime, taken, used.ru_maxrss, os.waitstatus_to_exitcode(ended)])
"""


@dataclass
class Run:
    """One run: processor and wall-clock seconds, MiB, how it ended (above 0 a status, below 0 a signal), and what it wrote."""

    spent: float
    taken: float
    memory: float
    status: int
    told: str
    sum: str


def add_programs(parser, runs):
    """The options of a script that measures programs: see `programs_of`."""
    parser.add_argument("--program", metavar="PROGRAM", default=f"{ROOT}/out/spin", help="the program; out/spin where none is named")
    parser.add_argument("--beside", metavar="OTHER", help="another program, run in turn with it")
    parser.add_argument("--runs", type=int, default=runs, help=f"how often each command is run; {runs} where no number is given")


def programs_of(asked):
    """The programs that are asked for, first the one that is compared with."""
    found = [asked.beside, asked.program] if asked.beside else [asked.program]
    for program in found:
        if not os.access(program, os.X_OK):
            sys.exit(f"{program} is no program (./spin makes out/spin)")
    return [os.path.realpath(it) for it in found]


def one_run(program, words, source, limit=None):
    """Runs a command once on the bytes of a file. With a limit it may take so many bytes of memory, and ends where it wants more."""
    with tempfile.NamedTemporaryFile() as output, open(source, "rb") as text:
        small = [sys.executable, "-I", "-S", "-c", SMALL, str(limit or 0), output.name, program, *words]
        done = subprocess.run(small, stdin=text, stdout=subprocess.PIPE, check=True)
        spent, taken, memory, status = json.loads(done.stdout)
        return Run(spent, taken, memory / KILO, status, *told_by(output))


def told_by(output):
    """The last line of what was written, and a checksum of it all."""
    found, size = hashlib.sha256(), os.path.getsize(output.name)
    with open(output.name, "rb") as data:
        while part := data.read(MEBI):
            found.update(part)
        data.seek(max(0, size - 200))
        lines = data.read().splitlines() or [b""]
    last = lines[-1].decode("ascii", "replace")
    return last if last.isprintable() else f"{size:,} bytes", found.hexdigest()


def measured(programs, words, job, runs, limit=None):
    """The runs of each program on a job, which is a value or the bytes of a text."""
    with tempfile.NamedTemporaryFile() as source:
        source.write(job if isinstance(job, bytes) else json.dumps(job, separators=(",", ":")).encode())
        source.flush()
        found = [[] for _ in programs]
        while len(found[0]) < runs and not any(it and it[0].taken > LONG for it in found):
            for program, listed in zip(programs, found):
                listed.append(one_run(program, words, source.name, limit))
        return found


def show(title, programs, words, job, runs, limit=None):
    """Prints a line for the programs on a job, and gives the runs of each."""
    found = measured(programs, words, job, runs, limit)
    spent = [min(it.spent for it in listed) for listed in found]
    taken = [min(it.taken for it in listed) for listed in found]
    memory = [max(it.memory for it in listed) for listed in found]
    parts = [f"{s:8.3f} s ({t:.3f} by the clock, {m:.0f} MiB)" for s, t, m in zip(spent, taken, memory)]
    if len(programs) > 1:
        same = len({it.sum for listed in found for it in listed}) == 1
        parts.append(f"{spent[1] / spent[0]:.2f} of it{'' if same else ', OTHER BYTES'}")
    last = found[-1][-1]
    status = {0: "", 9: "status 9: "}.get(last.status, f"status {last.status}: " if last.status > 0 else f"SIGNAL {-last.status} ")
    print(f"{title:66} {' '.join(parts)}  {status}{last.told}", flush=True)
    return found
