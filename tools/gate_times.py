#!/usr/bin/env python3
"""Runs the gate, and tells what each crate's proof, tests and must-fail edits cost in processor seconds.

    tools/gate_times.py [COMMAND ..]      from the top of the repository; without a command it is `rt ci`, of which nothing was kept

It looks twice a second at the processes of the prover, and adds up what each had used when it was last seen, so that a figure
is short by at most half a second a process. An edit is told by its place in the order in which `rt ci` tries a crate's edits,
which is that of their names; one that is tried a second time counts besides. What the command prints goes to out/gate.log. Where this
script is ended, it ends the command, and tells what was used so far.
"""
import os
import signal
import subprocess
import sys
import time
from collections import defaultdict

TICK = os.sysconf("SC_CLK_TCK")


def is_below(pid, gate):
    """Whether a process is one of the gate's: others may prove beside it."""
    while pid > 1 and pid != gate:
        with open(f"/proc/{pid}/stat", encoding="ascii", errors="replace") as it:
            pid = int(it.read().rpartition(")")[2].split()[1])
    return pid == gate


def provers(gate):
    """Each process of the prover that the gate began: its number, crate, kind of work, folder, and processor seconds."""
    for pid in filter(str.isdigit, os.listdir("/proc")):
        try:
            with open(f"/proc/{pid}/cmdline", "rb") as it:
                words = it.read().decode(errors="replace").split("\0")
            if os.path.basename(words[0]) != "rattle" or "--crate-name" not in words or not is_below(int(pid), gate):
                continue
            with open(f"/proc/{pid}/stat", encoding="ascii", errors="replace") as it:
                fields = it.read().rpartition(")")[2].split()
            folder = os.readlink(f"/proc/{pid}/cwd")
        except (OSError, IndexError):
            continue
        is_edit = os.path.basename(folder).startswith("rt-edit-")
        kind = "edits" if is_edit else "tests" if "--test" in words else "proof"
        # (a process number can come again: its start tells two apart)
        yield (pid, fields[19]), words[words.index("--crate-name") + 1], kind, folder, (int(fields[11]) + int(fields[12])) / TICK


def from_nothing():
    """The gate, from nothing: some kits keep what was proved, unless they are told otherwise."""
    usage = subprocess.run(["rt", "help"], capture_output=True, text=True, check=False)
    return ["rt", "ci", *(["--anew"] if "--anew" in usage.stdout + usage.stderr else [])]


def edits_of(crate):
    folder = f"crates/{crate}/must-fail"
    return sorted(it for it in os.listdir(folder) if it.endswith(".edit")) if os.path.isdir(folder) else []


def main(command):
    os.makedirs("out", exist_ok=True)
    seen, order, begun = {}, defaultdict(list), time.time()
    with open("out/gate.log", "w", encoding="utf-8") as log:
        gate = subprocess.Popen(command, stdout=log, stderr=subprocess.STDOUT)
        for ending in (signal.SIGINT, signal.SIGTERM):
            signal.signal(ending, lambda *_: gate.terminate())
        while gate.poll() is None:
            for process, crate, kind, folder, seconds in provers(gate.pid):
                seen[process] = (crate, kind, folder, seconds)
                if kind == "edits" and folder not in order[crate]:
                    order[crate].append(folder)
            time.sleep(0.5)
    spent, edits = defaultdict(lambda: defaultdict(float)), defaultdict(float)
    for crate, kind, folder, seconds in seen.values():
        spent[crate][kind] += seconds
        if kind == "edits":
            edits[crate, order[crate].index(folder)] += seconds
    print(f"{'crate':18}{'proof':>8}{'tests':>8}{'edits':>8}  number of edits")
    for crate, kinds in sorted(spent.items(), key=lambda it: -sum(it[1].values())):
        print(f"{crate:18}{kinds['proof']:8.0f}{kinds['tests']:8.0f}{kinds['edits']:8.0f}  {len(edits_of(crate))}")
    sums = {kind: sum(it[kind] for it in spent.values()) for kind in ("proof", "tests", "edits")}
    print(f"{'all':18}{sums['proof']:8.0f}{sums['tests']:8.0f}{sums['edits']:8.0f}")
    print(f"in all {sum(sums.values()) / 3600:.2f} processor hours, {(time.time() - begun) / 60:.0f} minutes of the clock")
    print("\nslowest edits, in processor seconds:")
    for (crate, at), seconds in sorted(edits.items(), key=lambda it: -it[1])[:8]:
        names = edits_of(crate)
        print(f"{seconds:6.0f}  {crate}/{names[at] if at < len(names) else 'tried again'}")
    return gate.returncode


if __name__ == "__main__":
    sys.exit(main(sys.argv[1:] or from_nothing()))
