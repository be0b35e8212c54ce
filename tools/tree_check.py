"""Trees of the package on random jobs: `check` has to say `right` of them, and they have to be those of tools/model.py.

    python3 tools/tree_check.py [--first SEED] [--jobs COUNT] [PROGRAM]

The jobs are those of tools/model.py, 20 where no count is given. PROGRAM is ./spin where none is named. Of each job that is compiled
`check` is asked about the trees and the image of its tables, as they are joined down to the job's target. A job whose table is too
long has trees too, which are compared alone; another that is refused has to be refused by `trees`. The last line is
'N passed, M failed', and the status 1 where one failed.
"""
import argparse
import os
import sys
from collections import Counter

import model

ROOT = os.path.dirname(os.path.dirname(os.path.realpath(__file__)))
sys.path.insert(0, f"{ROOT}/python")

from kulzobad import Job, Refused, Right, check, compile, trees  # noqa: E402


def wanted_trees(value):
    """The trees of a job by the model, and the line of its refusal where it has none."""
    try:
        machine, spots = model.Machine(value["machine"]), model.spots_of(model.Machine(value["machine"]), value["graph"]["vertices"])
        model.blocks_of(value["graph"]["nets"])
    except model.Refused as refused:
        return None, refused.args[1]
    found = {}
    for net in model.placed_nets(value):
        try:
            found[net["name"]] = model.tree_of(machine, spots, net)
        except LookupError as lost:
            return None, f"cut off: {net['name']} {lost.args[0][0]} {lost.args[0][1]}"
    return found, None


def faults(value, program):
    """What is wrong with the package's trees of a job; and how the job was answered, for counting."""
    wanted, line = wanted_trees(value)
    job = Job.from_json(value)
    try:
        found = trees(job, program)
    except Refused as refused:
        return [] if refused.line == line else [f"trees is refused: {refused.line}, and not {line}"], refused.kind
    if wanted is None:
        return [f"there are trees, and not the line {line}"], "trees"
    links = {name: sorted((*chip, link) for chip, link in edges) for name, edges in wanted.items()}
    told = [f"the tree of {name} is {found[name]}, and not {links[name]}" for name in links if sorted(found[name]) != links[name]]
    try:
        image = compile(job, program)
    except Refused as refused:
        return told + ([] if refused.status == 8 else [f"compile is refused: {refused.line}"]), refused.kind
    verdict = check(job, found, image, program)
    return told + ([] if verdict == Right() else [f"check says {verdict}"]), "right"


def main():
    parser = argparse.ArgumentParser(description="Trees of the package on random jobs (see the head of this file).")
    parser.add_argument("--first", type=int, default=0, metavar="SEED", help="the first seed")
    parser.add_argument("--jobs", type=int, default=20, metavar="COUNT", help="how many seeds")
    parser.add_argument("program", nargs="?", default=f"{ROOT}/spin")
    asked = parser.parse_args()
    answers, failed = Counter(), 0
    for seed in range(asked.first, asked.first + asked.jobs):
        told, answer = faults(model.Dice(seed).job(seed), os.path.realpath(asked.program))
        answers[answer] += 1
        failed += bool(told)
        for line in told[:3]:
            print(f"FAILED: the job of {seed}: {line[:300]}")
    print("; ".join(f"{answer}: {count}" for answer, count in sorted(answers.items())))
    print(f"{asked.jobs - failed} passed, {failed} failed")
    return 1 if failed else 0


if __name__ == "__main__":
    sys.exit(main())
