#!/usr/bin/env python3
"""Makes a picture of a job and of what the program wrote of it, as one SVG file on standard output.

    tools/picture.py mesh JOB OUTPUT           chips live, dead and used; dead links, dead cores and devices
    tools/picture.py tree JOB OUTPUT --net N   the tree of a net, with the route of each of its chips
    tools/picture.py rows JOB OUTPUT           how many rows of how many each chip's table has kept
    tools/picture.py copies JOB OUTPUT         how many copies each chip delivered, dumped or has waiting (of a report of run)

JOB is the job's file, OUTPUT what `./spin tables` or `./spin run` wrote of it. This is `kulzobad draw` of the package in python/,
which also calls the program itself where no OUTPUT is named.
"""
import os
import sys

ROOT = os.path.dirname(os.path.dirname(os.path.realpath(__file__)))
sys.path.insert(0, f"{ROOT}/python")

from kulzobad.cli import main  # noqa: E402

if __name__ == "__main__":
    if len(sys.argv) < 4:
        sys.exit(__doc__)
    sys.exit(1 if main(["draw", *sys.argv[1:]]) else 0)
