#!/usr/bin/env python3
"""Tells how many seconds each module of a crate took in its last check from nothing.

    tools/module_times.py CRATE [COUNT]     from the top of the repository; COUNT is how many to tell, 25 where it is not given

It goes by when the files in the crate's out/incremental were written, so the check is to have begun with none of them
(`rm -rf crates/CRATE/out/incremental`) and to have had one job (`rt check --jobs 1`). `F.Lts` is what follows from a function's
code, `F.Proof.decls` the search for the goals that have no answer of their own, and any other name a file of `proofs/`.
"""
import os
import sys


def written(folder):
    """Each kept file of a crate, with the time at which it was written, in nanoseconds; in that order."""
    for at, _, names in os.walk(f"{folder}/out/incremental"):
        for name in names:
            if name.endswith(".oantt"):
                yield os.stat(f"{at}/{name}").st_mtime_ns, name.removesuffix(".oantt")


def main(crate, count="25"):
    files = sorted(written(f"crates/{crate}"))
    if not files:
        print(f"{crate} has no kept files: rt check --jobs 1 in crates/{crate} first")
        return 1
    print(f"{len(files)} files in {(files[-1][0] - files[0][0]) / 1e9:.0f} s")
    took = sorted(((now - before) / 1e9, name) for (before, _), (now, name) in zip(files, files[1:]))
    for seconds, name in took[: -int(count) - 1 : -1]:
        print(f"{seconds:8.1f}  {name}")
    return 0


if __name__ == "__main__":
    if len(sys.argv) not in (2, 3):
        sys.exit(__doc__)
    sys.exit(main(*sys.argv[1:]))
