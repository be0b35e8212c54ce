#!/usr/bin/env python3
"""Takes the libraries that a gate proved in another clone, so that `rt check` here proves the crates that differ, and no others.

    tools/take_libraries.py CLONE     from the top of the repository; CLONE is where `rt ci` runs, or ran

A library is taken where this clone has the same files of the crate and of those below it, and has not built it. No verdict rests on
it: `rt ci` looks at its own checksums.
"""
import os
import shutil
import sys


def crates():
    with open("crates.txt", encoding="utf-8") as lines:
        return [line.partition(":")[0].split()[0] for line in lines if ":" in line.partition("#")[0]]


def main(clone):
    kit = os.path.dirname(os.path.realpath(shutil.which("rt")))
    sys.path.insert(0, kit)
    import rtlib  # pylint: disable=import-error,import-outside-toplevel

    root, taken = os.getcwd(), 0
    for name in crates():
        own, other = (f"{top}/crates/{name}/out/rlib" for top in (root, os.path.realpath(clone)))
        if os.path.isdir(own) or not os.path.isfile(f"{other}/{name}.rlib/format"):
            continue
        stamps = [rtlib.Crate(f"{top}/crates/{name}", top, {}).stamp() for top in (root, os.path.realpath(clone))]
        if stamps[0] != stamps[1]:
            continue
        os.makedirs(os.path.dirname(own), exist_ok=True)
        shutil.copytree(other, own, copy_function=os.link)
        with open(f"{own}/stamp", "w", encoding="utf-8") as it:
            it.write(stamps[0])
        taken += 1
    print(f"{taken} libraries taken")


if __name__ == "__main__":
    if len(sys.argv) != 2:
        sys.exit(__doc__)
    main(sys.argv[1])
