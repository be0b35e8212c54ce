#!/usr/bin/env python3
"""Lists public names of definitions that stand in two crates, or twice in one.

    tools/same_names.py     from the top of the repository

A name is to tell what it is without its crate: where two crates mean the same, one definition stands in the lower; where they do
not, there are two names. Names that may stand twice are listed in ALLOWED, each with the reason. The status is 1 where another
name stands twice, or one of ALLOWED does not.
"""
import glob
import re
import sys
from collections import defaultdict

DEFINED = re.compile(r"^(?:abbrev |unfoldable |opaque )*pub (?:abbrev |unfoldable |opaque )*(?:record |data )?([A-Za-z_][\w']*)(?= |:|$)", re.M)
WORDS = {"use", "mod", "abbrev", "record", "data", "unfoldable", "opaque"}

# name: why it stands twice
ALLOWED = {
    "HasRoom": "place_fit: a chip has room for a vertex; app_loads: a range of entries has room for its places",
    "Misses": "tern_word: a block meets no alias of a row; tcam_find: a key lacks the values that entries have in common",
}


def definitions(root="."):
    """Each public name of a definition with the places where it is defined, as crate and file with line."""
    found = defaultdict(list)
    for path in sorted(glob.glob(f"{root}/crates/*/specs/**/*.antt", recursive=True)):
        with open(path, encoding="utf-8") as it:
            text = it.read()
        for match in DEFINED.finditer(text):
            if match[1] not in WORDS:
                found[match[1]].append(f"{path[len(root) + 1:]}:{text.count(chr(10), 0, match.start()) + 1}")
    return found


def main():
    found = definitions()
    twice = {name: places for name, places in found.items() if len(places) > 1}
    wrong = [f"{name}: {', '.join(places)}" for name, places in sorted(twice.items()) if name not in ALLOWED]
    wrong += [f"{name} is allowed to stand twice, and does not" for name in sorted(ALLOWED) if name not in twice]
    print(*wrong, f"{len(wrong)} of {len(found)} public names of definitions stand twice without a reason", sep="\n")
    return 1 if wrong else 0


if __name__ == "__main__":
    sys.exit(main())
