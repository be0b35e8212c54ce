#!/usr/bin/env python3
"""Lists statements that two files of proofs both have, but for the names of their variables.

    tools/same_lemmas.py [FOLDER]     from the top of the repository; FOLDER is the kit's, /opt/rattle/rattle where it is not given

Statements of the kit's library are compared too, so that none of them is proved here again. It compares texts: what is equal but
is written otherwise it does not find, and of definitions it tells those of one type. The last line counts what stands in more
than one crate, and the status is 1 where there is such a statement.
"""
import glob
import re
import sys
from collections import defaultdict

HEAD = r"(?:(?:pub|unfoldable|abbrev|opaque)\s+)*"
NAME = r"[^\s(){}\[\].,:;]+"
SIGNS = ("≡", "<", "≤", "⊥", "Contains", "Is")
VALUES = r"→ (ℕ|\w+|List \w+|List \( .* \)|Type 0)$"


def statements(path):
    """The statements of a file: name, parameters of the modules around it, type, and line."""
    with open(path, encoding="utf-8") as it:
        lines = [re.sub(r"--.*", "", line).rstrip() for line in it.read().split("\n")]
    depth = lambda line: len(line) - len(line.lstrip())
    around, at = [], 0
    while at < len(lines):
        line, here, end = lines[at].strip(), depth(lines[at]), at + 1
        if not line:
            at += 1
            continue
        around = [it for it in around if it[0] < here]
        if line.startswith("module "):
            text = line
            while "where" not in text and end < len(lines):
                text, end = f"{text} {lines[end].strip()}", end + 1
            around.append((here, re.sub(r"^module\s+\S+|where$", "", text).strip()))
        elif found := re.match(rf"{HEAD}({NAME})\s*((?:{{[^}}]*}}|\([^)]*\))*)\s*:(?:\s+(.*))?$", line):
            text = f"{found[2]} {found[3] or ''}"
            while end < len(lines) and (not lines[end].strip() or depth(lines[end]) > here):
                text, end = f"{text} {lines[end].strip()}", end + 1
            after = end
            while after < len(lines) and lines[after].strip().startswith("unfolding "):
                after += 1
            if after < len(lines) and lines[after].strip().startswith(found[1]):
                yield found[1], " ".join(it[1] for it in around), text, at + 1
        at = end


def normal(parameters, text):
    """A statement with its variables numbered, so that it does not matter what they are called."""
    text = f"{parameters} → {text}" if parameters else text
    text = re.sub(r"\s+", " ", text).replace("{", "(").replace("}", ")")
    bound = {it for found in re.finditer(r"\(([^():]*?)\s*:\s", text) for it in found[1].split()}
    bound |= {it for found in re.finditer(r"λ ([^.]*)\.", text) for it in found[1].split()}
    apart = lambda found: " ".join(f"({it} : {found[2]})" for it in found[1].split())
    text, numbers = re.sub(r"\(([\w'\- ]+?) : ([^()]*)\)", apart, text), {}
    words = [numbers.setdefault(it, f"v{len(numbers)}") if it in bound else it for it in re.findall(r"[\w'\-]+|\S", text)]
    text, numbers = re.sub(r"\( v\d+ : Type 0 \)", "", " ".join(words).replace(") → (", ") (")), {}
    text = re.sub(r"\bv\d+\b", lambda found: numbers.setdefault(found[0], f"v{len(numbers)}"), text)
    return re.sub(r"\s+", " ", text).strip()


def main(kit="/opt/rattle/rattle"):
    places, across = defaultdict(list), 0
    files = [(path.split("/")[1], path) for path in sorted(glob.glob("crates/*/proofs/**/*.antt", recursive=True))]
    files += [("the kit", path) for path in sorted(glob.glob(f"{kit}/std/**/*.antt", recursive=True))]
    for crate, path in files:
        for name, parameters, text, line in statements(path):
            places[normal(parameters, text)].append((crate, f"{path}:{line} {name}"))
    for statement, found in sorted(places.items()):
        crates = {crate for crate, _ in found}
        if len(found) < 2 or crates == {"the kit"} or len(statement) < 25 or not any(it in statement for it in SIGNS):
            continue
        if re.search(VALUES, statement):
            continue
        across += len(crates) > 1
        print(statement[:200], *(place for _, place in found), sep="\n    ")
    print(f"{across} statements stand in more than one crate")
    return 1 if across else 0


if __name__ == "__main__":
    sys.exit(main(*sys.argv[1:]))
