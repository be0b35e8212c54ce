"""Writes what the sources say into docs/architecture.md: the picture of the crates by layer, each with its lines of code and what it
stands on, but what another of these stands on.

    python3 tools/house.py [--check | --counts]

With --check it compares the picture with what stands there, and docs/promises.md with the sources: what carries a promise has to be
there, with the clauses that are named; so has what breaks it, and each edit has to break one. The rooms of docs/architecture.md have
to name each file of code. docs/definitions.md has to name, above its last table, each file with a definition on which the programs' calls
rest (tools/believed.py), and no other. No count may be above its bound in MOST. The status is 1 where something differs.

With --counts it prints the counts of conditions, proofs and definitions, each with its bound.

A crate's layer is one more than the highest layer below it, among the crates of this repository. A chain of crates is as long
as the number of layers. Lines are those of code without tests.
"""
import glob
import os
import re
import sys

import believed

ROOT = os.path.dirname(os.path.dirname(os.path.realpath(__file__)))
BEGIN, END = "<!-- made by tools/house.py -->\n", "<!-- end -->\n"
ALONE = r"\((Tests alone|No command)"
# No count may grow beyond these. Whoever lowers one lowers its bound.
MOST = {
    "conditions a function, in hundredths": 29,
    "conditions of one function": 4,
    "lines of proofs": 58112,
    "lines of proofs of app_loads, cover_merge and mesh_round": 15657,
    "lines of proofs longer than 200 characters": 304,
    "lines of proofs longer than 300 characters": 0,
    "lines of definitions": 13845,
    "lines of definitions on which the programs' calls rest": 4687,
}
# The crates that had most lines of proofs.
LARGEST = ("app_loads", "cover_merge", "mesh_round")
PROMISES, LAWS = "| promise | carried by | broken by |", "| law or lemma | stands as |"


def crates():
    """Each crate of crates.txt with the crates of the repository that it names."""
    found = {}
    with open(f"{ROOT}/crates.txt", encoding="utf-8") as lines:
        for line in lines:
            name, colon, names = line.partition("#")[0].partition(":")
            if colon:
                found[name.split()[0]] = names.split()
    return {name: [it for it in below if it in found] for name, below in found.items()}


def lines_of(pattern, but=()):
    count = 0
    for file in glob.glob(f"{ROOT}/{pattern}", recursive=True):
        if not set(os.path.relpath(file, ROOT)[:-3].split("/")) & set(but):
            with open(file, encoding="utf-8") as text:
                count += sum(1 for _ in text)
    return count


def tests_of(name):
    """The modules of a crate that stand under cfg(test) in its root file."""
    for file in glob.glob(f"{ROOT}/crates/{name}/src/*.rt"):
        if os.path.basename(file) in ("lib.rt", "main.rt"):
            with open(file, encoding="utf-8") as text:
                return re.findall(r"#\[cfg\(test\)\]\s*mod (\w+);", text.read())
    return []


def picture():
    below, layers = crates(), {}

    def layer(name):
        if name not in layers:
            layers[name] = 1 + max((layer(it) for it in below[name]), default=0)
        return layers[name]

    def all_below(name):
        return set(below[name]).union(*map(all_below, below[name]))

    def direct(name):
        """The crates on which this one stands, but those on which another of them stands."""
        return [it for it in below[name] if not any(it in all_below(other) for other in below[name])]

    top = max(map(layer, below))
    rows = [BEGIN, "| layer | crate | lines | stands on |\n", "|---|---|---|---|\n"]
    for at in range(1, top + 1):
        for name in [it for it in below if layers[it] == at]:
            lines = lines_of(f"crates/{name}/src/**/*.rt", tests_of(name))
            rows.append(f"| {at} | `{name}` | {lines} | {', '.join(direct(name))} |\n")
    return "".join([*rows, END])


def text_of(pattern):
    found = []
    for file in sorted(glob.glob(f"{ROOT}/{pattern}", recursive=True)):
        with open(file, encoding="utf-8") as text:
            found.append(text.read())
    return "\n".join(found)


def clauses():
    """The labels of the clauses of each function, over all functions of one name."""
    found, labels = {}, set()
    for function, label in re.findall(r"\bfn (\w+)|^ *ensures (\w+) \{", text_of("crates/*/src/**/*.rt"), re.M):
        if function:
            labels = found.setdefault(function, set())
        else:
            labels.add(label)
    return found


def calls():
    """The names before a bracket in the text of each function, by crate and name: what it may call."""
    found = {}
    for crate in os.listdir(f"{ROOT}/crates"):
        parts = re.split(r"\bfn (\w+)", re.sub(r"//.*", "", text_of(f"crates/{crate}/src/**/*.rt")))
        for name, text in zip(parts[1::2], parts[2::2]):
            found.setdefault(f"{crate}::{name}", set()).update(re.findall(r"(\w+)\(", text))
    return found


def promises(text):
    """The rows of the tables of promises and of laws, each as its cells."""
    rows, is_row = [], False
    for line in text.splitlines():
        is_row = line.startswith("| ") and (is_row or line in (PROMISES, LAWS)) or is_row and line.startswith("|-")
        if is_row and line.startswith("| ") and line not in (PROMISES, LAWS):
            rows.append(line.strip("| ").split(" | "))
    return rows


def named_by(carried, labels, defined, wrong):
    """The functions that the second cell of a row names, each with its clauses. What is not there is added to what is wrong."""
    function, is_clause, depth, found = None, False, 0, {}
    for name, word, mark in re.findall(r"`([^`]+)`|\b(clauses?|of)\b|([();])", carried):
        depth += {"(": 1, ")": -1}.get(mark, 0)
        is_clause = (is_clause or word.startswith("clause")) and word != "of" and mark != ";"
        last = name.rpartition("::")[2]
        if name and not depth and is_clause:
            found.setdefault(function, set()).add(name)
            if name not in labels.get(function, ()):
                wrong.append(f"{function} has no clause {name}")
        elif name and not set(re.findall(r"\w+", name)) <= defined:
            wrong.append(f"there is no {name}")
        elif name and not depth and last in labels:
            function = last
            found.setdefault(function, set())
    return found


def breakers():
    """What may break a promise: the edits that the prover must refuse, and the tests of crates."""
    edits = {os.path.basename(it)[:-5] for it in glob.glob(f"{ROOT}/crates/*/must-fail/*.edit")}
    return edits, set(re.findall(r"#\[test\]\s+(?:pub )?fn (\w+)", text_of("crates/*/src/**/*.rt")))


def wrong_promises():
    """What docs/promises.md says of the sources that is not so. In its tables the second cell of a row names functions, each with its clauses
    after the word 'clause' or 'clauses', up to a semicolon; in brackets it names whatever is defined, a lemma too. The third cell names
    edits, tests, and files, one at least. Where only tests call a function, or nothing does, the first cell says so (ALONE). Each edit
    is named by some row, and so is each clause of `spin`."""
    labels, called, crate_names = clauses(), calls(), set(os.listdir(f"{ROOT}/crates"))
    defined = set(re.findall(r"\w+", text_of("crates/*/src/**/*.rt") + text_of("crates/*/specs/**/*.antt"))) | crate_names
    defined |= set(re.findall(r"^pub (\w+) :", text_of("crates/*/proofs/**/*.antt"), re.M))
    with open(f"{ROOT}/docs/promises.md", encoding="utf-8") as text:
        rows = promises(text.read())
    wrong, of_spin, named = [], set(), set()
    edits, tests = breakers()
    callers = {}
    for name, them in called.items():
        for it in them:
            callers.setdefault(it, set()).add(name)
    for row in rows:
        if len(row) not in (2, 3):
            wrong.append(f"a row has {len(row)} cells: {row[0]}")
            continue
        carriers = named_by(row[1], labels, defined, wrong)
        of_spin |= carriers.get("spin", set())
        if len(row) == 3:
            for name in sorted(carriers):
                others = {it for it in callers.get(name, ()) if it.rpartition("::")[2] != name and not it.startswith(("stage_trials::", "round_trials::"))}
                if not others and not re.search(ALONE, row[0]):
                    wrong.append(f"no code but tests calls {name}, and the row does not say so: {row[0]}")
            breaking = re.findall(r"`([^`]+)`", row[2])
            if not breaking:
                wrong.append(f"nothing is named that breaks it: {row[0]}")
            for name in breaking:
                if name not in edits | tests and not ("/" in name and os.path.exists(f"{ROOT}/{name}")):
                    wrong.append(f"{name} is no edit, test or file: {row[0]}")
                named.add(name)
    wrong += [f"no row names the edit {it}" for it in sorted(edits - named)]
    wrong += [f"no row names the clause {it} of spin" for it in sorted(labels["spin"] - of_spin)]
    if not rows:
        wrong.append("there is no table of promises")
    return [f"docs/promises.md: {it}" for it in wrong]


def files_of_definitions():
    files = {os.path.relpath(it, f"{ROOT}/crates") for it in glob.glob(f"{ROOT}/crates/*/specs/**/*.antt", recursive=True)}
    return {it for it in files if os.path.basename(it) != "Lib.antt"}


def wrong_definitions():
    """Which files of definitions docs/definitions.md should name among those to believe, and which it should not, or nowhere."""
    with open(f"{ROOT}/docs/definitions.md", encoding="utf-8") as text:
        above, _, below = text.read().partition("\n## Between crates\n")
    named, others = (set(re.findall(r"`(\w+/specs/[\w/]+\.antt)`", it)) for it in (above, below))
    reached = set(believed.by_file())
    wrong = [f"does not name {it}" for it in sorted(reached - named)] + [f"names {it}, on which no call rests" for it in sorted(named - reached)]
    wrong += [f"names {it}, which is not there" for it in sorted(others - files_of_definitions())]
    return [f"docs/definitions.md {it}" for it in wrong]


def counts():
    """The counts of MOST. A condition is what a function asks of its callers, a closure's not."""
    conditions = [0]
    for function, condition in re.findall(r"^ *(?:pub(?:\([a-z]+\))? )?(?:const )?fn (\w+)|^ *(requires)\b", text_of("crates/*/src/**/*.rt"), re.M):
        if function:
            conditions.append(0)
        else:
            conditions[-1] += 1
    proofs = text_of("crates/*/proofs/**/*.antt").split("\n")
    return {
        "conditions a function, in hundredths": 100 * sum(conditions) // len(conditions),
        "conditions of one function": max(conditions),
        "lines of proofs": lines_of("crates/*/proofs/**/*.antt"),
        "lines of proofs of app_loads, cover_merge and mesh_round": sum(lines_of(f"crates/{it}/proofs/**/*.antt") for it in LARGEST),
        "lines of proofs longer than 200 characters": sum(len(it) > 200 for it in proofs),
        "lines of proofs longer than 300 characters": sum(len(it) > 300 for it in proofs),
        "lines of definitions": lines_of("crates/*/specs/**/*.antt"),
        "lines of definitions on which the programs' calls rest": sum(size for names in believed.by_file().values() for _, size in names),
    }


def renewed(text):
    """A document as it is with the picture between the two marks."""
    before, _, rest = text.partition(BEGIN)
    return before + picture() + rest.partition(END)[2]


def wrong_rooms():
    """Which files of code the rooms of docs/architecture.md do not name, and which they name that are not there. A room begins with the name
    of its crate, or with those of several, whose files it has together."""
    with open(f"{ROOT}/docs/architecture.md", encoding="utf-8") as text:
        parts = re.split(r"^((?:\*\*\w+\*\*(?: and )?)+)", text.read().partition("# Room by room")[2], flags=re.M)
    names, wrong = set(), []
    for heads, text in zip(parts[1::2], parts[2::2]):
        rooms = re.findall(r"\w+", heads.replace(" and ", " "))
        files = {os.path.basename(it) for name in rooms for it in glob.glob(f"{ROOT}/crates/{name}/src/**/*.rt", recursive=True)}
        told = set(re.findall(r"`(\w+\.rt)`", text.partition("\n## ")[0]))
        names.update(rooms)
        wrong += [f"the room of {', '.join(rooms)} does not name {it}" for it in sorted(files - told - {"lib.rt", "main.rt"})]
        wrong += [f"the room of {', '.join(rooms)} names {it}, which is not there" for it in sorted(told - files)]
    wrong += [f"there is no room of {it}" for it in sorted(set(os.listdir(f"{ROOT}/crates")) - names)]
    return [f"docs/architecture.md: {it}" for it in wrong]


def main(words):
    if "--counts" in words:
        for name, number in counts().items():
            print(f"{number:7} of at most {MOST[name]:6}  {name}")
        return 0
    file, wrong = f"{ROOT}/docs/architecture.md", []
    with open(file, encoding="utf-8") as text:
        stands = text.read()
    wanted = renewed(stands)
    if "--check" not in words:
        with open(file, "w", encoding="utf-8") as text:
            text.write(wanted)
        return 0
    if stands != wanted:
        wrong.append("docs/architecture.md is behind the sources: python3 tools/house.py")
    wrong += wrong_definitions() + wrong_rooms() + wrong_promises()
    wrong += [f"{number} {name}, and no more than {MOST[name]} are allowed" for name, number in counts().items() if number > MOST[name]]
    print("\n".join(wrong), end="\n" if wrong else "")
    return 1 if wrong else 0


if __name__ == "__main__":
    sys.exit(main(sys.argv[1:]))
