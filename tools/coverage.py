#!/usr/bin/env python3
"""Which functions of this repository's crates no example and no script of the gate enters.

    python3 tools/coverage.py --build     makes out/spin_covered and out/spin_tables_covered, and forgets what was entered
    python3 tools/coverage.py             compares; the gate runs this when its scripts have run these programs
    python3 tools/coverage.py --list      prints the functions that were not entered

Both programs keep their checks (tools/compile.py), and note each function that they enter, as a byte in a file in the folder that
SPIN_COVERED names in their environment; where none is named they note nothing. What they note is written into the module's text, at the
beginning of each function, and stays where the function is compiled into another one. The gate sets SPIN_COVERED to out, for all its
runs.

A function is one of the sources with a body, in a crate that a program stands on. Instances of one function count as one, and so do
a type's impls of one trait. Laws, whose bodies are empty, don't count, nor do closures and what is derived. One that was not entered
has to stand in tools/not_entered.txt, with a reason: a line has the function's name, or the beginning of names with `*` behind it, and
behind the name the reason. A line there that no such function has is a fault too. Each fault is printed. The last line is
'N passed, M failed', and the status 1 where one failed.
"""
import glob
import os
import re
import sys
from collections import namedtuple

ROOT = os.path.dirname(os.path.dirname(os.path.realpath(__file__)))
sys.path.insert(0, f"{ROOT}/tools")

import compile as launcher  # noqa: E402

# Each program with its name where it notes what it enters.
PROGRAMS = {"spin_mesh": "spin_covered", "spin_tables": "spin_tables_covered"}
REASONS = f"{ROOT}/tools/not_entered.txt"

# The bytes of the file, mapped as the program begins; so they are there however it ends.
RUNTIME = r"""
extern char *getenv(const char *);
extern int snprintf(char *, unsigned long, const char *, ...);
extern int open(const char *, int, ...);
extern int close(int);
extern void *mmap(void *, unsigned long, int, int, int, long);

extern unsigned char spin_covered_nowhere[];
extern const unsigned long spin_covered_many;
unsigned char *spin_covered = spin_covered_nowhere;

__attribute__((constructor)) static void begin(void) {
    const char *folder = getenv("SPIN_COVERED");
    char path[4096];
    int file = folder && snprintf(path, sizeof path, "%s/{name}.entered", folder) < sizeof path ? open(path, 2) : -1;
    if (file < 0) return;
    void *bytes = mmap(0, spin_covered_many, 3, 1, file, 0);
    close(file);
    if (bytes != (void *)-1) spin_covered = bytes;
}
"""

Function = namedtuple("Function", "front type trait name")


def crates(program):
    """The program's crate and those of this repository below it."""
    return [program] + [name for name, _, folder in launcher.libraries(ROOT, launcher.kit_of_path(), program) if folder.startswith(f"{ROOT}/")]


class Noting:
    """Puts into a module's text that it notes the functions that are entered, and keeps their names."""

    def __init__(self, program):
        self.names, self.crates = [], tuple(f'@"{name}::'.encode() for name in crates(program))

    def __call__(self, lines):
        is_first = False
        for line in lines:
            yield line
            if is_first:
                assert line == b"start:\n", line
                yield b"  %%covered = load ptr, ptr @spin_covered\n  %%covered_here = getelementptr i8, ptr %%covered, i64 %d\n" % (len(self.names) - 1)
                yield b"  store atomic i8 1, ptr %covered_here monotonic, align 1\n"
                is_first = False
            elif line.startswith(b"define ") and any(it in line for it in self.crates):
                name = line.split(b'@"')[1].split(b'"')[0].decode()
                self.names.append(name.split("::<")[0])
                is_first = True
        yield b"\n@spin_covered = external global ptr\n@spin_covered_nowhere = global [%d x i8] zeroinitializer\n" % len(self.names)
        yield b"@spin_covered_many = constant i64 %d\n" % len(self.names)


def build():
    for program, name in PROGRAMS.items():
        noting = Noting(program)
        launcher.main(ROOT, program, name, launcher.More(os.path.realpath(__file__), noting, RUNTIME.replace("{name}", name)))
        if noting.names:
            with open(f"{ROOT}/out/{name}.names", "w", encoding="utf-8") as file:
                file.writelines(f"{it}\n" for it in noting.names)
        with open(f"{ROOT}/out/{name}.entered", "wb") as file:
            file.write(bytes(len(names(name))))


def names(name):
    with open(f"{ROOT}/out/{name}.names", encoding="utf-8") as file:
        return file.read().splitlines()


def entered():
    """The names of the modules' functions that were entered."""
    found = set()
    for name in PROGRAMS.values():
        with open(f"{ROOT}/out/{name}.entered", "rb") as file:
            found.update(it for it, byte in zip(names(name), file.read()) if byte)
    return found


def functions():
    """Each function of the sources that has a body."""
    for crate in dict.fromkeys(it for program in PROGRAMS for it in crates(program)):
        for file in sorted(glob.glob(f"{ROOT}/crates/{crate}/src/**/*.rt", recursive=True)):
            parts = os.path.relpath(file, f"{ROOT}/crates/{crate}/src")[:-3].split("/")
            front = "::".join([crate, *(it for it in parts if it not in ("lib", "main", "mod"))])
            with open(file, encoding="utf-8") as text:
                yield from functions_of(front, text.read().split("\n"))


def functions_of(front, lines):
    type_name = trait = ""
    for at, line in enumerate(lines):
        opened = re.match(r"(?:pub )?(impl|trait)\b(?:<[^{]*?>)? *(.*)", line)
        if line == "}" or opened and line.endswith("{}"):
            type_name = trait = ""
        elif opened:
            trait, _, of = opened[2].rpartition(" for ") if opened[1] == "impl" else ("", "", opened[2])
            type_name, trait = (re.sub(r"<.*|[: ]*$|:? .*", "", with_tuple(it)).rpartition("::")[2] for it in (of, trait))
        found = re.match(r"( *)(?:pub(?:\(crate\))? )?(?:const )?fn (\w+)", line)
        if found and has_body(lines[at:], found[1]):
            yield Function(front, type_name, trait, found[2])


def with_tuple(of):
    """A type as the module names it, where it is a tuple of types by their names: `Tuple2NameSpot` for `(Name, Spot)`."""
    items = re.match(r"\(([\w, ]+)\)", of)
    names = [it[0].upper() + it[1:] for it in items[1].split(", ")] if items else []
    return f"Tuple{len(names)}{''.join(names)}" if names else of


def has_body(lines, indent):
    """Whether a function does anything: its body is no `{}`, and it is no trait's without one."""
    for line in lines:
        if line.endswith(("{}", ";")):
            return False
        if re.match(rf"{indent}\S", line) and line.endswith("{"):
            return True
    return False


def name_of(function):
    of = f"{function.type}{function.trait}"
    return "::".join([function.front, *[of] * bool(of), function.name])


def is_one_of(function, found):
    """Whether the function is among these names of the module. A method stands there in the module of its type, and an impl of a trait
    has the type's and the trait's parameters in its name."""
    if not function.type:
        return name_of(function) in found
    crate, of = function.front.partition("::")[0], function.type + (rf"\w*{function.trait}\w*" if function.trait else "")
    pattern = rf"{crate}::(\w+::)*{of}::{function.name}"
    return any(it.startswith(crate) and re.fullmatch(pattern, it) for it in found)


def reasons():
    """The names that need not be entered, each with its reason."""
    with open(REASONS, encoding="utf-8") as lines:
        parted = [it.split(None, 1) for it in lines if it.strip() and not it.startswith("#")]
    return {it[0]: it[1].strip() if len(it) > 1 else "" for it in parted}


def main(words):
    if words == ["--build"]:
        build()
        return 0
    found, failed, passed, used = entered(), 0, 0, set()
    own = {}
    for function in functions():
        own.setdefault(name_of(function), is_one_of(function, found))
    left, why = [name for name, is_entered in own.items() if not is_entered], reasons()
    if words == ["--list"]:
        print("\n".join(left))
        return 0
    for name in own:
        lines = [it for it in why if name == it or it.endswith("*") and name.startswith(it[:-1])]
        if own[name] or lines:
            passed += 1
            used.update(lines if not own[name] else ())
        else:
            failed += 1
            print(f"FAILED: nothing enters {name}, and tools/not_entered.txt has no reason")
    for name, reason in why.items():
        if not reason or name not in used:
            failed += 1
            print(f"FAILED: tools/not_entered.txt: {name} " + ("is entered, or is no function" if reason else "has no reason"))
    print(f"{len(own)} functions, {len(left)} of them not entered")
    print(f"{passed} passed, {failed} failed")
    return 1 if failed else 0


if __name__ == "__main__":
    if sys.argv[1:] not in ([], ["--build"], ["--list"]):
        sys.exit(__doc__)
    sys.exit(main(sys.argv[1:]))
