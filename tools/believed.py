#!/usr/bin/env python3
"""Tells which definitions the clauses of the programs' calls rest on: what a reader has to believe.

    tools/believed.py [--files | --names]

It begins with the names that stand in the clauses of `spin` (spin_top/src/tops.rt) and of `spin_tables` (tables_top/src/tops.rt), and
with the views of the types that an outcome has, and follows each definition to those that it names. Types of the code are no
definitions. Told is how many definitions these are, and how many lines they have with the sentences above them. With --files it prints
each file of `specs/` and its number of such lines, with --names the definitions too. Definitions in Rattle begin at the start of a
line, but for those of a `module`.
"""
import functools
import glob
import os
import re
import sys
from collections import defaultdict

ROOT = os.path.dirname(os.path.dirname(os.path.realpath(__file__)))
TOPS = ("spin_top/src/tops.rt", "tables_top/src/tops.rt")
HEAD = re.compile(r"(?:(?:pub|abbrev|unfoldable|record|data) )*([^\s:({.]+)")
NO_HEAD = ("use ", "pub use ", "module ", "infix", "--")


class Part:
    """A module of definitions: what it names from elsewhere, its definitions, and which of them has a field or constructor."""

    def __init__(self, text):
        self.lines, self.named, self.spans, self.within = text.split("\n"), {}, defaultdict(list), {}
        for path, items in re.findall(r"^(?:pub )?use Rattle\.([\w.]+)\.\{(.*?)\}", text, re.M | re.S):
            for item in filter(None, map(str.strip, items.split(","))):
                whole, _, other = item.partition(" as ")
                self.named[other or whole.rpartition(".")[2]] = f"{path}.{whole}"
        for path, other in re.findall(r"^(?:pub )?use Rattle\.([\w.]+)(?: as (\w+))?$", text, re.M):
            self.named[other or path.rpartition(".")[2]] = path
        self.find()

    def find(self):
        inner, begun = "  " if any(it.startswith("module ") for it in self.lines) else None, []
        for at, line in enumerate(self.lines):
            if inner and line.startswith(inner) and line[2:3] not in ("", " ", "-"):
                line = line[2:]
            head = HEAD.match(line)
            if head and re.search(r" :( |$)|^(pub )?(record|data) ", line) and line[0] != " " and not line.startswith(NO_HEAD):
                begun.append((at, head[1]))
        for (at, name), (after, _) in zip(begun, [*begun[1:], (len(self.lines), None)]):
            end, first = after, at
            while end > at + 1 and re.match(r" *(--|$)", self.lines[end - 1]):
                end -= 1
            while first and re.match(r" *--", self.lines[first - 1]):
                first -= 1
            self.spans[name].append((first, at, end))
            for field in re.findall(r"^ +(?:pub )?([\w'◌-]+) :", "\n".join(self.lines[at:end]), re.M):
                self.within[field] = name

    def text(self, name):
        return "\n".join("\n".join(self.lines[at:end]) for _, at, end in self.spans[name])

    def size(self, name):
        return sum(end - first for first, _, end in self.spans[name])


def parts():
    found = {}
    for file in glob.glob(f"{ROOT}/crates/*/specs/**/*.antt", recursive=True):
        with open(file, encoding="utf-8") as text:
            found[os.path.relpath(file, f"{ROOT}/crates")[:-5].replace("/", ".")] = Part(text.read())
    return found


def followed(whole, found):
    """The module and the name of the definition that a whole name has, through modules that hand names on; None where it is none."""
    module, _, name = whole.rpartition(".")
    if module not in found:
        return None
    part = found[module]
    if name in part.spans or name in part.within:
        return module, name if name in part.spans else part.within[name]
    return followed(part.named[name], found) if name in part.named else None


def names_in(text):
    return set(re.findall(r"[\w'◌-]+", text)) | {f"◌{it}◌" for it in re.findall(r"[^\s\w(){},;.]+", text)}


def named_by(module, name, found):
    """The definitions that a definition names."""
    part = found[module]
    text = part.text(name)
    for other in names_in(text):
        if other in part.spans:
            yield module, other
        elif other in part.within:
            yield module, part.within[other]
        elif other in part.named:
            yield followed(part.named[other], found)
    for base, other in re.findall(r"(\w+)\.([\w'-]+)", text):
        if base in part.named:
            yield followed(f"{part.named[base]}.{other}", found)


def code():
    """The text of each file of code, by its path below crates/."""
    found = {}
    for file in glob.glob(f"{ROOT}/crates/*/src/**/*.rt", recursive=True):
        with open(file, encoding="utf-8") as text:
            found[os.path.relpath(file, f"{ROOT}/crates")] = text.read()
    return found


def types_given(texts):
    """The types whose values a call's outcome has, by their names."""
    bodies = defaultdict(str)
    for text in texts.values():
        for name, body in re.findall(r"^pub (?:struct|enum) (\w+)[^{;]*({.*?^}|;)", text, re.M | re.S):
            bodies[name] += re.sub(r"//.*", "", body)
    reached, ahead = set(), ["Outcome"]
    while ahead:
        name = ahead.pop()
        if name not in reached:
            reached.add(name)
            ahead += [it for it in re.findall(r"\w+", bodies[name]) if it in bodies]
    return reached


def begun(found):
    """What the calls' clauses name, and the views of the types that an outcome has."""
    texts = code()
    given = types_given(texts)
    for file, text in texts.items():
        seen = [(text, None)] if file in TOPS else []
        for name, body in re.findall(r"^impl(?:<.*?>)? Model for (\w+)(.*?^})", text, re.M | re.S):
            if name in given:
                seen.append((body, re.findall(r"[\w'-]+", " ".join(re.findall(r"ghost view = \{(.*?)\}", body, re.S)))))
        for here, views in seen:
            for path, items in re.findall(r"ghost use Rattle\.([\w.]+)\.\{(.*?)\};", here, re.S):
                for item in filter(None, map(str.strip, items.split(","))):
                    whole, _, other = item.partition(" as ")
                    if views is None or (other or whole) in views:
                        yield followed(f"{path}.{whole}", found)


def believed(found):
    """The definitions, as pairs of module and name."""
    reached, ahead = set(), list(begun(found))
    while ahead:
        here = ahead.pop()
        if here and here not in reached:
            reached.add(here)
            ahead += named_by(*here, found)
    return reached


@functools.cache
def by_file():
    """Each file of definitions that are reached, below crates/, with the names of these and their lines."""
    found, files = parts(), defaultdict(list)
    for module, name in sorted(believed(found)):
        files[f"{module.replace('.', '/')}.antt"].append((name, found[module].size(name)))
    return files


def main(words):
    files = by_file()
    for file, names in files.items():
        if words:
            print(f"{sum(size for _, size in names):5}  {file}")
        if "--names" in words:
            print("\n".join(f"       {name} {size}" for name, size in names))
    print(f"{sum(map(len, files.values()))} definitions in {len(files)} files, {sum(size for it in files.values() for _, size in it)} lines")


if __name__ == "__main__":
    main(sys.argv[1:])
