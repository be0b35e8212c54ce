#!/usr/bin/env python3
"""Keeps the checksum of the sources that the gate last proved whole: in proved.sum, beside the kit's name.

    python3 tools/proved.py              says whether proved.sum is that of the sources as they stand; status 1 where it is not
    python3 tools/proved.py --write      writes it, where the gate has proved these sources here: run .ci/run before
    python3 tools/proved.py --sum        prints the checksum
    python3 tools/proved.py --program [NAME]    prints where the program (spin, or that name) is that `rt ci` compiled of these sources,
                                                if there is one
    python3 tools/proved.py --gate SUM   .ci/run says so: `rt ci` has just proved the sources that had this checksum when it began

The checksum is of crates.txt, of all files below crates/*/src, and of the kit: its KIT-ID, and the sources of its libraries that the
program is compiled of. Specs and proofs are no part of it. They say why these sources are safe; what is compiled does not depend on
them. tools/compile.py leaves checks out of a program where proved.sum is that of its sources, and keeps them elsewhere.

What the gate proved is noted in out/proved.sum, with the checksums of the programs that `rt ci` compiled of it
(crates/spin_mesh/out/spin_mesh, and so on); tools/release.py packs those programs where they are still there.
"""
import hashlib
import os
import sys

ROOT = os.path.dirname(os.path.dirname(os.path.realpath(__file__)))
sys.path.insert(0, f"{ROOT}/tools")

import compile as launcher  # noqa: E402

NOTED = f"{ROOT}/out/proved.sum"
PROGRAMS = {name: f"{ROOT}/crates/{crate}/out/{crate}" for name, crate in (("spin", "spin_mesh"), ("spin_tables", "spin_tables"))}


def sum_now():
    return launcher.sources_sum(ROOT, launcher.kit_of_path())


def kit_name():
    return launcher.text_of(f"{launcher.kit_of_path()}/KIT-ID")


def noted():
    """The checksum of what the gate proved here, and those of the programs that it made."""
    sources, *made = launcher.text_of(NOTED).split() or [""]
    return sources, dict(it.split("=", 1) for it in made if "=" in it)


def sum_of_program(name):
    try:
        with open(PROGRAMS[name], "rb") as program:
            return hashlib.sha256(program.read()).hexdigest()
    except OSError:
        return ""


def proved_program(name="spin"):
    """The program that `rt ci` compiled of these sources, which it had proved; none where there is none of them."""
    sources, made = noted()
    return PROGRAMS[name] if made.get(name) and made[name] == sum_of_program(name) and sources == sum_now() else None


def main(words):
    now = sum_now()
    if words == ["--sum"]:
        print(now)
    elif words[:1] == ["--program"] and set(words[1:]) <= set(PROGRAMS) and len(words) <= 2:
        print(proved_program(*words[1:]) or "")
    elif words == ["--write"]:
        if noted()[0] != now:
            sys.exit("proved: .ci/run has not proved these sources in this clone")
        with open(f"{ROOT}/proved.sum", "w", encoding="utf-8") as file:
            file.write(f"{now}\n{kit_name()}\n")
    elif len(words) == 2 and words[0] == "--gate":
        if words[1] != now:
            sys.exit("proved: the sources have changed since rt ci began")
        os.makedirs(f"{ROOT}/out", exist_ok=True)
        with open(NOTED, "w", encoding="utf-8") as file:
            file.write("\n".join([now, *(f"{name}={sum_of_program(name)}" for name in PROGRAMS), ""]))
    elif words:
        sys.exit(__doc__)
    elif launcher.proved_sum(ROOT) != now:
        of_kit = launcher.text_of(f"{ROOT}/proved.sum").partition("\n")[2]
        of = "of these sources" if of_kit in ("", kit_name()) else f"of these sources with this kit, but of a proof by {of_kit}"
        sys.exit(f"proved: proved.sum is not {of}; where .ci/run has proved them: python3 tools/proved.py --write")
    return 0


if __name__ == "__main__":
    sys.exit(main(sys.argv[1:]))
