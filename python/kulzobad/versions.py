"""Which package this is, which program it calls, and what that was compiled from."""
from __future__ import annotations

import json
import shutil
from pathlib import Path
from typing import Dict, Optional

from .program import NoProgram, program_of

VERSION = "0.2.0"

PROVED = (
    "The program was compiled from these sources, and is not proved on this machine:"
    " the proofs are those of the gate (rt ci) over the sources."
)
UNPROVED = "The program was compiled from these sources, and is not proved on this machine: the gate (rt ci) has not proved them either."


def built_from(program: Path) -> Dict[str, str]:
    """What is known of a program: the checksum of its sources (`sources`), the commit, the toolchain, and whether it ends where a
    check fails (`checks`). Beside a program of tools/release.py this is in a file, and in a clone beside the launcher's build."""
    told = program.with_name("built.json")
    if told.is_file():
        found: Dict[str, str] = json.loads(told.read_text(encoding="utf-8"))
        return found
    for kept in (program.with_name(f"{program.name}.sum"), program.with_name("out") / f"{program.name}.sum"):
        if kept.is_file():
            sources, *more = kept.read_text(encoding="utf-8").splitlines()
            checks = {"checks": it.partition(" ")[2] for it in more if it.startswith("checks ")}
            return {"sources": sources, **checks, **toolchain(kept.with_suffix(".here"))}
    return {}


def toolchain(here: Path) -> Dict[str, str]:
    """The toolchain that made the launcher's build, whose folder stands in a file beside the build. Another may be on the path by now."""
    try:
        folder = here.read_text(encoding="utf-8").rstrip("\n").partition(" ")[2]
        return {"toolchain": (Path(folder) / "KIT-ID").read_text(encoding="utf-8").strip()}
    except OSError:
        return {}


def version_text(program: Optional[str] = None) -> str:
    """The lines of `--version`."""
    try:
        path = program_of(program)
    except NoProgram as missing:
        return f"kulzobad {VERSION}\nno program: {missing}\n"
    found = shutil.which(path) or path
    built = built_from(Path(found).resolve())
    lines = [f"kulzobad {VERSION}", f"program {path}"]
    lines += [f"{name} {built[name]}" for name in ("sources", "commit", "toolchain", "checks") if name in built]
    is_proved = "has not proved" not in built.get("checks", "")
    lines.append((PROVED if is_proved else UNPROVED) if "sources" in built else "What it was compiled from is not known.")
    return "".join(f"{line}\n" for line in lines)
