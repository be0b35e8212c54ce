"""The command `trees`."""
from __future__ import annotations

import argparse
import json
from typing import Any, List, Mapping

from .command import add_job, add_json, command, read_job, write
from .grid import Grid
from .jobs import Chip
from .reports import LINKS
from .trees import Way, links_on, ways_of_job


def text_of(found: Mapping[str, Mapping[Chip, Way]]) -> str:
    """The trees as text: `tree NET CHIPS`, and a line for each chip with its links and cores, and `-` where it has no row."""
    lines: List[str] = []
    for name, by_chip in found.items():
        lines.append(f"tree {name} {len(by_chip)}")
        for (x, y), way in by_chip.items():
            outs = [LINKS[link] for link in way.links] + [f"c{core}" for core in way.cores]
            lines.append(" ".join([str(x), str(y), *outs, *([] if way.is_row else ["-"])]))
    return "".join(f"{line}\n" for line in lines)


def add_command(commands: Any) -> None:
    """Adds the command `trees`."""
    more = (
        "Each net has a line `tree NET CHIPS`, and then one for each chip of its tree, from the source on: x, y, and the links and\n"
        "cores (c and a number) by which its packets leave; - says that the chip has no row for them, and they go straight on.\n"
    )
    example = "kulzobad trees job.json\nkulzobad trees --json job.json"
    parser = command(commands, "trees", "the tree of each net of a job", example, run, more)
    what = "write the member `trees` of a request to check, a list of [x, y, link] for each net; or the refusal"
    add_json(parser, what)
    add_job(parser)


def run(options: argparse.Namespace) -> int:
    """Writes the trees of the command's job."""
    job = read_job(options)
    found = ways_of_job(job, options.program)
    if options.json:
        grid = Grid(job.machine)
        write((json.dumps([links_on(grid, found[net.name]) for net in job.nets]) + "\n").encode(), options.out)
    else:
        write(text_of(found).encode(), options.out)
    return 0
