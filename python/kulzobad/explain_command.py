"""The command `explain`."""
from __future__ import annotations

import argparse
import json
from typing import Any

from .command import add_job, add_json, command, read_bytes, status_of, write
from .explaining import lines_of
from .json_forms import refused_in_json
from .program import Refused, answer_to_text
from .words import WORDS


def add_command(commands: Any) -> None:
    """Adds the command `explain`."""
    more = (
        "Other commands tell this on standard error where their job is refused. Here it is the answer: the program's line and what stands\n"
        "behind it, with the program's status; nothing, and status 0, where the job is not refused. Unknown members are ignored, as by\n"
        "the program.\n"
    )
    example = "kulzobad explain job.json\nkulzobad explain --word apps steps.json"
    parser = command(commands, "explain", "say why the program refuses a job, and what stands behind it", example, run, more)
    what = "the word that reads the file; tables, if none is named"
    parser.add_argument("--word", choices=tuple(WORDS), default="tables", metavar="WORD", help=what)
    add_job(parser)
    add_json(parser)


def run(options: argparse.Namespace) -> int:
    """Asks the program, and writes why it refuses."""
    try:
        answer_to_text([options.word], read_bytes(options.job), options.program)
    except Refused as refused:
        lines, status = lines_of(refused, options.program), status_of(refused)
        if options.json:
            write((json.dumps(refused_in_json(refused, status, lines)) + "\n").encode(), options.out)
        else:
            write("".join(f"{line}\n" for line in (refused.line or refused.kind, *(f"  {it}" for it in lines))).encode(), options.out)
        return status
    if options.json:
        write(b'{"refused": null}\n', options.out)
    return 0
