"""The command `draw`."""
from __future__ import annotations

import argparse
from typing import Any

from .command import BAD_JOB, NO_PROGRAM, NOT_WHOLE, USAGE, Stopped
from .command import add_force, add_job, command, keep_off_terminal, read_job, read_text, write
from .drawing import WORDS, draw, png_of
from .program import answer_to
from .reports import read


def add_command(commands: Any) -> None:
    """Adds the command `draw`."""
    example = (
        "kulzobad draw mesh job.json -o mesh.svg\n"
        "kulzobad draw tree job.json --net spikes -o tree.svg\n"
        "kulzobad draw copies job.json report.txt --png -o copies.png"
    )
    more = (
        "mesh   chips live, dead and used, dead links and cores, and devices\n"
        "tree   the tree of a net (--net), with the cores that get its packets at each chip\n"
        "rows   how many rows each chip's table has, of how many with one for each net\n"
        "copies how many copies each chip got, dropped or has waiting\n"
    )
    parser = command(commands, "draw", "draw a job and what the program writes of it, as SVG", example, run, more)
    parser.add_argument("kind", choices=tuple(WORDS), metavar="KIND", help="mesh, tree, rows or copies")
    add_job(parser)
    what = "what `tables`, or for copies `run`, wrote of the job; else it is asked now"
    parser.add_argument("output", nargs="?", metavar="OUTPUT", help=what)
    parser.add_argument("--net", metavar="NAME", help="the net whose tree is drawn")
    parser.add_argument("--png", action="store_true", help="write a PNG file, where rsvg-convert is found")
    add_force(parser)


def run(options: argparse.Namespace) -> int:
    """Draws the command's job."""
    if options.png:
        keep_off_terminal(options)
    if options.kind == "tree" and options.net is None:
        raise Stopped("a tree is of a net: name it with --net", USAGE)
    job = read_job(options)
    if options.output is None:
        text = answer_to(WORDS[options.kind], job, options.program).decode()
    else:
        text = read_text(options.output)
    try:
        report = read(text)
    except ValueError as error:
        status = NOT_WHOLE if options.output is None else BAD_JOB
        raise Stopped(f"{options.output or 'what the program wrote'}: {error}", status) from None
    try:
        svg = draw(options.kind, job, report, options.net)
    except ValueError as error:
        raise Stopped(str(error)) from None
    try:
        picture = png_of(svg) if options.png else svg.encode()
    except ValueError as error:
        raise Stopped(str(error), NO_PROGRAM) from None
    write(picture, options.out)
    return 0
