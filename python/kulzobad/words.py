"""The commands that are the program's own words: the file's bytes go to it, and what it writes comes back as it is."""
from __future__ import annotations

import argparse
import json
from typing import Any, Iterator

from .command import add_force, add_job, add_json, add_out, add_program, command, keep_off_terminal
from .command import read_bytes, write
from .json_forms import answer_in_json
from .members import Slip, refuse, slips_of, slips_of_request, slips_of_steps
from .program import answer_to_text

# Each word that reads something, with what it reads, and what it does.
WORDS = {
    "tables": ("the job", "compile a job: where its vertices stand, which keys its nets have, and its tables"),
    "compile": ("the job", "compile a job to the image of its tables, as bytes"),
    "run": ("the job", "compile a job, run its packets over the tables, and tell where each copy went"),
    "reinject": ("the job", "compile and run a job, with dropped copies put back until all have arrived"),
    "trace": ("the job", "compile a job, and take its events one by one"),
    "check": ("the request", "whether tables route as trees say, of a request with a job, trees and an image"),
    "apps": ("the steps", "load, run and unload applications on one machine, of a list of steps"),
}

MORE = {
    "compile": "docs/formats.md has the bytes of an image.",
    "check": "The request is an object with the members job, trees and image (docs/formats.md).",
    "apps": "The steps are a list of [\"load\", N, JOB], [\"unload\", N] and [\"run\"] (docs/formats.md).",
}


def add_command(commands: Any) -> None:
    """Adds a command for each word."""
    for word, (what, summary) in WORDS.items():
        file = {"check": "request.json", "apps": "steps.json"}.get(word, "job.json")
        out = " -o tables.img" if word == "compile" else ""
        example = f"kulzobad {word} {file}{out}\nkulzobad {word} --json - < {file}"
        parser = command(commands, word, summary, example, run, MORE.get(word, ""))
        add_job(parser, what)
        add_json(parser)
        if word == "compile":
            add_force(parser)
    parser = command(
        commands, "gen", "make the job of a number, compile it, run it, and tell its numbers", "kulzobad gen 7", run_number,
        "The job has 200 vertices and 300 nets on a board of 48 chips; docs/formats.md says what is drawn.",
    )
    parser.add_argument("number", metavar="N", help="a number from 0 to 18446744073709551615")
    add_json(parser)
    add_out(parser)
    add_program(parser)


def slips_for(word: str, text: bytes) -> Iterator[Slip]:
    """The members of what a word reads that its version does not know; none where it is not JSON, which is for the program to say."""
    try:
        value = json.loads(text)
    except (ValueError, RecursionError):
        return iter(())
    return {"check": slips_of_request, "apps": slips_of_steps}.get(word, slips_of)(value)


def run(options: argparse.Namespace) -> int:
    """Calls the program with the word and what the command's file has."""
    if options.command == "compile" and not options.json:
        keep_off_terminal(options)
    text = read_bytes(options.job)
    if not options.lenient:
        refuse(slips_for(options.command, text))
    written = answer_to_text([options.command], text, options.program)
    write(answer_in_json(options.command, written) if options.json else written, options.out)
    return 0


def run_number(options: argparse.Namespace) -> int:
    """Calls the program with `gen` and a number."""
    written = answer_to_text(["gen", options.number], b"", options.program)
    write(answer_in_json("gen", written) if options.json else written, options.out)
    return 0
