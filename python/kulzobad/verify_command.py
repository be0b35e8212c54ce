"""The command `verify`."""
from __future__ import annotations

import argparse
import json
from typing import Any

from .command import BAD_JOB, NOT_RIGHT, Stopped, add_json, add_out, add_program, command, read_bytes, read_text, write
from .formats import Network, network_of_job, read_network, read_rows
from .images import MAGIC, decode
from .jobs import Job
from .members import UnknownMembers
from .verdicts import lines_of, note_lines, value_of
from .verifying import Tables, Verifier

MORE = (
    "NETWORK is JSON text: a machine, the places of vertices, and nets with their keys; or a job,\n"
    "whose places and keys are those that `tables` gives. TABLES has the rows: comma-separated\n"
    "values below x,y,key,mask,route, or a dump of such lines with hexadecimal words, or what\n"
    "`tables` or `run` writes, or the bytes of an image.\n\n"
    "The first line is `right`, with status 0, or what is amiss, with status 20: `strays`, `dies`,\n"
    "`loops`, `twice`, `misses` or `stops`, the net and the key. Then each hop of the key's way has\n"
    "a line: the chip, the port by which the key came in, the row that takes it, counted from 0, and\n"
    "the output by which the way goes on.\n"
)


def add_command(commands: Any) -> None:
    """Adds the command `verify`."""
    example = "kulzobad verify network.json tables.csv\nkulzobad verify job.json board.img"
    summary = "whether tables of any tool bring each key of each net to just the net's targets"
    parser = command(commands, "verify", summary, example, run, MORE)
    parser.add_argument("network", metavar="NETWORK", help="the file of the network or the job; - is standard input")
    parser.add_argument("tables", metavar="TABLES", help="the file of the rows; - is standard input")
    parser.add_argument("--lenient", action="store_true", help="ignore members of a job that its version has not, as the program does")
    parser.add_argument("--notes", action="store_true", help="write each note, and not the first of each kind alone")
    add_json(parser, "write the verdict and all notes, or the refusal, as one line of JSON")
    add_out(parser)
    add_program(parser)


def run(options: argparse.Namespace) -> int:
    """Verifies the command's tables."""
    network, tables = network_in(options), tables_in(options.tables)
    try:
        verifier = Verifier(network.machine, network.places, network.nets, tables, network.trees, options.program)
        verdict, notes = verifier.verdict(), verifier.notes()
    except (TypeError, ValueError) as error:
        raise Stopped(str(error), BAD_JOB) from None
    if options.json:
        value = {**value_of(verdict), "notes": [value_of(note) for note in notes]}
        write((json.dumps(value) + "\n").encode(), options.out)
    else:
        write("".join(f"{line}\n" for line in [*lines_of(verdict), *note_lines(notes, options.notes)]).encode(), options.out)
    return 0 if verdict else NOT_RIGHT


def network_in(options: argparse.Namespace) -> Network:
    """The command's network."""
    text = read_text(options.network)
    try:
        value = json.loads(text)
        if isinstance(value, dict) and "graph" in value:
            return network_of_job(Job.from_json(value, lenient=options.lenient), options.program)
        return read_network(text)
    except UnknownMembers:
        raise
    except (TypeError, ValueError) as error:
        raise Stopped(f"{options.network}: {error}", BAD_JOB) from None
    except RecursionError:
        raise Stopped(f"{options.network}: it is nested too deep", BAD_JOB) from None


def tables_in(name: str) -> Tables:
    """The rows of a file."""
    data = read_bytes(name)
    try:
        return decode(data) if data.startswith(MAGIC) else read_rows(data.decode())
    except ValueError as error:
        raise Stopped(f"{name}: {error}", BAD_JOB) from None
