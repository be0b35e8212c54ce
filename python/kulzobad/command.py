"""What the commands of the command line share: how a command is added, its job read, and its answer written.

    def add_command(commands):
        parser = command(commands, "count", "how many vertices a job has", "kulzobad count job.json", count)
        add_job(parser)

    def count(options):
        write(f"{len(read_value(options)['graph']['vertices'])}\\n".encode(), options.out)
        return 0

Statuses are those of the program as far as it has them: 2 where reading failed, 3 where writing did, 4 for a bad job. Words that are
none are 64, since Python gives 1 for what nobody thought of; what comes of an answer has a number of its own.
"""
from __future__ import annotations

import argparse
import json
import os
import sys
from contextlib import nullcontext
from typing import Any, Callable, List, Optional, Sequence

from .jobs import Job
from .json_faults import json_fault
from .members import UnknownMembers
from .program import Refused
from .progress import still

READ_FAULT, WRITE_FAULT, BAD_JOB = 2, 3, 4
# What an answer says: tables are wrong; a job has a fault, or only hints.
NOT_RIGHT, FAULT, HINT = 20, 21, 22
# Words that are none, and an answer of the program that is not whole; no such program, ended by the keyboard, and ended by a signal,
# whose number is added.
USAGE, NOT_WHOLE, NO_PROGRAM, STOPPED_BY_KEYS, BY_SIGNAL = 64, 70, 127, 130, 128

# The statuses in words, and what they say, as the help has them.
STATUSES = (
    (0, "done", "all was done: a verdict of `check`, whatever it is, or a `right` of verify; no remark of lint"),
    (READ_FAULT, "read fault", "a file can't be read"),
    (WRITE_FAULT, "write fault", "a file, or standard output, can't be written"),
    (BAD_JOB, "bad job", "what was read is no job, no network, no rows or no report"),
    (5, "no room", "a vertex finds no place"),
    (6, "keys out", "a net finds no keys"),
    (7, "cut off", "a target is cut off"),
    (8, "table long", "a table is too long for a router"),
    (9, "out of memory", "the program got no memory"),
    (NOT_RIGHT, "not right", "verify says that tables are wrong"),
    (FAULT, "fault", "lint tells a fault"),
    (HINT, "hint", "lint tells hints alone"),
    (USAGE, "usage", "the words are no command"),
    (NOT_WHOLE, "not whole", "what the program wrote is not whole"),
    (NO_PROGRAM, "no program", "there is no program to call"),
    (STOPPED_BY_KEYS, "stopped", "ended by the keyboard; 128 and n where signal n ended the program"),
)
KINDS = {status: kind for status, kind, _ in STATUSES}


# The program's status for words that are none.
USAGE_OF_PROGRAM = 1


def status_of(refused: Refused) -> int:
    """A command's status where the program refuses: the program's, but for words that are none, and where a signal ended it."""
    if refused.status == USAGE_OF_PROGRAM:
        return USAGE
    return BY_SIGNAL - refused.status if refused.status < 0 else refused.status


class Stopped(Exception):
    """A command ends: with a line for standard error, further lines that say more, and a status."""

    def __init__(self, line: str, status: int = BAD_JOB, more: Sequence[str] = ()) -> None:
        super().__init__(line)
        self.status, self.more = status, list(more)

    def lines(self) -> List[str]:
        """All that is told on standard error."""
        return [f"kulzobad: {line}" for line in (str(self), *self.more)]


def command(
    commands: Any, name: str, summary: str, example: str, run: Callable[[argparse.Namespace], int], more: str = ""
) -> argparse.ArgumentParser:
    """Adds a command of this name to the subparsers, and gives its parser. `summary` begins with a small letter and has no full
    stop; `example` has a command a line, and `more` paragraphs for its help. `run` takes the options and gives the status."""
    parser: argparse.ArgumentParser = commands.add_parser(
        name,
        help=summary,
        description=f"{name}: {summary}.\n{more}",
        epilog="example:\n" + "\n".join(f"  {line}" for line in example.splitlines()),
        formatter_class=argparse.RawDescriptionHelpFormatter,
    )
    parser.set_defaults(run=run, command=name)
    add_flags(parser)
    return parser


def add_flags(parser: argparse.ArgumentParser) -> None:
    """Adds how much is told on standard error. The flags may stand before the command and behind it."""
    told = parser.add_mutually_exclusive_group()
    for letter, name, help_ in (
        ("-q", "--quiet", "of a refusal its first line alone, and not how long something takes"),
        ("-v", "--verbose", "each call of the program too, with its seconds"),
    ):
        told.add_argument(letter, name, action="store_true", default=argparse.SUPPRESS, help=f"tell {help_}")


def add_job(parser: argparse.ArgumentParser, what: str = "the job") -> None:
    """Adds the file of a job to a command, whether members that no version knows are let through, where the answer goes, and
    which program is called."""
    parser.add_argument("job", metavar="JOB", help=f"the file of {what}; - is standard input")
    parser.add_argument("--lenient", action="store_true", help="ignore members that the text's version has not, as the program does")
    add_out(parser)
    add_program(parser)


def add_out(parser: argparse.ArgumentParser) -> None:
    """Adds where the answer goes."""
    parser.add_argument("-o", "--out", metavar="FILE", help="write to this file, and not to standard output")


def add_force(parser: argparse.ArgumentParser) -> None:
    """Adds whether bytes are written onto a terminal."""
    parser.add_argument("--force", action="store_true", help="write bytes onto a terminal, too")


def keep_off_terminal(options: argparse.Namespace) -> None:
    """Stopped where bytes would be written onto a terminal that nobody asked to be written on. It is to be called before the work."""
    if options.out is None and not options.force and is_terminal():
        line = "these are bytes, and standard output is a terminal: name a file with -o, or say --force"
        raise Stopped(line, USAGE)


def is_terminal() -> bool:
    """Whether standard output is a terminal."""
    try:
        return sys.stdout.isatty()
    except (AttributeError, ValueError):
        return False


AS_JSON = "write the answer, or the refusal, as one line of JSON (docs/formats.md)"


def add_json(parser: argparse.ArgumentParser, what: str = AS_JSON) -> None:
    """Adds whether the answer is written as JSON. Every refusal is, then."""
    parser.add_argument("--json", action="store_true", help=what)


def add_program(parser: argparse.ArgumentParser) -> None:
    """Adds which program is called."""
    parser.add_argument("--program", metavar="SPIN", help="the program to call, in place of the one that is found")


def read_bytes(name: str) -> bytes:
    """The bytes of a file, or of standard input for `-`."""
    try:
        if name == "-":
            # (what is typed on a terminal is not written over)
            with still() if sys.stdin.isatty() else nullcontext():
                return sys.stdin.buffer.read()
        with open(name, "rb") as file:
            return file.read()
    except OSError as error:
        raise Stopped(f"{name} can't be read: {error.strerror or error}", READ_FAULT) from None


def read_text(name: str) -> str:
    """The text of a file, or of standard input for `-`."""
    try:
        return read_bytes(name).decode()
    except UnicodeDecodeError as error:
        raise Stopped(f"{name} is no text: byte {error.start} is not UTF-8") from None


def read_value(options: argparse.Namespace) -> Any:
    """The JSON value of the command's job."""
    data = read_bytes(options.job)
    fault = json_fault(data)
    if fault is not None:
        raise Stopped(f"{options.job} is not JSON: {fault}")
    return json.loads(data)


def read_job(options: argparse.Namespace) -> Job:
    """The command's job as an object."""
    value = read_value(options)
    try:
        return Job.from_json(value, lenient=options.lenient)
    except UnknownMembers:
        raise
    except ValueError as error:
        raise Stopped(f"{options.job}: {error}") from None


def write(data: bytes, out: Optional[str]) -> None:
    """Writes bytes to a file, or to standard output where none is named."""
    try:
        with still():
            if out is None:
                sys.stdout.flush()
                sys.stdout.buffer.write(data)
                sys.stdout.buffer.flush()
            else:
                with open(out, "wb") as file:
                    file.write(data)
    except OSError as error:
        if out is None:
            # (what is left in the stream is not tried again when Python ends)
            os.dup2(os.open(os.devnull, os.O_WRONLY), sys.stdout.fileno())
        raise Stopped(f"{out or 'standard output'} can't be written: {error.strerror or error}", WRITE_FAULT) from None
