"""The command line: `kulzobad COMMAND ..`, or `python3 -m kulzobad COMMAND ..`."""
from __future__ import annotations

import argparse
import json
import sys
from typing import Any, Dict, List, NoReturn, Optional, Sequence

from . import draw_command, explain_command, help_command, linting, minimise_command, page, tree_command, verify_command, words
from .command import BAD_JOB, KINDS, NO_PROGRAM, NOT_WHOLE, STATUSES, STOPPED_BY_KEYS, USAGE, WRITE_FAULT
from .command import Stopped, add_flags, status_of, write
from .explaining import lines_of
from .json_forms import refused_in_json, stopped_in_json
from .kinds import BrokenAnswer
from .members import UnknownMembers
from .program import NoProgram, Refused
from .progress import showing, speak
from .versions import version_text

# The modules that have commands, in the order of the help. Each has `add_command(commands)`.
COMMANDS = [
    words,
    linting,
    explain_command,
    tree_command,
    draw_command,
    verify_command,
    minimise_command,
    page,
    help_command,
]

# How many members that are none are told at most.
MOST_SLIPS = 20

DESCRIPTION = """Jobs for SpiNNaker's multicast packets, from files: compiled, run, checked, looked over and drawn.
Each answer is that of the program; `kulzobad help COMMAND` has an example."""
EPILOG = """example:
  kulzobad lint job.json
  kulzobad run job.json -o report.txt

The program is that of --program, of the variable KULZOBAD_SPIN, the one inside the package, or the launcher of its clone.

statuses:
""" + "\n".join(f"  {status:<3}  {told}" for status, _, told in STATUSES)


class Version(argparse.Action):
    """Writes which package, program and toolchain these are, and ends."""

    def __call__(self, parser: argparse.ArgumentParser, namespace: object, values: object, option: Optional[str] = None) -> NoReturn:
        write(version_text().encode(), None)
        parser.exit(0)


class Parser(argparse.ArgumentParser):
    """A parser that says with the usage what is wrong with words."""

    def error(self, message: str) -> NoReturn:
        raise WrongWords(self.format_usage().rstrip("\n"), f"{self.prog}: {message}")


class WrongWords(Stopped):
    """The words are no command. What is told has the usage before it."""

    def __init__(self, usage: str, line: str) -> None:
        super().__init__(line, USAGE, usage.split("\n"))

    def lines(self) -> List[str]:
        return [*self.more, str(self)]


def parser_of(modules: Sequence[object]) -> argparse.ArgumentParser:
    """The parser of the commands that these modules have."""
    parser = Parser(prog="kulzobad", description=DESCRIPTION, epilog=EPILOG, formatter_class=argparse.RawDescriptionHelpFormatter)
    parser.add_argument("--version", action=Version, nargs=0, help="which package, program and toolchain these are")
    add_flags(parser)
    commands = parser.add_subparsers(metavar="COMMAND", required=True, parser_class=Parser)
    for module in modules:
        module.add_command(commands)  # type: ignore[attr-defined]
    return parser


def main(arguments: Optional[List[str]] = None) -> int:
    """Does what the words say, and gives the status."""
    given = sys.argv[1:] if arguments is None else arguments
    options = argparse.Namespace(json=any(len(it) > 2 and "--json".startswith(it) for it in given))
    try:
        parser_of(COMMANDS).parse_args(given, options)
        speak(getattr(options, "quiet", False), getattr(options, "verbose", False))
        with showing(options.command):
            status: int = options.run(options)
        return status
    except KeyboardInterrupt:
        return STOPPED_BY_KEYS
    except Refused as refused:
        lines = lines_of(refused, getattr(options, "program", None))
        return told_refusal(refused, lines, options)
    except NoProgram as missing:
        return told(Stopped(str(missing), NO_PROGRAM), options)
    except Stopped as stopped:
        return told(stopped, options)
    except BrokenAnswer as broken:
        return told(Stopped(f"what the program wrote is not whole: {broken}", NOT_WHOLE), options)
    except UnknownMembers as unknown:
        return told(stopped_by(unknown), options, fault="unknown member", path=unknown.slips[0].path)
    finally:
        speak()


def stopped_by(unknown: UnknownMembers) -> Stopped:
    """What is told of members that are none."""
    first, *others = [str(slip) for slip in unknown.slips[:MOST_SLIPS]]
    last = "nothing was run; --lenient ignores such members, as the program does"
    return Stopped(first, BAD_JOB, [*others, last])


def told(stopped: Stopped, options: argparse.Namespace, **named: Any) -> int:
    """Tells why a command ends, on standard error, or as the answer where that is JSON. It gives the status."""
    lines = stopped.lines()
    if options.json:
        answered(stopped_in_json(stopped.status, KINDS.get(stopped.status, "stopped"), str(stopped), stopped.more, **named), options)
    else:
        is_short = getattr(options, "quiet", False) and not isinstance(stopped, WrongWords)
        print(*(lines[:1] if is_short else lines), sep="\n", file=sys.stderr)
    return stopped.status


def told_refusal(refused: Refused, lines: List[str], options: argparse.Namespace) -> int:
    """Tells a refusal with what stands behind it: on standard error, or as the answer where that is JSON. It gives the status."""
    status = status_of(refused)
    if options.json:
        return answered(refused_in_json(refused, status, lines), options) or status
    behind = [] if getattr(options, "quiet", False) else [f"  {line}" for line in lines]
    print(refused.line or refused.kind, *behind, sep="\n", file=sys.stderr)
    return status


def answered(value: Dict[str, Any], options: argparse.Namespace) -> int:
    """Writes a refusal as the answer: where that was to go, and on standard output where it can't go there. It gives 0, or the status
    of what went wrong."""
    data, out = (json.dumps(value) + "\n").encode(), getattr(options, "out", None)
    try:
        write(data, None if value["refused"]["status"] == WRITE_FAULT else out)
        return 0
    except Stopped as stopped:
        print(f"kulzobad: {stopped}", file=sys.stderr)
        return stopped.status


if __name__ == "__main__":
    sys.exit(main())
