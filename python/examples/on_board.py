"""What the loaders of this folder share: a job is compiled, its tables are loaded, and what was read back is verified.

    rows = read back by the tool, a list of (key, mask, route) for each chip
    sys.exit(told(network, rows))

A loader takes a job and the number of an application. Without --board it runs dry: a transport with the tool's own calls records them,
and keeps what was loaded, as a board would.
"""
import argparse
import sys

from kulzobad import Job, Refused, verify
from kulzobad.formats import network_of_job

# The system software gives entries from 1 on: 0 says that none is free.
MOST_ROWS = 1023
# Numbers below are the system's.
APPLICATIONS = range(16, 256)
# As `kulzobad verify` ends where tables are not right, and as it ends for a bad job.
NOT_RIGHT, BAD_JOB = 20, 4


def application(text):
    """The number of an application."""
    if not text.isdigit() or int(text) not in APPLICATIONS:
        raise argparse.ArgumentTypeError(f"{text!r} is no number from {APPLICATIONS[0]} to {APPLICATIONS[-1]}")
    return int(text)


def options_of(words, what, board="HOST"):
    """The options of a loader."""
    parser = argparse.ArgumentParser(description=what)
    parser.add_argument("job", metavar="JOB", help="the file of the job")
    parser.add_argument("--app", metavar="N", type=application, default=30, help="the application's number; 30, if none is given")
    parser.add_argument("--board", metavar=board, help="load it there; without this all calls are recorded, and no board is needed")
    parser.add_argument("--show", action="store_true", help="write each call that is made of a dry board")
    return parser.parse_args(words)


def compiled(file):
    """The network of a job: its machine, places, nets with their keys, and tables. It ends where there is none, or where a table has no
    room in a router beside the system's own entry."""
    try:
        with open(file, encoding="utf-8") as text:
            network = network_of_job(Job.from_text(text.read()))
    except Refused as refused:
        print(refused.line, file=sys.stderr)
        sys.exit(refused.status)
    except (OSError, ValueError) as error:
        print(f"{file}: {error}", file=sys.stderr)
        sys.exit(BAD_JOB)
    for (x, y), rows in network.tables.items():
        if len(rows) > MOST_ROWS:
            print(f"chip ({x}, {y}) has {len(rows)} rows, and {MOST_ROWS} can be loaded: give the job a smaller run.target", file=sys.stderr)
            sys.exit(BAD_JOB)
    return network


def told(network, rows):
    """Says what was read back, and whether it brings each key of each net to just the net's targets. It gives the status."""
    count = sum(map(len, rows.values()))
    print(f"read back: {count} {'row' if count == 1 else 'rows'} of {len(rows)} {'chip' if len(rows) == 1 else 'chips'}")
    verdict = verify(network.machine, network.places, network.nets, rows)
    print("right" if verdict else verdict)
    return 0 if verdict else NOT_RIGHT


def links_and_cores(route):
    """The numbers of the links and of the cores of a route."""
    return [bit for bit in range(6) if route >> bit & 1], [bit - 6 for bit in range(6, 24) if route >> bit & 1]


class Recorder:
    """Keeps each call with its arguments, and writes it where that is asked for."""

    def __init__(self, is_shown=False):
        self.calls, self.is_shown = [], is_shown

    def record(self, name, *arguments):
        self.calls.append((name, *arguments))
        if self.is_shown:
            print(f"{name}({', '.join(map(str, arguments))})")
