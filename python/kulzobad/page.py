"""A page to look at a job: one HTML file of its own, that opens in a browser and fetches nothing.

    kulzobad page JOB.json -o page.html
    kulzobad page NETWORK.json --tables rows.csv -o page.html

All that a job says is in the page as JSON, and comes into it as text. The page's content security policy lets one script run and one
style hold, both by their hashes, and nothing be fetched.
"""
from __future__ import annotations

import argparse
import base64
import gc
import hashlib
import html
import json
import os
import re
from contextlib import contextmanager
from dataclasses import replace
from pathlib import Path
from typing import Any, Dict, Iterator, List, Mapping, Optional, Sequence, Union

from .command import Stopped, add_job, command, read_bytes, write
from .formats import Network, rows_by_chip
from .jobs import Job
from .kinds import one
from .kinds import text as text_of
from .members import refuse, slips_of
from .page_data import page_data, value_of, verified_data
from .verify_command import network_in, tables_in

MORE = (
    "The page opens in a browser: the mesh of chips, and answers to what one asks of nets, chips and keys. It is one file, and fetches\n"
    "nothing. Packets of the job are run, and its events traced. A job that is refused has a page that shows why and where.\n"
)

FILES = Path(__file__).resolve().parent
# The parts of the page's script, which is one function.
SCRIPTS = ("page_job.js", "page_mesh.js", "page_answers.js", "page_trace.js", "page_all.js")


def page(
    job: Union[Job, bytes], title: str = "job", word: str = "run", program: Optional[str] = None, queues: Optional[Sequence[int]] = None
) -> str:
    """The page of a job, or of a job's text, as HTML. The packets are run by `word`, `run` or `reinject`, where there are some, and the
    events traced where there are some. A run stands beside those with queues of the lengths `queues`; where none are named, 4 and 1,
    where these are shorter than the job's own. A job that is refused has a page too, which tells why."""
    text = job if isinstance(job, bytes) else one("page: job", job, Job).text().encode()
    return page_of(page_data(text, word, program, queues), title)


def verified_page(network: Network, title: str = "network", program: Optional[str] = None) -> str:
    """The page of a network and its tables, whoever made them, with what `verify` says of them, as HTML. ValueError where places, nets
    or rows are none on the machine."""
    known = replace(one("verified_page: network", network, Network), tables={**rows_by_chip(network.tables)})
    return page_of(verified_data(known, program), title)


def page_of(data: Mapping[str, Any], title: str) -> str:
    """The page that shows these data."""
    style = (FILES / "page.css").read_text(encoding="utf-8")
    script = "(() => {\n" + "\n".join((FILES / name).read_text(encoding="utf-8") for name in SCRIPTS) + "})();\n"
    policy = f"default-src 'none'; script-src '{hash_of(script)}'; style-src '{hash_of(style)}'; base-uri 'none'; form-action 'none'"
    # (a file's name may have bytes that are no text)
    shown = text_of("page: title", title).encode("utf-8", "backslashreplace").decode()
    parts: Dict[str, str] = {"policy": policy, "title": html.escape(shown), "style": style, "script": script, "data": in_page(data)}
    return re.sub(r"\{\{(\w+)\}\}", lambda found: parts[found[1]], (FILES / "page.html").read_text(encoding="utf-8"))


def hash_of(text: str) -> str:
    """The hash by which a content security policy names a script or a style."""
    return "sha256-" + base64.b64encode(hashlib.sha256(text.encode()).digest()).decode()


def in_page(data: Mapping[str, Any]) -> str:
    """Data as JSON in ASCII, without a character that could end the element in which it stands."""
    text = json.dumps(data, separators=(",", ":"))
    return text.replace("<", "\\u003c").replace(">", "\\u003e").replace("&", "\\u0026")


def add_command(commands: Any) -> None:
    """Adds the command `page`."""
    example = "kulzobad page job.json -o job.html\nkulzobad page network.json --tables rows.csv -o network.html"
    parser = command(commands, "page", "a page to look at a job, as one HTML file", example, run, MORE)
    add_job(parser, "the job, or of a network as verify takes it")
    parser.add_argument("--reinject", action="store_true", help="put back the copies that are dropped, in place of a plain run")
    what = "run the packets with queues of these lengths, too, as in 8,2,1; 4 and 1, if none are named; - is no other run"
    parser.add_argument("--queues", metavar="N,N", type=lengths, help=what)
    parser.add_argument("--tables", metavar="TABLES", help="show these tables, as verify takes them, and what verify says of them")
    parser.add_argument("--title", help="what stands at the head of the page, in place of the file's name")


@contextmanager
def without_collecting() -> Iterator[None]:
    """Nothing looks for cycles meanwhile: ways over a large machine are many small objects, and all of them stay."""
    was_on = gc.isenabled()
    gc.disable()
    try:
        yield
    finally:
        if was_on:
            gc.enable()


def lengths(text: str) -> List[int]:
    """The lengths of queues that a word names."""
    if text == "-":
        return []
    if not re.fullmatch(r"[1-9]\d{0,4}(,[1-9]\d{0,4}){0,3}", text) or any(int(it) > 65536 for it in text.split(",")):
        raise argparse.ArgumentTypeError(f"{text!r} is no list of one to four numbers from 1 to 65536")
    return [int(it) for it in text.split(",")]


def run(options: argparse.Namespace) -> int:
    """Writes the page of the command's job, or of its network and tables."""
    title = options.title or ("job" if options.job == "-" else os.path.basename(options.job))
    with without_collecting():
        made = page_of_tables(options, title) if options.tables else page_of_job(options, title)
    write(made.encode(), options.out)
    return 0


def page_of_job(options: argparse.Namespace, title: str) -> str:
    """The page of the command's job. Members that its version does not know are refused where it is not told to be lenient."""
    text = read_bytes(options.job)
    if not options.lenient:
        refuse(slips_of(value_of(text)))
    return page(text, title, "reinject" if options.reinject else "run", options.program, options.queues)


def page_of_tables(options: argparse.Namespace, title: str) -> str:
    """The page of the command's network and tables."""
    options.network = options.job
    network = network_in(options)
    try:
        network.tables = {**rows_by_chip(tables_in(options.tables))}
        return verified_page(network, title, options.program)
    except (TypeError, ValueError) as error:
        raise Stopped(str(error)) from None
