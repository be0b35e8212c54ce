"""Loads the tables of a job by SpiNNMan, and verifies what it reads back.

    python3 load_by_spinnman.py JOB [--app N] [--show]          dry: the calls are recorded
    python3 load_by_spinnman.py JOB --app N --board HOST        on a board

The calls of `spinnman.transceiver.Transceiver`, as its documentation has them:

    load_multicast_routes(x, y, routes, app_id)     routes: objects of spinn_machine.MulticastRoutingEntry
    get_multicast_routes(x, y, app_id=None)         such objects, those of one application where it is named
    clear_multicast_routes(x, y)

How an entry and a transceiver are made has changed from release to release: see `entry_of` and `on_board`, and the documentation of yours.
"""
import sys
from dataclasses import dataclass, field

from on_board import Recorder, compiled, links_and_cores, options_of, told


@dataclass
class Entry:
    """An entry with the attributes of MulticastRoutingEntry."""

    routing_entry_key: int
    mask: int
    processor_ids: set = field(default_factory=set)
    link_ids: set = field(default_factory=set)
    defaultable: bool = False


class DryTransceiver(Recorder):
    """A transceiver without a board."""

    def __init__(self, is_shown=False):
        super().__init__(is_shown)
        self.routers = {}

    def clear_multicast_routes(self, x, y):
        self.record("clear_multicast_routes", x, y)
        self.routers.pop((x, y), None)

    def load_multicast_routes(self, x, y, routes, app_id):
        routes = list(routes)
        self.record("load_multicast_routes", x, y, f"{len(routes)} routes", app_id)
        self.routers.setdefault((x, y), []).extend((app_id, it) for it in routes)

    def get_multicast_routes(self, x, y, app_id=None):
        self.record("get_multicast_routes", x, y, app_id)
        return [it for number, it in self.routers.get((x, y), []) if app_id in (None, number)]


def entry_of(row, made=Entry):
    """A row as an entry."""
    links, cores = links_and_cores(row.route)
    return made(row.key, row.mask, processor_ids=set(cores), link_ids=set(links), defaultable=False)


def row_of(entry):
    """An entry as key, mask and route. The key's attribute is `routing_entry_key`, or `key` in later releases."""
    key = entry.routing_entry_key if hasattr(entry, "routing_entry_key") else entry.key
    route = sum(1 << link for link in entry.link_ids) | sum(1 << (6 + core) for core in entry.processor_ids)
    return key, entry.mask, route


def on_board(host):
    """A transceiver of a board, and the class of its entries."""
    from spinn_machine import MulticastRoutingEntry
    from spinnman.transceiver import create_transceiver_from_hostname

    # (releases differ in what else is to be said here, as the version of the board)
    return create_transceiver_from_hostname(host), MulticastRoutingEntry


def load(transceiver, tables, app_id, made=Entry):
    """Loads tables. The entries of a chip come in one call, in their order: a router takes the first that matches."""
    for (x, y), rows in sorted(tables.items()):
        transceiver.load_multicast_routes(x, y, [entry_of(row, made) for row in rows], app_id)


def read_back(transceiver, chips, app_id):
    """The rows that the routers of these chips have of an application."""
    return {(x, y): [row_of(it) for it in transceiver.get_multicast_routes(x, y, app_id)] for x, y in sorted(chips)}


def main(words):
    options = options_of(words, "Loads the tables of a job by SpiNNMan.")
    network = compiled(options.job)
    transceiver, made = on_board(options.board) if options.board else (DryTransceiver(options.show), Entry)
    load(transceiver, network.tables, options.app, made)
    return told(network, read_back(transceiver, network.tables, options.app))


if __name__ == "__main__":
    sys.exit(main(sys.argv[1:]))
