"""Loads the tables of a job by Rig, and verifies what it reads back.

    python3 load_by_rig.py JOB [--app N] [--show]           dry: the calls are recorded
    python3 load_by_rig.py JOB --app N --board HOST         on a board

The calls of `rig.machine_control.MachineController`, as its documentation has them:

    load_routing_tables(routing_tables, app_id)     {(x, y): [RoutingTableEntry(route, key, mask), ...]}, route a set of Routes
    get_routing_table_entries(x, y)                 for each of the 1,024 entries None, or (RoutingTableEntry, app_id, core)

Rig allocates the entries of a chip by the system software's own call, and its error SpiNNakerRouterError says where there is no room.
"""
import sys
from typing import NamedTuple

from on_board import Recorder, compiled, links_and_cores, options_of, told

ENTRIES = 1024


class Entry(NamedTuple):
    """An entry with the attributes of RoutingTableEntry. The numbers of Rig's Routes are those of the bits of a route: 0 to 5 for the
    links from east on, and 6 to 23 for the cores."""

    route: set
    key: int
    mask: int


class DryController(Recorder):
    """A controller without a board."""

    def __init__(self, is_shown=False):
        super().__init__(is_shown)
        self.routers = {}

    def load_routing_tables(self, routing_tables, app_id):
        self.record("load_routing_tables", f"{{{len(routing_tables)} chips, {sum(map(len, routing_tables.values()))} entries}}", app_id)
        for chip, entries in routing_tables.items():
            self.routers.setdefault(chip, [None]).extend((it, app_id, 0) for it in entries)

    def get_routing_table_entries(self, x, y):
        self.record("get_routing_table_entries", x, y)
        there = self.routers.get((x, y), [None])
        return there + [None] * (ENTRIES - len(there))


def entry_of(row, made=Entry, routes=int):
    """A row as an entry."""
    links, cores = links_and_cores(row.route)
    return made({routes(bit) for bit in (*links, *(6 + core for core in cores))}, row.key, row.mask)


def row_of(entry):
    """An entry as key, mask and route."""
    return entry.key, entry.mask, sum(1 << int(it) for it in entry.route)


def on_board(host):
    """A controller of a board, and the classes of its entries."""
    from rig.machine_control import MachineController
    from rig.routing_table import Routes, RoutingTableEntry

    return MachineController(host), RoutingTableEntry, Routes


def load(controller, tables, app_id, made=Entry, routes=int):
    """Loads tables, each chip's in its order."""
    controller.load_routing_tables({chip: [entry_of(row, made, routes) for row in rows] for chip, rows in sorted(tables.items())}, app_id)


def read_back(controller, chips, app_id):
    """The rows that the routers of these chips have of an application."""
    found = {}
    for x, y in sorted(chips):
        there = (it for it in controller.get_routing_table_entries(x, y) if it is not None)
        found[x, y] = [row_of(entry) for entry, number, _ in there if number == app_id]
    return found


def main(words):
    options = options_of(words, "Loads the tables of a job by Rig.")
    network = compiled(options.job)
    controller, *made = on_board(options.board) if options.board else (DryController(options.show), Entry, int)
    load(controller, network.tables, options.app, *made)
    return told(network, read_back(controller, network.tables, options.app))


if __name__ == "__main__":
    sys.exit(main(sys.argv[1:]))
