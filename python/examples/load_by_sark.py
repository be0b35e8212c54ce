"""Writes the tables of a job as C for a program of SARK, which loads those of its own chip; or loads them dry, and verifies them.

    python3 load_by_sark.py JOB [--show]            dry: the calls are recorded
    python3 load_by_sark.py JOB --board tables.c    writes C with a function load_tables(), for one core of each chip to call

The calls of SARK, as its documentation has them:

    uint rtr_alloc (uint size)                                      the first of so many free entries; 0 where there are none
    uint rtr_mc_set (uint entry, uint key, uint mask, uint route)   1 where it was set
    uint sark_chip_id (void)                                        (x << 8) + y

Entries belong to the application whose core allocates them, and are free again when it is stopped. Reading back from a host is by one
of the other two tools.
"""
import sys

from on_board import MOST_ROWS, Recorder, compiled, options_of, told

HEAD = """/* The tables of {job}, made by load_by_sark.py: call load_tables () from one core of each chip. */
#include <sark.h>

typedef struct {{ uint key, mask, route; }} row_t;

/* Sets the rows one behind the other, since a router takes the first that matches. */
static uint load_rows (const row_t *rows, uint count)
{{
  uint i, entry = rtr_alloc (count);

  if (entry == 0)
    return 0;
  for (i = 0; i < count; i++)
    if (!rtr_mc_set (entry + i, rows[i].key, rows[i].mask, rows[i].route))
      return 0;
  return 1;
}}
"""


class DryRouter(Recorder):
    """The router of a chip without a board."""

    def __init__(self, chip, is_shown=False):
        super().__init__(is_shown)
        self.chip, self.next, self.entries = chip, 1, {}

    def rtr_alloc(self, size):
        self.record("rtr_alloc", size)
        if self.next + size > MOST_ROWS + 1:
            return 0
        self.next += size
        return self.next - size

    def rtr_mc_set(self, entry, key, mask, route):
        self.record("rtr_mc_set", entry, f"0x{key:08x}", f"0x{mask:08x}", f"0x{route:06x}")
        self.entries[entry] = key, mask, route
        return 1


def load(router, rows):
    """Loads the rows of a chip, as the C does. It says whether there was room."""
    entry = router.rtr_alloc(len(rows))
    return entry != 0 and all(router.rtr_mc_set(entry + i, row.key, row.mask, row.route) for i, row in enumerate(rows))


def read_back(routers):
    """The rows that routers have, in the order in which they look."""
    return {router.chip: [row for _, row in sorted(router.entries.items())] for router in routers}


def c_of(job, tables):
    """The C of tables."""
    # (a file's name may end a comment, or have bytes that are no text)
    yield HEAD.format(job=ascii(job.replace("*/", "* /")))
    for (x, y), rows in sorted(tables.items()):
        yield f"static const row_t rows_{x}_{y}[] = {{"
        yield from (f"  {{0x{row.key:08x}, 0x{row.mask:08x}, 0x{row.route:06x}}}," for row in rows)
        yield "};"
    yield "\n/* Loads the rows of this chip: 1 where all were set, or there are none. */\nuint load_tables (void)\n{\n  switch (sark_chip_id ()) {"
    yield from (f"  case 0x{x << 8 | y:04x}: return load_rows (rows_{x}_{y}, {len(rows)});" for (x, y), rows in sorted(tables.items()))
    yield "  default: return 1;\n  }\n}"


def main(words):
    options = options_of(words, "Writes the tables of a job as C for SARK.", "FILE")
    network = compiled(options.job)
    if options.board:
        with open(options.board, "w", encoding="utf-8") as out:
            out.writelines(f"{line}\n" for line in c_of(options.job, network.tables))
        return 0
    routers = [DryRouter(chip, options.show) for chip in sorted(network.tables)]
    for router in routers:
        load(router, network.tables[router.chip])
    return told(network, read_back(routers))


if __name__ == "__main__":
    sys.exit(main(sys.argv[1:]))
