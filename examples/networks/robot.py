"""A robot with an eye and a motor, on a board of 48 chips.

    PYTHONPATH=python python3 examples/networks/robot.py > robot.json
    PYTHONPATH=python python3 examples/networks/robot.py network > network.json

A retina of 128 by 128 pixels hangs on link SW of chip (0, 0), and sends a packet for each pixel that changes, with the key
`1 << 28 | y << 7 | x`. Two filters look at each tile of 32 by 32 pixels. The keys of a tile have the high bits of y and of x in common, so
their mask is `fffff060`, with zeros in its midst. The filters tell the core `control`, which drives a motor on link NE of chip (7, 7).

A device of a job sends no packets. So in the job a core of the retina's chip stands in its place, which sends what the retina would.
The network, which `verify` takes, has the retina where it hangs: the tables that were made of the job are verified for its packets.
"""
import sys

from kulzobad import KeyedNet, Machine, Packet
from kulzobad.formats import Network, write_network

PIXELS, TILE = 128, 32
TILES = PIXELS // TILE
RETINA, FILTERS, CONTROL = 1 << 28, 2 << 28, 3 << 28
STAND_IN, HANGS = (0, 0, 1), (0, 0, "SW")


def block_of(tile):
    """The keys of a tile's pixels: the high bits of y and x are given, the low ones open."""
    x, y = TILE * (tile % TILES), TILE * (tile // TILES)
    low = TILE - 1
    return RETINA | y << 7 | x, 2**32 - 1 & ~(low << 7 | low)


def network(retina):
    """The network, with the retina at this place."""
    corners = [(x, y) for x in range(8) for y in range(8) if x - y > 4 or y - x > 3]
    places, nets = {"retina": retina, "control": (4, 4, 5), "motor": (7, 7, "NE")}, []
    for tile in range(TILES * TILES):
        filters = [f"{kind}_{tile}" for kind in ("left", "right")]
        places.update({name: (1 + tile % TILES, 1 + tile // TILES, core) for core, name in enumerate(filters, 1)})
        nets.append(KeyedNet(f"tile_{tile}", "retina", filters, [block_of(tile)]))
        for i, name in enumerate(filters):
            nets.append(KeyedNet(name, name, ["control"], [(FILTERS | (2 * tile + i) << 8, 0xFFFFFF00)]))
    nets.append(KeyedNet("speed", "control", ["motor"], [(CONTROL, 0xFFFFFF00)]))
    return Network(Machine(8, 8, dead_chips=corners), places, nets)


def job():
    """The job. The net of a tile becomes 32, one for each row of pixels, since the keys of a job's net follow each other."""
    made = network(STAND_IN).job(target=0)
    made.packets = [Packet("tile_5.3", 17), Packet("left_5", 200), Packet("speed", 40)]
    return made


if __name__ == "__main__":
    print(write_network(network(HANGS)) if "network" in sys.argv else job().text())
