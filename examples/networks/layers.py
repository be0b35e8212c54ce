"""A network of layers that looks at a picture of 64 by 64 pixels, as a job on a board of 48 chips.

    PYTHONPATH=python python3 examples/networks/layers.py > layers.json

- `pixels`: a neuron for each pixel.
- `edges0` to `edges3`: four features, each with a neuron for each pixel. A feature's neuron looks at the 3 by 3 pixels round its own.
- `mixed`: 512 neurons, each of which looks at all features.
- `classes`: 10 neurons, each of which looks at all of `mixed`.

A core has 64 neurons: of a picture a tile of 8 by 8 pixels. A spike's key is made of population and neuron: `population << 16 | neuron`,
where the neurons of a tile follow each other. So each core but that of `classes`, whose spikes nobody gets, has a net with 64 keys, and
knows them beforehand.
"""
from kulzobad import Job, Machine, Net, Packet, Vertex

TILES = 8
NEURONS = 64
FEATURES = 4
PIXELS, EDGES, MIXED, CLASSES = "pixels", [f"edges{i}" for i in range(FEATURES)], "mixed", "classes"
POPULATIONS = {name: number for number, name in enumerate([PIXELS, *EDGES, MIXED, CLASSES], 1)}
CORES = {PIXELS: TILES * TILES, **{name: TILES * TILES for name in EDGES}, MIXED: 8, CLASSES: 1}


def cores_of(population):
    return [f"{population}_{i}" for i in range(CORES[population])]


def tiles_round(tile):
    """The tile and those next to it, as far as the picture goes."""
    x, y = tile % TILES, tile // TILES
    near = [(x + a, y + b) for b in (-1, 0, 1) for a in (-1, 0, 1)]
    return [a + TILES * b for a, b in near if 0 <= a < TILES and 0 <= b < TILES]


def targets_of(population, core):
    """The cores that a core's spikes are for."""
    if population == PIXELS:
        return [f"{name}_{tile}" for name in EDGES for tile in tiles_round(core)]
    if population in EDGES:
        return cores_of(MIXED)
    return cores_of(CLASSES)


def net_of(population, core):
    key = POPULATIONS[population] << 16 | core * NEURONS
    return Net(f"{population}_{core}", f"{population}_{core}", targets_of(population, core), NEURONS, (key, 2**32 - NEURONS))


def job():
    corners = [(x, y) for x in range(8) for y in range(8) if x - y > 4 or y - x > 3]
    # (pixels and features of a tile stand near each other)
    names = [f"{name}_{tile}" for tile in range(TILES * TILES) for name in (PIXELS, *EDGES)]
    vertices = [Vertex(name) for name in [*names, *cores_of(MIXED), *cores_of(CLASSES)]]
    nets = [net_of(name, core) for name in (PIXELS, *EDGES, MIXED) for core in range(CORES[name])]
    packets = [Packet(f"{PIXELS}_{tile}", index) for tile in range(0, 64, 9) for index in (0, 27)]
    return Job(Machine(8, 8, dead_chips=corners), vertices, nets, packets, target=0)


if __name__ == "__main__":
    print(job().text())
