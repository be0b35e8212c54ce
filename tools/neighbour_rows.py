"""Tables by another rule than ordered covering: rows are joined two by two where they are neighbours (after Quine and McCluskey).

Each key of each net that comes through a chip is a row of its own to begin with. Two rows of one route whose blocks differ in one bit are
joined to a block without that bit, by the bits in any order, until no two can be; keys of no net that comes there may be joined with any.
Then as few of these blocks as a greedy choice takes are kept, in any order. So a row may take parts of several nets, and a net may need
several rows.
"""
import model


def of_tables(dice, part, spots, nets, tables):
    """Other tables that send each key of each net as these do. `dice` is a random.Random, `part` the machine of a job, `spots` the places
    of vertices by name; nets have a source and blocks."""
    machine, wanted, ports = model.Machine(part), {}, {}
    for net in nets:
        for key in keys_of(net.blocks):
            follow(machine, spots[net.source][:2], tables, key, wanted)
    return {chip: joined(dice, routes) for chip, routes in wanted.items()}


def keys_of(blocks):
    found = []
    for key, mask in blocks:
        keys = [key]
        for bit in range(32):
            if not mask >> bit & 1:
                keys += [it | 1 << bit for it in keys]
        found += keys
    return found


def follow(machine, root, tables, key, wanted):
    """Notes of each chip that a key comes to the route that it gets there, where a row says so."""
    ahead = [(root, model.LOCAL)]
    while ahead:
        chip, port = ahead.pop()
        route = next((route for row, mask, route in tables.get(chip, ()) if key & mask == row), None)
        if route is None:
            links = [] if port == model.LOCAL else [model.opposite(port)]
        else:
            wanted.setdefault(chip, {})[key] = route
            links = [link for link in range(6) if route >> link & 1]
        ahead += [(machine.far(chip, link), model.opposite(link)) for link in links if machine.is_live_link(chip, link)]


def joined(dice, routes):
    """Rows in any order that send each key by its route."""
    rows = []
    for route in sorted(set(routes.values())):
        keys = {key for key, it in routes.items() if it == route}
        left = set(keys)
        blocks = primes(keys)
        while left:
            best = max(dice.sample(blocks, len(blocks)), key=lambda block: len(left & set(keys_of([block]))))
            rows.append((*best, route))
            left -= set(keys_of([best]))
    dice.shuffle(rows)
    return rows


def primes(keys):
    """The blocks of these keys that are in no larger one."""
    level, found = {(key, model.ALL_ONES) for key in keys}, []
    while level:
        larger, used = set(), set()
        for key, mask in level:
            for bit in (1 << i for i in range(32)):
                other = (key ^ bit, mask)
                if mask & bit and other in level:
                    used.add((key, mask))
                    larger.add((key & ~bit, mask & ~bit))
        found += sorted(level - used)
        level = larger
    return found
