"""Small jobs drawn at random, with dead parts, devices, fixed keys, and rows that are joined. A seed gives the same job each time."""
import copy
import random


def drawn_job(seed, most_keys=4, queue=16, packets=12):
    """A job as a JSON value. The program may refuse it."""
    draw = random.Random(seed)
    width, height = draw.randint(1, 5), draw.randint(1, 5)
    chips = [(x, y) for x in range(width) for y in range(height)]
    machine = {"width": width, "height": height, "wrap": draw.random() < 0.4}
    machine["dead_chips"] = [list(it) for it in draw.sample(chips, draw.randint(0, len(chips) // 6))]
    machine["dead_links"] = [[*draw.choice(chips), draw.randrange(6)] for _ in range(draw.randint(0, 4))]
    machine["dead_cores"] = [[*draw.choice(chips), draw.randrange(18)] for _ in range(draw.randint(0, 3))]
    live = [it for it in chips if list(it) not in machine["dead_chips"]]
    vertices = [{"name": f"v{i}"} for i in range(draw.randint(2, 10))]
    for vertex in vertices:
        if draw.random() < 0.7:
            vertex["at"] = list(draw.choice(live))
    links = [link for link in machine["dead_links"] if tuple(link[:2]) in live][:1] if draw.random() < 0.5 else []
    devices = [{"name": f"d{i}", "device": link} for i, link in enumerate(links)]
    names = [it["name"] for it in vertices + devices]
    nets = []
    for i in range(draw.randint(1, 8)):
        targets = draw.sample(names, draw.randint(1, min(4, len(names))))
        nets.append({"name": f"n{i}", "source": draw.choice(vertices)["name"], "targets": targets, "keys": draw.randint(1, most_keys)})
    sent = [draw.choice(nets) for _ in range(packets)]
    run = {"queue": queue, "patience": 1, "target": draw.choice((0, 0, 1024))}
    run["packets"] = [{"net": net["name"], "index": draw.randrange(net["keys"])} for net in sent]
    return {"version": 3, "machine": machine, "graph": {"vertices": vertices + devices, "nets": nets}, "run": run}


def drawn_events(job, tables, seed, count):
    """Events for a job, most of them at the outputs that its tables name, so that some move."""
    draw = random.Random(seed)
    vertices = [it["name"] for it in job["graph"]["vertices"]]
    chips = sorted(tables) or [(0, 0)]
    outs = ["E", "NE", "N", "W", "SW", "S", *[f"c{core}" for core in range(18)]]
    routes = {chip: 0 for chip in chips}
    for chip, table in tables.items():
        for row in table.rows:
            routes[chip] |= row.route
    named = {chip: [out for bit, out in enumerate(outs) if route >> bit & 1] or outs for chip, route in routes.items()}
    events = []
    for _ in range(count):
        kind = draw.choice(("inject", "take", "take", "send", "send", "send", "send", "collect", "collect", "dump"))
        chip = draw.choice(chips)
        if kind in ("inject", "collect"):
            events.append([kind, draw.choice(vertices)])
        elif kind == "take":
            events.append([kind, *chip, draw.choice(("E", "NE", "N", "W", "SW", "S", "L", "L", "L"))])
        else:
            events.append([kind, *chip, draw.choice(outs if draw.random() < 0.1 else named[chip])])
    return events


ODD = (None, True, -1, 0, 1.5, 70, 2**32, 2**64, "", "zoe", [], [0], [0, 0], [9, 9, 9], {}, {"name": "v0"}, 1e300)


def spoiled_job(job, seed):
    """The job with one to three parts replaced by something else, or left out."""
    draw = random.Random(seed)
    spoiled = copy.deepcopy(job)
    for _ in range(draw.randint(1, 3)):
        part = spoiled
        while True:
            names = sorted(part) if isinstance(part, dict) else range(len(part))
            name = draw.choice(list(names))
            if isinstance(part[name], (dict, list)) and part[name] and draw.random() < 0.8:
                part = part[name]
                continue
            if isinstance(part, dict) and draw.random() < 0.3:
                del part[name]
            else:
                part[name] = copy.deepcopy(draw.choice(ODD))
            break
        if not spoiled:
            break
    return spoiled
