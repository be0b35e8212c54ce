"""Times what routers' tables cost: covering, and lookup, images and loading.

    python3 bench/tables.py cover [--program PROGRAM] [--beside OTHER] [--runs RUNS] [--rows ROWS ..] [--kind KIND ..]
    python3 bench/tables.py [find] [image] [rows]

`cover` times the whole command `tables` on jobs whose tables are long, with target 0: of PROGRAM (out/spin, where none is named), and of
OTHER in turn with it, which is what PROGRAM is compared with. Each kind is made with 1,024, 2,048 and 4,096 nets, so that growth is
seen, or with as many as are given. A job of one chip has a row for each net; its routes are sets of the chip's vertices.

    runs         one chip, 40 routes, keys in runs of sixteen of one route, one key in twelve astray
    random       one chip, 40 routes at random (4,096 rows end with `table long`)
    two          one chip, 2 routes at random: the longest rows of one route, and most pairs
    sizes        one chip, 40 routes in runs, a quarter of the nets each of 1, 4, 16 and 64 keys, one quarter after the other: rows
                 of several generalities
    torus        64 chips closed to a torus, nets of 1 to 16 targets and 1 to 8 keys: rows and routes on each chip
    mixed        the same, the quarters mixed
    three, ten   one chip, 3 and 10 routes at random
    many         one chip, 1,000 routes at random
    scattered    one chip, 40 routes, each net with a fixed key anywhere
    fixed        one chip, 40 routes, fixed blocks of 1 to 256 keys anywhere
    board        48 chips, nets of 1 to 16 targets and 1 to 8 keys
    wide         256 chips closed to a torus, nets of 1 to 16 targets near their source, one key each

The other words time calls. They are made by a small program that stands below as text. It is compiled as the launcher's program is,
without a proof, from a copy of the repository that has it as one crate more; the crates that it calls are those that `rt ci` proves.
`rows` covers rows of single keys without a command around it.
"""
import argparse
import os
import random
import resource
import subprocess
import sys
import tempfile

ROOT = os.path.dirname(os.path.dirname(os.path.realpath(__file__)))
sys.path.insert(0, f"{ROOT}/tools")
import compile as launcher  # noqa: E402
from in_turn import add_programs, programs_of, show as show_programs  # noqa: E402

LINE = "bench_tables: default_routes cover_merge table_load tcam_find tern_word range_store spin_base\n"

PROGRAM = r"""
#![tactic(auto)]

use cover_merge::cover;
use spin_base::{Chip, Entry, Memory, Port, Route, Seq};
use std::alloc::Global;
use std::env;
use std::process::ExitCode;
use table_load::{ChipTable, Image, decode, encode, load};
use tcam_find::{Room, RoomyTcam, Tcam};
use tern_word::{Alias, Row, Table, block_of};

fn next(seed: u32) -> u32 {
    seed.wrapping_mul(1664525).wrapping_add(1013904223)
}

fn entry(key: u32) -> Entry {
    Entry { key, mask: 0xffff_ffff, route: Route { bits: 1 + key % 100 } }
}

// 1,024 entries, and one key after the other.
fn lookups(alloc: Global, count: u32, slow: bool) -> Result<u32, Memory> {
    let mut roomy = RoomyTcam::new(Tcam::empty(alloc), Room::new(alloc, 1024)?);
    for place in 0..1024 {
        roomy.set(place, entry(place));
    }
    let memory = roomy.into_memory();
    let mut sum: u32 = 0;
    let mut seed = 1;
    for _ in 0..count {
        seed = next(seed);
        let key = (seed >> 8) % 1024;
        let bits = if slow { scan(&memory, key) } else { memory.find(key, Port::Local).bits };
        sum = sum.wrapping_add(bits);
    }
    Ok(sum)
}

// The same by one look at each entry in turn.
fn scan(memory: &Tcam, key: u32) -> u32 {
    for place in 0..1024 {
        let e = memory.entry(place);
        if key & e.mask == e.key {
            return e.route.bits;
        }
    }
    0
}

// A grid of 64 by 64 chips with 1,024 rows each.
fn image(alloc: Global) -> Result<Image, Memory> {
    let mut chips = Vec::with_capacity(alloc, 4096)?;
    for x in 0..64u8 {
        for y in 0..64u8 {
            let mut rows = Vec::with_capacity(alloc, 1024)?;
            for key in 0..1024 {
                rows.push(entry(key))?;
            }
            chips.push(ChipTable { chip: Chip { x, y }, entries: Seq::from_vec(rows) })?;
        }
    }
    Ok(Image { width: 64, height: 64, wrap: false, chips: Seq::from_vec(chips) })
}

// How many bytes, tables or memories it ends with.
fn images(alloc: Global, steps: u32) -> Result<u32, Memory> {
    let first = image(alloc)?;
    if steps == 0 {
        return Ok(first.chips.len() as u32);
    }
    if steps == 1 {
        return Ok(load(alloc, &first)?.len() as u32);
    }
    let bytes = encode(alloc, &first)?;
    if steps == 2 {
        return Ok(bytes.len() as u32);
    }
    match decode(alloc, bytes.as_slice()) {
        Ok(again) => Ok(again.chips.len() as u32),
        Err(_) => Ok(0),
    }
}

// Rows of single keys, with so many different routes.
fn table(alloc: Global, count: u32, routes: u32) -> Result<Table, Memory> {
    let mut rows = Seq::new(alloc);
    let mut seed = 7;
    for key in 0..count {
        seed = next(seed);
        let block = block_of(key, 1);
        let mut aliases = Seq::new(alloc);
        aliases.push(Alias { block, port: Port::Local })?;
        rows.push(Row { block, route: Route { bits: 1 + (seed >> 8) % routes }, aliases })?;
    }
    Ok(Table { rows })
}

fn rows_after(alloc: Global, count: u32, routes: u32, covering: bool) -> Result<u32, Memory> {
    let table = table(alloc, count, routes)?;
    if covering {
        return Ok(cover(alloc, table, 0)?.table.rows.len() as u32);
    }
    Ok(table.rows.len() as u32)
}

fn answer(alloc: Global, what: &str, first: u32, second: u32) -> Result<u32, Memory> {
    match what {
        "find" => lookups(alloc, first, false),
        "scan" => lookups(alloc, first, true),
        "image" => images(alloc, first),
        "cover" => rows_after(alloc, first, second, true),
        _ => rows_after(alloc, first, second, false),
    }
}

fn main(rt: HostRuntime) -> ExitCode {
    let Ok(all) = env::args(&rt) else { return ExitCode::from(1) };
    let Ok(words) = all.skip(1).collect::<Vec<String>>(rt.alloc()) else { return ExitCode::from(1) };
    if words.len() < 3 {
        return ExitCode::from(2);
    }
    let Ok(first) = words[1].as_str().parse::<u32>() else { return ExitCode::from(3) };
    let Ok(second) = words[2].as_str().parse::<u32>() else { return ExitCode::from(3) };
    let Ok(number) = answer(rt.alloc(), words[0].as_str(), first, second) else { return ExitCode::from(9) };
    let Ok(_) = println!(rt; "{number}") else { return ExitCode::from(4) };
    ExitCode::from(0)
}
"""


# ---- jobs with long tables

CORES = 17


def net_of(number, route, **more):
    """A net of one chip: its targets are the vertices whose bits a route has."""
    return {"name": f"n{number}", "source": "v0", "targets": [f"v{i}" for i in range(CORES) if route >> i & 1], **more}


def one_chip(nets):
    graph = {"vertices": [{"name": f"v{i}"} for i in range(CORES)], "nets": nets}
    return {"version": 2, "machine": {"width": 1, "height": 1}, "graph": graph, "run": {"target": 0}}


def at_random(count, routes):
    draw = random.Random(routes)
    return one_chip([net_of(i, 1 + draw.randrange(routes)) for i in range(count)])


def in_runs(count, draw):
    """Routes in runs of sixteen, one in twelve astray."""
    found, held = [], 0
    for i in range(count):
        if i % 16 == 0:
            held = 1 + draw.randrange(40)
        found.append(1 + draw.randrange(40) if draw.randrange(12) == 0 else held)
    return found


def runs_of_sixteen(count):
    return one_chip([net_of(i, route) for i, route in enumerate(in_runs(count, random.Random(1)))])


def of_several_sizes(count, are_mixed):
    """A quarter of the nets each of 1, 4, 16 and 64 keys, one quarter after the other or mixed."""
    draw = random.Random(2)
    sizes = [4 ** (4 * i // count) for i in range(count)]
    if are_mixed:
        draw.shuffle(sizes)
    return one_chip([net_of(i, route, keys=size) for i, (route, size) in enumerate(zip(in_runs(count, draw), sizes))])


def scattered(count, most_bits):
    """Fixed blocks that share no key, each of one key up to so many bits of keys."""
    draw, taken, nets = random.Random(3), set(), []
    while len(nets) < count:
        bits, place = draw.randrange(most_bits + 1), draw.randrange(1 << 32 - most_bits)
        if place not in taken:
            taken.add(place)
            key = place << most_bits | draw.randrange(1 << most_bits) >> bits << bits
            nets.append(net_of(len(nets), 1 + draw.randrange(40), fixed=[key, 0xFFFFFFFF ^ (1 << bits) - 1]))
    return one_chip(nets)


def many_chips(count, width, height, wrap, most_keys, near=None):
    """Sixteen vertices on each chip; nets of 1 to 16 targets anywhere, or among so many vertices behind their source."""
    draw, vertices = random.Random(4), 16 * width * height
    nets = []
    for i in range(count):
        source = draw.randrange(vertices)
        targets = [(source + draw.randrange(near)) % vertices if near else draw.randrange(vertices) for _ in range(1 + draw.randrange(16))]
        keys = 1 + draw.randrange(most_keys)
        nets.append({"name": f"n{i}", "source": f"v{source}", "targets": [f"v{it}" for it in targets], "keys": keys})
    machine = {"width": width, "height": height, "wrap": wrap}
    return {"version": 2, "machine": machine, "graph": {"vertices": [{"name": f"v{i}"} for i in range(vertices)], "nets": nets},
            "run": {"target": 0}}


KINDS = {
    "runs": runs_of_sixteen,
    "random": lambda count: at_random(count, 40),
    "two": lambda count: at_random(count, 2),
    "sizes": lambda count: of_several_sizes(count, False),
    "torus": lambda count: many_chips(count, 8, 8, True, 8),
    "mixed": lambda count: of_several_sizes(count, True),
    "three": lambda count: at_random(count, 3),
    "ten": lambda count: at_random(count, 10),
    "many": lambda count: at_random(count, 1000),
    "scattered": lambda count: scattered(count, 0),
    "fixed": lambda count: scattered(count, 8),
    "board": lambda count: many_chips(count, 8, 6, False, 8),
    "wide": lambda count: many_chips(count, 16, 16, True, 1, 256),
}


def covering(asked):
    """Each kind with each number of nets, beside the number before it."""
    programs = programs_of(asked)
    print(f"load {os.getloadavg()[0]:.1f}; least of {asked.runs} runs of {' and of '.join(programs)}")
    for kind in asked.kind:
        before = None
        for count in asked.rows:
            found = show_programs(f"{kind}, {count} nets", programs, ["tables"], KINDS[kind](count), asked.runs)
            spent = [min(it.spent for it in listed) for listed in found]
            if before:
                print(f"    {', '.join(f'{now / then:.1f}' for now, then in zip(spent, before))} times the time before")
            before = spent


# ---- calls


def program_in(room):
    """Compiles the program in a copy of the repository with one crate more."""
    os.makedirs(f"{room}/crates/bench_tables/src")
    for name in os.listdir(f"{ROOT}/crates"):
        os.symlink(f"{ROOT}/crates/{name}", f"{room}/crates/{name}")
    with open(f"{ROOT}/crates.txt", encoding="utf-8") as lines, open(f"{room}/crates.txt", "w", encoding="utf-8") as copy:
        copy.write(lines.read() + LINE)
    with open(f"{room}/crates/bench_tables/src/main.rt", "w", encoding="utf-8") as source:
        source.write(PROGRAM)
    launcher.main(room, "bench_tables", "spin_unchecked")
    return f"{room}/out/spin_unchecked"


def processor_time():
    """Of all programs that were run and have ended: other work on the machine does not count."""
    used = resource.getrusage(resource.RUSAGE_CHILDREN)
    return used.ru_utime + used.ru_stime


def timed(program, *words):
    """The least processor time of three runs, and what the program wrote."""
    times = []
    for _ in range(3):
        before = processor_time()
        done = subprocess.run([program, *map(str, words)], capture_output=True, check=True)
        times.append(processor_time() - before)
        if times[0] > 3:
            break
    return min(times), done.stdout.decode().strip()


def show(program, base, *words):
    spent, wrote = timed(program, *words)
    print(f"{' '.join(map(str, words)):24} {(spent - base) * 1000:10.1f} ms   {wrote}")


def calls(parts):
    with tempfile.TemporaryDirectory(prefix="bench-tables-") as room:
        program = program_in(room)
        base, _ = timed(program, "table", 1, 1)
        if "find" in parts:
            show(program, base, "find", 1000000, 0)
            show(program, base, "scan", 1000000, 0)
        if "image" in parts:
            made, _ = timed(program, "image", 0, 0)
            print(f"making the image takes {made * 1000:.1f} ms, taken off below; 1 loads it, 2 encodes it, 3 decodes it too")
            for steps in (1, 2, 3):
                show(program, made, "image", steps, 0)
        if "rows" in parts:
            for rows in (256, 512, 1024, 2048, 4096):
                for routes in (17, 40, 1000):
                    show(program, base, "cover", rows, routes)


def main():
    parser = argparse.ArgumentParser(description="Times what routers' tables cost (see the head of this file).")
    parser.add_argument("parts", nargs="*", metavar="PART", help="cover, find, image, rows; all where none is named")
    parser.add_argument("--rows", type=int, nargs="+", default=[1024, 2048, 4096], help="how many nets the jobs of cover have")
    parser.add_argument("--kind", nargs="+", choices=KINDS, default=list(KINDS), help="of cover")
    add_programs(parser, 5)
    asked = parser.parse_args()
    parts = asked.parts or ["cover", "find", "image", "rows"]
    if "cover" in parts:
        covering(asked)
    if set(parts) & {"find", "image", "rows"}:
        calls(parts)


if __name__ == "__main__":
    main()
