"""Times placement and keys: `curve`, `place`, `keys`, each alone.

    python3 bench/placement_and_keys.py

`place` puts 16,384 vertices on 4,096 chips: where they need no memory; where the memory of the first half of the chips is
full while 16 cores of each are free, so that each later vertex is to stand behind them all; and where every fourth is a
device on the link E of a chip of its own, which is listed dead. `keys` gives keys to 4,096 nets that need from 1 to 2^20
each, in mixed order: where none has a fixed block; where every second has one of 2^20 keys, one behind the other; where
these are as large as the nets need and in mixed order, with a hole behind nearly each, and begin at 2^31; and where they
begin at 0, so that other nets stand in these holes.
Each is done at half and at a quarter of the size too.

The calls are made by a small program that stands below as text. It is compiled as the launcher's program is, without a
proof, from a copy of the repository that has it as one crate more; the crates that it calls are those that `rt ci` proves.
It makes the machine and the graph, and then does the one call many times over; the time without that call is taken off.
"""
import os
import resource
import subprocess
import sys
import tempfile

ROOT = os.path.dirname(os.path.dirname(os.path.realpath(__file__)))
sys.path.insert(0, f"{ROOT}/tools")
import compile as launcher  # noqa: E402

LINE = "bench_placement: place_fit key_alloc range_store tern_word app_graph machine_desc spin_base\n"

PROGRAM = r"""
#![tactic(auto)]

use app_graph::{Graph, Net, Vertex};
use key_alloc::{KeyErr, keys};
use machine_desc::{Edge, Machine, MachineParts};
use place_fit::{PlaceErr, curve, place};
use spin_base::{Block, Chip, Dir, Memory, Name, Seq};
use std::alloc::Global;
use std::env;
use std::process::ExitCode;

// All memory of a chip.
const ALL_MEMORY: u32 = 134217728;

fn next(seed: u32) -> u32 {
    seed.wrapping_mul(1664525).wrapping_add(1013904223)
}

// What is measured.
#[derive(Drop)]
struct Task<'a> {
    what: &'a str,
    count: u32,
    width: u8,
    height: u8,
    turns: u32,
}

// The link E of a chip, by the chip's number in the grid.
fn link_east(task: &Task, number: u32) -> Edge {
    let chip = Chip { x: (number / u32::from(task.height)) as u8, y: (number % u32::from(task.height)) as u8 };
    Edge { chip, dir: Dir::East }
}

// Where there are devices, the link E of each chip is dead.
fn machine(alloc: Global, task: &Task) -> Result<Machine, Memory> {
    let mut links = Seq::new(alloc);
    if task.what == "devices" {
        for number in 0..u32::from(task.width) * u32::from(task.height) {
            links.push(link_east(task, number))?;
        }
    }
    let parts = MachineParts {
        width: task.width,
        height: task.height,
        wrap: false,
        sdram: ALL_MEMORY,
        dead_chips: Seq::new(alloc),
        dead_cores: Seq::new(alloc),
        dead_links: links,
    };
    Machine::new(alloc, parts)
}

// So many vertices that need no memory. Every fourth is a device on a chip of its own.
fn with_devices(alloc: Global, task: &Task) -> Result<Seq<Vertex>, Memory> {
    let mut vertices = Seq::new(alloc);
    for i in 0..task.count {
        let device = if i % 4 == 3 { Some(link_east(task, i / 4)) } else { None };
        vertices.push(Vertex { name: Name::of(alloc, "v")?, sdram: 0, at: None, device })?;
    }
    Ok(vertices)
}

// So many vertices. The first of them, as many as `full`, need all memory of a chip, and the others `each`.
fn vertices(alloc: Global, count: u32, full: u32, each: u32) -> Result<Seq<Vertex>, Memory> {
    let mut vertices = Seq::new(alloc);
    for i in 0..count {
        let sdram = if i < full { ALL_MEMORY } else { each };
        vertices.push(Vertex { name: Name::of(alloc, "v")?, sdram, at: None, device: None })?;
    }
    Ok(vertices)
}

// The block of a net that needs so many keys, at most 2^20, if its number and the kind of nets give it one: every second
// net's begins at a multiple of 2^20, in the upper half or from 0 on.
fn fixed_block(task: &Task, i: u32, keys: u64) -> Option<Block> {
    if i % 2 == 0 || task.what == "keys" {
        return None;
    }
    let at = i / 2;
    if task.what == "fixed" {
        return Some(Block { key: (1 << 31) + (at << 20), mask: 4293918720 });
    }
    let place = at.wrapping_mul(1031) % (task.count / 2);
    let begin = if task.what == "between" { 0 } else { 1 << 31 };
    Some(Block { key: begin + (place << 20), mask: (4294967296 - keys.next_power_of_two()) as u32 })
}

// So many nets from the first vertex to itself. They need from 1 to 2^20 keys: the number of bits is drawn, then the number.
fn nets(alloc: Global, task: &Task) -> Result<Seq<Net>, Memory> {
    let mut nets = Seq::new(alloc);
    let mut seed = 5;
    for i in 0..task.count {
        seed = next(seed);
        let most = 1u32 << ((seed >> 8) % 21);
        seed = next(seed);
        let keys = u64::from(most - (seed >> 8) % (most / 2 + 1));
        let mut targets = Seq::new(alloc);
        targets.push(0)?;
        let fixed = fixed_block(task, i, keys);
        nets.push(Net { name: Name::of(alloc, "n")?, source: 0, targets, keys, fixed })?;
    }
    Ok(nets)
}

fn graph(alloc: Global, task: &Task) -> Result<Graph, Memory> {
    let chips = u32::from(task.width) * u32::from(task.height);
    match task.what {
        "short" => Ok(Graph { vertices: vertices(alloc, task.count, chips / 2, 1)?, nets: Seq::new(alloc) }),
        "keys" | "fixed" | "scattered" | "between" => Ok(Graph { vertices: vertices(alloc, 1, 0, 0)?, nets: nets(alloc, task)? }),
        "devices" => Ok(Graph { vertices: with_devices(alloc, task)?, nets: Seq::new(alloc) }),
        _ => Ok(Graph { vertices: vertices(alloc, task.count, 0, 0)?, nets: Seq::new(alloc) }),
    }
}

// Where the last vertex stands, x, y and core as two digits each; 0 where there is no room.
fn placed(alloc: Global, machine: &Machine, graph: &Graph) -> Result<u64, Memory> {
    match place(alloc, machine, graph) {
        Ok(placement) => {
            let Some(last) = placement.spots.as_slice().last() else { return Ok(0) };
            Ok(u64::from(last.chip.x) * 10000 + u64::from(last.chip.y) * 100 + u64::from(last.core))
        }
        Err(PlaceErr::NoRoom { .. }) => Ok(0),
        Err(PlaceErr::Memory) => Err(Memory),
    }
}

// The first key of the last net; 0 where keys are out.
fn given(alloc: Global, graph: &Graph) -> Result<u64, Memory> {
    match keys(alloc, graph) {
        Ok(blocks) => {
            let Some(last) = blocks.as_slice().last() else { return Ok(0) };
            Ok(u64::from(last.key))
        }
        Err(KeyErr::KeysOut { .. }) => Ok(0),
        Err(KeyErr::Memory) => Err(Memory),
    }
}

fn once(alloc: Global, task: &Task, machine: &Machine, graph: &Graph) -> Result<u64, Memory> {
    match task.what {
        "keys" | "fixed" | "scattered" | "between" => given(alloc, graph),
        "curve" => Ok(curve(alloc, task.count)?.len() as u64),
        _ => placed(alloc, machine, graph),
    }
}

// The last answer of so many turns.
fn answer(alloc: Global, task: &Task) -> Result<u64, Memory> {
    let machine = machine(alloc, task)?;
    let graph = graph(alloc, task)?;
    let mut last = 0;
    for _ in 0..task.turns {
        last = once(alloc, task, &machine, &graph)?;
    }
    Ok(last)
}

fn number(word: &str) -> u32 {
    match word.parse::<u32>() {
        Ok(number) => number,
        Err(_) => 0,
    }
}

fn main(rt: HostRuntime) -> ExitCode {
    let Ok(all) = env::args(&rt) else { return ExitCode::from(1) };
    let Ok(words) = all.skip(1).collect::<Vec<String>>(rt.alloc()) else { return ExitCode::from(1) };
    if words.len() < 5 {
        return ExitCode::from(2);
    }
    let task = Task {
        what: words[0].as_str(),
        count: number(words[1].as_str()),
        width: number(words[2].as_str()) as u8,
        height: number(words[3].as_str()) as u8,
        turns: number(words[4].as_str()),
    };
    let Ok(last) = answer(rt.alloc(), &task) else { return ExitCode::from(9) };
    let Ok(_) = println!(rt; "{last}") else { return ExitCode::from(4) };
    ExitCode::from(0)
}
"""


def program_in(room):
    """Compiles the program in a copy of the repository with one crate more."""
    os.makedirs(f"{room}/crates/bench_placement/src")
    for name in os.listdir(f"{ROOT}/crates"):
        os.symlink(f"{ROOT}/crates/{name}", f"{room}/crates/{name}")
    with open(f"{ROOT}/crates.txt", encoding="utf-8") as lines, open(f"{room}/crates.txt", "w", encoding="utf-8") as copy:
        copy.write(lines.read() + LINE)
    with open(f"{room}/crates/bench_placement/src/main.rt", "w", encoding="utf-8") as source:
        source.write(PROGRAM)
    launcher.main(room, "bench_placement", "spin_unchecked")
    return f"{room}/out/spin_unchecked"


def processor_time():
    """Of all programs that were run and have ended: other work on the machine does not count."""
    used = resource.getrusage(resource.RUSAGE_CHILDREN)
    return used.ru_utime + used.ru_stime


def timed(program, *words):
    """The least processor time of three runs, in milliseconds, and what the program wrote."""
    times = []
    for _ in range(3):
        before = processor_time()
        done = subprocess.run([program, *map(str, words)], capture_output=True, check=True)
        times.append((processor_time() - before) * 1000)
    return min(times), done.stdout.decode().strip()


def show(program, title, turns, *words):
    base, _ = timed(program, *words, 0)
    spent, wrote = timed(program, *words, turns)
    last = int(wrote)
    if title.startswith("place"):
        wrote = f"the last on ({last // 10000}, {last // 100 % 100}), core {last % 100}"
    print(f"{title:68}{(spent - base) / turns:8.3f} ms   {wrote}")


def main():
    with tempfile.TemporaryDirectory(prefix="bench-placement-") as room:
        program = program_in(room)
        for level in (4, 5, 6):
            show(program, f"curve: {4 ** level:,} chips", 4000, "curve", level, 1, 1)
        for count, width, height in ((4096, 32, 32), (8192, 64, 32), (16384, 64, 64)):
            size = f"{count:,} vertices on {width * height:,} chips"
            show(program, f"place: {size}", 100, "crowded", count, width, height)
            show(program, f"place: {size}, the memory of half of them full", 100, "short", count, width, height)
            show(program, f"place: {size}, every fourth a device", 100, "devices", count, width, height)
        for count in (1024, 2048, 4096):
            show(program, f"keys: {count:,} nets of mixed sizes", 500, "keys", count, 1, 1)
            show(program, f"keys: {count:,} nets, half of them fixed, one behind the other", 500, "fixed", count, 1, 1)
            show(program, f"keys: {count:,} nets, half of them fixed, in mixed order with holes", 500, "scattered", count, 1, 1)
            show(program, f"keys: {count:,} nets, half of them fixed, the others in the holes", 500, "between", count, 1, 1)


if __name__ == "__main__":
    main()
