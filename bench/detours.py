"""Times what it costs to repair trees round dead links.

    python3 bench/detours.py

4,096 trees, one from each chip of a 64 by 64 torus, are grown by `ner` and then repaired: with no link dead, and with one
link in twenty dead. The calls are made by a small program that stands below as text. It is compiled as the launcher's
program is, without a proof, from a copy of the repository that has it as one crate more; the crates that it calls are
those that `rt ci` proves.
"""
import os
import resource
import subprocess
import sys
import tempfile

ROOT = os.path.dirname(os.path.dirname(os.path.realpath(__file__)))
sys.path.insert(0, f"{ROOT}/tools")
import compile as launcher  # noqa: E402

LINE = "bench_detours: link_detours ner_trees machine_desc spin_base\n"

PROGRAM = r"""
#![tactic(auto)]

use link_detours::{BrokenTree, Ground, RepairErr, Roads, repair};
use machine_desc::{Edge, Machine, MachineParts, Tree};
use ner_trees::{Ends, Grown, ner};
use spin_base::{Chip, Dir, Memory, Seq};
use std::alloc::Global;
use std::env;
use std::process::ExitCode;

fn next(seed: u32) -> u32 {
    seed.wrapping_mul(1664525).wrapping_add(1013904223)
}

// Of the links, each named at one of its ends, one in twenty.
fn dead_links(alloc: Global) -> Result<Seq<Edge>, Memory> {
    let mut links = Seq::new(alloc);
    let mut seed = 11;
    for x in 0..64u8 {
        for y in 0..64u8 {
            for number in 0..3usize {
                seed = next(seed);
                if (seed >> 8) % 20 == 0 {
                    links.push(Edge { chip: Chip { x, y }, dir: Dir::ALL[number] })?;
                }
            }
        }
    }
    Ok(links)
}

fn torus(alloc: Global, dead: bool) -> Result<Machine, Memory> {
    let links = if dead { dead_links(alloc)? } else { Seq::new(alloc) };
    let parts = MachineParts {
        width: 64,
        height: 64,
        wrap: true,
        sdram: 134217728,
        dead_chips: Seq::new(alloc),
        dead_cores: Seq::new(alloc),
        dead_links: links,
    };
    Machine::new(alloc, parts)
}

// So many chips in a square round the root whose side is so long.
fn targets_of(alloc: Global, root: Chip, first: u32, count: u32, side: u32) -> Result<Seq<Chip>, Memory> {
    let mut targets = Seq::new(alloc);
    let mut seed = first;
    for _ in 0..count {
        seed = next(seed);
        let right = (seed >> 8) % side;
        seed = next(seed);
        let up = (seed >> 8) % side;
        let x = (u32::from(root.x) + 64 + right - side / 2) % 64;
        let y = (u32::from(root.y) + 64 + up - side / 2) % 64;
        targets.push(Chip { x: x as u8, y: y as u8 })?;
    }
    Ok(targets)
}

// How many edges the trees have in the end.
fn edges_of(alloc: Global, machine: &Machine, count: u32, side: u32, repairing: bool) -> Result<u32, RepairErr> {
    let roads = Roads::of(alloc, machine)?;
    let ground = Ground { machine, roads: &roads };
    let mut edges: u32 = 0;
    for x in 0..64u8 {
        for y in 0..64u8 {
            let root = Chip { x, y };
            let targets = targets_of(alloc, root, u32::from(x) * 64 + u32::from(y), count, side)?;
            let ends = Ends { machine, root, targets: &targets };
            let Grown { mut tree, joins: _ } = ner(alloc, ends)?;
            if repairing {
                let edges = tree.edges.as_slice();
                let broken = BrokenTree { ground, root, edges, targets: targets.as_slice() };
                tree = repair(alloc, broken)?;
            }
            edges = edges.wrapping_add(tree.edges.len() as u32);
        }
    }
    Ok(edges)
}

fn answer(alloc: Global, what: &str, dead: bool, count: u32, side: u32) -> Result<u32, RepairErr> {
    let machine = torus(alloc, dead)?;
    if what == "links" {
        return Ok(dead_links(alloc)?.len() as u32);
    }
    edges_of(alloc, &machine, count, side, what == "repair")
}

fn main(rt: HostRuntime) -> ExitCode {
    let Ok(all) = env::args(&rt) else { return ExitCode::from(1) };
    let Ok(words) = all.skip(1).collect::<Vec<String>>(rt.alloc()) else { return ExitCode::from(1) };
    if words.len() < 4 {
        return ExitCode::from(2);
    }
    let dead = words[1].as_str() == "dead";
    let Ok(count) = words[2].as_str().parse::<u32>() else { return ExitCode::from(3) };
    let Ok(side) = words[3].as_str().parse::<u32>() else { return ExitCode::from(3) };
    let Ok(number) = answer(rt.alloc(), words[0].as_str(), dead, count, side) else { return ExitCode::from(9) };
    let Ok(_) = println!(rt; "{number}") else { return ExitCode::from(4) };
    ExitCode::from(0)
}
"""


def program_in(room):
    """Compiles the program in a copy of the repository with one crate more."""
    os.makedirs(f"{room}/crates/bench_detours/src")
    for name in os.listdir(f"{ROOT}/crates"):
        os.symlink(f"{ROOT}/crates/{name}", f"{room}/crates/{name}")
    with open(f"{ROOT}/crates.txt", encoding="utf-8") as lines, open(f"{room}/crates.txt", "w", encoding="utf-8") as copy:
        copy.write(lines.read() + LINE)
    with open(f"{room}/crates/bench_detours/src/main.rt", "w", encoding="utf-8") as source:
        source.write(PROGRAM)
    launcher.main(room, "bench_detours", "spin_unchecked")
    return f"{room}/out/spin_unchecked"


def processor_time():
    """Of all programs that were run and have ended: other work on the machine does not count."""
    used = resource.getrusage(resource.RUSAGE_CHILDREN)
    return used.ru_utime + used.ru_stime


def timed(program, *words):
    """The least processor time of three runs, and what the program wrote."""
    times = []
    for _ in range(3):
        before = processor_time()
        done = subprocess.run([program, *map(str, words)], capture_output=True, check=True)
        times.append(processor_time() - before)
        if times[0] > 3:
            break
    return min(times), done.stdout.decode().strip()


def main():
    with tempfile.TemporaryDirectory(prefix="bench-detours-") as room:
        program = program_in(room)
        _, dead = timed(program, "links", "none", 1, 1)
        print(f"{dead} of 12,288 links are dead; 4,096 trees each")
        for side in (16, 64):
            grown, edges = timed(program, "grow", "none", 8, side)
            print(f"8 targets in a square of {side}: {grown * 1000:.0f} ms to grow {edges} edges, taken off below")
            for links, words in (("none", "no dead link"), ("dead", "dead links")):
                spent, left = timed(program, "repair", links, 8, side)
                print(f"  repaired with {words:13}{(spent - grown) * 1000:10.1f} ms   {left} edges")


if __name__ == "__main__":
    main()
