"""Times what it costs to grow the trees of many nets and to make the plain tables of them.

    python3 bench/trees.py

On a 64 by 64 torus without dead parts, 1,024, 2,048 and 4,096 nets with 8 targets each are grown by `ner`, with targets in
a square round the root and with targets anywhere; and one net whose targets are all chips. Then `plain_tables` makes their
tables. The calls are made by a small program that stands below as text. It is compiled as the launcher's program is,
without a proof, from a copy of the repository that has it as one crate more; the crates that it calls are those that
`rt ci` proves.
"""
import os
import resource
import subprocess
import sys
import tempfile

ROOT = os.path.dirname(os.path.dirname(os.path.realpath(__file__)))
sys.path.insert(0, f"{ROOT}/tools")
import compile as launcher  # noqa: E402

LINE = "bench_trees: net_tables ner_trees tern_word machine_desc spin_base\n"

PROGRAM = r"""
#![tactic(auto)]

use machine_desc::{Machine, MachineParts};
use ner_trees::{Ends, ner};
use machine_desc::NetPlan;
use net_tables::plain_tables;
use spin_base::{Block, Chip, Memory, Seq, Spot};
use std::alloc::Global;
use std::env;
use std::process::ExitCode;

fn next(seed: u32) -> u32 {
    seed.wrapping_mul(1664525).wrapping_add(1013904223)
}

fn torus(alloc: Global) -> Result<Machine, Memory> {
    let parts = MachineParts {
        width: 64,
        height: 64,
        wrap: true,
        sdram: 134217728,
        dead_chips: Seq::new(alloc),
        dead_cores: Seq::new(alloc),
        dead_links: Seq::new(alloc),
    };
    Machine::new(alloc, parts)
}

fn chip_of(number: u32) -> Chip {
    Chip { x: (number / 64 % 64) as u8, y: (number % 64) as u8 }
}

// So many chips in a square round the root whose side is so long; or each chip once.
fn targets_of(alloc: Global, root: Chip, first: u32, count: u32, side: u32) -> Result<Seq<Chip>, Memory> {
    let mut targets = Seq::new(alloc);
    let mut seed = first;
    for number in 0..count {
        if count == 4096 {
            targets.push(chip_of(number))?;
        } else {
            seed = next(seed);
            let right = (seed >> 8) % side;
            seed = next(seed);
            let up = (seed >> 8) % side;
            let x = (u32::from(root.x) + 64 + right - side / 2) % 64;
            let y = (u32::from(root.y) + 64 + up - side / 2) % 64;
            targets.push(Chip { x: x as u8, y: y as u8 })?;
        }
    }
    Ok(targets)
}

fn spots_of(alloc: Global, chips: &Seq<Chip>) -> Result<Seq<Spot>, Memory> {
    let mut spots = Seq::new(alloc);
    for chip in chips.as_slice() {
        spots.push(Spot { chip: *chip, core: 2 })?;
    }
    Ok(spots)
}

// So many nets of one key each, whose roots are spread evenly.
fn nets_of(alloc: Global, machine: &Machine, many: u32, count: u32, side: u32) -> Result<Seq<NetPlan>, Memory> {
    let mut nets = Seq::new(alloc);
    for number in 0..many {
        let root = chip_of(number * (4096 / many));
        let chips = targets_of(alloc, root, number, count, side)?;
        let targets = spots_of(alloc, &chips)?;
        let ends = Ends { machine, root, targets: &chips };
        let tree = ner(alloc, ends)?.tree;
        let block = Block { key: number, mask: 4294967295 };
        let source = Spot { chip: root, core: 1 };
        nets.push(NetPlan { block, source, targets, tree })?;
    }
    Ok(nets)
}

fn rows_of(alloc: Global, machine: &Machine, nets: &Seq<NetPlan>) -> Result<u32, Memory> {
    let tables = plain_tables(alloc, machine, nets)?;
    let mut rows: u32 = 0;
    for table in tables.as_slice() {
        rows = rows.wrapping_add(table.rows.len() as u32);
    }
    Ok(rows)
}

// How many rows the tables have that are made so many times; else how many nets were grown.
fn answer(alloc: Global, turns: u32, many: u32, count: u32, side: u32) -> Result<u32, Memory> {
    let machine = torus(alloc)?;
    let nets = nets_of(alloc, &machine, many, count, side)?;
    let mut rows = nets.len() as u32;
    for _ in 0..turns {
        rows = rows_of(alloc, &machine, &nets)?;
    }
    Ok(rows)
}

fn number_at(words: &[String], place: usize) -> u32 {
    let Some(word) = words.get(place) else { return 0 };
    word.as_str().parse::<u32>().unwrap_or(0)
}

fn main(rt: HostRuntime) -> ExitCode {
    let Ok(all) = env::args(&rt) else { return ExitCode::from(1) };
    let Ok(words) = all.skip(1).collect::<Vec<String>>(rt.alloc()) else { return ExitCode::from(1) };
    let words = words.as_slice();
    let many = number_at(words, 1);
    let side = number_at(words, 3);
    if many == 0 || side == 0 {
        return ExitCode::from(2);
    }
    let Ok(number) = answer(rt.alloc(), number_at(words, 0), many, number_at(words, 2), side) else { return ExitCode::from(9) };
    let Ok(_) = println!(rt; "{number}") else { return ExitCode::from(4) };
    ExitCode::from(0)
}
"""


def program_in(room):
    """Compiles the program in a copy of the repository with one crate more."""
    os.makedirs(f"{room}/crates/bench_trees/src")
    for name in os.listdir(f"{ROOT}/crates"):
        os.symlink(f"{ROOT}/crates/{name}", f"{room}/crates/{name}")
    with open(f"{ROOT}/crates.txt", encoding="utf-8") as lines, open(f"{room}/crates.txt", "w", encoding="utf-8") as copy:
        copy.write(lines.read() + LINE)
    with open(f"{room}/crates/bench_trees/src/main.rt", "w", encoding="utf-8") as source:
        source.write(PROGRAM)
    launcher.main(room, "bench_trees", "spin_unchecked")
    return f"{room}/out/spin_unchecked"


def processor_time():
    """Of all programs that were run and have ended: other work on the machine does not count."""
    used = resource.getrusage(resource.RUSAGE_CHILDREN)
    return used.ru_utime + used.ru_stime


def timed(program, *runs):
    """Of each of the runs the least processor time of five, and what the last wrote. They take turns."""
    times = [[] for _ in runs]
    for _ in range(5):
        for words, spent in zip(runs, times):
            before = processor_time()
            done = subprocess.run([program, *map(str, words)], capture_output=True, check=True)
            spent.append(processor_time() - before)
    return [min(spent) for spent in times], done.stdout.decode().strip()


def main():
    with tempfile.TemporaryDirectory(prefix="bench-trees-") as room:
        program = program_in(room)
        for what, count, side, sizes, turns in (
            ("8 targets in a square of 16", 8, 16, (1024, 2048, 4096), 10),
            ("8 targets anywhere", 8, 64, (1024, 2048, 4096), 10),
            ("all chips as targets", 4096, 64, (1,), 200),
        ):
            print(what)
            for many in sizes:
                (grown, spent), rows = timed(program, (0, many, count, side), (turns, many, count, side))
                tables = (spent - grown) / turns
                print(f"  {many:5} nets: ner {grown * 1000:7.0f} ms   plain_tables {tables * 1000:7.1f} ms   {rows} rows")


if __name__ == "__main__":
    main()
