"""Random tables, of which `cover` of `cover_merge` makes the same merges as tools/model.py, one after the other.

    python3 tools/merges_check.py                                the 300 tables of the gate: a minute to compile, and some seconds
    python3 tools/merges_check.py --first 1000 --tables 5000     tables of other seeds, for a longer run by hand

The program's own words write covered tables alone. So a small program that stands below as text is compiled as the launcher's
program is, without a proof, from a copy of the repository that has it as one crate more. It is given a table and a target, covers
the table, and writes the places of each merge. The model makes its merges in their plainest form, with nothing kept from one to
the next. A table has 2 to 60 rows of 1 to 16 keys and of 1 to 6 routes; its blocks share no key, and lie close or scattered. The
last line is 'N passed, M failed', and the status 1 where one failed.
"""
import argparse
import os
import random
import subprocess
import sys
import tempfile

ROOT = os.path.dirname(os.path.dirname(os.path.realpath(__file__)))
sys.path.insert(0, f"{ROOT}/tools")
import compile as launcher  # noqa: E402
import model  # noqa: E402

LINE = "merges_check: cover_merge tern_word spin_base\n"

PROGRAM = r"""
#![tactic(auto)]

use cover_merge::cover;
use spin_base::{Memory, Port, Route, Seq};
use std::alloc::Global;
use std::env;
use std::process::ExitCode;
use tern_word::{Alias, Row, Table, block_of};

fn number(words: &Vec<String>, i: usize) -> u32 {
    match words[i].as_str().parse::<u32>() {
        Ok(number) => number,
        Err(_) => 0,
    }
}

// The table of the words behind the first: a key, how many keys, and a route for each row.
fn table_of(alloc: Global, words: &Vec<String>) -> Result<Table, Memory> {
    let mut rows = Seq::new(alloc);
    let mut i = 1;
    while i + 2 < words.len() {
        let block = block_of(number(words, i), u64::from(number(words, i + 1)));
        let mut aliases = Seq::new(alloc);
        aliases.push(Alias { block, port: Port::Local })?;
        rows.push(Row { block, route: Route { bits: number(words, i + 2) }, aliases })?;
        i += 3;
    }
    Ok(Table { rows })
}

// The places of all merges, with the word `merge` before those of each.
fn merges(alloc: Global, words: &Vec<String>) -> Result<Vec<u32>, Memory> {
    let table = table_of(alloc, words)?;
    let covered = cover(alloc, table, number(words, 0))?;
    let mut found = Vec::new(alloc);
    for merge in covered.merges.as_slice() {
        found.push(4294967295)?;
        found.extend_from_slice(merge.places.as_slice())?;
    }
    Ok(found)
}

fn main(rt: HostRuntime) -> ExitCode {
    let Ok(all) = env::args(&rt) else { return ExitCode::from(1) };
    let Ok(words) = all.skip(1).collect::<Vec<String>>(rt.alloc()) else { return ExitCode::from(1) };
    let Ok(found) = merges(rt.alloc(), &words) else { return ExitCode::from(9) };
    for place in &found {
        let Ok(_) = println!(rt; "{place}") else { return ExitCode::from(4) };
    }
    ExitCode::from(0)
}
"""


def program_in(room):
    """Compiles the program in a copy of the repository with one crate more: with its checks, since nothing there is proved."""
    os.makedirs(f"{room}/crates/merges_check/src")
    for name in os.listdir(f"{ROOT}/crates"):
        os.symlink(f"{ROOT}/crates/{name}", f"{room}/crates/{name}")
    with open(f"{ROOT}/crates.txt", encoding="utf-8") as lines, open(f"{room}/crates.txt", "w", encoding="utf-8") as copy:
        copy.write(lines.read() + LINE)
    with open(f"{room}/crates/merges_check/src/main.rt", "w", encoding="utf-8") as source:
        source.write(PROGRAM)
    launcher.main(room, "merges_check")
    return f"{room}/out/spin"


def table_of(draw):
    """Rows in order of generality, then key, as a plain table has them."""
    count, most, spread = draw.randint(2, 60), draw.choice((0, 0, 2, 4)), draw.choice((1, 4, 2**20))
    places = draw.sample(range(count * spread), count)
    blocks = []
    for place in places:
        bits = draw.randint(0, most)
        blocks.append(model.Block(place << 4 | draw.randrange(16) >> bits << bits, model.ALL_ONES ^ (1 << bits) - 1))
    routes = draw.randint(1, 6)
    rows = [model.Row(block, 1 + draw.randrange(routes), [(block, model.LOCAL)]) for block in blocks]
    return sorted(rows, key=lambda row: (model.generality(row.block), row.block.key))


def far_table():
    """32 rows of one route, of which the last one's key lies far from the others, and two rows whose merge would have that key too."""
    blocks = [model.Block(key, model.ALL_ONES) for key in (*range(31), 64, 65, 66)]
    return [model.Row(block, 1 + (block.key > 64), [(block, model.LOCAL)]) for block in blocks]


def merges_of(table, target):
    """The places of each merge, by the model."""
    found = []
    while len(table) > target:
        places = model.largest_set(table) or model.first_pair(table)
        if not places:
            break
        found.append(places)
        table = model.merged(table, places)
    return found


def answer(program, table, target):
    """The same, by the program."""
    words = [target]
    for row in table:
        words += [row.block.key, 1 << model.generality(row.block), row.route]
    done = subprocess.run([program, *map(str, words)], capture_output=True, check=True)
    found = []
    for line in done.stdout.split():
        if line == b"4294967295":
            found.append([])
        else:
            found[-1].append(int(line))
    return found


def main():
    parser = argparse.ArgumentParser(description="Compares the merges of random tables with the model's (see the head of this file).")
    parser.add_argument("--first", type=int, default=0, help="the first seed")
    parser.add_argument("--tables", type=int, default=300, help="how many tables")
    asked = parser.parse_args()
    passed = failed = merges = 0
    with tempfile.TemporaryDirectory(prefix="merges-check-") as room:
        program = program_in(room)
        if answer(program, far_table(), 0) == [list(range(32))] == merges_of(far_table(), 0):
            passed += 1
        else:
            failed += 1
            print("the table with a far key: its 32 rows are to be joined, and no others")
        for seed in range(asked.first, asked.first + asked.tables):
            draw = random.Random(seed)
            table, target = table_of(draw), draw.choice((0, 0, 1, 10))
            wanted = merges_of(table, target)
            merges += len(wanted)
            if answer(program, table, target) == wanted:
                passed += 1
            else:
                failed += 1
                print(f"table {seed}: the merges are not the model's")
    print(f"{merges} merges in {asked.tables} tables")
    print(f"{passed} passed, {failed} failed")
    sys.exit(failed > 0)


if __name__ == "__main__":
    main()
