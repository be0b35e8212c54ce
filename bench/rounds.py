"""Times what rounds on threads cost: in whole commands, and in calls beside the drain of the same mesh by one thread.

    python3 bench/rounds.py runs [--program PROGRAM] [--beside OTHER] [--runs RUNS] [--row ROW ..] [--part PART]
    python3 bench/rounds.py [idle] [board] [chip]

`runs` times `run` and `reinject` of whole jobs: of PROGRAM (out/spin, where none is named), and of OTHER in turn with it, which is what
PROGRAM is compared with. Beside each is `tables` of the same job: reading, compiling and writing the plan are in every time. With a PART
of 10 each job has a tenth of its packets.

    packets      65,536 packets on 48 chips with the vertices and nets of `gen 1`: queue 31,300, 64 turns, 4 workers
    short        the same with queue 1,200
    tight        4,000 packets there: queue 1, patience 1, turns 1, 2 workers
    few          370 packets on a torus of 64 by 64 chips to four targets anywhere: queue 370, 64 turns, 4 workers
    near         1,000, 10,000 and 65,536 packets on that torus to four targets near: queue 370, 16 turns, 1 worker
    near_turns   65,536 of these at turns 1
    across       2,048 packets of one net from corner to corner of 64 by 64 chips: queue 1, patience 255, turns 1
    ring         `reinject` of 1,920 packets round a ring of 64 chips: queue 1, patience 1, 64 turns, with 1, 8 and 64 workers
    one          `reinject` of 1,920 packets, all to one vertex of 8 by 8 chips: queue 1, patience 1, 64 turns, with 1 and 64 workers
    fan          `reinject` of 100 packets on 64 by 64 chips from a core to the 16 others of its chip: queue 1; and `run` with ample queues

The other words time calls, which are made by a small program that stands below as text. It is compiled as the launcher's program is,
without a proof, from a copy of the repository that has it as one crate more; the crates that it calls are those that `rt ci` proves.

    idle     a torus of 64 by 64 chips, 16,384 vertices, no copy: what one call of `round` takes beside its moves: it makes all links,
             plays, and brings them down. A run makes its links once
    board    a torus of 8 by 6 chips, one vertex on each: eight vertices send 15,625 packets each along their column, over five
             links; or six vertices 16,667 each along their row, over seven. That makes 1,000,000 and 1,000,020 moves: into the
             injection queue, over each link, to the core, to the vertex. A column stands in one worker's share, a row goes
             through all of them
    chip     one chip, 17 vertices, 1,024 nets of one target, 65,536 packets

A router offers a copy 1,000 times before it drops it. The program tells the wall-clock time of the rounds or of the drain alone,
and how many copies were delivered and dumped. Each is run nine times, or once where it takes above five seconds. Told are the
least wall-clock time; the least processor time of the whole program less what opening the mesh takes; and the least and greatest
number of copies delivered. Where other programs keep the processors busy, threads wait for one at each round: `chrt -f 1` before
the command lets these pass first.
"""
import argparse
import os
import random
import resource
import subprocess
import sys
import tempfile

ROOT = os.path.dirname(os.path.dirname(os.path.realpath(__file__)))
sys.path.insert(0, f"{ROOT}/tools")
import compile as launcher  # noqa: E402
import gen_reference  # noqa: E402
from in_turn import add_programs, programs_of, show as show_programs  # noqa: E402

LINE = "bench_rounds: mesh_round mesh_run mesh_drain mesh_core machine_desc tcam_find spin_base\n"
RUNS = 9
LONG = 5
IDLE_ROUNDS = 10

PROGRAM = r"""
#![tactic(auto)]

use machine_desc::{Machine, MachineParts};
use mesh_core::{Mesh, MeshSetup};
use mesh_round::{round, run_out};
use mesh_run::Pace;
use mesh_drain::drain;
use spin_base::{Chip, Entry, FreeGate, McCopy, Memory, Route, Seq, Spot};
use std::alloc::Global;
use std::env;
use std::process::ExitCode;
use std::sync::Wait;
use std::thread::Threads;
use std::time::{Clock, Duration, Instant};
use tcam_find::{Room, RoomyTcam, Tcam};

const PATIENCE: u32 = 1000;

fn spot(x: u8, y: u8, core: u8) -> Spot {
    Spot { chip: Chip { x, y }, core }
}

fn torus(alloc: Global, width: u8, height: u8) -> Result<Machine, Memory> {
    let parts = MachineParts {
        width,
        height,
        wrap: true,
        sdram: 1024,
        dead_chips: Seq::new(alloc),
        dead_cores: Seq::new(alloc),
        dead_links: Seq::new(alloc),
    };
    Machine::new(alloc, parts)
}

fn send(table: &mut RoomyTcam, place: u32, key: u32, bit: u32) {
    table.set(place, Entry { key, mask: 0xffff_ffff, route: Route { bits: 1 << bit } });
}

fn put(mesh: &mut Mesh, vertex: u32, packet: u32, key: u32) -> Result<(), Memory> {
    mesh.add(vertex, McCopy { packet, key, payload: None, hop: 0 })
}

// A memory of unused entries, with room for rows.
fn roomy(alloc: Global, rows: u32) -> Result<RoomyTcam, Memory> {
    Ok(RoomyTcam::new(Tcam::empty(alloc), Room::new(alloc, rows)?))
}

// Vertices on the first `cores` cores of each chip.
fn spots(alloc: Global, width: u8, height: u8, cores: u8) -> Result<Seq<Spot>, Memory> {
    let mut all = Seq::new(alloc);
    for x in 0..width {
        for y in 0..height {
            for core in 0..cores {
                all.push(spot(x, y, core + 1))?;
            }
        }
    }
    Ok(all)
}

// No copy and no entry.
fn idle(alloc: Global, capacity: u32) -> Result<Mesh, Memory> {
    let mut tables = Seq::new(alloc);
    for _ in 0..4096 {
        tables.push(Tcam::empty(alloc))?;
    }
    Mesh::new(alloc, MeshSetup::new(alloc, torus(alloc, 64, 64)?, spots(alloc, 64, 64, 4)?, tables, capacity)?)
}

// Packets along columns (link 2) or rows (link 0), from the first chip to the last. Chips between have no entry: packets go on.
fn board(alloc: Global, capacity: u32, rows: bool) -> Result<Mesh, Memory> {
    let mut tables = Seq::new(alloc);
    for x in 0..8 {
        for y in 0..6 {
            let mut table = roomy(alloc, 1)?;
            let (key, step, last, bit) = if rows { (y, x, 7, 0) } else { (x, y, 5, 2) };
            if step == 0 {
                send(&mut table, 0, key, bit);
            } else if step == last {
                send(&mut table, 0, key, 7);
            }
            tables.push(table.into_memory())?;
        }
    }
    let setup = MeshSetup::new(alloc, torus(alloc, 8, 6)?, spots(alloc, 8, 6, 1)?, tables, capacity)?;
    let mut mesh = Mesh::new(alloc, setup)?;
    let (senders, packets) = if rows { (6, 16667) } else { (8, 15625) };
    for key in 0..senders {
        let vertex = if rows { key } else { 6 * key };
        for packet in 0..packets {
            put(&mut mesh, vertex, packets * key + packet, key)?;
        }
    }
    Ok(mesh)
}

// Packet after packet of 1,024 nets between the 17 vertices of a chip.
fn chip(alloc: Global, capacity: u32) -> Result<Mesh, Memory> {
    let mut table = roomy(alloc, 1024)?;
    for net in 0..1024 {
        send(&mut table, net, net, 7 + (net + 1) % 17);
    }
    let mut tables = Seq::new(alloc);
    tables.push(table.into_memory())?;
    let setup = MeshSetup::new(alloc, torus(alloc, 1, 1)?, spots(alloc, 1, 1, 17)?, tables, capacity)?;
    let mut mesh = Mesh::new(alloc, setup)?;
    for packet in 0..65536 {
        let net = packet % 1024;
        put(&mut mesh, net % 17, packet, net)?;
    }
    Ok(mesh)
}

fn opened(alloc: Global, what: &str, capacity: u32) -> Result<Mesh, Memory> {
    match what {
        "idle" => idle(alloc, capacity),
        "columns" => board(alloc, capacity, false),
        "rows" => board(alloc, capacity, true),
        _ => chip(alloc, capacity),
    }
}

// No worker: the drain; no turn: nothing.
fn moved<R: Threads + Wait + Sync>(rt: &R, alloc: Global, mesh: Mesh, what: &str, workers: u32, turns: u32) -> Result<Mesh, Memory> {
    let mut mesh = mesh;
    let pace = Pace { patience: PATIENCE, workers, turns };
    if what == "idle" {
        for number in 1..11 {
            mesh = match round(rt, alloc, mesh, pace, number, &FreeGate) {
                Ok(after) => after,
                Err((_, e)) => return Err(e),
            };
        }
        return Ok(mesh);
    }
    if workers == 0 {
        if turns > 0 {
            drain(alloc, &mut mesh)?;
        }
        return Ok(mesh);
    }
    match run_out(rt, alloc, mesh, pace, &FreeGate) {
        Ok(after) => Ok(after),
        Err((_, e)) => Err(e),
    }
}

fn timed<R: Threads + Wait + Sync + Clock>(
    rt: &R,
    alloc: Global,
    words: &[String],
    capacity: u32,
    workers: u32,
    turns: u32,
) -> Result<(Duration, u64, u64), Memory> {
    let mesh = opened(alloc, words[0].as_str(), capacity)?;
    let Ok(begun) = Instant::now(rt) else { return Err(Memory) };
    if workers == 0 && turns == 0 {
        return Ok((Duration::ZERO, 0, 0));
    }
    let after = moved(rt, alloc, mesh, words[0].as_str(), workers, turns)?;
    let Ok(taken) = begun.elapsed(rt) else { return Err(Memory) };
    Ok((taken, after.delivered().len() as u64, after.dumped().len() as u64))
}

fn main(rt: HostRuntime) -> ExitCode {
    let Ok(all) = env::args(&rt) else { return ExitCode::from(1) };
    let Ok(words) = all.skip(1).collect::<Vec<String>>(rt.alloc()) else { return ExitCode::from(1) };
    if words.len() < 4 {
        return ExitCode::from(2);
    }
    let Ok(capacity) = words[1].as_str().parse::<u32>() else { return ExitCode::from(3) };
    let Ok(workers) = words[2].as_str().parse::<u32>() else { return ExitCode::from(3) };
    let Ok(turns) = words[3].as_str().parse::<u32>() else { return ExitCode::from(3) };
    let Ok((taken, delivered, dumped)) = timed(&rt, rt.alloc(), words.as_slice(), capacity, workers, turns) else { return ExitCode::from(9) };
    let micros = taken.as_micros() as u64;
    let Ok(_) = println!(rt; "{micros} {delivered} {dumped}") else { return ExitCode::from(4) };
    ExitCode::from(0)
}
"""


# ---- jobs that are run

SIDE = 64


def sent(nets, packets, **run):
    """The members of a job that say what is sent: so many packets, net by net in turn."""
    return {"run": {**run, "packets": [{"net": nets[i % len(nets)]["name"], "index": 0} for i in range(packets)]}}


def on_board(packets, **run):
    job = gen_reference.job(1)
    return {**job, **sent(job["graph"]["nets"], packets, target=1024, **run)}


def on_machine(side, height, wrap, vertices, nets, packets, **run):
    machine = {"width": side, "height": height, "wrap": wrap}
    return {"version": 1, "machine": machine, "graph": {"vertices": vertices, "nets": nets}, **sent(nets, packets, **run)}


def named(count):
    return [{"name": f"v{i}"} for i in range(count)]


def net(number, source, targets):
    return {"name": f"n{number}", "source": f"v{source}", "targets": [f"v{it}" for it in targets]}


def anywhere(packets, **run):
    draw, count = random.Random(5), 4 * SIDE * SIDE
    nets = [net(i, draw.randrange(count), [draw.randrange(count) for _ in range(4)]) for i in range(512)]
    return on_machine(SIDE, SIDE, True, named(count), nets, packets, **run)


def to_near(packets, **run):
    count = 4 * SIDE * SIDE
    nets = [net(i, 16 * i, [(16 * i + 11 * k) % count for k in range(1, 5)]) for i in range(1024)]
    return on_machine(SIDE, SIDE, True, named(count), nets, packets, queue=370, workers=1, **run)


def across(packets, **run):
    vertices = [{"name": "v0", "at": [0, 0]}, {"name": "v1", "at": [SIDE - 1, 0]}, {"name": "v2", "at": [SIDE - 1, SIDE - 1]}]
    return on_machine(SIDE, SIDE, False, vertices, [net(0, 0, [1, 2])], packets, **run)


def round_a_ring(packets, **run):
    vertices = [{"name": f"v{i}", "at": [i, 0]} for i in range(SIDE)]
    return on_machine(SIDE, 1, True, vertices, [net(i, i, [(i + 13) % SIDE]) for i in range(SIDE)], packets, **run)


def to_one(packets, **run):
    vertices = [{"name": f"v{i}", "at": [i // 8, i % 8]} for i in range(64)]
    return on_machine(8, 8, False, vertices, [net(i, i, [0]) for i in range(1, 64)], packets, **run)


def to_a_fan(packets, **run):
    vertices = [{"name": f"v{i}", "at": [0, 0]} for i in range(17)]
    return on_machine(SIDE, SIDE, False, vertices, [net(0, 0, range(1, 17))], packets, **run)


SHORT = {"queue": 1, "patience": 1, "turns": 64}
# Of each row the command, the kind of job, how many packets, and how they are run.
ROWS = {
    "packets": [("run", on_board, 65536, {"queue": 31300, "turns": 64, "workers": 4})],
    "short": [("run", on_board, 65536, {"queue": 1200, "turns": 64, "workers": 4})],
    "tight": [("run", on_board, 4000, {"queue": 1, "patience": 1, "turns": 1, "workers": 2})],
    "few": [("run", anywhere, 370, {"queue": 370, "turns": 64, "workers": 4})],
    "near": [("run", to_near, packets, {"turns": 16}) for packets in (1000, 10000, 65536)],
    "near_turns": [("run", to_near, 65536, {"turns": 1})],
    "across": [("run", across, 2048, {"queue": 1, "patience": 255, "turns": 1})],
    "ring": [("reinject", round_a_ring, 1920, {**SHORT, "workers": workers}) for workers in (1, 8, 64)],
    "one": [("reinject", to_one, 1920, {**SHORT, "workers": workers}) for workers in (1, 64)],
    "fan": [("reinject", to_a_fan, 100, {"queue": 1}), ("run", to_a_fan, 100, {"queue": 370})],
}


def whole_commands(asked):
    programs = programs_of(asked)
    print(f"load {os.getloadavg()[0]:.1f}; least of {asked.runs} runs of {' and of '.join(programs)}")
    for row in asked.row:
        for word, kind, packets, run in ROWS[row]:
            count = max(1, packets // asked.part)
            job = kind(count, **run)
            show_programs(f"{row}: tables alone", programs, ["tables"], job, asked.runs)
            how = ", ".join(f"{name} {number}" for name, number in run.items())
            show_programs(f"{row}: {word}, {count} packets, {how}", programs, [word], job, asked.runs)


# ---- calls


def program_in(room):
    """Compiles the program in a copy of the repository with one crate more."""
    os.makedirs(f"{room}/crates/bench_rounds/src")
    for name in os.listdir(f"{ROOT}/crates"):
        os.symlink(f"{ROOT}/crates/{name}", f"{room}/crates/{name}")
    with open(f"{ROOT}/crates.txt", encoding="utf-8") as lines, open(f"{room}/crates.txt", "w", encoding="utf-8") as copy:
        copy.write(lines.read() + LINE)
    with open(f"{room}/crates/bench_rounds/src/main.rt", "w", encoding="utf-8") as source:
        source.write(PROGRAM)
    launcher.main(room, "bench_rounds", "spin_unchecked")
    return f"{room}/out/spin_unchecked"


def processor_time():
    """Of all programs that were run and have ended."""
    used = resource.getrusage(resource.RUSAGE_CHILDREN)
    return used.ru_utime + used.ru_stime


def one_run(program, *words):
    """Wall-clock time of the rounds or the drain, processor time of the whole, copies delivered and dumped."""
    before = processor_time()
    done = subprocess.run([program, *map(str, words)], capture_output=True, check=True)
    spent = processor_time() - before
    micros, delivered, dumped = map(int, done.stdout.split())
    return micros / 1e6, spent, delivered, dumped


def runs(program, *words):
    found = []
    while len(found) < RUNS and not (found and found[0][0] > LONG):
        found.append(one_run(program, *words))
    return found


def show(program, what, capacity, workers, turns, rounds=1):
    opening = min(spent for _, spent, _, _ in runs(program, what, capacity, 0, 0))
    found = runs(program, what, capacity, workers, turns)
    wall, spent = min(it[0] for it in found) / rounds, (min(it[1] for it in found) - opening) / rounds
    delivered = sorted(it[2] for it in found)
    how = f"{workers} workers, {turns} turns" if workers else "drain"
    text = f"{what}, capacity {capacity}, {how}:"
    times = f"{wall * 1000:10.1f} ms, processors {spent * 1000:10.1f} ms"
    print(f"{text:50} {times}, {len(found)} runs, delivered {delivered[0]} to {delivered[-1]}", flush=True)


def calls(parts):
    with tempfile.TemporaryDirectory(prefix="bench-rounds-") as room:
        program = program_in(room)
        if "idle" in parts:
            for capacity in (1, 16, 256):
                for workers in (1, 4):
                    show(program, "idle", capacity, workers, 1, IDLE_ROUNDS)
        if "board" in parts:
            for what, capacity in (("columns", 16), ("rows", 128), ("rows", 16)):
                show(program, what, capacity, 0, 1)
                for turns in (16, 64):
                    for workers in (1, 4):
                        show(program, what, capacity, workers, turns)
        if "chip" in parts:
            for capacity in (16, 65536):
                show(program, "chip", capacity, 0, 1)
                for workers in (1, 2):
                    show(program, "chip", capacity, workers, 64)


def main():
    parser = argparse.ArgumentParser(description="Times what rounds on threads cost (see the head of this file).")
    parser.add_argument("parts", nargs="*", metavar="PART", help="runs, idle, board, chip; all where none is named")
    parser.add_argument("--row", nargs="+", choices=ROWS, default=list(ROWS), help="of runs")
    parser.add_argument("--part", type=int, default=1, help="the part of its packets that each job of runs has: 10 for a tenth")
    add_programs(parser, 3)
    asked = parser.parse_args()
    parts = asked.parts or ["runs", "idle", "board", "chip"]
    if "runs" in parts:
        whole_commands(asked)
    if set(parts) & {"idle", "board", "chip"}:
        calls(parts)


if __name__ == "__main__":
    main()
