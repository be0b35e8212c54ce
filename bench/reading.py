"""Times what it costs to read a job near the limits: its JSON, and the job that the JSON is.

    python3 bench/reading.py

Jobs of 16,384 vertices, 4,096 nets with 22 targets each, 65,536 packets and 16,384 events are read, with names of 64 bytes,
which makes the text nearly as long as one may be, and with short names, which makes the work on each byte the greatest; and
jobs of little but dead chips, which have the most items. Each is read at a quarter and at half the size too.

The calls are made by a small program that stands below as text. It is compiled as the launcher's program is, without a
proof, from a copy of the repository that has it as one crate more; the crates that it calls are those that `rt ci` proves.
"""
import json
import os
import resource
import subprocess
import sys
import tempfile

ROOT = os.path.dirname(os.path.dirname(os.path.realpath(__file__)))
sys.path.insert(0, f"{ROOT}/tools")
import compile as launcher  # noqa: E402

LINE = "bench_reading: job_readers job_text serde_json app_graph machine_desc spin_base\n"

PROGRAM = r"""
#![tactic(auto)]

use app_graph::Net;
use job_readers::{Job, job_of};
use job_text::{Path, parse};
use spin_base::{StdSource, read_all};
use std::env;
use std::process::ExitCode;

// What a job has of each part.
struct Counts {
    vertices: usize,
    nets: usize,
    targets: usize,
    packets: usize,
    events: usize,
}

fn counts(job: &Job) -> Counts {
    Counts {
        vertices: job.graph.vertices.len(),
        nets: job.graph.nets.len(),
        targets: targets(job.graph.nets.as_slice()),
        packets: job.run.packets.len(),
        events: job.run.events.len(),
    }
}

fn targets(nets: &[Net]) -> usize {
    let mut count: usize = 0;
    for net in nets {
        count = count.wrapping_add(net.targets.len());
    }
    count
}

fn main(rt: HostRuntime) -> ExitCode {
    let Ok(all) = env::args(&rt) else { return ExitCode::from(1) };
    let Ok(words) = all.skip(1).collect::<Vec<String>>(rt.alloc()) else { return ExitCode::from(1) };
    if words.len() < 1 {
        return ExitCode::from(2);
    }
    let mut source = StdSource::new(rt.stdin());
    let Ok(bytes) = read_all(rt.alloc(), &mut source, 16777216) else { return ExitCode::from(3) };
    if words[0].as_str() == "read" {
        return ExitCode::from(0);
    }
    let Ok(value) = parse(rt.alloc(), bytes.as_slice()) else { return ExitCode::from(4) };
    if words[0].as_str() == "parse" {
        return ExitCode::from(0);
    }
    let Ok(job) = job_of(rt.alloc(), &value, &Path::Whole("job"), 3) else { return ExitCode::from(5) };
    let Counts { vertices, nets, targets, packets, events } = counts(&job);
    let Ok(_) = println!(rt; "{vertices} vertices, {nets} nets, {targets} targets, {packets} packets, {events} events")
    else { return ExitCode::from(6) };
    ExitCode::from(0)
}
"""


def program_in(room):
    """Compiles the program in a copy of the repository with one crate more."""
    os.makedirs(f"{room}/crates/bench_reading/src")
    for name in os.listdir(f"{ROOT}/crates"):
        os.symlink(f"{ROOT}/crates/{name}", f"{room}/crates/{name}")
    with open(f"{ROOT}/crates.txt", encoding="utf-8") as lines, open(f"{room}/crates.txt", "w", encoding="utf-8") as copy:
        copy.write(lines.read() + LINE)
    with open(f"{room}/crates/bench_reading/src/main.rt", "w", encoding="utf-8") as source:
        source.write(PROGRAM)
    launcher.main(room, "bench_reading", "spin_unchecked")
    return f"{room}/out/spin_unchecked"


def name(letter, i, width):
    return f"{letter}{i}".ljust(width, ".")


def full_job(part, width):
    """A job of all limits, each divided by `part`, with names that are filled up to so many bytes."""
    names = [name("v", i, width) for i in range(16384 // part)]
    vertices = [{"name": it, "sdram": 7 * i, "at": [i % 64, i // 64 % 64]} for i, it in enumerate(names)]
    nets = []
    for i in range(4096 // part):
        targets = [names[(31 * i + 7 * k) % len(names)] for k in range(22)]
        nets.append({"name": name("n", i, width), "source": names[i], "targets": targets, "keys": 16})
    packets = [
        {"net": nets[7 * i % len(nets)]["name"], "index": i % 16, "payload": 4294967295 - i} for i in range(65536 // part)
    ]
    events = [["inject", names[11 * i % len(names)]] for i in range(16384 // part)]
    graph = {"vertices": vertices, "nets": nets}
    run = {"packets": packets, "events": events}
    return {"version": 1, "machine": {"width": 64, "height": 64}, "graph": graph, "run": run}


def dead_job(part):
    """A job of nothing but entries of six bytes, as many as there is room for, divided by `part`."""
    machine = {"width": 64, "height": 64, "dead_chips": [[0, 0]] * (2796000 // part)}
    return {"version": 1, "machine": machine, "graph": {"vertices": [], "nets": []}}


def processor_time():
    """Of all programs that were run and have ended: other work on the machine does not count."""
    used = resource.getrusage(resource.RUSAGE_CHILDREN)
    return used.ru_utime + used.ru_stime


def timed(program, word, source):
    """The least processor time of three runs, in milliseconds, and what the program wrote."""
    times = []
    for _ in range(3):
        source.seek(0)
        before = processor_time()
        done = subprocess.run([program, word], stdin=source, capture_output=True, check=True)
        times.append((processor_time() - before) * 1000)
    return min(times), done.stdout.decode().strip()


def show(program, what, job):
    with tempfile.TemporaryFile() as source:
        size = source.write(json.dumps(job, separators=(",", ":")).encode())
        base, _ = timed(program, "read", source)
        parsed, _ = timed(program, "parse", source)
        read, wrote = timed(program, "job", source)
    parsed, read = parsed - base, read - base
    print(f"{what}, {size:,} bytes: {wrote}")
    print(f"  its JSON {parsed:.0f} ms, with the job {read:.0f} ms: {read / parsed:.2f} times as long")


def main():
    with tempfile.TemporaryDirectory(prefix="bench-reading-") as room:
        program = program_in(room)
        for part in (4, 2, 1):
            show(program, "names of 64 bytes", full_job(part, 64))
        for part in (4, 2, 1):
            show(program, "short names", full_job(part, 0))
        for part in (4, 2, 1):
            show(program, "dead chips", dead_job(part))


if __name__ == "__main__":
    main()
