//! The words `tables` and `run` of Kulzobad as a plain program, made anew from docs/formats.md: how much time does a program take
//! about which nothing is proved? And where the two write other bytes, one of them is wrong.
//!
//! It reads a valid job, and writes the same bytes and ends with the same statuses; of jobs with faults only that each ends with
//! status 4. Where queues are too short for all packets, it may drop others. `bench/plain.py` builds it, and compares both.
#![forbid(unsafe_code)]

mod covering;
mod detours;
mod index;
mod job;
mod json;
mod machine;
mod places;
mod report;
mod rows;
mod running;
mod tables;
mod trees;

use job::Job;
use json::Json;
use machine::Machine;
use report::Text;
use std::io::{Read, Write};
use std::process::ExitCode;
use tables::NoTables;

const MOST_BYTES: usize = 16_777_216;

#[derive(Clone, Copy, PartialEq)]
enum Word {
    Tables,
    Run,
}

fn main() -> ExitCode {
    let words: Vec<String> = std::env::args().skip(1).collect();
    let word = match words.iter().map(String::as_str).collect::<Vec<_>>()[..] {
        ["tables"] => Word::Tables,
        ["run"] => Word::Run,
        _ => return written(1, b"usage: tables or run\n"),
    };
    let mut bytes = Vec::new();
    if std::io::stdin().lock().read_to_end(&mut bytes).is_err() {
        return written(2, b"read fault\n");
    }
    if bytes.len() > MOST_BYTES {
        return written(4, b"bad job: too long\n");
    }
    let Ok(json) = Json::parse(&bytes) else { return written(4, b"bad job: not json\n") };
    let Ok(job) = job::job_of(&json) else { return written(4, b"bad job\n") };
    let mut text = Text::default();
    let status = answer(word, &job, &mut text);
    written(status, &text.bytes)
}

fn written(status: u8, bytes: &[u8]) -> ExitCode {
    let mut sink = std::io::stdout().lock();
    match sink.write_all(bytes).and_then(|()| sink.flush()) {
        Ok(()) => ExitCode::from(status),
        Err(_) => ExitCode::from(3),
    }
}

/// Writes the answer to a job, and gives its status.
fn answer(word: Word, job: &Job<'_>, text: &mut Text) -> u8 {
    let machine = Machine::of(&job.machine);
    let places = match places::place(&machine, &job.vertices) {
        Ok(places) => places,
        Err(vertex) => {
            text.word(b"no room: ").word(job.vertices[vertex].name).end();
            return 5;
        }
    };
    let blocks = match places::blocks(&job.nets) {
        Ok(blocks) => blocks,
        Err(net) => {
            text.word(b"keys out: ").word(job.nets[net].name).end();
            return 6;
        }
    };
    let tables = match tables::tables(&machine, job, &places, &blocks) {
        Ok(tables) => tables,
        Err(NoTables::CutOff { net, chip }) => {
            text.word(b"cut off: ").word(job.nets[net].name).spot(machine.spot(chip)).end();
            return 7;
        }
        Err(NoTables::Long { chip, rows }) => {
            text.word(b"table long:").spot(machine.spot(chip)).number(rows).end();
            return 8;
        }
    };
    let rows = report::write_plan(text, &machine, job, &places, &blocks, &tables);
    match word {
        Word::Tables => text.word(b"end rows").number(rows).end(),
        Word::Run => {
            let keys = running::keys_of(&job.packets, &blocks);
            let outcome = running::run(&machine, job, &places, keys.clone(), &tables);
            report::write_outcome(text, &machine, job, &keys, &outcome);
        }
    }
    0
}
