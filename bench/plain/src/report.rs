//! The text that is written.

use crate::job::Job;
use crate::machine::{Machine, CORES};
use crate::places::{Block, Place};
use crate::running::Outcome;
use crate::tables::Entry;

#[derive(Default)]
pub struct Text {
    pub bytes: Vec<u8>,
}

const LINKS: [&str; 6] = ["E", "NE", "N", "W", "SW", "S"];

impl Text {
    pub fn word(&mut self, word: &[u8]) -> &mut Text {
        self.bytes.extend_from_slice(word);
        self
    }

    /// A blank and a word.
    fn then(&mut self, word: &[u8]) -> &mut Text {
        self.bytes.push(b' ');
        self.word(word)
    }

    /// A blank and a number.
    pub fn number(&mut self, number: usize) -> &mut Text {
        let (mut digits, mut at, mut left) = ([b' '; 21], 20, number);
        loop {
            digits[at] = b'0' + (left % 10) as u8;
            left /= 10;
            at -= 1;
            if left == 0 {
                break;
            }
        }
        self.word(&digits[at..])
    }

    /// A number of eight hexadecimal digits.
    fn hex(&mut self, number: u32) -> [u8; 8] {
        // one nibble in each byte, the highest first
        let mut wide = u64::from(number);
        wide = (wide | wide << 16) & 0x0000_ffff_0000_ffff;
        wide = (wide | wide << 8) & 0x00ff_00ff_00ff_00ff;
        wide = (wide | wide << 4) & 0x0f0f_0f0f_0f0f_0f0f;
        let letters = (wide + 0x0606_0606_0606_0606) >> 4 & 0x0101_0101_0101_0101;
        (wide + 0x3030_3030_3030_3030 + letters * u64::from(b'a' - b'0' - 10)).to_be_bytes()
    }

    fn word_of(&mut self, number: u32) -> &mut Text {
        let digits = self.hex(number);
        self.word(&digits)
    }

    fn block(&mut self, block: Block) -> &mut Text {
        self.word_of(block.key).word(b" ").word_of(block.mask)
    }

    pub fn end(&mut self) {
        self.bytes.push(b'\n');
    }

    pub fn spot(&mut self, (x, y): (u8, u8)) -> &mut Text {
        self.number(usize::from(x)).number(usize::from(y))
    }
}

/// The lines of the plan; how many rows its tables have together.
pub fn write_plan(text: &mut Text, machine: &Machine, job: &Job<'_>, places: &[Place], blocks: &[Block], tables: &[Vec<Entry>]) -> usize {
    for (vertex, place) in job.vertices.iter().zip(places) {
        text.word(b"place").then(vertex.name).spot(machine.spot(place.chip)).number(usize::from(place.number)).end();
    }
    for (net, &block) in job.nets.iter().zip(blocks) {
        text.word(b"keys").then(net.name).word(b" ").block(block).end();
    }
    let mut rows = 0;
    for (chip, table) in tables.iter().enumerate().filter(|(_, table)| !table.is_empty()) {
        text.word(b"table").spot(machine.spot(chip as u16)).number(table.len()).end();
        for entry in table {
            let route = text.hex(entry.route);
            text.block(entry.block).then(&route[2..]).end();
        }
        rows += table.len();
    }
    rows
}

pub fn write_outcome(text: &mut Text, machine: &Machine, job: &Job<'_>, keys: &[u32], outcome: &Outcome) {
    for &(packet, vertex) in &outcome.delivered {
        let it = job.packets[packet as usize];
        text.word(b"got").then(job.vertices[vertex as usize].name).number(usize::from(packet)).word(b" ").word_of(keys[packet as usize]);
        match it.payload {
            Some(payload) => text.word(b" ").word_of(payload).end(),
            None => text.word(b" -").end(),
        }
    }
    for &(packet, chip, output) in &outcome.dumped {
        text.word(b"dump").spot(machine.spot(chip));
        match LINKS.get(output as usize) {
            Some(link) => text.then(link.as_bytes()),
            None => text.word(b" c").word(&Text::default().number(usize::from(output - 6)).bytes[1..]),
        };
        text.number(usize::from(packet)).end();
    }
    text.word(b"end delivered").number(outcome.delivered.len()).word(b" dumped").number(outcome.dumped.len());
    text.word(b" waiting 0 unsent 0").end();
}

/// The output of a device is its link.
const _: () = assert!(CORES == 18);
