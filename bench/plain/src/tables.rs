//! The tables of all chips: a row for each net whose tree has the chip, merged where they are too many, and without the rows that
//! default routing replaces.

use crate::covering::{cover, generality};
use crate::job::Job;
use crate::machine::{opposite, Chip, Machine, CORES, LOCAL};
use crate::places::{Block, Place};
use crate::rows::Row;
use crate::trees::{CutOff, Stop, Trees};

#[derive(Clone, Copy)]
pub struct Entry {
    pub block: Block,
    pub route: u32,
}

/// Why there are no tables.
pub enum NoTables {
    CutOff { net: usize, chip: Chip },
    Long { chip: Chip, rows: usize },
}

const MOST_ROWS: usize = 1024;

/// A net's part of a chip's table, of which there are many: the net, and the route with the port above it.
struct Part {
    net: u32,
    route: u32,
}

const PORT_AT: u32 = 24;

impl Part {
    fn of(net: usize, stop: &Stop) -> Part {
        Part { net: net as u32, route: stop.route | u32::from(stop.port) << PORT_AT }
    }

    fn row(&self, blocks: &[Block]) -> Row {
        let (route, port) = (self.route & ((1 << PORT_AT) - 1), (self.route >> PORT_AT) as u8);
        Row { block: blocks[self.net as usize], route, is_straight: is_straight(route, port) }
    }
}

fn is_straight(route: u32, port: u8) -> bool {
    port != LOCAL && route == 1 << opposite(port)
}

pub fn tables(machine: &Machine, job: &Job<'_>, places: &[Place], blocks: &[Block]) -> Result<Vec<Vec<Entry>>, NoTables> {
    let parts = parts_of(machine, job, places, blocks)?;
    let mut tables = Vec::with_capacity(parts.len());
    for (chip, parts) in parts.into_iter().enumerate() {
        let rows = parts.iter().map(|part| part.row(blocks));
        let table: Vec<Entry> = if parts.len() > job.target {
            cover(&rows.collect::<Vec<_>>(), job.target).into_iter().map(entry_of).collect()
        } else {
            rows.filter(|row| !row.is_straight).map(entry_of).collect()
        };
        if table.len() > MOST_ROWS {
            return Err(NoTables::Long { chip: chip as Chip, rows: table.len() });
        }
        tables.push(table);
    }
    Ok(tables)
}

fn entry_of(row: Row) -> Entry {
    Entry { block: row.block, route: row.route }
}

/// The parts of each chip's table, in the order of its rows. Where no table can be too long, rows that go straight on are left out
/// at once: no net has a key of another.
fn parts_of(machine: &Machine, job: &Job<'_>, places: &[Place], blocks: &[Block]) -> Result<Vec<Vec<Part>>, NoTables> {
    let mut order: Vec<usize> = (0..job.nets.len()).collect();
    order.sort_unstable_by_key(|&net| (generality(blocks[net]), blocks[net].key));
    let outputs: Vec<(Chip, u32)> = places.iter().map(|it| (it.chip, output_of(it.number))).collect();
    let may_be_covered = job.nets.len() > job.target;
    let (mut trees, mut targets) = (Trees::of(machine), Vec::new());
    let mut parts: Vec<Vec<Part>> = (0..machine.live.len()).map(|_| Vec::new()).collect();
    let mut lost = None;
    for net in order {
        targets.clear();
        targets.extend(job.targets[job.nets[net].targets.clone()].iter().map(|&it| outputs[it as usize]));
        let root = places[job.nets[net].source as usize].chip;
        let made = trees.route(root, &targets, |stop| {
            if may_be_covered || !is_straight(stop.route, stop.port) {
                parts[stop.chip as usize].push(Part::of(net, &stop));
            }
        });
        if let Err(CutOff(chip)) = made {
            if lost.is_none_or(|(first, _)| net < first) {
                lost = Some((net, chip));
            }
        }
    }
    lost.map_or(Ok(parts), |(net, chip)| Err(NoTables::CutOff { net, chip }))
}

fn output_of(number: u8) -> u32 {
    1 << if number < CORES { number + 6 } else { number - CORES }
}
