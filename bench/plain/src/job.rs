//! A job, read from its JSON. It has to be valid: of what is wrong, only that is found which would stop the reading.

use crate::json::{BadJob, Json, Value};
use std::ops::Range;

pub struct Job<'a> {
    pub machine: Parts,
    pub vertices: Vec<Vertex<'a>>,
    pub nets: Vec<Net<'a>>,
    /// The targets of all nets, one net behind the other.
    pub targets: Vec<u32>,
    pub packets: Vec<Packet>,
    pub queue: usize,
    pub turns: u32,
    pub target: usize,
}

pub struct Parts {
    pub width: usize,
    pub height: usize,
    pub wrap: bool,
    pub sdram: u64,
    pub dead_chips: Vec<[u64; 2]>,
    pub dead_cores: Vec<[u64; 3]>,
    pub dead_links: Vec<[u64; 3]>,
}

pub struct Vertex<'a> {
    pub name: &'a [u8],
    pub sdram: u64,
    pub seat: Seat,
}

pub enum Seat {
    Anywhere,
    At([u64; 2]),
    Device([u64; 3]),
}

pub struct Net<'a> {
    pub name: &'a [u8],
    pub source: u32,
    /// Where its targets stand in the list of all.
    pub targets: Range<usize>,
    pub keys: u64,
    pub fixed: Option<[u64; 2]>,
}

#[derive(Clone, Copy)]
pub struct Packet {
    pub net: u32,
    pub index: u32,
    pub payload: Option<u32>,
}

const MEMORY: u64 = 134217728;

pub fn job_of<'a>(json: &'a Json<'_>) -> Result<Job<'a>, BadJob> {
    let [version, machine, graph, run] = json.members(0, ["version", "machine", "graph", "run"])?;
    let version = json.number(version.ok_or(BadJob)?)?;
    let machine = parts_of(json, machine.ok_or(BadJob)?)?;
    let [vertices, nets] = json.members(graph.ok_or(BadJob)?, ["vertices", "nets"])?;
    let vertices = vertices_of(json, vertices.ok_or(BadJob)?, version)?;
    let names = Names::of(vertices.iter().map(|it| it.name));
    let nets_at = nets.ok_or(BadJob)?;
    let mut targets = Vec::with_capacity(json.size(nets_at));
    let nets = nets_of(json, nets_at, version, &names, &mut targets)?;
    let mut job = Job { machine, vertices, nets, targets, packets: Vec::new(), queue: 16, turns: 16, target: 1024 };
    if let Some(run) = run {
        let [queue, turns, target, packets] = json.members(run, ["queue", "turns", "target", "packets"])?;
        job.queue = number_or(json, queue, 16)? as usize;
        job.turns = number_or(json, turns, 16)? as u32;
        job.target = number_or(json, target, 1024)? as usize;
        job.packets = packets.map_or(Ok(Vec::new()), |list| packets_of(json, list, &job.nets))?;
    }
    Ok(job)
}

fn number_or(json: &Json<'_>, value: Option<Value>, otherwise: u64) -> Result<u64, BadJob> {
    value.map_or(Ok(otherwise), |it| json.number(it))
}

fn parts_of(json: &Json<'_>, part: Value) -> Result<Parts, BadJob> {
    let names = ["width", "height", "wrap", "sdram", "dead_chips", "dead_cores", "dead_links"];
    let [width, height, wrap, sdram, chips, cores, links] = json.members(part, names)?;
    Ok(Parts {
        width: json.number(width.ok_or(BadJob)?)? as usize,
        height: json.number(height.ok_or(BadJob)?)? as usize,
        wrap: wrap.map_or(Ok(false), |it| json.truth(it))?,
        sdram: number_or(json, sdram, MEMORY)?,
        dead_chips: entries_of(json, chips)?,
        dead_cores: entries_of(json, cores)?,
        dead_links: entries_of(json, links)?,
    })
}

fn entries_of<const N: usize>(json: &Json<'_>, list: Option<Value>) -> Result<Vec<[u64; N]>, BadJob> {
    list.map_or(Ok(Vec::new()), |list| json.items(list)?.map(|it| json.numbers(it)).collect())
}

fn vertices_of<'a>(json: &'a Json<'_>, list: Value, version: u64) -> Result<Vec<Vertex<'a>>, BadJob> {
    let mut vertices = Vec::with_capacity(json.size(list) / 3);
    for item in json.items(list)? {
        let [name, sdram, at, device] = json.members(item, ["name", "sdram", "at", "device"])?;
        let seat = match (device.filter(|_| version >= 3), at) {
            (Some(it), _) => Seat::Device(json.numbers(it)?),
            (None, Some(it)) => Seat::At(json.numbers(it)?),
            (None, None) => Seat::Anywhere,
        };
        vertices.push(Vertex { name: json.text(name.ok_or(BadJob)?)?, sdram: number_or(json, sdram, 0)?, seat });
    }
    Ok(vertices)
}

fn nets_of<'a>(
    json: &'a Json<'_>,
    list: Value,
    version: u64,
    names: &Names<'_>,
    targets: &mut Vec<u32>,
) -> Result<Vec<Net<'a>>, BadJob> {
    let mut nets = Vec::new();
    for item in json.items(list)? {
        let [name, source, list, keys, fixed] = json.members(item, ["name", "source", "targets", "keys", "fixed"])?;
        let first = targets.len();
        for target in json.items(list.ok_or(BadJob)?)? {
            targets.push(names.find(json.text(target)?).ok_or(BadJob)?);
        }
        nets.push(Net {
            name: json.text(name.ok_or(BadJob)?)?,
            source: names.find(json.text(source.ok_or(BadJob)?)?).ok_or(BadJob)?,
            targets: first..targets.len(),
            keys: number_or(json, keys, 1)?,
            fixed: fixed.filter(|_| version >= 2).map(|it| json.numbers(it)).transpose()?,
        });
    }
    Ok(nets)
}

fn packets_of(json: &Json<'_>, list: Value, nets: &[Net<'_>]) -> Result<Vec<Packet>, BadJob> {
    let names = Names::of(nets.iter().map(|it| it.name));
    let mut packets = Vec::with_capacity(json.size(list) / 5);
    for item in json.items(list)? {
        let [net, index, payload] = json.members(item, ["net", "index", "payload"])?;
        packets.push(Packet {
            net: names.find(json.text(net.ok_or(BadJob)?)?).ok_or(BadJob)?,
            index: json.number(index.ok_or(BadJob)?)? as u32,
            payload: payload.map(|it| json.number(it)).transpose()?.map(|it| it as u32),
        });
    }
    Ok(packets)
}

/// Names by which their numbers are found: a table of slots, each with a number and one more, twice as many as names.
struct Names<'a> {
    names: Vec<&'a [u8]>,
    slots: Vec<u32>,
}

impl<'a> Names<'a> {
    fn of(names: impl Iterator<Item = &'a [u8]>) -> Names<'a> {
        let names: Vec<_> = names.collect();
        let mut slots = vec![0; (2 * names.len()).next_power_of_two()];
        for (number, name) in names.iter().enumerate() {
            let mut slot = hash(name) & (slots.len() - 1);
            while slots[slot] != 0 {
                slot = (slot + 1) & (slots.len() - 1);
            }
            slots[slot] = number as u32 + 1;
        }
        Names { names, slots }
    }

    fn find(&self, name: &[u8]) -> Option<u32> {
        let mut slot = hash(name) & (self.slots.len() - 1);
        loop {
            let number = self.slots[slot].checked_sub(1)?;
            if self.names[number as usize] == name {
                return Some(number);
            }
            slot = (slot + 1) & (self.slots.len() - 1);
        }
    }
}

/// Eight bytes at a time; of the rest each byte.
fn hash(name: &[u8]) -> usize {
    let mut sum = name.len() as u64;
    let (eights, rest) = name.as_chunks::<8>();
    for eight in eights {
        sum = (sum.rotate_left(5) ^ u64::from_le_bytes(*eight)).wrapping_mul(0x9e37_79b9_7f4a_7c15);
    }
    let mut last = 0;
    for byte in rest {
        last = last << 8 | u64::from(*byte);
    }
    sum = (sum.rotate_left(5) ^ last).wrapping_mul(0x9e37_79b9_7f4a_7c15);
    (sum >> 32) as usize
}
