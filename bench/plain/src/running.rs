//! The machine at work: routers and queues, with packets on their way.

use crate::job::{Job, Packet};
use crate::machine::{opposite, Chip, Machine, CORES, LOCAL};
use crate::places::{Block, Place};
use crate::tables::Entry;
use std::collections::VecDeque;

/// What became of all packets: deliveries by packet and vertex, and copies that were dropped by packet, chip and output.
pub struct Outcome {
    pub delivered: Vec<(u16, u16)>,
    pub dumped: Vec<(u16, Chip, u8)>,
}

const OUTPUTS: usize = 24;
const PORTS: usize = 7;

/// A copy of a packet in a queue of a router: the packet above the port. In a queue of a core it is above the vertex.
type Copy = u32;

struct Lookup<'t> {
    entries: &'t [Entry],
    /// Keys that were looked up before, with their routes: twice as many slots as entries.
    seen: Vec<(u32, u32)>,
}

impl Lookup<'_> {
    fn of(entries: &[Entry]) -> Lookup<'_> {
        Lookup { entries, seen: vec![(0, NEVER); (2 * entries.len()).next_power_of_two()] }
    }

    /// The route of the first entry that matches the key; 0 where none does.
    fn route(&mut self, key: u32) -> u32 {
        let slot = key.wrapping_mul(0x9e37_79b9) as u64 * self.seen.len() as u64 >> 32;
        let seen = &mut self.seen[slot as usize];
        if seen.0 != key || seen.1 == NEVER {
            let found = self.entries.iter().find(|it| key & it.block.mask == it.block.key);
            *seen = (key, found.map_or(0, |it| it.route));
        }
        seen.1
    }
}

const NEVER: u32 = u32::MAX;

/// One chip: its router, whose copies wait in one list, and its bank.
struct Node<'t> {
    lookup: Lookup<'t>,
    waiting: VecDeque<Copy>,
    /// How many of them are in the queue of each port.
    held: [u32; PORTS],
    arrived: VecDeque<Copy>,
    unsent: Vec<u16>,
    sent: usize,
}

struct Mesh<'t> {
    machine: &'t Machine,
    nodes: Vec<Node<'t>>,
    keys: Vec<u32>,
    capacity: u32,
    /// The vertex behind each output of each chip, and one more; 0 where there is none.
    vertices: Vec<u16>,
    /// How many copies wait for each vertex.
    held: Vec<u32>,
    outcome: Outcome,
}

/// The key of each packet.
pub fn keys_of(packets: &[Packet], blocks: &[Block]) -> Vec<u32> {
    packets.iter().map(|it| blocks[it.net as usize].key + it.index).collect()
}

/// Rounds are made, in which each router and each bank has its turns, until nothing waits and nothing is unsent.
pub fn run(machine: &Machine, job: &Job<'_>, places: &[Place], keys: Vec<u32>, tables: &[Vec<Entry>]) -> Outcome {
    let mut mesh = Mesh::open(machine, job, places, keys, tables);
    while mesh.round(job.turns) {}
    let mut outcome = mesh.outcome;
    outcome.delivered = by_packet(&outcome.delivered, job.packets.len());
    outcome.dumped.sort_unstable();
    outcome
}

/// Deliveries in order: first each to where those of its packet begin, then those of a packet among each other.
fn by_packet(delivered: &[(u16, u16)], packets: usize) -> Vec<(u16, u16)> {
    let mut ends = vec![0usize; packets + 1];
    for &(packet, _) in delivered {
        ends[usize::from(packet) + 1] += 1;
    }
    for packet in 0..packets {
        ends[packet + 1] += ends[packet];
    }
    let mut sorted = vec![(0, 0); delivered.len()];
    for &it in delivered {
        let end = &mut ends[usize::from(it.0)];
        sorted[*end] = it;
        *end += 1;
    }
    for of_packet in sorted.chunk_by_mut(|one, other| one.0 == other.0) {
        of_packet.sort_unstable_by_key(|it| it.1);
    }
    sorted
}

impl<'t> Mesh<'t> {
    fn open(machine: &'t Machine, job: &Job<'_>, places: &[Place], keys: Vec<u32>, tables: &'t [Vec<Entry>]) -> Mesh<'t> {
        let node = |entries: &'t Vec<Entry>| Node {
            lookup: Lookup::of(entries),
            waiting: VecDeque::new(),
            held: [0; PORTS],
            arrived: VecDeque::new(),
            unsent: Vec::new(),
            sent: 0,
        };
        let mut nodes: Vec<Node<'t>> = tables.iter().map(node).collect();
        for (packet, it) in job.packets.iter().enumerate() {
            let source = job.nets[it.net as usize].source;
            nodes[places[source as usize].chip as usize].unsent.push(packet as u16);
        }
        let mut vertices = vec![0; nodes.len() * OUTPUTS];
        for (vertex, place) in places.iter().enumerate() {
            let output = if place.number < CORES { place.number + 6 } else { place.number - CORES };
            vertices[place.chip as usize * OUTPUTS + output as usize] = vertex as u16 + 1;
        }
        let outcome = Outcome { delivered: Vec::with_capacity(job.packets.len()), dumped: Vec::new() };
        Mesh { machine, nodes, keys, capacity: job.queue as u32, vertices, held: vec![0; places.len()], outcome }
    }

    /// Whether anything was done.
    fn round(&mut self, turns: u32) -> bool {
        let mut any = false;
        for chip in 0..self.nodes.len() {
            let node = &self.nodes[chip];
            if node.waiting.is_empty() && node.arrived.is_empty() && node.sent == node.unsent.len() {
                continue;
            }
            any = true;
            let mut left = turns;
            while left > 0 && self.router_turn(chip as Chip) {
                left -= 1;
            }
            left = turns;
            while left > 0 && self.bank_turn(chip) {
                left -= 1;
            }
        }
        any
    }

    /// Takes a copy from a queue, and sends one by each output of its route. Whether there was one.
    fn router_turn(&mut self, chip: Chip) -> bool {
        let node = &mut self.nodes[chip as usize];
        let Some(copy) = node.waiting.pop_front() else { return false };
        let (packet, port) = ((copy >> 3) as u16, (copy & 7) as u8);
        node.held[port as usize] -= 1;
        let mut left = node.lookup.route(self.keys[packet as usize]);
        if left == 0 && port != LOCAL {
            left = 1 << opposite(port);
        }
        while left != 0 {
            let output = left.trailing_zeros() as u8;
            if !self.send(chip, output, packet) {
                self.outcome.dumped.push((packet, chip, output));
            }
            left &= left - 1;
        }
        true
    }

    /// Puts a copy into the queue behind an output, where there is one and it has room.
    fn send(&mut self, chip: Chip, output: u8, packet: u16) -> bool {
        if output < LOCAL && self.machine.is_live_link(chip, output) {
            let Some(end) = self.machine.next(chip, output) else { return false };
            return self.nodes[end as usize].take_in(packet, opposite(output), self.capacity);
        }
        let vertex = self.vertices[chip as usize * OUTPUTS + output as usize];
        if vertex == 0 || self.held[vertex as usize - 1] == self.capacity {
            return false;
        }
        self.held[vertex as usize - 1] += 1;
        self.nodes[chip as usize].arrived.push_back(u32::from(packet) << 16 | u32::from(vertex - 1));
        true
    }

    /// Offers an unsent packet to the router, and hands a copy that arrived to its vertex. Whether one of the two was done.
    fn bank_turn(&mut self, chip: usize) -> bool {
        let node = &mut self.nodes[chip];
        let is_taken = node.unsent.get(node.sent).copied().is_some_and(|packet| node.take_in(packet, LOCAL, self.capacity));
        node.sent += usize::from(is_taken);
        let Some(copy) = node.arrived.pop_front() else { return is_taken };
        let (packet, vertex) = ((copy >> 16) as u16, copy as u16);
        self.held[vertex as usize] -= 1;
        self.outcome.delivered.push((packet, vertex));
        true
    }
}

impl Node<'_> {
    fn take_in(&mut self, packet: u16, port: u8, capacity: u32) -> bool {
        let held = &mut self.held[port as usize];
        if *held == capacity {
            return false;
        }
        *held += 1;
        self.waiting.push_back(u32::from(packet) << 3 | u32::from(port));
        true
    }
}
