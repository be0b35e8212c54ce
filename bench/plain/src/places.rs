//! Where vertices stand, and which keys nets have.

use crate::job::{Net, Seat, Vertex};
use crate::machine::{Chip, Machine, CORES};
use std::collections::BTreeMap;

/// A chip and a number there: a core, or 18 and the link of a device.
#[derive(Clone, Copy)]
pub struct Place {
    pub chip: Chip,
    pub number: u8,
}

/// A key and a mask.
#[derive(Clone, Copy, PartialEq)]
pub struct Block {
    pub key: u32,
    pub mask: u32,
}

/// The place of each vertex, or the first that has none.
pub fn place(machine: &Machine, vertices: &[Vertex<'_>]) -> Result<Vec<Place>, usize> {
    let mut board = Board::of(machine);
    let mut places = Vec::with_capacity(vertices.len());
    for (number, vertex) in vertices.iter().enumerate() {
        let place = match vertex.seat {
            Seat::Device([x, y, link]) => machine
                .chip_inside(x, y)
                .filter(|&chip| machine.live[chip as usize] && !machine.is_live_link(chip, link as u8))
                .map(|chip| Place { chip, number: CORES + link as u8 }),
            Seat::At([x, y]) => machine
                .chip_inside(x, y)
                .map(|chip| board.leaf_of[chip as usize])
                .filter(|&leaf| leaf != 0 && board.rooms[leaf] > vertex.sdram)
                .map(|leaf| board.take(leaf, vertex.sdram)),
            Seat::Anywhere => board.first_with(vertex.sdram).map(|leaf| board.take(leaf, vertex.sdram)),
        };
        places.push(place.ok_or(number)?);
    }
    Ok(places)
}

/// A tree over the live chips along Hilbert's curve. Its leaves have the free bytes of a chip and one more, or 0 where no core is
/// free; each node above has the greater of two.
struct Board {
    rooms: Vec<u64>,
    chips: Vec<Chip>,
    cores: Vec<u32>,
    /// Of each chip its leaf; 0 where it is dead.
    leaf_of: Vec<usize>,
    leaves: usize,
}

impl Board {
    fn of(machine: &Machine) -> Board {
        let side = machine.width.max(machine.height).next_power_of_two();
        let mut chips = Vec::with_capacity(machine.live.len());
        for (x, y) in hilbert(side) {
            if let Some(chip) = machine.chip_inside(x, y).filter(|&it| machine.live[it as usize]) {
                chips.push(chip);
            }
        }
        let leaves = chips.len().next_power_of_two();
        let (mut rooms, mut leaf_of) = (vec![0; 2 * leaves], vec![0; machine.live.len()]);
        let mut cores = Vec::with_capacity(chips.len());
        for (i, &chip) in chips.iter().enumerate() {
            let free = !machine.dead_cores[chip as usize] & ((1 << CORES) - 2);
            rooms[leaves + i] = if free == 0 { 0 } else { machine.sdram + 1 };
            cores.push(free);
            leaf_of[chip as usize] = leaves + i;
        }
        for node in (1..leaves).rev() {
            rooms[node] = rooms[2 * node].max(rooms[2 * node + 1]);
        }
        Board { rooms, chips, cores, leaf_of, leaves }
    }

    fn first_with(&self, sdram: u64) -> Option<usize> {
        if self.rooms[1] <= sdram {
            return None;
        }
        let mut node = 1;
        while node < self.leaves {
            node = 2 * node + usize::from(self.rooms[2 * node] <= sdram);
        }
        Some(node)
    }

    /// The least free core of the chip.
    fn take(&mut self, leaf: usize, sdram: u64) -> Place {
        let free = &mut self.cores[leaf - self.leaves];
        let core = free.trailing_zeros() as u8;
        *free &= *free - 1;
        self.rooms[leaf] = if *free == 0 { 0 } else { self.rooms[leaf] - sdram };
        let mut node = leaf / 2;
        while node > 0 {
            let most = self.rooms[2 * node].max(self.rooms[2 * node + 1]);
            if self.rooms[node] == most {
                break;
            }
            self.rooms[node] = most;
            node /= 2;
        }
        Place { chip: self.chips[leaf - self.leaves], number: core }
    }
}

/// The curve through a square: four curves of half the side.
fn hilbert(side: usize) -> Vec<(u64, u64)> {
    let mut curve = Vec::with_capacity(side * side);
    curve.push((0, 0));
    let mut half = 1;
    while half < side as u64 {
        let count = curve.len();
        for part in 1..4 {
            for i in 0..count {
                let (x, y) = curve[i];
                curve.push(match part {
                    1 => (x, y + half),
                    2 => (x + half, y + half),
                    _ => (2 * half - 1 - y, half - 1 - x),
                });
            }
        }
        for (x, y) in &mut curve[..count] {
            std::mem::swap(x, y);
        }
        half *= 2;
    }
    curve
}

/// The block of each net, or the first net for which none is left.
pub fn blocks(nets: &[Net<'_>]) -> Result<Vec<Block>, usize> {
    let mut holes = Holes::between(nets);
    let mut blocks = Vec::with_capacity(nets.len());
    for (number, net) in nets.iter().enumerate() {
        blocks.push(match net.fixed {
            Some([key, mask]) => Block { key: key as u32, mask: mask as u32 },
            None => {
                let size = net.keys.next_power_of_two();
                let key = holes.take(size).ok_or(number)?;
                Block { key: key as u32, mask: (ALL_KEYS - size) as u32 }
            }
        });
    }
    Ok(blocks)
}

const ALL_KEYS: u64 = 1 << 32;

/// The longest ranges of free keys: of each its end and where it begins. No free block of a size begins below its `from`.
struct Holes {
    holes: BTreeMap<u64, u64>,
    from: [u64; 33],
}

impl Holes {
    fn between(nets: &[Net<'_>]) -> Holes {
        let fixed = |net: &Net<'_>| net.fixed.map(|[key, mask]| (key, key + ALL_KEYS - mask));
        let mut taken: Vec<(u64, u64)> = nets.iter().filter_map(fixed).collect();
        taken.sort_unstable();
        taken.push((ALL_KEYS, ALL_KEYS));
        let (mut holes, mut begin) = (BTreeMap::new(), 0);
        for (first, end) in taken {
            if begin < first {
                holes.insert(first, begin);
            }
            begin = end;
        }
        Holes { holes, from: [0; 33] }
    }

    /// The least multiple of the size from which so many keys are free.
    fn take(&mut self, size: u64) -> Option<u64> {
        let from = &mut self.from[size.trailing_zeros() as usize];
        let fits = |(&end, &begin): (&u64, &u64)| {
            let key = (begin + size - 1) & !(size - 1);
            (key + size <= end).then_some((begin, key, end))
        };
        let (begin, key, end) = self.holes.range(*from..).find_map(fits)?;
        *from = key + size;
        self.holes.remove(&end);
        if begin < key {
            self.holes.insert(key, begin);
        }
        if key + size < end {
            self.holes.insert(end, key + size);
        }
        Some(key)
    }
}
