//! Shortest walks of live links from a tree to a chip. A set of chips is a word for each column of the grid.

use crate::machine::{opposite, Chip, Machine, EAST, NORTH, NORTH_EAST, SOUTH, SOUTH_WEST, WEST};
use crate::trees::CutOff;

pub struct Detours<'m> {
    machine: &'m Machine,
    full: u64,
    tree: Vec<u64>,
    seen: Vec<u64>,
    /// One set behind the other: the chips that are so many links from the target.
    waves: Vec<u64>,
    found: Vec<(Chip, u8)>,
}

impl<'m> Detours<'m> {
    pub fn of(machine: &'m Machine) -> Detours<'m> {
        let none = vec![0; machine.width];
        let full = u64::MAX >> (64 - machine.height);
        Detours { machine, full, tree: none.clone(), seen: none, waves: Vec::new(), found: Vec::new() }
    }

    /// Detours are to begin at these chips from now on.
    pub fn begin(&mut self, tree: &[Chip]) {
        self.tree.fill(0);
        for &chip in tree {
            let (x, y) = self.machine.spot(chip);
            self.tree[x as usize] |= 1 << y;
        }
    }

    /// The chips of the detour that was found, from the tree on, each with the port by which packets come in.
    pub fn found(&self) -> &[(Chip, u8)] {
        &self.found
    }

    /// Finds a detour to the target, and adds its chips to the tree. Waves go from the target out until one comes to the tree; then
    /// only that of each wave is left which lies on a shortest walk.
    pub fn find(&mut self, target: Chip) -> Result<(), CutOff> {
        let width = self.machine.width;
        let (x, y) = self.machine.spot(target);
        self.seen.fill(0);
        self.seen[x as usize] = 1 << y;
        self.waves.clear();
        self.waves.extend_from_slice(&self.seen);
        let mut length = 0;
        while !self.is_at_tree(length) {
            self.waves.resize((length + 2) * width, 0);
            if !self.spread(usize::from(x), length) {
                return Err(CutOff(target));
            }
            length += 1;
        }
        for (wave, tree) in self.waves[length * width..].iter_mut().zip(&self.tree) {
            *wave &= tree;
        }
        for wave in (0..length).rev() {
            self.narrow(usize::from(x), wave);
        }
        self.trace(target, length);
        Ok(())
    }

    fn is_at_tree(&self, wave: usize) -> bool {
        let wave = &self.waves[wave * self.machine.width..];
        wave.iter().zip(&self.tree).any(|(wave, tree)| wave & tree != 0)
    }

    /// Makes the next wave. Whether there is one.
    fn spread(&mut self, x: usize, wave: usize) -> bool {
        let width = self.machine.width;
        let (waves, new) = self.waves.split_at_mut((wave + 1) * width);
        let mut any = 0;
        for column in columns_within(x, wave + 1, width) {
            let reached = reached(self.machine, self.full, &waves[wave * width..], column) & !self.seen[column];
            new[column] = reached;
            self.seen[column] |= reached;
            any |= reached;
        }
        any != 0
    }

    /// Leaves of a wave what is reached from the next one.
    fn narrow(&mut self, x: usize, wave: usize) {
        let width = self.machine.width;
        let (waves, outer) = self.waves.split_at_mut((wave + 1) * width);
        for column in columns_within(x, wave, width) {
            let chips = &mut waves[wave * width + column];
            if *chips != 0 {
                *chips &= reached(self.machine, self.full, outer, column);
            }
        }
    }

    /// Goes back from the target: into each chip by the least link from a chip that is one nearer to the tree.
    fn trace(&mut self, target: Chip, length: usize) {
        self.found.clear();
        let mut chip = target;
        for wave in 1..=length {
            let (x, y) = self.machine.spot(chip);
            self.tree[x as usize] |= 1 << y;
            let before = (0..6).find_map(|link| {
                let before = self.machine.next(chip, opposite(link))?;
                let (x, y) = self.machine.spot(before);
                let is_nearer = self.waves[wave * self.machine.width + x as usize] >> y & 1 == 1;
                (is_nearer && self.machine.is_live_link(before, link)).then_some((before, link))
            });
            let (before, link) = before.expect("a wave is reached from the next one");
            self.found.push((chip, opposite(link)));
            chip = before;
        }
        self.found.reverse();
    }
}

/// The columns that are at most so far from one.
fn columns_within(x: usize, far: usize, width: usize) -> impl Iterator<Item = usize> {
    let (first, count) = if 2 * far + 1 >= width { (0, width) } else { ((x + width - far) % width, 2 * far + 1) };
    (first..first + count).map(move |it| if it < width { it } else { it - width })
}

/// The chips of a column to which a live link leads from a chip of the set. Where a link would leave the grid it is not live, so it
/// does no harm that columns and rows count round.
fn reached(machine: &Machine, full: u64, set: &[u64], x: usize) -> u64 {
    let west = if x == 0 { machine.width - 1 } else { x - 1 };
    let east = if x + 1 == machine.width { 0 } else { x + 1 };
    let by = |link: u8, column: usize| set[column] & machine.links[link as usize][column];
    let up = by(NORTH_EAST, west) | by(NORTH, x);
    let down = by(SOUTH_WEST, east) | by(SOUTH, x);
    let top = machine.height - 1;
    (by(EAST, west) | by(WEST, east) | up << 1 | up >> top | down >> 1 | down << top) & full
}
