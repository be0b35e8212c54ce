//! The tree of a net: grown target by target as if nothing were dead, then led round what is dead.

use crate::detours::Detours;
use crate::machine::{opposite, Chip, Machine, EAST, LOCAL, NORTH, NORTH_EAST, SOUTH, SOUTH_WEST, WEST};

/// A target is joined to a chip of the tree at most so many links away.
const RADIUS: i32 = 20;
/// A window of a column has so many places, with the target's own in the middle.
const WINDOW: u64 = (1 << (2 * RADIUS + 1)) - 1;
/// The place of y = 0 in a tall column.
const BASE: u32 = 32;
/// The port of a chip that is not in the tree.
const OUTSIDE: u8 = 7;

/// The target that is cut off.
pub struct CutOff(pub Chip);

/// One chip of a tree: the port by which packets come in, and the outputs as bits of a route.
pub struct Stop {
    pub chip: Chip,
    pub port: u8,
    pub route: u32,
}

/// What trees are made with, one after the other.
pub struct Trees<'m> {
    machine: &'m Machine,
    /// Of each y the places that stand for it in a tall column. On a torus a column is repeated, so that each window is a run.
    places: Vec<u128>,
    columns: Vec<u128>,
    /// The chips of the tree, each behind the one from which it is reached; and of each chip the port by which packets come.
    tree: Vec<Chip>,
    ports: Vec<u8>,
    routes: Vec<u32>,
    walk: Vec<(Chip, u8)>,
    detours: Detours<'m>,
}

impl<'m> Trees<'m> {
    pub fn of(machine: &'m Machine) -> Trees<'m> {
        let height = machine.height as u32;
        let repeated = |y: u32| (0..128).filter(|place| (place + 2 * height * BASE - BASE - y) % height == 0).fold(0, |all, it| all | 1 << it);
        Trees {
            machine,
            places: (0..height).map(|y| if machine.wrap { repeated(y) } else { 1 << (BASE + y) }).collect(),
            columns: vec![0; machine.width],
            tree: Vec::new(),
            ports: vec![OUTSIDE; machine.live.len()],
            routes: vec![0; machine.live.len()],
            walk: Vec::new(),
            detours: Detours::of(machine),
        }
    }

    /// Makes a tree from the root to the chips of the targets, and hands each of its chips to `stop`. The targets have the bits of
    /// their outputs; of one chip there may be several.
    pub fn route(&mut self, root: Chip, targets: &[(Chip, u32)], mut stop: impl FnMut(Stop)) -> Result<(), CutOff> {
        let chips = self.chips_in_order(root, targets);
        self.add(root, LOCAL);
        for &target in &chips {
            self.join(root, target);
        }
        let mended = if self.machine.has_dead { self.mend(&chips) } else { Ok(()) };
        for i in (0..self.tree.len()).rev() {
            let chip = self.tree[i];
            let (route, port) = (self.routes[chip as usize], self.ports[chip as usize]);
            if route != 0 && mended.is_ok() {
                if port != LOCAL {
                    let before = self.machine.next(chip, port).expect("a port leads back");
                    self.routes[before as usize] |= 1 << opposite(port);
                }
                stop(Stop { chip, port, route });
            }
            self.leave(chip);
            self.routes[chip as usize] = 0;
        }
        for &chip in &chips {
            self.routes[chip as usize] = 0;
        }
        self.tree.clear();
        mended
    }

    /// The chips of the targets by their distance from the root, then in order; the bits of the targets stand in `routes`.
    fn chips_in_order(&mut self, root: Chip, targets: &[(Chip, u32)]) -> Vec<Chip> {
        let mut sorted = Vec::with_capacity(targets.len().min(self.routes.len()));
        for &(chip, bits) in targets {
            if self.routes[chip as usize] == 0 {
                sorted.push(u32::from(self.machine.way(root, chip).links) << 16 | u32::from(chip));
            }
            self.routes[chip as usize] |= bits;
        }
        sorted.sort_unstable();
        sorted.into_iter().map(|it| it as Chip).collect()
    }

    fn add(&mut self, chip: Chip, port: u8) {
        let (x, y) = self.machine.spot(chip);
        self.columns[x as usize] |= self.places[y as usize];
        self.ports[chip as usize] = port;
        self.tree.push(chip);
    }

    fn leave(&mut self, chip: Chip) {
        self.columns[self.machine.spot(chip).0 as usize] = 0;
        self.ports[chip as usize] = OUTSIDE;
    }

    /// Joins a target to the nearest chip of the tree, or to the root where none is near. Of the walk from there, what comes behind
    /// its last chip of the tree is taken.
    fn join(&mut self, root: Chip, target: Chip) {
        let mut chip = self.nearest(target).unwrap_or(root);
        let way = self.machine.way(chip, target);
        let (x, y) = (i32::from(way.x), i32::from(way.y));
        let middle = x.max(y).min(x.min(y).max(0));
        let mut runs = [(x - middle, EAST, WEST), (y - middle, NORTH, SOUTH), (-middle, SOUTH_WEST, NORTH_EAST)];
        runs.sort_by_key(|run| -run.0.abs());
        self.walk.clear();
        for (steps, ahead, back) in runs {
            let link = if steps > 0 { ahead } else { back };
            for _ in 0..steps.abs() {
                chip = self.machine.next(chip, link).expect("a walk stays on the grid");
                if self.ports[chip as usize] == OUTSIDE {
                    self.walk.push((chip, opposite(link)));
                } else {
                    self.walk.clear();
                }
            }
        }
        for i in 0..self.walk.len() {
            let (chip, port) = self.walk[i];
            self.add(chip, port);
        }
    }

    /// The chip of the tree that is nearest to the target, on a tie that of least x, then y: column by column, from the target's own
    /// outwards, as long as a column may have one that is as near.
    fn nearest(&self, target: Chip) -> Option<Chip> {
        let (x, y) = self.machine.spot(target);
        let (mut links, mut found) = (RADIUS, None);
        for away in 0..=RADIUS {
            if away > links {
                break;
            }
            for offset in [away, -away].into_iter().take(if away == 0 { 1 } else { 2 }) {
                let Some(column) = self.column(i32::from(x) + offset) else { continue };
                let window = (self.columns[column] >> (BASE + u32::from(y) - RADIUS as u32)) as u64 & WINDOW;
                if window == 0 {
                    continue;
                }
                // the places from `low` to `high` are as near as any of this column; each one beyond takes one link more
                let (low, high) = (RADIUS + offset.min(0), RADIUS + offset.max(0));
                let gap = gap_to(window, low, high);
                if away + gap > links {
                    continue;
                }
                let hits = window & run(low - gap, high + gap);
                let chip = self.least_of(column, y, hits);
                if away + gap < links || found.is_none_or(|it| chip < it) {
                    (links, found) = (away + gap, Some(chip));
                }
            }
        }
        found
    }

    fn column(&self, x: i32) -> Option<usize> {
        let width = self.machine.width as i32;
        if (0..width).contains(&x) {
            Some(x as usize)
        } else {
            self.machine.wrap.then(|| x.rem_euclid(width) as usize)
        }
    }

    /// The chip of least y among those at some places of a window.
    fn least_of(&self, column: usize, y: u8, places: u64) -> Chip {
        let height = self.machine.height as i32;
        let mut least = height;
        let mut left = places;
        while left != 0 {
            let at = i32::from(y) + left.trailing_zeros() as i32 - RADIUS;
            least = least.min(if (0..height).contains(&at) { at } else { at.rem_euclid(height) });
            left &= left - 1;
        }
        (column as i32 * height + least) as Chip
    }

    /// Takes off each link that is not live, with what hangs behind it, and leads detours to the targets that were lost.
    fn mend(&mut self, chips: &[Chip]) -> Result<(), CutOff> {
        let mut kept = 1;
        for i in 1..self.tree.len() {
            let chip = self.tree[i];
            let port = self.ports[chip as usize];
            let before = self.machine.next(chip, port).expect("a port leads back");
            if self.ports[before as usize] != OUTSIDE && self.machine.is_live_link(chip, port) {
                self.tree[kept] = chip;
                kept += 1;
            } else {
                self.leave(chip);
            }
        }
        if kept == self.tree.len() {
            return Ok(());
        }
        self.tree.truncate(kept);
        self.detours.begin(&self.tree);
        for &target in chips {
            if self.ports[target as usize] == OUTSIDE {
                self.detours.find(target)?;
                for &(chip, port) in self.detours.found() {
                    self.ports[chip as usize] = port;
                    self.tree.push(chip);
                }
            }
        }
        Ok(())
    }
}

/// How far the nearest bit is from the places `low` to `high`.
fn gap_to(bits: u64, low: i32, high: i32) -> i32 {
    if bits & run(low, high) != 0 {
        return 0;
    }
    let (above, below) = (bits >> (high + 1), bits & ((1 << low) - 1));
    let up = if above == 0 { i32::MAX } else { above.trailing_zeros() as i32 + 1 };
    let down = if below == 0 { i32::MAX } else { low - below.ilog2() as i32 };
    up.min(down)
}

/// The bits from `low` to `high`, of which the former may lie below 0 and the latter above 63.
fn run(low: i32, high: i32) -> u64 {
    let up_to = if high >= 63 { u64::MAX } else { (1 << (high + 1)) - 1 };
    up_to & (u64::MAX << low.max(0))
}
