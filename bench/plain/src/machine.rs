//! The grid of chips, closed to a torus or not, and which of it is live. A chip is a number: x times the height, plus y.

use crate::job::Parts;

pub type Chip = u16;

/// Links are numbered from East anticlockwise; `LOCAL` is the port of a chip's own cores.
pub const EAST: u8 = 0;
pub const NORTH_EAST: u8 = 1;
pub const NORTH: u8 = 2;
pub const WEST: u8 = 3;
pub const SOUTH_WEST: u8 = 4;
pub const SOUTH: u8 = 5;
pub const LOCAL: u8 = 6;
pub const CORES: u8 = 18;

const STEPS: [(isize, isize); 6] = [(1, 0), (1, 1), (0, 1), (-1, 0), (-1, -1), (0, -1)];
const NOWHERE: Chip = Chip::MAX;

pub fn opposite(link: u8) -> u8 {
    if link < 3 { link + 3 } else { link - 3 }
}

/// Steps along x and y from one chip to another, and how many links that takes.
#[derive(Clone, Copy)]
pub struct Way {
    pub x: i8,
    pub y: i8,
    pub links: u8,
}

impl Way {
    fn of(x: isize, y: isize) -> Way {
        let links = x.max(y).max(0) - x.min(y).min(0);
        Way { x: x as i8, y: y as i8, links: links as u8 }
    }
}

pub struct Machine {
    pub width: usize,
    pub height: usize,
    pub wrap: bool,
    pub sdram: u64,
    pub live: Vec<bool>,
    /// Of each chip, a bit for each core that is dead.
    pub dead_cores: Vec<u32>,
    /// Of each link, for each column of the grid, a bit for each chip where it is live.
    pub links: [Vec<u64>; 6],
    pub has_dead: bool,
    spots: Vec<(u8, u8)>,
    next: Vec<[Chip; 6]>,
    /// On a torus, the way to the chip that is so far away.
    ways: Vec<Way>,
}

impl Machine {
    pub fn of(parts: &Parts) -> Machine {
        let (width, height, wrap) = (parts.width, parts.height, parts.wrap);
        let chips = width * height;
        let mut spots = Vec::with_capacity(chips);
        for x in 0..width {
            for y in 0..height {
                spots.push((x as u8, y as u8));
            }
        }
        let mut machine = Machine {
            width,
            height,
            wrap,
            sdram: parts.sdram,
            live: vec![true; chips],
            dead_cores: vec![0; chips],
            links: [const { Vec::new() }; 6],
            has_dead: !parts.dead_chips.is_empty() || !parts.dead_links.is_empty(),
            spots,
            next: Vec::with_capacity(chips),
            ways: if wrap { ways_round(width as isize, height as isize) } else { Vec::new() },
        };
        for &[x, y] in &parts.dead_chips {
            let chip = machine.chip(x, y);
            machine.live[chip as usize] = false;
        }
        for &[x, y, core] in &parts.dead_cores {
            let chip = machine.chip(x, y);
            machine.dead_cores[chip as usize] |= 1 << core;
        }
        for chip in 0..chips {
            let ends = std::array::from_fn(|link| machine.end_of(chip as Chip, link));
            machine.next.push(ends);
        }
        machine.find_live_links(parts);
        machine
    }

    pub fn chip(&self, x: u64, y: u64) -> Chip {
        (x as usize * self.height + y as usize) as Chip
    }

    /// The chip at a place that may lie outside the grid.
    pub fn chip_inside(&self, x: u64, y: u64) -> Option<Chip> {
        (x < self.width as u64 && y < self.height as u64).then(|| self.chip(x, y))
    }

    pub fn spot(&self, chip: Chip) -> (u8, u8) {
        self.spots[chip as usize]
    }

    /// The chip to which a link leads, where it leads to one: dead or not.
    pub fn next(&self, chip: Chip, link: u8) -> Option<Chip> {
        let end = self.next[chip as usize][link as usize];
        (end != NOWHERE).then_some(end)
    }

    pub fn is_live_link(&self, chip: Chip, link: u8) -> bool {
        let (x, y) = self.spot(chip);
        self.links[link as usize][x as usize] >> y & 1 == 1
    }

    pub fn way(&self, from: Chip, to: Chip) -> Way {
        let ((a, b), (c, d)) = (self.spot(from), self.spot(to));
        let (x, y) = (c as isize - a as isize, d as isize - b as isize);
        if !self.wrap {
            return Way::of(x, y);
        }
        let x = if x < 0 { x + self.width as isize } else { x };
        let y = if y < 0 { y + self.height as isize } else { y };
        self.ways[x as usize * self.height + y as usize]
    }

    fn end_of(&self, chip: Chip, link: usize) -> Chip {
        let ((x, y), (dx, dy)) = (self.spot(chip), STEPS[link]);
        let (mut x, mut y) = (x as isize + dx, y as isize + dy);
        let (width, height) = (self.width as isize, self.height as isize);
        if self.wrap {
            x = if x < 0 { width - 1 } else if x == width { 0 } else { x };
            y = if y < 0 { height - 1 } else if y == height { 0 } else { y };
        } else if x < 0 || x == width || y < 0 || y == height {
            return NOWHERE;
        }
        let end = (x * height + y) as Chip;
        if end == chip { NOWHERE } else { end }
    }

    fn find_live_links(&mut self, parts: &Parts) {
        for link in 0..6 {
            let mut columns = vec![0u64; self.width];
            for (chip, &(x, y)) in self.spots.iter().enumerate() {
                let end = self.next[chip][link];
                if end != NOWHERE && self.live[chip] && self.live[end as usize] {
                    columns[x as usize] |= 1 << y;
                }
            }
            self.links[link] = columns;
        }
        for &[x, y, link] in &parts.dead_links {
            self.cut(self.chip(x, y), link as u8);
            if let Some(end) = self.next(self.chip(x, y), link as u8) {
                self.cut(end, opposite(link as u8));
            }
        }
    }

    fn cut(&mut self, chip: Chip, link: u8) {
        let (x, y) = self.spot(chip);
        self.links[link as usize][x as usize] &= !(1 << y);
    }
}

/// On a torus the fewest links count; on a tie the lesser size of x, then of y, then the lesser x, then y.
fn ways_round(width: isize, height: isize) -> Vec<Way> {
    let mut ways = Vec::with_capacity((width * height) as usize);
    for x in 0..width {
        for y in 0..height {
            let four = [(x, y), (x - width, y), (x, y - height), (x - width, y - height)];
            let best = four.into_iter().min_by_key(|&(x, y)| (Way::of(x, y).links, x.abs(), y.abs(), x, y));
            ways.extend(best.map(|(x, y)| Way::of(x, y)));
        }
    }
    ways
}
