//! Covering: rows of one route are merged, the largest set that may be, until a table is short enough or no two may be merged.
//!
//! Each row has a number: rows that are merged get the next ones. A merged row stands behind all that are at most as general, so
//! rows stand by generality and then by number, and a place is told by its generality alone.

use crate::index::Index;
use crate::places::Block;
use crate::rows::{Row, Rows};

pub fn generality(block: Block) -> u32 {
    block.mask.count_zeros()
}

fn meet(one: Block, other: Block) -> bool {
    (one.key ^ other.key) & one.mask & other.mask == 0
}

fn join(one: Block, other: Block) -> Block {
    let mask = one.mask & other.mask & !(one.key ^ other.key);
    Block { key: one.key & mask, mask }
}

/// The table after all merges, and then without the rows that default routing replaces. Its rows stand by generality, then by key, and
/// no two share a key.
pub fn cover(table: &[Row], target: usize) -> Vec<Row> {
    let mut cover = Cover::of(table);
    let mut left = table.len();
    while left > target {
        let Some(set) = cover.largest().or_else(|| cover.first_pair()) else { break };
        left -= set.len() - 1;
        cover.merge(&set);
    }
    cover.without_defaults()
}

/// The rows of one route, in order, and what is known of them.
struct Family {
    rows: Rows,
    known: Option<Known>,
    /// The last merge that changed one of its rows, and the one before which all its pairs were tried.
    changed: u32,
    settled: u32,
}

/// How refining ended, and each merge for which the rows behind it were looked at on the way, the most general first.
struct Known {
    end: End,
    checked: Vec<Block>,
}

enum End {
    /// The refined set.
    Refined(Vec<u32>),
    /// It is not larger than this.
    AtMost(usize),
}

struct Cover {
    /// By number, those that were merged too; those from `originals` on are merges.
    rows: Vec<Row>,
    originals: usize,
    aliases: Vec<Rows>,
    family_of: Vec<u32>,
    is_gone: Vec<bool>,
    /// Of each row the later ones whose block meets a block for which it stands, and the least generality of these.
    rivals: Vec<Vec<u32>>,
    walls: Vec<u32>,
    /// The last merge that changed a row, as far as pairs go, and the one before which it was last tried with all rows behind it.
    changed: Vec<u32>,
    tried: Vec<u32>,
    /// By route.
    families: Vec<Family>,
    /// By generality, and a bit for each of them that has rows.
    classes: Vec<Rows>,
    filled: u64,
    index: Index,
    /// The number of the next merge.
    now: u32,
    work: Rows,
    fronts: Vec<Block>,
}

const NO_WALL: u32 = 33;

impl Cover {
    fn of(table: &[Row]) -> Cover {
        let mut routes: Vec<u32> = table.iter().map(|row| row.route).collect();
        routes.sort_unstable();
        routes.dedup();
        let family = || Family { rows: Rows::default(), known: None, changed: 0, settled: 0 };
        let most = 2 * table.len();
        let mut cover = Cover {
            rows: Vec::with_capacity(most),
            originals: table.len(),
            aliases: Vec::new(),
            family_of: Vec::with_capacity(most),
            is_gone: Vec::with_capacity(most),
            rivals: Vec::with_capacity(most),
            walls: Vec::with_capacity(most),
            changed: Vec::with_capacity(most),
            tried: Vec::with_capacity(most),
            families: routes.iter().map(|_| family()).collect(),
            classes: (0..=32).map(|_| Rows::default()).collect(),
            filled: 0,
            index: Index::of(table),
            now: 0,
            work: Rows::default(),
            fronts: Vec::new(),
        };
        for class in table.chunk_by(|one, other| generality(one.block) == generality(other.block)) {
            cover.classes[generality(class[0].block) as usize].reserve(class.len());
        }
        for &row in table {
            let family = routes.partition_point(|&route| route < row.route);
            cover.add(row, family, Vec::new());
        }
        cover.now = 1;
        cover
    }

    /// Adds a row behind all that are at most as general.
    fn add(&mut self, row: Row, family: usize, rivals: Vec<u32>) {
        let (number, general) = (self.rows.len() as u32, generality(row.block));
        self.walls.push(self.wall_of(&rivals));
        self.rivals.push(rivals);
        self.rows.push(row);
        self.family_of.push(family as u32);
        self.is_gone.push(false);
        self.changed.push(self.now);
        self.tried.push(0);
        self.families[family].rows.insert(number, row.block);
        self.families[family].changed = self.now;
        self.classes[general as usize].push(number, row.block);
        self.filled |= 1 << general;
    }

    fn wall_of(&self, rivals: &[u32]) -> u32 {
        rivals.iter().map(|&it| self.general(it)).min().unwrap_or(NO_WALL)
    }

    fn block(&self, number: u32) -> Block {
        self.rows[number as usize].block
    }

    fn general(&self, number: u32) -> u32 {
        generality(self.block(number))
    }

    fn aliases_of(&self, number: u32) -> Option<&Rows> {
        (number as usize).checked_sub(self.originals).map(|it| &self.aliases[it])
    }

    /// From the last row on, each is left out that only goes straight on, where no later one that is left meets a block for which it
    /// stands.
    fn without_defaults(&self) -> Vec<Row> {
        let (mut kept, mut rows) = (Rows::default(), Vec::new());
        for &number in self.classes.iter().rev().flat_map(|class| class.numbers.iter().rev()) {
            let row = self.rows[number as usize];
            let may_go = row.is_straight && match self.aliases_of(number) {
                None => kept.first_met(row.block, 0).is_none(),
                Some(aliases) => aliases.blocks().all(|it| kept.first_met(it, 0).is_none()),
            };
            if !may_go {
                kept.push(number, row.block);
                rows.push(row);
            }
        }
        rows.reverse();
        rows
    }

    /// The first block for which a row stands that meets another one; it meets the row's.
    fn first_met_of(&self, number: u32, block: Block) -> Option<Block> {
        match self.aliases_of(number) {
            None => Some(self.block(number)),
            Some(aliases) => aliases.first_met(block, 0).map(|i| aliases.block(i)),
        }
    }

    /// The same of all rows that are more general.
    fn first_met(&self, block: Block) -> Option<Block> {
        if !self.index.meets(block) {
            return None;
        }
        let mut left = self.filled & (!1 << generality(block));
        while left != 0 {
            let class = &self.classes[left.trailing_zeros() as usize];
            let mut at = 0;
            while let Some(i) = class.first_met(block, at) {
                if let Some(met) = self.first_met_of(class.numbers[i], block) {
                    return Some(met);
                }
                at = i + 1;
            }
            left &= left - 1;
        }
        None
    }

    // ---- the largest set

    /// The largest refined set of two or more, on a tie that of the least route.
    fn largest(&mut self) -> Option<Vec<u32>> {
        let (mut size, mut best) = (1, usize::MAX);
        for (number, family) in self.families.iter().enumerate() {
            if let Some(Known { end: End::Refined(set), .. }) = &family.known {
                if set.len() > size {
                    (size, best) = (set.len(), number);
                }
            }
        }
        for number in 0..self.families.len() {
            let wanted = if number < best { size.max(2) } else { size + 1 };
            let family = &self.families[number];
            let most = match &family.known {
                None => family.rows.len(),
                Some(Known { end: End::AtMost(most), .. }) => *most,
                Some(_) => 0,
            };
            if most < wanted {
                continue;
            }
            let known = self.refine(number, wanted);
            if let End::Refined(set) = &known.end {
                if set.len() >= wanted {
                    (size, best) = (set.len(), number);
                }
            }
            self.families[number].known = Some(known);
        }
        let family = self.families.get_mut(best)?;
        match family.known.take()?.end {
            End::Refined(set) => Some(set),
            End::AtMost(_) => None,
        }
    }

    /// The refined set of a family, or that it has fewer rows than are wanted.
    fn refine(&mut self, family: usize, wanted: usize) -> Known {
        let mut checked = Vec::new();
        let mut set = std::mem::take(&mut self.work);
        set.clone_from(&self.families[family].rows);
        let end = loop {
            if set.len() < 2 {
                break End::Refined(Vec::new());
            }
            if set.len() < wanted {
                break End::AtMost(set.len());
            }
            let whole = set.join();
            let Some(merged) = self.sift(&mut set, whole) else { continue };
            if set.len() < wanted {
                break End::AtMost(set.len());
            }
            checked.push(merged);
            match self.first_met(merged) {
                None => break End::Refined(set.numbers.clone()),
                Some(met) => set.narrow(merged, met),
            }
        };
        self.work = set;
        Known { end, checked }
    }

    /// Takes out, from the last row on, each for which the up-check fails. The merge of those that are left, where these are two.
    fn sift(&mut self, set: &mut Rows, whole: Block) -> Option<Block> {
        let (mut merged, mut general) = (whole, generality(whole));
        if set.numbers.iter().all(|&number| self.walls[number as usize] > general) {
            return Some(merged);
        }
        self.fronts.clear();
        let mut front = set.block(0);
        for i in 0..set.len() {
            front = join(front, set.block(i));
            self.fronts.push(front);
        }
        let (mut at, mut kept, mut back) = (set.len(), set.len(), None);
        while at > 0 && at + set.len() - kept >= 2 {
            at -= 1;
            if self.passes(set.numbers[at], general, &set.numbers[kept..]) {
                kept -= 1;
                set.copy(at, kept);
                let block = set.block(kept);
                back = Some(back.map_or(block, |it| join(it, block)));
            } else if at > 0 {
                let front = self.fronts[at - 1];
                merged = back.map_or(front, |it| join(front, it));
                general = generality(merged);
            } else {
                merged = back.unwrap_or(merged);
            }
        }
        set.remove(at, kept);
        (set.len() >= 2).then_some(merged)
    }

    /// Whether no row behind this one, at most so general and none of these, meets a block for which it stands.
    fn passes(&self, number: u32, general: u32, others: &[u32]) -> bool {
        self.walls[number as usize] > general
            || self.rivals[number as usize].iter().all(|&it| self.general(it) > general || others.contains(&it))
    }

    // ---- the first pair

    /// The first two rows of a route that may be merged. Pairs that were tried are tried again only where one of the two has changed.
    fn first_pair(&mut self) -> Option<Vec<u32>> {
        let mut best: Option<(u32, [u32; 2])> = None;
        for number in 0..self.families.len() {
            let family = &self.families[number];
            if family.rows.len() < 2 || family.changed < family.settled {
                continue;
            }
            let mut settled = true;
            let recent = self.recent(&family.rows.numbers);
            for i in 0..family.rows.len() - 1 {
                let row = family.rows.numbers[i];
                let (tried, changed) = (self.tried[row as usize], self.changed[row as usize]);
                if family.changed < tried {
                    continue;
                }
                let general = self.general(row);
                if best.is_some_and(|(least, [first, _])| (least, first) < (general, row)) {
                    settled = false;
                    break;
                }
                let other = if changed >= tried {
                    family.rows.numbers[i + 1..].iter().copied().find(|&it| self.is_legal(row, it))
                } else {
                    let may = |&(at, it): &(usize, u32)| at > i && self.changed[it as usize] >= tried && self.is_legal(row, it);
                    recent.iter().find(|it| may(it)).map(|it| it.1)
                };
                if let Some(other) = other {
                    best = Some((general, [row, other]));
                    settled = false;
                    break;
                }
                self.tried[row as usize] = self.now;
            }
            if settled {
                self.families[number].settled = self.now;
            }
        }
        best.map(|(_, pair)| pair.to_vec())
    }

    /// The rows of a family, with their places there, that have changed since the first of its rows was tried that has not.
    fn recent(&self, rows: &[u32]) -> Vec<(usize, u32)> {
        let times = |it: u32| (self.tried[it as usize], self.changed[it as usize]);
        let tried = rows.iter().map(|&it| times(it)).filter(|(tried, changed)| changed < tried).map(|it| it.0);
        let oldest = tried.min().unwrap_or(u32::MAX);
        rows.iter().copied().enumerate().filter(|&(_, it)| times(it).1 >= oldest).collect()
    }

    fn is_legal(&self, one: u32, other: u32) -> bool {
        let merged = join(self.block(one), self.block(other));
        let general = generality(merged);
        self.passes(one, general, &[other]) && self.passes(other, general, &[]) && !self.index.meets(merged)
    }

    // ---- merging

    fn merge(&mut self, set: &[u32]) {
        let block = set.iter().map(|&it| self.block(it)).reduce(join).expect("a set of two or more");
        let general = generality(block);
        let first = self.rows[set[0] as usize];
        let family = self.family_of[set[0] as usize] as usize;
        let mut aliases = Rows::default();
        let (mut rivals, mut is_straight, mut changed_classes) = (Vec::new(), true, 0u64);
        for &number in set {
            let from = aliases.len();
            match self.aliases_of(number) {
                None => aliases.push(number, self.block(number)),
                Some(its) => aliases.append(its),
            }
            for &original in &aliases.numbers[from..] {
                self.index.raise(original as usize, generality(self.rows[number as usize].block), general);
            }
            rivals.extend(self.rivals[number as usize].iter().filter(|&&it| self.general(it) > general));
            is_straight &= self.rows[number as usize].is_straight;
            changed_classes |= 1 << self.general(number);
            self.is_gone[number as usize] = true;
        }
        rivals.sort_unstable();
        rivals.dedup();
        let is_gone = &self.is_gone;
        self.families[family].rows.retain(|number| !is_gone[number as usize]);
        self.families[family].known = None;
        while changed_classes != 0 {
            let class = changed_classes.trailing_zeros() as usize;
            self.classes[class].retain(|number| !is_gone[number as usize]);
            changed_classes &= changed_classes - 1;
        }
        self.meet_merge(block, general);
        self.forget(block, general);
        self.aliases.push(aliases);
        self.add(Row { block, route: first.route, is_straight }, family, rivals);
        self.now += 1;
    }

    /// Makes the next merge a rival of each row before it that it meets, in place of those of its own rows that were one.
    fn meet_merge(&mut self, block: Block, general: u32) {
        let merge = self.rows.len() as u32;
        for class in 0..=general as usize {
            let mut at = 0;
            while let Some(i) = self.classes[class].first_met(block, at) {
                at = i + 1;
                let number = self.classes[class].numbers[i];
                if self.first_met_of(number, block).is_none() {
                    continue;
                }
                let family = &mut self.families[self.family_of[number as usize] as usize];
                family.known = None;
                let mut rivals = std::mem::take(&mut self.rivals[number as usize]);
                let before = rivals.len();
                rivals.retain(|&it| !self.is_gone[it as usize]);
                if rivals.len() < before {
                    self.changed[number as usize] = self.now;
                    family.changed = self.now;
                    self.walls[number as usize] = self.wall_of(&rivals);
                }
                rivals.push(merge);
                self.walls[number as usize] = self.walls[number as usize].min(general);
                self.rivals[number as usize] = rivals;
            }
        }
    }

    /// Forgets what is known of families where the next merge stands behind one that was looked at, and may meet it.
    fn forget(&mut self, block: Block, general: u32) {
        for family in &mut self.families {
            let may_meet = |known: &Known| known.checked.iter().rev().take_while(|&&it| generality(it) < general).any(|&it| meet(it, block));
            if family.known.as_ref().is_some_and(may_meet) {
                family.known = None;
            }
        }
    }
}
