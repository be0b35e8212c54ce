//! Rows of tables, and lists of them with a column for each part, so that many are compared at a time.

use crate::covering::generality;
use crate::places::Block;

#[derive(Clone, Copy)]
pub struct Row {
    pub block: Block,
    pub route: u32,
    /// Whether all its packets go straight on.
    pub is_straight: bool,
}

#[derive(Default)]
pub struct Rows {
    pub numbers: Vec<u32>,
    keys: Vec<u32>,
    masks: Vec<u32>,
}

/// So many rows are compared with one block before the first that meets it is looked for.
const TOGETHER: usize = 16;

impl Clone for Rows {
    fn clone(&self) -> Rows {
        Rows { numbers: self.numbers.clone(), keys: self.keys.clone(), masks: self.masks.clone() }
    }

    fn clone_from(&mut self, other: &Rows) {
        self.numbers.clone_from(&other.numbers);
        self.keys.clone_from(&other.keys);
        self.masks.clone_from(&other.masks);
    }
}

impl Rows {
    pub fn len(&self) -> usize {
        self.numbers.len()
    }

    pub fn block(&self, i: usize) -> Block {
        Block { key: self.keys[i], mask: self.masks[i] }
    }

    pub fn blocks(&self) -> impl Iterator<Item = Block> + '_ {
        (0..self.len()).map(|i| self.block(i))
    }

    pub fn push(&mut self, number: u32, block: Block) {
        self.numbers.push(number);
        self.keys.push(block.key);
        self.masks.push(block.mask);
    }

    pub fn reserve(&mut self, more: usize) {
        self.numbers.reserve(more);
        self.keys.reserve(more);
        self.masks.reserve(more);
    }

    pub fn append(&mut self, other: &Rows) {
        self.numbers.extend_from_slice(&other.numbers);
        self.keys.extend_from_slice(&other.keys);
        self.masks.extend_from_slice(&other.masks);
    }

    /// Puts a row behind all that are at most as general.
    pub fn insert(&mut self, number: u32, block: Block) {
        let general = generality(block);
        let at = self.masks.partition_point(|mask| mask.count_zeros() <= general);
        self.numbers.insert(at, number);
        self.keys.insert(at, block.key);
        self.masks.insert(at, block.mask);
    }

    pub fn copy(&mut self, from: usize, to: usize) {
        self.numbers[to] = self.numbers[from];
        self.keys[to] = self.keys[from];
        self.masks[to] = self.masks[from];
    }

    pub fn remove(&mut self, from: usize, to: usize) {
        self.numbers.drain(from..to);
        self.keys.drain(from..to);
        self.masks.drain(from..to);
    }

    fn truncate(&mut self, len: usize) {
        self.numbers.truncate(len);
        self.keys.truncate(len);
        self.masks.truncate(len);
    }

    pub fn retain(&mut self, stays: impl Fn(u32) -> bool) {
        let mut kept = 0;
        for i in 0..self.len() {
            if stays(self.numbers[i]) {
                self.copy(i, kept);
                kept += 1;
            }
        }
        self.truncate(kept);
    }

    /// The least block that has all their keys.
    pub fn join(&self) -> Block {
        let (mut mask, mut every, mut some) = (u32::MAX, u32::MAX, 0);
        for (key, its) in self.keys.iter().zip(&self.masks) {
            mask &= its;
            every &= key;
            some |= key;
        }
        mask &= !(every ^ some);
        Block { key: every & mask, mask }
    }

    /// The first row, from a place on, whose block meets another one.
    pub fn first_met(&self, block: Block, from: usize) -> Option<usize> {
        let meets = |key: u32, mask: u32| (key ^ block.key) & mask & block.mask == 0;
        let (keys, masks) = (&self.keys[from..], &self.masks[from..]);
        let mut at = from;
        for (keys, masks) in keys.as_chunks::<TOGETHER>().0.iter().zip(masks.as_chunks::<TOGETHER>().0) {
            let mut any = 0;
            for i in 0..TOGETHER {
                any |= u32::from(meets(keys[i], masks[i]));
            }
            if any != 0 {
                break;
            }
            at += TOGETHER;
        }
        (at..self.len()).find(|&i| meets(self.keys[i], self.masks[i]))
    }

    /// Leaves those that differ from a block, which the merge of all meets, in one bit for which the block cares and the merge does
    /// not: in the one by which most are left, on a tie the highest.
    pub fn narrow(&mut self, merged: Block, met: Block) {
        let free = met.mask & !merged.mask;
        let mut counts = [0u32; 32];
        for (keys, masks) in self.keys.chunks(255).zip(self.masks.chunks(255)) {
            // of the bits s, s + 8, s + 16 and s + 24 each has a byte of sums[s]
            let mut sums = [0u32; 8];
            for (key, mask) in keys.iter().zip(masks) {
                let parting = (key ^ met.key) & mask & free;
                for (s, sum) in sums.iter_mut().enumerate() {
                    *sum += parting >> s & 0x0101_0101;
                }
            }
            for (bit, count) in counts.iter_mut().enumerate() {
                *count += sums[bit % 8] >> (bit - bit % 8) & 0xff;
            }
        }
        let most = counts.iter().copied().max().unwrap_or(0);
        if most == 0 {
            return self.truncate(0);
        }
        let bit = 1 << counts.iter().rposition(|&it| it == most).unwrap_or(0);
        let mut kept = 0;
        for i in 0..self.len() {
            self.copy(i, kept);
            kept += usize::from((self.keys[kept] ^ met.key) & self.masks[kept] & bit != 0);
        }
        self.truncate(kept);
    }
}
