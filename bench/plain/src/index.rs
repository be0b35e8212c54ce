//! Whether a block meets one of the first rows of a table, for which the later ones stand: a bit for each of them, in words.

use crate::covering::generality;
use crate::places::Block;
use crate::rows::Row;

pub struct Index {
    words: usize,
    /// Of each bit of a key, for 0 and for 1: the rows that do not have the other value there.
    columns: Vec<u64>,
    /// The bits for which one of the rows cares.
    cared: u32,
    /// Of each generality, the rows for which a more general one stands.
    above: Vec<u64>,
}

impl Index {
    pub fn of(table: &[Row]) -> Index {
        let words = table.len().div_ceil(64);
        let (mut columns, mut cared) = (vec![0; 64 * words], 0);
        for (number, row) in table.iter().enumerate() {
            let (word, bit) = (number / 64, 1 << (number % 64));
            cared |= row.block.mask;
            for i in 0..32 {
                let (cares, one) = (row.block.mask >> i & 1 == 1, row.block.key >> i & 1 == 1);
                if !cares || !one {
                    columns[2 * i * words + word] |= bit;
                }
                if !cares || one {
                    columns[(2 * i + 1) * words + word] |= bit;
                }
            }
        }
        let mut index = Index { words, columns, cared, above: vec![0; 33 * words] };
        for (number, row) in table.iter().enumerate() {
            index.raise(number, 0, generality(row.block));
        }
        index
    }

    /// For a row that stood in one of this generality, there is one now of a greater one.
    pub fn raise(&mut self, number: usize, from: u32, to: u32) {
        for general in from..to {
            self.above[general as usize * self.words + number / 64] |= 1 << (number % 64);
        }
    }

    /// Whether the block meets one of the rows for which a more general one stands.
    pub fn meets(&self, block: Block) -> bool {
        let (mut begins, mut count, mut left) = ([0; 32], 0, block.mask & self.cared);
        while left != 0 {
            let bit = left.trailing_zeros();
            begins[count] = (2 * bit + (block.key >> bit & 1)) as usize * self.words;
            count += 1;
            left &= left - 1;
        }
        let above = &self.above[generality(block) as usize * self.words..][..self.words];
        above.iter().enumerate().any(|(word, &rows)| {
            let mut rows = rows;
            for begin in &begins[..count] {
                if rows == 0 {
                    return false;
                }
                rows &= self.columns[begin + word];
            }
            rows != 0
        })
    }
}
