//! Rows of bits in plain Rust, as programs of this folder measure them.
// A program uses a part of them.
#![allow(dead_code)]

/// Whether a bit is set.
#[inline]
pub fn is_set(row: &[u64], i: usize) -> bool {
    (row[i / 64] >> (i % 64)) & 1 == 1
}

/// Sets a bit.
#[inline]
pub fn set(row: &mut [u64], i: usize) {
    row[i / 64] |= 1 << (i % 64);
}

/// Clears a bit.
#[inline]
pub fn clear(row: &mut [u64], i: usize) {
    row[i / 64] &= !(1 << (i % 64));
}

/// How many bits are set.
#[inline]
pub fn ones(row: &[u64]) -> u32 {
    row.iter().map(|word| word.count_ones()).sum()
}

/// The lowest bit from `low` on whose value is `wanted`.
#[inline]
pub fn next(row: &[u64], low: usize, wanted: bool) -> Option<usize> {
    let turn = if wanted { 0 } else { u64::MAX };
    let mut word = low / 64;
    let mut rest = (row.get(word)? ^ turn) & (u64::MAX << (low % 64));
    while rest == 0 {
        word += 1;
        rest = row.get(word)? ^ turn;
    }
    Some(64 * word + rest.trailing_zeros() as usize)
}

/// A row that keeps its lowest set bit, or the number of all bits where none is set.
pub struct LowestRow {
    row: Vec<u64>,
    lowest: usize,
}

impl LowestRow {
    /// A row of at least so many bits, none of them set.
    pub fn new(bits: usize) -> LowestRow {
        let row = vec![0; bits.div_ceil(64)];
        LowestRow { lowest: 64 * row.len(), row }
    }

    /// The lowest set bit.
    #[inline]
    pub fn first(&self) -> Option<usize> {
        (self.lowest < 64 * self.row.len()).then_some(self.lowest)
    }

    /// The lowest set bit from `low` on.
    #[inline]
    pub fn next(&self, low: usize) -> Option<usize> {
        next(&self.row, low.max(self.lowest), true)
    }

    /// Whether a bit is set.
    #[inline]
    pub fn is_set(&self, i: usize) -> bool {
        is_set(&self.row, i)
    }

    /// Sets a bit.
    #[inline]
    pub fn set(&mut self, i: usize) {
        set(&mut self.row, i);
        if i < self.lowest {
            self.lowest = i;
        }
    }

    /// Clears a bit.
    #[inline]
    pub fn clear(&mut self, i: usize) {
        clear(&mut self.row, i);
        self.lowest = next(&self.row, self.lowest, true).unwrap_or(64 * self.row.len());
    }
}
