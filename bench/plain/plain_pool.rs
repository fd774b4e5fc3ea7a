//! The free pages of a heap in plain Rust, as programs of this folder measure them: a row of bits, in which that of a
//! free page is set.
use crate::plain_row::next;

/// Takes the lowest run of so many free pages. Of a run of one page the end isn't looked for.
#[inline]
pub fn take_run(free: &mut [u64], pages: usize) -> Option<usize> {
    let first = if pages == 1 { next(free, 0, true)? } else { find_run(free, pages)? };
    fill(free, first, pages, false);
    Some(first)
}

fn find_run(free: &[u64], pages: usize) -> Option<usize> {
    let mut low = 0;
    loop {
        let first = next(free, low, true)?;
        let end = next(free, first, false).unwrap_or(64 * free.len());
        if end - first >= pages {
            return Some(first);
        }
        low = end;
    }
}

/// Gives so many pages back.
#[inline]
pub fn give(free: &mut [u64], first: usize, pages: usize) {
    fill(free, first, pages, true);
}

// Gives so many bits from `first` on a value, by whole words.
#[inline]
fn fill(row: &mut [u64], first: usize, bits: usize, value: bool) {
    let mut low = first;
    let mut left = bits;
    while left > 0 {
        let here = left.min(64 - low % 64);
        let mask = (u64::MAX >> (64 - here)) << (low % 64);
        let word = &mut row[low / 64];
        *word = if value { *word | mask } else { *word & !mask };
        low += here;
        left -= here;
    }
}
