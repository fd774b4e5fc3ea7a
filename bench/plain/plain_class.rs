//! Size classes in plain Rust, as programs of this folder measure them: what the proved ones look up is looked up.
// A program uses a part of them.
#![allow(dead_code)]

/// How many classes there are.
pub const CLASSES: usize = 13;

const WORDS: [u16; CLASSES] = [2, 4, 6, 8, 12, 16, 24, 32, 48, 64, 96, 128, 256];

// How many cells a page is cut into.
const CELLS: [u16; CLASSES] = [256, 128, 85, 64, 42, 32, 21, 16, 10, 8, 5, 4, 2];

// What a granule of a page is multiplied by, to be divided by the granules of a cell.
const RECIPROCALS: [u32; CLASSES] =
    [65_536, 32_768, 21_846, 16_384, 10_923, 8_192, 5_462, 4_096, 2_731, 2_048, 1_366, 1_024, 512];

// The granules at which cells begin: four words of bits, the lowest first.
const BEGINS: [[u64; 4]; CLASSES] = begins();

const fn begins() -> [[u64; 4]; CLASSES] {
    let mut begins = [[0; 4]; CLASSES];
    let mut number = 0;
    while number < CLASSES {
        let mut cell = 0;
        while cell < CELLS[number] {
            let granule = (cell * (WORDS[number] / 2)) as usize;
            begins[number][granule / 64] |= 1 << (granule % 64);
            cell += 1;
        }
        number += 1;
    }
    begins
}

const MAX_SMALL_WORDS: u64 = 256;
const MAX_REQUEST_WORDS: u64 = 65_536;
const PAGE_WORDS: u64 = 512;

// The least class that holds so many granules.
const NUMBERS: [u8; 129] = numbers();

const fn numbers() -> [u8; 129] {
    let mut numbers = [0; 129];
    let mut granules = 1;
    while granules < 129 {
        let number = numbers[granules - 1];
        numbers[granules] = if 2 * granules > WORDS[number as usize] as usize { number + 1 } else { number };
        granules += 1;
    }
    numbers
}

/// A size class.
#[derive(Clone, Copy, PartialEq)]
pub struct Class {
    words: u16,
    number: u8,
}

/// Where a request goes: into a cell, or onto so many pages of its own.
#[derive(Clone, Copy)]
pub enum Placement {
    Small(Class),
    Large(usize),
}

impl Class {
    /// The least class that holds so many words, which are no more than the most of a small request.
    #[inline]
    pub fn of(words: u64) -> Class {
        let number = NUMBERS[words.div_ceil(2) as usize];
        Class { words: WORDS[usize::from(number)], number }
    }

    /// The words of its cells.
    #[inline]
    pub fn words(self) -> u16 {
        self.words
    }

    /// Its place among the classes.
    #[inline]
    pub fn number(self) -> usize {
        usize::from(self.number)
    }

    /// How many cells a page is cut into.
    #[inline]
    pub fn cells(self) -> u16 {
        CELLS[self.number()]
    }

    /// The granules at which they begin.
    #[inline]
    pub fn begins(self) -> &'static [u64; 4] {
        &BEGINS[self.number()]
    }

    /// What a granule of a page is multiplied by, to be divided by those of a cell. The quotient is then the product
    /// divided by 65,536.
    #[inline]
    pub fn reciprocal(self) -> u32 {
        RECIPROCALS[self.number()]
    }
}

/// Where a request of so many words goes. `None` for no words, and for too many.
#[inline]
pub fn class_of(words: u64) -> Option<Placement> {
    match words {
        0 => None,
        1..=MAX_SMALL_WORDS => Some(Placement::Small(Class::of(words))),
        ..=MAX_REQUEST_WORDS => Some(Placement::Large(words.div_ceil(PAGE_WORDS) as usize)),
        _ => None,
    }
}
