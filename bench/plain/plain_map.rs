//! A map of pages in plain Rust, as programs of this folder measure it: the same data and calls as the proved one.
// A program uses a part of it.
#![allow(dead_code)]

use crate::plain_class::Class;
use crate::plain_row::{clear, is_set, next, set};

/// The address of the heap's first byte.
pub const START: u64 = 268_435_456;

/// Whether the collector reads an object's words.
#[derive(Clone, Copy, PartialEq)]
pub enum Kind {
    Normal,
    PointerFree,
}

/// A page cut into cells, and the granules at which allocated ones begin.
pub struct Block {
    pub class: Class,
    pub kind: Kind,
    reciprocal: u32,
    pub taken: [u64; 4],
    cells: u16,
}

/// What stands on a page: nothing, cells, a large object of so many pages, or a further page of one that begins there.
/// Its tag has a byte of its own: one that shares the byte of a block's kind takes more steps to read.
#[repr(u8)]
pub enum Page {
    Free,
    Cut(Block),
    Head(u32, Kind),
    Body(u32),
}

/// An allocated object.
#[derive(Clone, Copy)]
pub struct Found {
    pub base: u64,
    pub len: u32,
    pub kind: Kind,
    pub page: u32,
    pub cell: u16,
}

impl Block {
    /// A page cut into cells of a class, all free.
    #[inline]
    pub fn new(class: Class, kind: Kind) -> Block {
        Block { class, kind, reciprocal: class.reciprocal(), taken: [0; 4], cells: class.cells() }
    }

    #[inline]
    fn cell_of(&self, w: u64) -> Option<u16> {
        let cell = self.cell_at((w % 4_096 / 16) as u32);
        (cell < self.cells).then_some(cell)
    }

    // The cell that has a granule of the page.
    #[inline]
    fn cell_at(&self, granule: u32) -> u16 {
        (granule * self.reciprocal / 65_536) as u16
    }

    // The granule at which a cell begins.
    #[inline]
    fn granule_at(&self, cell: u16) -> usize {
        usize::from(cell) * usize::from(self.class.words() / 2)
    }

    // The lowest free cell.
    #[inline]
    fn first_free(&self) -> Option<u16> {
        let begins = self.class.begins();
        let word = (0..4).find(|word| begins[*word] & !self.taken[*word] != 0)?;
        Some(self.cell_at(64 * word as u32 + (begins[word] & !self.taken[word]).trailing_zeros()))
    }

    /// Allocates the lowest free cell.
    #[inline]
    pub fn take(&mut self) -> Option<u16> {
        let cell = self.first_free()?;
        let granule = self.granule_at(cell);
        set(&mut self.taken, granule);
        Some(cell)
    }

    /// Makes a cell free.
    #[inline]
    pub fn put(&mut self, cell: u16) {
        let granule = self.granule_at(cell);
        clear(&mut self.taken, granule);
    }

    /// Whether every cell is allocated.
    #[inline]
    pub fn is_full(&self) -> bool {
        self.first_free().is_none()
    }

    /// Whether none is.
    #[inline]
    pub fn is_empty(&self) -> bool {
        self.taken == [0; 4]
    }

    /// Makes each cell free that isn't marked.
    pub fn sweep(&mut self, marks: &[u64]) {
        for (taken, marks) in self.taken.iter_mut().zip(marks) {
            *taken &= marks;
        }
    }

    #[inline]
    fn next_taken(&self, from: u16) -> Option<u16> {
        let granule = next(&self.taken, self.granule_at(from), true)?;
        Some(self.cell_at(granule as u32))
    }

    #[inline]
    fn at(&self, page: u32, cell: u16) -> Found {
        let words = self.class.words();
        let base = START + 4_096 * u64::from(page) + 8 * u64::from(cell) * u64::from(words);
        Found { base, len: u32::from(words), kind: self.kind, page, cell }
    }
}

#[inline]
fn large(page: u32, pages: u32, kind: Kind) -> Found {
    Found { base: START + 4_096 * u64::from(page), len: 512 * pages, kind, page, cell: 0 }
}

#[inline]
fn head(map: &[Page], first: u32) -> Option<Found> {
    match &map[first as usize] {
        Page::Head(pages, kind) => Some(large(first, *pages, *kind)),
        _ => None,
    }
}

/// The allocated object that a word points into. Inlined where only its being there is asked, the rest of it goes.
#[inline(always)]
pub fn find(map: &[Page], w: u64) -> Option<Found> {
    let page = w.checked_sub(START)? / 4_096;
    let state = map.get(page as usize)?;
    if let Page::Cut(block) = state {
        if let Some(found) = begun(page as u32, block, w) {
            return Some(found);
        }
        let cell = block.cell_of(w)?;
        return is_set(&block.taken, block.granule_at(cell)).then(|| block.at(page as u32, cell));
    }
    find_large(map, state, page as u32)
}

// The object of a block that begins at a word.
#[inline(always)]
fn begun(page: u32, block: &Block, w: u64) -> Option<Found> {
    let granule = (w % 4_096 / 16) as usize;
    let begins = w % 16 == 0 && is_set(&block.taken, granule);
    begins.then(|| Found { base: w, len: u32::from(block.class.words()), kind: block.kind, page, cell: block.cell_at(granule as u32) })
}

// Most words point into cells.
#[inline(never)]
fn find_large(map: &[Page], state: &Page, page: u32) -> Option<Found> {
    match state {
        Page::Free | Page::Cut(_) => None,
        Page::Head(pages, kind) => Some(large(page, *pages, *kind)),
        Page::Body(first) => head(map, *first),
    }
}

/// The object of a block with this base.
#[inline]
pub fn object_in_block(page: u32, block: &Block, base: u64) -> Found {
    match block.cell_of(base) {
        Some(cell) => Found { base, len: u32::from(block.class.words()), kind: block.kind, page, cell },
        None => unreachable!(),
    }
}

/// The object with this base.
#[inline]
pub fn object_at(map: &[Page], base: u64) -> Found {
    let page = ((base - START) / 4_096) as u32;
    match &map[page as usize] {
        Page::Cut(block) => object_in_block(page, block, base),
        Page::Head(pages, kind) => large(page, *pages, *kind),
        _ => unreachable!(),
    }
}

/// The first allocated object that has a word of a page from an address on.
#[inline]
pub fn next_on_page(map: &[Page], page: u32, from: u64) -> Option<Found> {
    if from >= START + 4_096 * (u64::from(page) + 1) {
        return None;
    }
    match &map[page as usize] {
        Page::Free => None,
        Page::Cut(block) => Some(block.at(page, block.next_taken(block.cell_of(from)?)?)),
        Page::Head(pages, kind) => Some(large(page, *pages, *kind)),
        Page::Body(first) => head(map, *first),
    }
}
