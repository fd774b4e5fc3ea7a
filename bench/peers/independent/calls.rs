//! What a script's lines need beside the rows: objects are looked up, and words of mutators that the heap doesn't keep are marked.
use super::{Independent, PAGE, Use};
use crate::Heap;

/// An object: its first word, and how many it has.
pub struct Found {
    pub base: u64,
    pub words: u64,
}

impl Independent {
    /// Whether a word is an address of the heap's pages.
    pub fn has(&self, word: u64) -> bool {
        word.wrapping_sub(self.base) < self.bytes
    }

    /// The object that a word points into.
    pub fn find(&self, word: u64) -> Option<Found> {
        let mut offset = word.wrapping_sub(self.base);
        if offset >= self.bytes {
            return None;
        }
        let mut at = (offset / PAGE) as usize;
        if let Use::Rest(back) = self.pages[at].in_use {
            at -= back as usize;
            offset = at as u64 * PAGE;
        }
        let page = &self.pages[at];
        let cell = ((offset % PAGE) / 16 * u64::from(page.reciprocal)) >> 16;
        if page.allocated[(cell / 64) as usize] >> (cell % 64) & 1 == 0 {
            return None;
        }
        let words = match page.in_use {
            Use::Large(pages) => u64::from(pages) * 512,
            _ => u64::from(page.words),
        };
        Some(Found { base: self.base + at as u64 * PAGE + cell * u64::from(page.words) * 8, words })
    }

    /// The base of a new object, which no root of the heap's own keeps; 0 where there is no room.
    pub fn allocate(&mut self, words: u64, pointer_free: bool) -> u64 {
        if words <= 256 { self.alloc_small(words, pointer_free) } else { self.alloc_large(words, pointer_free) }
    }

    pub fn is_marking(&self) -> bool {
        self.marking
    }

    /// Marks what the words point into, and reads none of it yet.
    pub fn mark_words(&mut self, words: &[u64]) {
        for word in words {
            self.mark_word(*word);
        }
    }

    /// Begins a cycle, also in place of one that is marking.
    pub fn begin_anew(&mut self) {
        self.stack.clear();
        self.begin();
    }
}
