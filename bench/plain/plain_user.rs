//! A mutator that calls for many objects, as the proved benchmark's does, and by functions of the same names. Those
//! that are timed are not inlined, so that `instructions` can count by their names.
// A program uses a part of it.
#![allow(dead_code)]

use crate::plain_core::Core;
use crate::plain_map::Kind;
use std::hint::black_box;

/// A heap of the most pages, its mutator, and three of its registers. The last one keeps what it has.
pub struct User {
    core: Core,
    slot: usize,
    object: usize,
    word: usize,
    kept: usize,
}

impl User {
    /// Opens the heap. That its registers are these is known to no call.
    pub fn new() -> User {
        let mut core = Core::new();
        let slot = core.attach().ok().unwrap();
        black_box(User { core, slot, object: 1, word: 2, kept: 3 })
    }

    /// Allocates an object, and answers its base.
    #[inline]
    pub fn allocate(&mut self, words: u64) -> u64 {
        let _done = self.core.alloc(self.slot, self.object, words, Kind::Normal);
        self.core.get(self.slot, self.object).unwrap_or(0)
    }

    #[inline]
    fn free(&mut self, base: u64) {
        self.aim(base);
        let _freed = self.core.free(self.slot, self.object);
    }

    /// Allocates an object for each request, and keeps their bases.
    #[inline(never)]
    pub fn allocate_all(&mut self, sizes: &[u64], bases: &mut [u64]) {
        for (base, size) in bases.iter_mut().zip(sizes) {
            *base = self.allocate(*size);
        }
    }

    /// Allocates objects of so many words, and keeps their bases. Each request is looked up anew, even if inlined here.
    #[inline(never)]
    pub fn allocate_each(&mut self, words: u64, bases: &mut [u64]) {
        for base in bases {
            *base = self.allocate(black_box(words));
        }
    }

    pub fn free_all(&mut self, bases: &[u64]) {
        for base in bases {
            self.free(*base);
        }
    }

    /// Frees each object of the ring, and allocates another in its place.
    #[inline(never)]
    pub fn turn(&mut self, sizes: &[u64], ring: &mut [u64]) {
        for (base, size) in ring.iter_mut().zip(sizes) {
            self.free(*base);
            *base = self.allocate(*size);
        }
    }

    #[inline]
    fn aim(&mut self, base: u64) {
        let _done = self.core.set(self.slot, self.object, base);
    }

    #[inline]
    fn load(&mut self, offset: u64) -> u64 {
        self.core.load(self.slot, self.word, self.object, offset).unwrap_or(7)
    }

    #[inline]
    fn store(&mut self, offset: u64, from: usize) {
        let _stored = self.core.store(self.slot, self.object, offset, from);
    }

    /// Loads two words of each object, and answers their sum.
    #[inline(never)]
    pub fn load_all(&mut self, ring: &[u64]) -> u64 {
        let mut sum: u64 = 0;
        for base in ring {
            self.aim(*base);
            for offset in 0..2 {
                sum = sum.wrapping_add(self.load(offset));
            }
        }
        sum
    }

    /// Stores into two words of each object.
    #[inline(never)]
    pub fn store_all(&mut self, ring: &[u64]) {
        for base in ring {
            self.aim(*base);
            for offset in 0..2 {
                self.store(offset, self.object);
            }
        }
    }

    /// Stores a word into an object.
    #[inline]
    pub fn link(&mut self, base: u64, offset: u64, word: u64) {
        self.aim(base);
        let _set = self.core.set(self.slot, self.word, word);
        self.store(offset, self.word);
    }

    #[inline]
    fn size(&mut self, base: u64) -> u64 {
        self.aim(base);
        self.core.size(self.slot, self.object).unwrap_or(0)
    }

    /// Asks for the words of every second object, and answers their sum.
    #[inline(never)]
    pub fn sizes(&mut self, bases: &[u64]) -> u64 {
        let mut sum: u64 = 0;
        for base in bases.iter().step_by(2) {
            sum = sum.wrapping_add(self.size(*base));
        }
        sum
    }

    /// Only the objects that this word reaches stay reached.
    pub fn keep(&mut self, word: u64) {
        let _kept = self.core.set(self.slot, self.kept, word);
        let _object = self.core.set(self.slot, self.object, 0);
        let _word = self.core.set(self.slot, self.word, 0);
    }

    /// Collects in full, and answers how many objects went.
    #[inline(never)]
    pub fn collect(&mut self) -> u64 {
        self.core.collect()
    }

    // Reads all entries and the lowest dirty page. Answers whether there was one.
    fn mark_on(&mut self) -> bool {
        let _marked = self.core.mark(u64::MAX);
        matches!(self.core.retrace(), Ok(1))
    }

    /// Begins a cycle, and marks till nothing is left to read.
    pub fn mark_all(&mut self) {
        let _begun = self.core.begin();
        let _read = self.core.roots();
        while self.mark_on() {}
    }

    /// Begins a cycle, with the marks of the last one if it is a partial one, and marks till nothing is left to read.
    /// Answers how many words were read off entries.
    #[inline(never)]
    pub fn mark_cycle(&mut self, is_partial: bool) -> u64 {
        let _begun = if is_partial { self.core.begin_partial() } else { self.core.begin() };
        let _read = self.core.roots();
        let mut read: u64 = 0;
        loop {
            read = read.wrapping_add(self.core.mark(u64::MAX).unwrap_or(0));
            if !matches!(self.core.retrace(), Ok(1)) {
                return read;
            }
        }
    }

    /// Ends the cycle, and answers how many objects went.
    #[inline(never)]
    pub fn finish(&mut self) -> u64 {
        self.core.finish().unwrap_or(0)
    }

    /// Sweeps what is left to sweep.
    pub fn sweep_all(&mut self) {
        while self.core.sweep() {}
    }
}
