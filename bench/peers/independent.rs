//! A heap that shares nothing with the proved one but its limits: two bits a cell, allocated and marked. An allocation takes the lowest
//! set bit of a word of free cells, a sweep of a page is one `and` a word of bits, a dirty page is read by its mark bits, and the mark
//! stack grows. One thread; reading is conservative.
#[cfg(lines)]
pub mod calls;

use crate::Heap;

const PAGE: u64 = 4096;
const WORDS_OF: [u16; 13] = [2, 4, 6, 8, 12, 16, 24, 32, 48, 64, 96, 128, 256];
const ROOTS: usize = 16;

#[derive(Clone, Copy, PartialEq)]
enum Use {
    Free,
    Small,
    /// The first page of a large object, and how many it has.
    Large(u32),
    /// How many pages behind the first one.
    Rest(u32),
}

#[derive(Clone, Copy)]
struct Page {
    allocated: [u64; 4],
    marked: [u64; 4],
    in_use: Use,
    words: u16,
    cells: u16,
    /// 65,536 by the granules of a cell, rounded up.
    reciprocal: u32,
    pointer_free: bool,
}

const FREE: Page =
    Page { allocated: [0; 4], marked: [0; 4], in_use: Use::Free, words: 0, cells: 0, reciprocal: 0, pointer_free: false };

impl Page {
    // The cells of a word of bits that hold no object.
    fn free_cells(&self, word: usize) -> u64 {
        let before = word * 64;
        let cells = usize::from(self.cells);
        let there = match cells {
            _ if cells <= before => 0,
            _ if cells - before >= 64 => u64::MAX,
            _ => (1 << (cells - before)) - 1,
        };
        there & !self.allocated[word]
    }
}

// Where the next object of a class and kind goes: a page, a word of its bits, and the free cells of this word.
#[derive(Clone, Copy, Default)]
struct Cursor {
    page: usize,
    word: usize,
    free: u64,
}

pub struct Independent {
    base: u64,
    bytes: u64,
    pages: Vec<Page>,
    free_pages: Vec<u32>,
    cursors: [Cursor; 26],
    /// The pages of each class and kind with a free cell behind those of its cursor.
    available: Vec<Vec<u32>>,
    class_of: [u8; 129],
    roots: [u64; ROOTS],
    stack: Vec<(u64, u64)>,
    dirty: [u64; 65],
    marking: bool,
    _words: Vec<[u64; 512]>,
}

impl Independent {
    // The first word of the object that a word points into, if the object isn't marked; it is then.
    #[inline(always)]
    fn mark_word(&mut self, word: u64) {
        let mut offset = word.wrapping_sub(self.base);
        if offset >= self.bytes {
            return;
        }
        let mut at = (offset / PAGE) as usize;
        if let Use::Rest(back) = self.pages[at].in_use {
            at -= back as usize;
            offset = at as u64 * PAGE;
        }
        let page = &mut self.pages[at];
        let cell = ((offset % PAGE) / 16 * u64::from(page.reciprocal)) >> 16;
        let (row, bit) = ((cell / 64) as usize, 1u64 << (cell % 64));
        if page.allocated[row] & !page.marked[row] & bit == 0 {
            return;
        }
        page.marked[row] |= bit;
        if !page.pointer_free {
            let words = match page.in_use {
                Use::Large(pages) => u64::from(pages) * 512,
                _ => u64::from(page.words),
            };
            let base = self.base + at as u64 * PAGE + cell * u64::from(page.words) * 8;
            self.stack.push((base, words));
        }
    }

    fn mark_object(&mut self, base: u64, words: u64) {
        for i in 0..words {
            // The words of an allocated object are those of `_words`.
            let word = unsafe { *((base + 8 * i) as *const u64) };
            self.mark_word(word);
        }
    }

    fn mark_stack(&mut self) {
        while let Some((base, words)) = self.stack.pop() {
            self.mark_object(base, words);
        }
    }

    fn mark_roots(&mut self) {
        for i in 0..ROOTS {
            self.mark_word(self.roots[i]);
        }
        self.mark_stack();
    }

    // The marked objects of a page are read again.
    fn retrace(&mut self, at: usize) {
        let page = self.pages[at];
        if page.in_use != Use::Small {
            let (first, words) = match page.in_use {
                Use::Rest(back) => (at - back as usize, 512),
                _ => (at, 512),
            };
            if self.pages[first].marked[0] == 1 && !self.pages[first].pointer_free {
                self.mark_object(self.base + at as u64 * PAGE, words);
            }
            return;
        }
        if page.pointer_free {
            return;
        }
        let words = u64::from(page.words);
        for row in 0..4 {
            let mut left = page.marked[row];
            while left != 0 {
                let cell = row as u64 * 64 + u64::from(left.trailing_zeros());
                left &= left - 1;
                self.mark_object(self.base + at as u64 * PAGE + cell * words * 8, words);
            }
        }
    }

    fn retrace_all(&mut self) {
        for row in 0..65 {
            while self.dirty[row] != 0 {
                let at = row * 64 + self.dirty[row].trailing_zeros() as usize;
                self.dirty[row] &= self.dirty[row] - 1;
                self.retrace(at);
                self.mark_stack();
            }
        }
    }

    // Each object that isn't marked goes, and the lists of pages are made anew.
    fn sweep(&mut self) -> u64 {
        let mut gone = 0;
        self.cursors = [Cursor::default(); 26];
        for list in &mut self.available {
            list.clear();
        }
        self.free_pages.clear();
        for at in (1..self.pages.len()).rev() {
            let page = &mut self.pages[at];
            let mut kept = 0;
            for row in 0..4 {
                gone += u64::from((page.allocated[row] & !page.marked[row]).count_ones());
                page.allocated[row] &= page.marked[row];
                kept += page.allocated[row].count_ones();
            }
            match page.in_use {
                Use::Free => self.free_pages.push(at as u32),
                Use::Small if kept == 0 => {
                    *page = FREE;
                    self.free_pages.push(at as u32);
                }
                Use::Small if kept < u32::from(page.cells) => {
                    let list = list_of(usize::from(self.class_of[usize::from(page.words) / 2]), page.pointer_free);
                    self.available[list].push(at as u32);
                }
                Use::Large(pages) if kept == 0 => {
                    for i in at..at + pages as usize {
                        self.pages[i] = FREE;
                        self.free_pages.push(i as u32);
                    }
                }
                _ => {}
            }
        }
        gone
    }

    // Moves a cursor to the next word with a free cell; false where none is left.
    #[cold]
    fn refill(&mut self, list: usize, class: usize, pointer_free: bool) -> bool {
        let mut cursor = self.cursors[list];
        loop {
            if self.pages[cursor.page].in_use == Use::Small && cursor.word < 3 && cursor.free == 0 && cursor.page != 0 {
                cursor.word += 1;
            } else if let Some(at) = self.available[list].pop() {
                cursor = Cursor { page: at as usize, word: 0, free: 0 };
            } else if let Some(at) = self.free_pages.pop() {
                let words = WORDS_OF[class];
                let page = &mut self.pages[at as usize];
                page.in_use = Use::Small;
                page.words = words;
                page.cells = 512 / words;
                page.reciprocal = 65_536_u32.div_ceil(u32::from(words / 2));
                page.pointer_free = pointer_free;
                cursor = Cursor { page: at as usize, word: 0, free: 0 };
            } else {
                return false;
            }
            cursor.free = self.pages[cursor.page].free_cells(cursor.word);
            self.cursors[list] = cursor;
            if cursor.free != 0 {
                return true;
            }
        }
    }

    fn alloc_large(&mut self, words: u64, pointer_free: bool) -> u64 {
        let wanted = words.div_ceil(512) as usize;
        let mut run = 0;
        for at in 1..self.pages.len() {
            run = if self.pages[at].in_use == Use::Free { run + 1 } else { 0 };
            if run == wanted {
                let first = at + 1 - wanted;
                for i in first..=at {
                    self.pages[i] = Page { in_use: Use::Rest((i - first) as u32), ..FREE };
                }
                let head = Page { allocated: [1, 0, 0, 0], in_use: Use::Large(wanted as u32), pointer_free, ..FREE };
                self.pages[first] = Page { marked: [u64::from(self.marking), 0, 0, 0], ..head };
                self.free_pages.retain(|page| !(first..=at).contains(&(*page as usize)));
                let base = self.base + first as u64 * PAGE;
                // The pages of the run are those of `_words`, and nobody has them.
                unsafe { std::ptr::write_bytes(base as *mut u64, 0, wanted * 512) };
                return base;
            }
        }
        0
    }

    fn alloc_small(&mut self, words: u64, pointer_free: bool) -> u64 {
        let class = usize::from(self.class_of[words.div_ceil(2) as usize]);
        let list = list_of(class, pointer_free);
        if self.cursors[list].free == 0 && !self.refill(list, class, pointer_free) {
            return 0;
        }
        let cursor = &mut self.cursors[list];
        let bit = cursor.free & cursor.free.wrapping_neg();
        cursor.free ^= bit;
        let cell = cursor.word as u64 * 64 + u64::from(bit.trailing_zeros());
        let page = &mut self.pages[cursor.page];
        page.allocated[cursor.word] |= bit;
        if self.marking {
            page.marked[cursor.word] |= bit;
        }
        let words = usize::from(WORDS_OF[class]);
        let base = self.base + cursor.page as u64 * PAGE + cell * words as u64 * 8;
        // The cell is one of `_words`, and nobody has it.
        unsafe { std::ptr::write_bytes(base as *mut u64, 0, words) };
        base
    }
}

fn list_of(class: usize, pointer_free: bool) -> usize {
    2 * class + usize::from(pointer_free)
}

impl Heap for Independent {
    const HAS_CYCLES: bool = true;
    const HAS_PARTIAL: bool = false;

    // Page 0 is left out, so that a cursor of 0 is none.
    fn open(pages: u32) -> Independent {
        let count = pages as usize + 1;
        let mut words: Vec<[u64; 512]> = vec![[0; 512]; count + 1];
        let base = (words.as_mut_ptr() as u64).next_multiple_of(PAGE);
        let mut class_of = [0; 129];
        for granules in 1..129 {
            class_of[granules] = WORDS_OF.iter().position(|words| usize::from(*words) >= 2 * granules).unwrap_or(12) as u8;
        }
        Independent {
            base,
            bytes: count as u64 * PAGE,
            pages: vec![FREE; count],
            free_pages: (1..count as u32).rev().collect(),
            cursors: [Cursor::default(); 26],
            available: vec![Vec::new(); 26],
            class_of,
            roots: [0; ROOTS],
            stack: Vec::with_capacity(4096),
            dirty: [0; 65],
            marking: false,
            _words: words,
        }
    }

    #[inline(never)]
    fn alloc(&mut self, root: usize, words: u64, pointer_free: bool) -> u64 {
        let base = if words <= 256 { self.alloc_small(words, pointer_free) } else { self.alloc_large(words, pointer_free) };
        if base != 0 {
            self.roots[root] = base;
        }
        base
    }

    #[inline(never)]
    fn set_root(&mut self, root: usize, word: u64) {
        self.roots[root] = word;
    }

    fn store(&mut self, at: u64, word: u64) {
        if self.marking {
            let page = ((at - self.base) / PAGE) as usize;
            self.dirty[page / 64] |= 1 << (page % 64);
        }
        unsafe { *(at as *mut u64) = word };
    }

    #[inline(never)]
    fn begin(&mut self) {
        for page in &mut self.pages {
            page.marked = [0; 4];
        }
        self.dirty = [0; 65];
        self.marking = true;
    }

    #[inline(never)]
    fn mark_all(&mut self) {
        self.mark_roots();
    }

    #[inline(never)]
    fn finish(&mut self) -> u64 {
        self.mark_roots();
        self.retrace_all();
        self.marking = false;
        self.sweep()
    }

    fn sweep_all(&mut self) {}

    #[inline(never)]
    fn collect(&mut self) -> u64 {
        self.begin();
        self.finish()
    }
}
