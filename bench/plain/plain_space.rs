//! The objects of a heap in plain Rust, with the data and the steps of the proved ones: the words, the map, the free
//! pages, for each class and kind a row of the pages that are ready, since they have a free cell and need no sweep, and a
//! row of those that wait for one, and all pages that are still to be swept.
// A program uses a part of it.
#![allow(dead_code)]

mod sweep;

use crate::plain_class::{CLASSES, Class, Placement};
use crate::plain_map::{Block, Found, Kind, Page, START, find};
use crate::plain_marker::Marker;
use crate::plain_pool::{give, take_run};
use crate::plain_row::LowestRow;

const PAGE_WORDS: usize = 512;

/// The objects of a heap.
pub struct Space {
    words: Vec<u64>,
    map: Vec<Page>,
    free: Vec<u64>,
    ready: Vec<LowestRow>,
    waiting: Vec<LowestRow>,
    pending: LowestRow,
}

#[inline]
fn place(address: u64) -> usize {
    ((address - START) / 8) as usize
}

// A row of pages for each class and kind.
fn rows(pages: usize) -> Vec<LowestRow> {
    (0..2 * CLASSES).map(|_| LowestRow::new(pages)).collect()
}

#[inline]
fn start_of(page: usize) -> u64 {
    START + 4_096 * page as u64
}

#[inline]
fn row_of(class: Class, kind: Kind) -> usize {
    2 * class.number() + usize::from(kind == Kind::PointerFree)
}

// The words of the four least cells are written at once. If `fill` stood here, all were made one again.
#[inline]
fn zero(cell: &mut [u64]) {
    match cell {
        [a, b] => (*a, *b) = (0, 0),
        [a, b, c, d] => (*a, *b, *c, *d) = (0, 0, 0, 0),
        [a, b, c, d, e, f] => (*a, *b, *c, *d, *e, *f) = (0, 0, 0, 0, 0, 0),
        [a, b, c, d, e, f, g, h] => (*a, *b, *c, *d, *e, *f, *g, *h) = (0, 0, 0, 0, 0, 0, 0, 0),
        _ => zero_all(cell),
    }
}

#[inline(never)]
fn zero_all(cell: &mut [u64]) {
    cell.fill(0);
}

impl Space {
    /// So many pages, with no object on them.
    pub fn new(pages: usize) -> Space {
        let mut free = vec![0; pages.div_ceil(64)];
        give(&mut free, 0, pages);
        Space {
            words: vec![0; PAGE_WORDS * pages],
            map: (0..pages).map(|_| Page::Free).collect(),
            free,
            ready: rows(pages),
            waiting: rows(pages),
            pending: LowestRow::new(pages),
        }
    }

    /// The kept object that a word points into. On a page that is still to be swept only marked objects are kept.
    #[inline(always)]
    pub fn find(&self, marker: &Marker, word: u64) -> Option<Found> {
        let found = find(&self.map, word)?;
        (!self.pending.is_set(found.page as usize) || marker.is_marked(found.base)).then_some(found)
    }

    /// The word at an address.
    #[inline]
    pub fn read(&self, address: u64) -> u64 {
        self.words[place(address)]
    }

    /// Writes a word at an address.
    #[inline]
    pub fn write(&mut self, address: u64, word: u64) {
        self.words[place(address)] = word;
    }

    // The lowest page with a free cell for the class and the kind that needs no sweep, or else the lowest one for them that
    // waits for a sweep.
    #[inline]
    fn page_for(&self, class: Class, kind: Kind) -> Option<usize> {
        let row = row_of(class, kind);
        self.ready[row].first().or_else(|| self.waiting[row].first())
    }

    // Takes the lowest free cell of a page that has one.
    #[inline(always)]
    fn take_cell(&mut self, page: usize, class: Class, kind: Kind) -> u64 {
        let Page::Cut(block) = &mut self.map[page] else {
            unreachable!();
        };
        let Some(cell) = block.take() else {
            unreachable!();
        };
        let was_last = block.is_full();
        let words = usize::from(class.words());
        let start = PAGE_WORDS * page + usize::from(cell) * words;
        zero(&mut self.words[start..start + words]);
        if was_last {
            self.ready[row_of(class, kind)].clear(page);
        }
        START + 8 * start as u64
    }

    // Cuts a free page, and takes its lowest cell.
    #[inline(never)]
    fn take_page(&mut self, class: Class, kind: Kind) -> Option<u64> {
        let page = take_run(&mut self.free, 1)?;
        self.map[page] = Page::Cut(Block::new(class, kind));
        self.ready[row_of(class, kind)].set(page);
        Some(self.take_cell(page, class, kind))
    }

    // Takes a run of free pages.
    #[inline(never)]
    fn take_pages(&mut self, pages: usize, kind: Kind) -> Option<u64> {
        let first = take_run(&mut self.free, pages)?;
        self.map[first] = Page::Head(pages as u32, kind);
        for page in first + 1..first + pages {
            self.map[page] = Page::Body(first as u32);
        }
        self.words[PAGE_WORDS * first..PAGE_WORDS * (first + pages)].fill(0);
        Some(start_of(first))
    }

    // A page with a free cell for the class and the kind that needs no sweep. Pages for them that wait for one are swept
    // first, one by one.
    #[inline(always)]
    fn swept_page(&mut self, marker: &Marker, class: Class, kind: Kind) -> Option<usize> {
        while let Some(page) = self.page_for(class, kind) {
            if !self.pending.is_set(page) {
                return Some(page);
            }
            self.sweep_page(marker, page);
        }
        None
    }

    #[inline(always)]
    fn place_small(&mut self, marker: &Marker, class: Class, kind: Kind) -> Option<u64> {
        match self.swept_page(marker, class, kind) {
            Some(page) => Some(self.take_cell(page, class, kind)),
            None => self.take_page(class, kind),
        }
    }

    #[inline(always)]
    fn place(&mut self, marker: &Marker, placement: Placement, kind: Kind) -> Option<u64> {
        match placement {
            Placement::Small(class) => self.place_small(marker, class, kind),
            Placement::Large(pages) => self.take_pages(pages, kind),
        }
    }

    // The lowest free cell of the lowest page for the class and the kind that needs no sweep.
    #[inline(always)]
    fn take_ready(&mut self, class: Class, kind: Kind) -> Option<u64> {
        let page = self.ready[row_of(class, kind)].first()?;
        Some(self.take_cell(page, class, kind))
    }

    // A place for a new object where none is ready: it sweeps as it needs, and takes free pages.
    #[inline(never)]
    fn search(&mut self, marker: &Marker, placement: Placement, kind: Kind) -> Option<u64> {
        if let Some(base) = self.place(marker, placement, kind) {
            return Some(base);
        }
        while self.sweep(marker) {
            if let Some(base) = self.place(marker, placement, kind) {
                return Some(base);
            }
        }
        None
    }

    /// Takes a place for a new object, writes 0 into its words, and answers its base. It sweeps as it needs.
    #[inline]
    pub fn allocate(&mut self, marker: &Marker, placement: Placement, kind: Kind) -> Option<u64> {
        let ready = match placement {
            Placement::Small(class) => self.take_ready(class, kind),
            Placement::Large(_) => None,
        };
        ready.or_else(|| self.search(marker, placement, kind))
    }

    /// Frees an allocated object, and its page with the last one.
    #[inline]
    pub fn release(&mut self, found: Found) {
        let page = found.page as usize;
        let Page::Cut(block) = &mut self.map[page] else {
            return self.free_pages(page, found.len as usize / PAGE_WORDS);
        };
        let row = row_of(block.class, block.kind);
        let was_full = block.is_full();
        block.put(found.cell);
        if block.is_empty() {
            self.free_block(page, row);
        } else if was_full && !self.pending.is_set(page) {
            self.ready[row].set(page);
        }
    }

    // Frees the page of a block of a row.
    #[inline(never)]
    fn free_block(&mut self, page: usize, row: usize) {
        self.map[page] = Page::Free;
        give(&mut self.free, page, 1);
        self.ready[row].clear(page);
        self.waiting[row].clear(page);
        self.pending.clear(page);
    }

    // Frees the pages of a large object.
    fn free_pages(&mut self, first: usize, pages: usize) {
        for page in &mut self.map[first..first + pages] {
            *page = Page::Free;
        }
        give(&mut self.free, first, pages);
    }

    /// Marks what root words read.
    pub fn scan_roots(&self, marker: &mut Marker, roots: &[u64]) {
        marker.scan_roots(&self.map, roots);
    }

    /// Reads at most so many words of entries, and answers how many.
    pub fn mark(&self, marker: &mut Marker, most: u64) -> u64 {
        marker.step(&self.map, &self.words, most)
    }

    /// Reads the lowest dirty page again. Answers whether there was one.
    pub fn retrace(&self, marker: &mut Marker) -> bool {
        marker.retrace(&self.map, &self.words).is_some()
    }
}
