//! Sweeping, and the end of a cycle: what isn't reached is forgotten, and goes when its page is swept.
use super::{Space, row_of, start_of};
use crate::plain_map::Page;
use crate::plain_marker::Marker;
use crate::plain_row::{next, ones};

impl Space {
    // Sweeps a page. One that keeps no object is free at once, and none of its cells is looked at where it has no mark.
    pub(super) fn sweep_page(&mut self, marker: &Marker, page: usize) {
        let Page::Cut(block) = &mut self.map[page] else {
            unreachable!();
        };
        let row = row_of(block.class, block.kind);
        let marks = marker.marks_on(page);
        if marks == [0; 4] {
            return self.free_block(page, row);
        }
        block.sweep(marks);
        let is_full = block.is_full();
        if block.is_empty() {
            return self.free_block(page, row);
        }
        self.pending.clear(page);
        self.waiting[row].clear(page);
        if !is_full {
            self.ready[row].set(page);
        }
    }

    /// Sweeps one page, if one is still to be swept. Answers whether one was.
    pub fn sweep(&mut self, marker: &Marker) -> bool {
        let Some(page) = self.pending.first() else {
            return false;
        };
        self.sweep_page(marker, page);
        true
    }

    /// Sweeps all pages that are still to be swept.
    pub fn sweep_all(&mut self, marker: &Marker) {
        while self.sweep(marker) {}
    }

    // Forgets the unmarked objects that begin on a page, and answers how many: a large one goes now, and a block that
    // has one is to be swept.
    fn forget_on(&mut self, marker: &Marker, page: usize) -> u32 {
        match &self.map[page] {
            Page::Free | Page::Body(_) => 0,
            Page::Cut(block) => {
                let unmarked = ones(&block.taken) - ones(marker.marks_on(page));
                if unmarked > 0 {
                    let row = row_of(block.class, block.kind);
                    self.pending.set(page);
                    self.ready[row].clear(page);
                    self.waiting[row].set(page);
                }
                unmarked
            }
            Page::Head(_, _) if marker.is_marked(start_of(page)) => 0,
            Page::Head(pages, _) => {
                self.free_pages(page, *pages as usize);
                1
            }
        }
    }

    /// Ends a cycle: what the roots and the marks reach is marked, and the other objects are forgotten. Answers how
    /// many.
    pub fn finish(&mut self, marker: &mut Marker, roots: &[u64]) -> u64 {
        marker.mark(&self.map, &self.words, roots);
        let mut gone = 0;
        let mut low = 0;
        while let Some(page) = next(&self.free, low, false).filter(|page| *page < self.map.len()) {
            gone += u64::from(self.forget_on(marker, page));
            low = page + 1;
        }
        gone
    }

    /// The same, but all that is forgotten is swept now.
    pub fn collect(&mut self, marker: &mut Marker, roots: &[u64]) -> u64 {
        let gone = self.finish(marker, roots);
        self.sweep_all(marker);
        gone
    }
}
