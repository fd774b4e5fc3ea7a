//! A marker in plain Rust, as programs of this folder measure it: the same data and calls as the proved one.
// A program uses a part of it.
#![allow(dead_code)]

use crate::plain_map::{Block, Found, Kind, Page, START, find, next_on_page, object_at, object_in_block};
use crate::plain_row::{clear, is_set, next, set};

const ENTRIES: usize = 256;

// A row of fewer words is read one by one.
const FEW: usize = 16;

// So many entries at most are looked up before the first of them is read, and one for each so many words that may be read.
const LOOKS: u64 = 64;
const WORDS_A_LOOK: u64 = 8;

// So many objects are begun together, where `WIDE` entries are known to have words, and no more wait than `CROWDED`.
const TOGETHER: usize = 8;
const WIDE: usize = 2 * TOGETHER;
const CROWDED: usize = ENTRIES - 4 * TOGETHER;

/// An object to be read: its base, the number of its next word, and how many words it has.
#[derive(Clone, Copy, Default)]
pub struct Entry {
    pub base: u64,
    pub next: u32,
    pub len: u32,
}

// An object that was taken off the stack, and its first two words.
#[derive(Clone, Copy, Default)]
struct Begun {
    base: u64,
    len: u32,
    first: u64,
    second: u64,
}

/// The granule of an address, counted from the heap's first one.
#[inline]
pub fn granule(address: u64) -> usize {
    ((address - START) / 16) as usize
}

/// Marks, dirty and carried pages, and the entries of the objects to be read.
pub struct Marker {
    pub marks: Vec<u64>,
    pub dirty: Vec<u64>,
    pub carried: Vec<u64>,
    current: Option<Entry>,
    stack: [Entry; ENTRIES],
    len: usize,
}

impl Marker {
    /// A marker of a heap of so many pages.
    pub fn new(pages: usize) -> Marker {
        Marker {
            marks: vec![0; 4 * pages],
            dirty: vec![0; pages.div_ceil(64)],
            carried: vec![0; pages.div_ceil(64)],
            current: None,
            stack: [Entry::default(); ENTRIES],
            len: 0,
        }
    }

    /// Begins a cycle: no mark, no dirty or carried page and no entry.
    pub fn begin(&mut self) {
        self.marks.fill(0);
        self.dirty.fill(0);
        self.carried.fill(0);
        self.current = None;
        self.len = 0;
    }

    /// Begins a cycle with the marks of the last one: the carried pages are dirty now, and none is carried.
    pub fn begin_partial(&mut self) {
        for (word, more) in self.dirty.iter_mut().zip(&self.carried) {
            *word |= more;
        }
        self.carried.fill(0);
    }

    /// Whether the object with this base is marked.
    #[inline]
    pub fn is_marked(&self, base: u64) -> bool {
        is_set(&self.marks, granule(base))
    }

    /// The marks of a page's granules.
    #[inline]
    pub fn marks_on(&self, page: usize) -> &[u64] {
        &self.marks[4 * page..4 * page + 4]
    }

    /// A word was written at the address.
    #[inline]
    pub fn written(&mut self, address: u64) {
        set(&mut self.dirty, ((address - START) / 4_096) as usize);
    }

    /// An object was allocated at the base.
    #[inline]
    pub fn allocated(&mut self, base: u64) {
        set(&mut self.marks, granule(base));
    }

    /// The object with this base was freed.
    #[inline]
    pub fn freed(&mut self, base: u64) {
        clear(&mut self.marks, granule(base));
    }

    // Answers whether the word lies in the heap and points into no object.
    #[inline]
    fn mark_word(&mut self, map: &[Page], heap_bytes: u64, word: u64) -> bool {
        word.wrapping_sub(START) < heap_bytes && self.mark_target(map, word)
    }

    // Most words point into no object, so that the loop over words is to hold the test of the range and not this.
    #[inline(never)]
    fn mark_target(&mut self, map: &[Page], word: u64) -> bool {
        if word % 16 == 0 && is_set(&self.marks, granule(word)) {
            return false;
        }
        let Some(found) = find(map, word) else {
            return true;
        };
        let granule = granule(found.base);
        if is_set(&self.marks, granule) {
            return false;
        }
        set(&mut self.marks, granule);
        if found.kind == Kind::PointerFree {
            return false;
        }
        if self.len == ENTRIES {
            let first = (found.base - START) / 4_096;
            let last = (found.base + 8 * u64::from(found.len) - 1 - START) / 4_096;
            for page in first..=last {
                set(&mut self.dirty, page as usize);
            }
        } else {
            self.stack[self.len] = Entry { base: found.base, next: 0, len: found.len };
            self.len += 1;
        }
        false
    }

    #[inline(never)]
    fn mark_four(&mut self, map: &[Page], words: &[u64; 4]) -> bool {
        let heap_bytes = 4_096 * map.len() as u64;
        words.iter().fold(false, |stray, word| stray | self.mark_word(map, heap_bytes, *word))
    }

    // Most words lie outside of the heap, so that four are tested at a time.
    #[inline(never)]
    fn mark_many(&mut self, map: &[Page], heap_bytes: u64, words: &[u64]) -> bool {
        let (fours, left) = words.as_chunks();
        let mut stray = false;
        for four in fours {
            let [a, b, c, d] = four.map(|word| word.wrapping_sub(START));
            if a.min(b).min(c.min(d)) < heap_bytes {
                stray |= self.mark_four(map, four);
            }
        }
        stray | self.mark_each(map, heap_bytes, left)
    }

    #[inline]
    fn mark_each(&mut self, map: &[Page], heap_bytes: u64, words: &[u64]) -> bool {
        words.iter().fold(false, |stray, word| stray | self.mark_word(map, heap_bytes, *word))
    }

    // The words stand on one page.
    #[inline]
    fn mark_words(&mut self, map: &[Page], heap_bytes: u64, memory: &[u64], base: u64, first: u32, count: u64) {
        let start = ((base - START) / 8) as usize + first as usize;
        let words = &memory[start..start + count as usize];
        let stray = if words.len() < FEW { self.mark_each(map, heap_bytes, words) } else { self.mark_many(map, heap_bytes, words) };
        if stray {
            set(&mut self.carried, start / 512);
        }
    }

    // All words of an object, which stand on one page: of two and of four a compiler makes no loop.
    #[inline(always)]
    fn mark_object(&mut self, map: &[Page], heap_bytes: u64, memory: &[u64], base: u64, len: u32) {
        match len {
            2 => self.mark_words(map, heap_bytes, memory, base, 0, 2),
            4 => self.mark_words(map, heap_bytes, memory, base, 0, 4),
            _ => self.mark_words(map, heap_bytes, memory, base, 0, u64::from(len)),
        }
    }

    // The object of which an entry has words left.
    fn unread(&self, map: &[Page], Entry { base, next, .. }: Entry) -> Option<Found> {
        let found = find(map, base)?;
        let is_unread = found.base == base && found.kind == Kind::Normal && next < found.len && self.is_marked(base);
        is_unread.then_some(found)
    }

    fn live(&self, map: &[Page]) -> Option<Found> {
        self.unread(map, self.current?)
    }

    // Whether an entry has words left, of an object of the length that it says.
    #[inline]
    fn is_known(&self, map: &[Page], entry: Entry) -> bool {
        self.unread(map, entry).is_some_and(|found| found.len == entry.len)
    }

    // From which number on the entries that wait are known to have a word: from `known` on they are, and below some are looked up.
    #[inline(never)]
    fn look_below(&self, map: &[Page], known: usize, most: u64) -> usize {
        let mut lowest = known;
        for _ in 0..(most / WORDS_A_LOOK).min(LOOKS) {
            if lowest == 0 || !self.is_known(map, self.stack[lowest - 1]) {
                return lowest;
            }
            lowest -= 1;
        }
        lowest
    }

    #[inline]
    fn take_entry(&mut self) -> bool {
        self.current = self.len.checked_sub(1).map(|top| self.stack[top]);
        self.len = self.len.saturating_sub(1);
        self.current.is_some()
    }

    #[inline(never)]
    fn settle(&mut self, map: &[Page]) -> Option<Found> {
        loop {
            if let Some(live) = self.live(map) {
                return Some(live);
            }
            if !self.take_entry() {
                return None;
            }
        }
    }

    // Entries from number `known` on have a word left, and aren't looked up.
    #[inline]
    fn next(&mut self, map: &[Page], known: usize) -> Option<Found> {
        match self.current {
            Some(entry) if known <= self.len => Some(object_at(map, entry.base)),
            _ => self.settle(map),
        }
    }

    /// Reads words of entries, at most so many, and answers how many.
    pub fn step(&mut self, map: &[Page], memory: &[u64], budget: u64) -> u64 {
        let heap_bytes = 4_096 * map.len() as u64;
        let mut read = 0;
        let mut known = self.len + 1;
        while let Some(found) = self.next(map, known) {
            if read == budget {
                return read;
            }
            known = self.look_below(map, known.min(self.len), budget - read);
            read += self.read_off(map, heap_bytes, memory, found, known, budget - read);
        }
        read
    }

    fn read_off(&mut self, map: &[Page], heap_bytes: u64, memory: &[u64], found: Found, known: usize, most: u64) -> u64 {
        let Some(Entry { base, next, .. }) = self.current else {
            unreachable!();
        };
        let left = u64::from(found.len - next);
        let on_page = 512 - ((base - START) / 8 + u64::from(next)) % 512;
        let count = left.min(most).min(on_page);
        self.mark_words(map, heap_bytes, memory, base, next, count);
        self.current = Some(Entry { base, next: next + count as u32, len: found.len });
        if count < left {
            return count;
        }
        let more = self.read_wholes(map, heap_bytes, memory, known, most - count);
        self.take_entry();
        count + more
    }

    // The entry on top of the stack, unless its number is below `known` or its words stand on more than one page.
    #[inline]
    fn top(&self, known: usize) -> Option<Entry> {
        if known >= self.len {
            return None;
        }
        let top = self.stack[self.len - 1];
        (top.base % 4_096 + 8 * u64::from(top.len) <= 4_096).then_some(top)
    }

    // Objects that are read whole: several together where so many wait, and else one after the other.
    #[inline(never)]
    fn read_wholes(&mut self, map: &[Page], heap_bytes: u64, memory: &[u64], known: usize, most: u64) -> u64 {
        let mut read = 0;
        loop {
            let more = if self.len < known + WIDE || self.len > CROWDED {
                self.read_top(map, heap_bytes, memory, known, most - read)
            } else {
                self.read_together(map, heap_bytes, memory, known, most - read)
            };
            if more == 0 {
                return read;
            }
            read += more;
        }
    }

    // Of the objects to which an object led, the second from the top is brought onto the top if it lies nearer.
    #[inline]
    fn bring_nearer(&mut self, depth: usize, base: u64) {
        if self.len <= depth {
            return;
        }
        let (second, top) = (self.stack[self.len - 2].base, self.stack[self.len - 1].base);
        if second.abs_diff(base) < top.abs_diff(base) {
            self.stack.swap(self.len - 1, self.len - 2);
        }
    }

    #[inline]
    fn read_top(&mut self, map: &[Page], heap_bytes: u64, memory: &[u64], known: usize, most: u64) -> u64 {
        let Some(top) = self.top(known) else {
            return 0;
        };
        let len = u64::from(top.len);
        if len > most {
            return 0;
        }
        let depth = self.len;
        self.len -= 1;
        self.mark_object(map, heap_bytes, memory, top.base, top.len);
        self.bring_nearer(depth, top.base);
        len
    }

    // Takes objects off the stack and reads the first two words of each.
    #[inline]
    fn begin_objects(&mut self, memory: &[u64], known: usize, most: u64, begun: &mut [Begun; TOGETHER]) -> usize {
        let mut left = most;
        for number in 0..TOGETHER {
            let Some(top) = self.top(known) else {
                return number;
            };
            let len = u64::from(top.len);
            if len < 2 || len > left {
                return number;
            }
            left -= len;
            self.len -= 1;
            let place = ((top.base - START) / 8) as usize;
            let words = &memory[place..place + 2];
            begun[number] = Begun { base: top.base, len: top.len, first: words[0], second: words[1] };
        }
        TOGETHER
    }

    #[inline(never)]
    fn mark_behind(&mut self, map: &[Page], heap_bytes: u64, memory: &[u64], begun: Begun) -> bool {
        let place = ((begun.base - START) / 8) as usize;
        let words = &memory[place + 2..place + begun.len as usize];
        if words.len() < FEW { self.mark_each(map, heap_bytes, words) } else { self.mark_many(map, heap_bytes, words) }
    }

    #[inline]
    fn finish(&mut self, map: &[Page], heap_bytes: u64, memory: &[u64], begun: Begun) {
        let first = self.mark_word(map, heap_bytes, begun.first);
        let second = self.mark_word(map, heap_bytes, begun.second);
        let rest = begun.len > 2 && self.mark_behind(map, heap_bytes, memory, begun);
        if first | second | rest {
            set(&mut self.carried, ((begun.base - START) / 4_096) as usize);
        }
    }

    #[inline(never)]
    fn read_together(&mut self, map: &[Page], heap_bytes: u64, memory: &[u64], known: usize, most: u64) -> u64 {
        let room = (ENTRIES - self.len) as u64;
        let mut begun = [Begun::default(); TOGETHER];
        let count = self.begin_objects(memory, known, most.min(512).min(room), &mut begun);
        let mut read = 0;
        for one in &begun[..count] {
            self.finish(map, heap_bytes, memory, *one);
            read += u64::from(one.len);
        }
        read
    }

    #[inline]
    fn reread_at(&mut self, map: &[Page], heap_bytes: u64, memory: &[u64], page: u32, block: &Block, granule: usize) {
        let found = object_in_block(page, block, START + 16 * granule as u64);
        self.mark_object(map, heap_bytes, memory, found.base, found.len);
    }

    fn reread_cells(&mut self, map: &[Page], heap_bytes: u64, memory: &[u64], page: u32, block: &Block) {
        if block.kind == Kind::PointerFree {
            return;
        }
        for word in 4 * page as usize..4 * page as usize + 4 {
            self.reread_marked(map, heap_bytes, memory, page, block, word);
        }
    }

    #[inline(never)]
    fn reread_marked(&mut self, map: &[Page], heap_bytes: u64, memory: &[u64], page: u32, block: &Block, word: usize) {
        let mut rest = self.marks[word];
        while rest != 0 {
            self.reread_at(map, heap_bytes, memory, page, block, 64 * word + rest.trailing_zeros() as usize);
            rest &= rest - 1;
        }
    }

    fn reread_objects(&mut self, map: &[Page], heap_bytes: u64, memory: &[u64], page: u32, end: u64) {
        let mut address = end - 4_096;
        while let Some(found) = next_on_page(map, page, address) {
            let stop = (found.base + 8 * u64::from(found.len)).min(end);
            if found.kind == Kind::Normal && self.is_marked(found.base) {
                let first = address.saturating_sub(found.base) / 8;
                let count = (stop - found.base) / 8 - first;
                self.mark_words(map, heap_bytes, memory, found.base, first as u32, count);
            }
            address = stop;
        }
    }

    /// Reads the lowest dirty page again.
    pub fn retrace(&mut self, map: &[Page], memory: &[u64]) -> Option<u32> {
        let page = next(&self.dirty, 0, true)?;
        clear(&mut self.dirty, page);
        let page = page as u32;
        let heap_bytes = 4_096 * map.len() as u64;
        let end = START + 4_096 * (u64::from(page) + 1);
        match &map[page as usize] {
            Page::Cut(block) => self.reread_cells(map, heap_bytes, memory, page, block),
            _ => self.reread_objects(map, heap_bytes, memory, page, end),
        }
        Some(page)
    }

    /// The entry that is being read.
    pub fn current(&self) -> Option<Entry> {
        self.current
    }

    /// Those that wait, the next one last.
    pub fn waiting(&self) -> &[Entry] {
        &self.stack[..self.len]
    }

    /// How many pages are dirty.
    pub fn count_dirty(&self) -> usize {
        self.dirty.iter().map(|word| word.count_ones() as usize).sum()
    }

    /// No entry is left and no page is dirty.
    pub fn forget_work(&mut self) {
        self.current = None;
        self.len = 0;
        self.dirty.fill(0);
    }

    /// Marks the objects that root words point into.
    pub fn scan_roots(&mut self, map: &[Page], roots: &[u64]) {
        let heap_bytes = 4_096 * map.len() as u64;
        for word in roots {
            self.mark_word(map, heap_bytes, *word);
        }
    }

    /// Reads so many words of entries, or all that they have and then the lowest dirty page. Answers how many words these
    /// were at most, and `None` where nothing was left.
    pub fn mark_on(&mut self, map: &[Page], memory: &[u64], most: u64) -> Option<u64> {
        let read = self.step(map, memory, most);
        if self.current.is_some() {
            return Some(read);
        }
        self.retrace(map, memory).map(|_| read + 512)
    }

    /// Marks all that roots reach, and answers the words that were read off entries.
    pub fn mark(&mut self, map: &[Page], memory: &[u64], roots: &[u64]) -> u64 {
        self.scan_roots(map, roots);
        let mut read = 0;
        loop {
            read += self.step(map, memory, u64::MAX);
            if self.retrace(map, memory).is_none() {
                return read;
            }
        }
    }
}
