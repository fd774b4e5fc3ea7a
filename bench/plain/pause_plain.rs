//! The pause alone and with helpers in plain Rust, with the same data and the same scheme as the proved one. It prints
//! the same lines: a name, picoseconds an object, and how many helpers there were.
mod plain_class;
mod plain_figures;
mod plain_map;
mod plain_marker;
mod plain_row;

use plain_class::Class;
use plain_figures::report;
use plain_map::{Block, Found, Kind, Page, START, find};
use plain_marker::{Entry, Marker, granule};
use plain_row::set;
use std::hint::black_box;
use std::sync::atomic::{AtomicU64, Ordering::SeqCst};
use std::thread;
use std::time::Instant;

const PAGES: usize = 4_096;
const ENTRIES: usize = 256;
const LISTS: u64 = 64;
const ROUNDS: u32 = 30;
const LEAST_WORDS: u64 = 65_536;
const SLICE: u64 = 1_024;
const DIRTY_PAGES: usize = 16;
const ENTRIES_EACH: usize = 4;

#[derive(Clone, Copy)]
struct Unread {
    base: u64,
    len: u32,
}

struct Helper {
    stack: Vec<Unread>,
    dirty: Vec<u64>,
    carried: Vec<u64>,
}

struct Pause<'a> {
    table: &'a [AtomicU64],
    map: &'a [Page],
    memory: &'a [u64],
    roots: &'a [u64],
    helpers: usize,
}

impl Pause<'_> {
    fn keep(&self, helper: &mut Helper, found: Found) {
        if found.kind == Kind::PointerFree {
            return;
        }
        if helper.stack.len() < ENTRIES {
            helper.stack.push(Unread { base: found.base, len: found.len });
            return;
        }
        let first = (found.base - START) / 4_096;
        let last = (found.base + 8 * u64::from(found.len) - 1 - START) / 4_096;
        for page in first..=last {
            set(&mut helper.dirty, page as usize);
        }
    }

    // Answers whether the word lies in the heap and points into no object.
    fn visit(&self, helper: &mut Helper, word: u64) -> bool {
        if word.wrapping_sub(START) >= 4_096 * self.map.len() as u64 {
            return false;
        }
        let Some(found) = find(self.map, word) else {
            return true;
        };
        let granule = granule(found.base);
        let (cell, bit) = (&self.table[granule / 64], 1 << (granule % 64));
        if cell.load(SeqCst) & bit == 0 && cell.fetch_or(bit, SeqCst) & bit == 0 {
            self.keep(helper, found);
        }
        false
    }

    // Reads the words of an object from one on, page by page, and carries those with a word that lies in the heap and points into
    // nothing.
    fn read_words(&self, helper: &mut Helper, object: Unread, first: u32) {
        let start = ((object.base - START) / 8) as usize;
        let (mut at, end) = (start + first as usize, start + object.len as usize);
        while at < end {
            let stop = end.min((at / 512 + 1) * 512);
            let mut stray = false;
            for word in &self.memory[at..stop] {
                stray |= self.visit(helper, *word);
            }
            if stray {
                set(&mut helper.carried, at / 512);
            }
            at = stop;
        }
    }

    fn read_stack(&self, helper: &mut Helper) {
        while let Some(object) = helper.stack.pop() {
            self.read_words(helper, object, 0);
        }
    }

    // The entries that were dealt to the helper. No page is dirty here when helpers start.
    fn read_entries(&self, helper: &mut Helper, entries: &[Entry]) {
        for Entry { base, next, .. } in entries {
            if let Some(found) = find(self.map, *base) {
                self.read_words(helper, Unread { base: found.base, len: found.len }, *next);
            }
            self.read_stack(helper);
        }
    }

    fn help(&self, place: usize, entries: &[Entry]) -> Helper {
        let mut helper = Helper { stack: Vec::with_capacity(ENTRIES), dirty: vec![0; PAGES / 64], carried: vec![0; PAGES / 64] };
        for word in self.roots.iter().skip(place).step_by(self.helpers) {
            self.visit(&mut helper, *word);
        }
        self.read_entries(&mut helper, entries);
        self.read_stack(&mut helper);
        helper
    }
}

// What is dealt to a place: every entry that is left over whose number is that of the place modulo the number of helpers.
fn deal(marker: &Marker, place: usize, helpers: usize) -> Vec<Entry> {
    marker.waiting().iter().copied().chain(marker.current()).skip(place).step_by(helpers).collect()
}

fn has_words(map: &[Page], least: u64) -> bool {
    let mut words = 0;
    for page in map {
        if words >= least {
            return true;
        }
        if !matches!(page, Page::Free) {
            words += 512;
        }
    }
    words >= least
}

fn is_shareable(marker: &Marker, helpers: usize) -> bool {
    helpers > 1 && marker.waiting().len() + marker.count_dirty() / DIRTY_PAGES >= ENTRIES_EACH * helpers
}

// Marks on alone until nothing is left, or enough waits to be shared over a large enough heap. Answers whether nothing is left.
fn mark_before_helpers(marker: &mut Marker, map: &[Page], memory: &[u64], roots: &[u64], helpers: usize) -> bool {
    let (mut read, mut wanted) = (0, LEAST_WORDS / 4);
    marker.scan_roots(map, roots);
    while let Some(more) = marker.mark_on(map, memory, SLICE) {
        read += more;
        if read >= wanted && is_shareable(marker, helpers) {
            if has_words(map, LEAST_WORDS) {
                return false;
            }
            wanted = u64::MAX;
        }
    }
    true
}

fn mark_with_helpers(marker: &mut Marker, map: &[Page], memory: &[u64], roots: &[u64], helpers: usize) {
    let table: Vec<AtomicU64> = marker.marks.iter().map(|word| AtomicU64::new(*word)).collect();
    let shares: Vec<_> = (0..helpers).map(|place| deal(marker, place, helpers)).collect();
    let (last, others) = shares.split_last().unwrap();
    let pause = &Pause { table: &table, map, memory, roots, helpers };
    let crew: Vec<Helper> = thread::scope(|scope| {
        let crew: Vec<_> = others.iter().enumerate().map(|(place, entries)| scope.spawn(move || pause.help(place, entries))).collect();
        // The last one works on this thread.
        let last = pause.help(helpers - 1, last);
        crew.into_iter().map(|job| job.join().unwrap()).chain([last]).collect()
    });
    marker.forget_work();
    for helper in crew {
        for (word, more) in marker.dirty.iter_mut().zip(helper.dirty) {
            *word |= more;
        }
        for (word, more) in marker.carried.iter_mut().zip(helper.carried) {
            *word |= more;
        }
    }
    for (word, bits) in marker.marks.iter_mut().zip(&table) {
        *word = bits.load(SeqCst);
    }
}

fn close_with(marker: &mut Marker, map: &[Page], memory: &[u64], roots: &[u64], helpers: usize) {
    if mark_before_helpers(marker, map, memory, roots, helpers) {
        return;
    }
    mark_with_helpers(marker, map, memory, roots, helpers);
    marker.mark(map, memory, roots);
}

fn targets(shape: &str, number: u64, count: u64) -> (u64, u64) {
    match shape {
        "lists" if (number + 1) % (count / LISTS) == 0 => (count, count),
        "tree" => (2 * number + 1, 2 * number + 2),
        _ => (number + 1, count),
    }
}

fn measure(shape: &str, count: u64) {
    let mut map: Vec<Page> = (0..PAGES).map(|_| Page::Free).collect();
    let mut memory = vec![0; 512 * PAGES];
    let pointer = |number: u64| if number < count { START + 16 * number } else { 0 };
    for number in 0..count {
        let page = number as usize / 256;
        if number % 256 == 0 {
            map[page] = Page::Cut(Block::new(Class::of(2), Kind::Normal));
        }
        if let Page::Cut(block) = &mut map[page] {
            set(&mut block.taken, number as usize % 256);
        }
        let (first, second) = targets(shape, number, count);
        memory[2 * number as usize] = pointer(first);
        memory[2 * number as usize + 1] = pointer(second);
    }
    let lists = if shape == "lists" { LISTS } else { 1 };
    let roots: Vec<u64> = (0..LISTS).map(|i| if i < lists { START + 16 * (count / lists * i) } else { 0 }).collect();
    let mut marker = Marker::new(map.len());
    for helpers in [0, 1, 2, 4] {
        let mut least = u128::MAX;
        for _ in 0..ROUNDS {
            let start = Instant::now();
            marker.begin();
            if helpers == 0 {
                marker.mark(black_box(&map), black_box(&memory), black_box(&roots));
            } else {
                close_with(&mut marker, black_box(&map), black_box(&memory), black_box(&roots), helpers);
            }
            least = least.min(start.elapsed().as_nanos());
        }
        report(&format!("pause_{shape}_{count}_by_{helpers}"), least, count, helpers as u64);
    }
}

fn main() {
    // Both kinds may stand in a map, also in these.
    black_box(Kind::PointerFree);
    for shape in ["lists", "tree", "list"] {
        measure(shape, 100_000);
    }
    measure("lists", 640);
    measure("lists", 6_400);
}
