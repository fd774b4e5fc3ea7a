//! A map of pages and a pool of free pages in plain Rust: the calls that the proved benchmark makes, with the same
//! arguments. It prints the same lines: a name, picoseconds a call, and what the calls answered.
mod plain_class;
mod plain_figures;
mod plain_map;
mod plain_pool;
mod plain_random;
mod plain_row;

use plain_class::Class;
use plain_figures::report;
use plain_map::{Block, Kind, Page, START, find, next_on_page};
use plain_pool::{give, take_run};
use plain_random::Random;
use plain_row::set;
use std::hint::black_box;
use std::time::Instant;

const PAGES: u32 = 4_096;
const HALF: u32 = 2_048;
const WORDS: usize = 4_096;
const ROUNDS: u32 = 200;

fn find_all(map: &[Page], words: &[u64]) -> u64 {
    let mut sum: u64 = 0;
    for _ in 0..ROUNDS {
        let map = black_box(map);
        for word in words {
            if let Some(found) = find(map, *word) {
                sum = sum.wrapping_add(found.base);
            }
        }
    }
    sum
}

// The objects of all pages in their order.
fn walk_all(map: &[Page]) -> u64 {
    let mut count = 0;
    for page in 0..PAGES {
        let map = black_box(map);
        let mut from = START + 4_096 * u64::from(page);
        while let Some(found) = next_on_page(map, page, from) {
            count += 1;
            from = found.base + 8 * u64::from(found.len);
        }
    }
    count
}

// Runs of three pages, in a pool in which every third page is used, but for the last pages.
fn take_runs(free: &mut [u64]) -> u64 {
    let mut sum = 0;
    for _ in 0..ROUNDS {
        let free = black_box(&mut *free);
        let Some(first) = take_run(free, 3) else {
            return sum;
        };
        sum += first as u64;
        give(free, first, 3);
    }
    sum
}

// A page is cut for six words, and three cells of four are allocated.
fn lay_page() -> Page {
    let mut block = Block::new(Class::of(6), Kind::Normal);
    for cell in (0..85).filter(|cell| cell % 4 != 3) {
        set(&mut block.taken, 3 * cell);
    }
    Page::Cut(block)
}

// The lower half is cut so, and the upper half is one large object.
fn lay_out() -> Vec<Page> {
    let mut map: Vec<Page> = (0..HALF).map(|_| lay_page()).collect();
    map.push(Page::Head(HALF, Kind::Normal));
    map.extend((HALF + 1..PAGES).map(|_| Page::Body(HALF)));
    map
}

// Nearly all pages are used, and then two of each three become free, but for the last ones.
fn scatter(free: &mut [u64]) {
    for _ in 0..340 {
        let _first = take_run(free, 1);
        let _second = take_run(free, 2);
    }
    for third in 0..330 {
        give(free, 3 * third + 1, 2);
    }
}

// Words that point into cells, words that point into the large object, and words that point into nothing.
fn time_map(map: &[Page]) {
    let mut random = Random::new(1);
    let mut words = vec![0; WORDS];
    let half = 4_096 * u64::from(HALF);
    let places = [("find_cell", START, half), ("find_large", START + half, half), ("find_none", 0, START)];
    for (name, from, bytes) in places {
        words.fill_with(|| from + random.below(bytes));
        let start = Instant::now();
        let answer = find_all(map, &words);
        report(name, start.elapsed().as_nanos(), u64::from(ROUNDS) * WORDS as u64, answer);
    }
    let start = Instant::now();
    let count = walk_all(map);
    report("next_on_page", start.elapsed().as_nanos(), count, count);
}

fn main() {
    time_map(&black_box(lay_out()));
    let mut free = vec![u64::MAX; PAGES as usize / 64];
    scatter(&mut free);
    let start = Instant::now();
    let answer = take_runs(&mut free);
    report("take_run", start.elapsed().as_nanos(), u64::from(ROUNDS), answer);
}
