//! A marker in plain Rust, with the same data and the same calls as the proved one. It prints the same lines: a name,
//! picoseconds a word or an object, and the words that were read.
mod plain_class;
mod plain_figures;
mod plain_map;
mod plain_marker;
mod plain_random;
mod plain_row;

use plain_class::Class;
use plain_figures::report;
use plain_map::{Block, Kind, Page, START};
use plain_marker::Marker;
use plain_random::Random;
use plain_row::set;
use std::hint::black_box;
use std::time::Instant;

const WORDS: u64 = 262_144;
const ROUNDS: u32 = 30;

fn time_marking(name: &str, map: &[Page], memory: &[u64], count: u64) {
    let mut marker = Marker::new(map.len());
    let mut least = u128::MAX;
    let mut read = 0;
    for _ in 0..ROUNDS {
        let start = Instant::now();
        marker.begin();
        read = marker.mark(black_box(map), black_box(memory), black_box(&[START]));
        least = least.min(start.elapsed().as_nanos());
    }
    report(name, least, count, read);
}

fn targets(shape: &str, number: u64, count: u64) -> (u64, u64) {
    match shape {
        "list" => (number + 1, count),
        "tree" => (2 * number + 1, 2 * number + 2),
        _ => ((1_741 * number + 54_321) % count, (7_919 * number + 3) % count),
    }
}

fn mark_words() {
    let mut map: Vec<Page> = (0..512).map(|_| Page::Body(0)).collect();
    map[0] = Page::Head(512, Kind::Normal);
    let mut random = Random::new(1);
    let memory: Vec<u64> = (0..WORDS).map(|_| random.below(START)).collect();
    time_marking("mark_words", &map, &memory, WORDS);
}

fn mark_objects(shape: &str, count: u64) {
    let mut map: Vec<Page> = (0..400).map(|_| Page::Free).collect();
    let mut memory = vec![0; 512 * 400];
    let pointer = |number: u64| if number < count { START + 16 * number } else { 0 };
    for number in 0..count {
        let page = number as usize / 256;
        if number % 256 == 0 {
            map[page] = Page::Cut(Block::new(Class::of(2), Kind::Normal));
        }
        if let Page::Cut(block) = &mut map[page] {
            set(&mut block.taken, number as usize % 256);
        }
        let (first, second) = targets(shape, number, count);
        memory[2 * number as usize] = pointer(first);
        memory[2 * number as usize + 1] = pointer(second);
    }
    time_marking(&format!("mark_{shape}_{count}"), &map, &memory, count);
}

fn main() {
    // Both kinds may stand in a map, also in these.
    black_box(Kind::PointerFree);
    mark_words();
    for shape in ["list", "tree", "graph"] {
        for count in [1_000, 10_000, 100_000] {
            mark_objects(shape, count);
        }
    }
}
