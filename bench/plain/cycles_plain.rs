//! Full and partial cycles of the plain core with 100,000 old objects of two words: the calls that the proved benchmark
//! makes, with the same arguments. It prints the same lines: a name, picoseconds a cycle, and how many words were read.
mod plain_class;
mod plain_core;
mod plain_figures;
mod plain_map;
mod plain_marker;
mod plain_pool;
mod plain_row;
mod plain_space;
mod plain_user;

use plain_figures::report;
use plain_user::User;
use std::time::Instant;

const OLD: u64 = 100_000;
const YOUNG: u64 = 1_000;
const ROUNDS: u32 = 10;

// Objects of two words, each of which points to the one before it. Answers the base of the last one.
fn chain(user: &mut User, count: u64, first: u64) -> u64 {
    let mut last = first;
    for _ in 0..count {
        let base = user.allocate(2);
        user.link(base, 0, last);
        user.keep(base);
        last = base;
    }
    last
}

// New objects, of which one in ten is kept. Answers the base of the last one that is.
fn renew(user: &mut User, first: u64) -> u64 {
    let mut last = first;
    for number in 0..YOUNG {
        if number % 10 == 0 {
            last = chain(user, 1, last);
        } else {
            let _lost = user.allocate(2);
        }
    }
    user.keep(last);
    last
}

// Marks in cycles between which new objects come, and prints the least time of all.
fn time_cycles(name: &str, is_partial: bool) {
    let mut user = User::new();
    let mut last = chain(&mut user, OLD, 0);
    user.collect();
    let (mut least, mut read) = (u128::MAX, 0);
    for _ in 0..ROUNDS {
        last = renew(&mut user, last);
        let start = Instant::now();
        read = user.mark_cycle(is_partial);
        least = least.min(start.elapsed().as_nanos());
        user.finish();
    }
    report(name, least, 1, read);
}

fn main() {
    time_cycles("mark_full_cycle", false);
    time_cycles("mark_partial_cycle", true);
}
