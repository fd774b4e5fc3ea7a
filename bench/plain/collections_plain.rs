//! Collections of the plain core with 10,000 objects of two words: the calls that the proved benchmark makes, with the
//! same arguments. It prints the same lines: a name, picoseconds a call or an object, and what the calls answered.
mod plain_class;
mod plain_core;
mod plain_figures;
mod plain_map;
mod plain_marker;
mod plain_pool;
mod plain_row;
mod plain_space;
mod plain_user;

use plain_figures::report;
use plain_user::User;
use std::time::Instant;

const OBJECTS: usize = 10_000;
const ROUNDS: u32 = 10;
const FINDS: u64 = 40;

// Which objects the two words of an object point into.
fn targets(shape: &str, number: u64) -> (u64, u64) {
    let count = OBJECTS as u64;
    match shape {
        "list" => (number + 1, count),
        "tree" => (2 * number + 1, 2 * number + 2),
        "every_other" => (number + 2, count),
        _ => ((1_741 * number + 54_321) % count, (7_919 * number + 3) % count),
    }
}

// A base, and 0 where there is no object with that number.
fn base_of(bases: &[u64], number: u64) -> u64 {
    bases.get(number as usize).copied().unwrap_or(0)
}

// Allocates the objects, each with its words as the shape says. The first reaches the others.
fn build(user: &mut User, bases: &mut [u64], shape: &str) {
    for base in bases.iter_mut() {
        *base = user.allocate(2);
    }
    for number in 0..OBJECTS as u64 {
        let (first, second) = targets(shape, number);
        let base = base_of(bases, number);
        user.link(base, 0, base_of(bases, first));
        user.link(base, 1, base_of(bases, second));
    }
    user.keep(base_of(bases, 0));
}

// Full collections in which all objects stay that were reached, the fastest of some.
fn time_collect(name: &str, user: &mut User) {
    let mut least = u128::MAX;
    let _first = user.collect();
    for _ in 0..ROUNDS {
        let start = Instant::now();
        let _gone = user.collect();
        least = least.min(start.elapsed().as_nanos());
    }
    report(name, least, OBJECTS as u64, 0);
}

// So many stores, into objects that stand seven apart.
fn link_some(user: &mut User, bases: &[u64], stores: u64) {
    for number in 0..stores {
        user.link(base_of(bases, 7 * number), 0, base_of(bases, 7 * number + 1));
    }
}

// The pause alone, with so many stores since all was marked, the fastest of some.
fn time_finish(name: &str, user: &mut User, bases: &[u64], stores: u64) {
    let mut least = u128::MAX;
    for _ in 0..ROUNDS {
        user.mark_all();
        link_some(user, bases, stores);
        user.keep(base_of(bases, 0));
        let start = Instant::now();
        let _gone = user.finish();
        least = least.min(start.elapsed().as_nanos());
    }
    report(name, least, 1, stores);
}

// A cycle in which all objects go. Answers how many.
fn lose_all(user: &mut User) -> u64 {
    user.keep(0);
    user.mark_all();
    user.finish()
}

// Allocations after the pause in which all objects went.
fn time_allocs(user: &mut User, bases: &mut [u64]) {
    let gone = lose_all(user);
    let start = Instant::now();
    user.allocate_each(2, bases);
    report("alloc_after_cycle", start.elapsed().as_nanos(), OBJECTS as u64, gone);
}

// The longest of them.
fn time_longest(user: &mut User, bases: &mut [u64]) {
    let gone = lose_all(user);
    let mut longest = 0;
    for base in bases.iter_mut() {
        let start = Instant::now();
        *base = user.allocate(2);
        longest = longest.max(start.elapsed().as_nanos());
    }
    report("alloc_longest", longest, 1, gone);
}

// Lookups of the objects that are left, every second one.
fn time_finds(name: &str, user: &mut User, bases: &[u64]) {
    let mut sum: u64 = 0;
    let start = Instant::now();
    for _ in 0..FINDS {
        sum = sum.wrapping_add(user.sizes(bases));
    }
    report(name, start.elapsed().as_nanos(), FINDS * OBJECTS as u64 / 2, sum);
}

fn time_list(user: &mut User, bases: &mut [u64]) {
    build(user, bases, "list");
    time_collect("collect_list", user);
    for stores in [0, 10, 100, 1_000] {
        time_finish(&format!("finish_stores_{stores}"), user, bases, stores);
    }
    time_allocs(user, bases);
    time_longest(user, bases);
}

// Lookups while each page has dead objects that aren't swept, and when they are.
fn time_pending(user: &mut User, bases: &mut [u64]) {
    build(user, bases, "every_other");
    user.mark_all();
    let _gone = user.finish();
    time_finds("find_pending", user, bases);
    user.sweep_all();
    time_finds("find_swept", user, bases);
}

fn main() {
    let mut bases = vec![0; OBJECTS];
    for (name, shape) in [("collect_tree", "tree"), ("collect_graph", "graph")] {
        let mut user = User::new();
        build(&mut user, &mut bases, shape);
        time_collect(name, &mut user);
    }
    time_list(&mut User::new(), &mut bases);
    time_pending(&mut User::new(), &mut bases);
}
