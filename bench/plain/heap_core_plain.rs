//! Calls of a mutator on the plain core, with a ring of live objects: the calls that the proved benchmark makes, with
//! the same arguments. It prints the same lines: a name, picoseconds a call, and what the calls answered.
mod locked;
mod on_threads;
mod plain_class;
mod plain_core;
mod plain_figures;
mod plain_map;
mod plain_marker;
mod plain_pool;
mod plain_random;
mod plain_row;
mod plain_space;
mod plain_user;

use plain_figures::report;
use plain_random::Random;
use plain_user::User;
use std::time::Instant;

const RING: usize = 500;
const MORE: usize = 15_000;
const EACH: usize = 2_000;
const ROUNDS: u64 = 40;
const OFTEN: u64 = 20;

// Requests of 1 to `most` words.
fn draw(sizes: &mut [u64], most: u64) {
    let mut random = Random::new(1);
    for size in sizes.iter_mut() {
        *size = random.below(most) + 1;
    }
}

// Each object of the ring goes and another comes in its place.
fn time_turns(user: &mut User, sizes: &[u64], ring: &mut [u64]) {
    let start = Instant::now();
    for _ in 0..ROUNDS {
        for part in sizes.chunks(RING) {
            user.turn(part, ring);
        }
    }
    report("alloc_and_free", start.elapsed().as_nanos(), ROUNDS * MORE as u64, 0);
}

fn time_words(user: &mut User, ring: &[u64]) {
    let calls = OFTEN * ROUNDS * 2 * RING as u64;
    let start = Instant::now();
    for _ in 0..OFTEN * ROUNDS {
        user.store_all(ring);
    }
    report("store", start.elapsed().as_nanos(), calls, 0);
    let mut sum: u64 = 0;
    let start = Instant::now();
    for _ in 0..OFTEN * ROUNDS {
        sum = sum.wrapping_add(user.load_all(ring));
    }
    report("load", start.elapsed().as_nanos(), calls, sum);
    println!("sum {sum}");
}

// Objects that come beside those of the ring, and go again untimed.
fn time_allocs(name: &str, user: &mut User, sizes: &[u64], bases: &mut [u64]) {
    let mut spent = 0;
    for _ in 0..ROUNDS {
        let start = Instant::now();
        user.allocate_all(sizes, bases);
        spent += start.elapsed().as_nanos();
        user.free_all(bases);
    }
    report(name, spent, ROUNDS * sizes.len() as u64, 0);
}

fn main() {
    let mut user = User::new();
    let mut sizes = vec![0; MORE];
    let mut bases = vec![0; MORE];
    let mut ring = vec![0; RING];
    draw(&mut sizes, 40);
    user.allocate_all(&sizes, &mut ring);
    time_turns(&mut user, &sizes, &mut ring);
    time_words(&mut user, &ring);
    time_allocs("alloc_mix", &mut user, &sizes, &mut bases);
    sizes.fill(2);
    time_allocs("alloc_two", &mut user, &sizes, &mut bases);
    draw(&mut sizes[..EACH], 256);
    time_allocs("alloc_classes", &mut user, &sizes[..EACH], &mut bases[..EACH]);
    locked::measure();
    on_threads::measure();
}
