//! Rust's `AtomicU64` under the steps of a table of marks: each thread sets, then reads, each bit of one row.
//! It prints a line for each step and number of threads: its name with the threads, and picoseconds a step.
use std::hint::black_box;
use std::sync::atomic::{AtomicU64, Ordering::SeqCst};
use std::thread;
use std::time::Instant;

const BITS: usize = 1_048_576;
const ROUNDS: usize = 10;

fn claim_each(words: &[AtomicU64]) -> usize {
    (0..BITS).filter(|bit| (words[bit / 64].fetch_or(1 << (bit % 64), SeqCst) >> (bit % 64)) & 1 == 0).count()
}

fn look_each(words: &[AtomicU64]) -> usize {
    (0..BITS).filter(|bit| (words[bit / 64].load(SeqCst) >> (bit % 64)) & 1 == 1).count()
}

fn side_by_side(words: &[AtomicU64], threads: usize, pass: fn(&[AtomicU64]) -> usize) -> u128 {
    let start = Instant::now();
    thread::scope(|scope| {
        for _ in 1..threads {
            scope.spawn(|| black_box(pass(words)));
        }
        black_box(pass(words));
    });
    start.elapsed().as_nanos() * 1000 / BITS as u128
}

fn main() {
    for threads in [1, 2, 4] {
        let mut least = [u128::MAX; 2];
        for _ in 0..ROUNDS {
            let words: Vec<AtomicU64> = (0..BITS / 64).map(|_| AtomicU64::new(0)).collect();
            least[0] = least[0].min(side_by_side(&words, threads, claim_each));
            least[1] = least[1].min(side_by_side(&words, threads, look_each));
        }
        println!("claim_by_{threads} {}", least[0]);
        println!("is_set_by_{threads} {}", least[1]);
    }
}
