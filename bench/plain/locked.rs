//! The plain core behind a `Mutex`, called by threads, and a count beside it that takes no lock. It prints a line for
//! each call: its name, and picoseconds a call. `counted_` lines are the same calls with one `fetch_add` under the
//! lock, which is what a history costs each call.
use crate::plain_core::Core;
use crate::plain_figures::report;
use crate::plain_map::Kind;
use std::hint::black_box;
use std::sync::atomic::{AtomicU64, Ordering::SeqCst};
use std::sync::Mutex;
use std::thread;
use std::time::Instant;

const CALLS: usize = 200_000;
const ROUNDS: usize = 10;
const CREW: usize = 4;

/// A core behind its lock, and a word beside it that counts its history.
struct Shared {
    core: Mutex<Core>,
    count: AtomicU64,
}

// A register with an object, and one with a word. That they are these is known to no call.
fn registers() -> (usize, usize) {
    black_box((1, 2))
}

fn store_often(shared: &Shared, slot: usize) {
    let (object, word) = registers();
    for _ in 0..CALLS {
        let _stored = shared.core.lock().unwrap().store(slot, object, 0, word);
    }
}

fn load_often(shared: &Shared, slot: usize) {
    let (object, word) = registers();
    for _ in 0..CALLS {
        let _word = black_box(shared.core.lock().unwrap().load(slot, word, object, 0));
    }
}

fn store_and_count(shared: &Shared, slot: usize) {
    let (object, word) = registers();
    for _ in 0..CALLS {
        let mut core = shared.core.lock().unwrap();
        let _stored = core.store(slot, object, 0, word);
        shared.count.fetch_add(black_box(0), SeqCst);
    }
}

fn load_and_count(shared: &Shared, slot: usize) {
    let (object, word) = registers();
    for _ in 0..CALLS {
        let mut core = shared.core.lock().unwrap();
        let _word = black_box(core.load(slot, word, object, 0));
        shared.count.fetch_add(black_box(0), SeqCst);
    }
}

fn side_by_side(shared: &Shared, callers: usize, call: fn(&Shared, usize)) -> u128 {
    let start = Instant::now();
    thread::scope(|scope| {
        for slot in 1..callers {
            scope.spawn(move || call(shared, slot));
        }
        call(shared, 0);
    });
    start.elapsed().as_nanos()
}

fn time_words(shared: &Shared) {
    let calls: [(&str, fn(&Shared, usize)); 4] = [
        ("locked_store", store_often),
        ("locked_load", load_often),
        ("counted_store", store_and_count),
        ("counted_load", load_and_count),
    ];
    for callers in [4, 2, 1] {
        for (name, call) in calls {
            let least = (0..ROUNDS).map(|_| side_by_side(shared, callers, call)).min().unwrap_or(0);
            report(&format!("{name}_by_{callers}"), least, (CALLS * callers) as u64, 0);
        }
    }
}

pub fn measure() {
    let shared = black_box(Shared { core: Mutex::new(Core::new()), count: AtomicU64::new(0) });
    for _ in 0..CREW {
        let mut core = shared.core.lock().unwrap();
        let slot = core.attach().ok().unwrap();
        let _made = core.alloc(slot, 1, 2, Kind::Normal);
    }
    time_words(&shared);
    let start = Instant::now();
    for _ in 0..CALLS {
        let slot = shared.core.lock().unwrap().attach().ok().unwrap();
        let _gone = shared.core.lock().unwrap().detach(black_box(slot));
    }
    report("attach_and_detach", start.elapsed().as_nanos(), CALLS as u64, 0);
    let start = Instant::now();
    let mut sum: u64 = 0;
    for _ in 0..CALLS {
        sum = sum.wrapping_add(shared.count.load(SeqCst));
    }
    report("gc_no", start.elapsed().as_nanos(), CALLS as u64, sum);
    println!("sum {sum}");
}
