//! Lists of calls, each mutator's in a thread of its own, on the plain core behind a `Mutex`. It prints a line for each
//! number of mutators: its name, and picoseconds a call.
use crate::plain_core::{Core, Refusal};
use crate::plain_figures::report;
use crate::plain_map::Kind;
use std::hint::black_box;
use std::sync::Mutex;
use std::thread;
use std::time::Instant;

const PAIRS: usize = 50_000;
const ROUNDS: usize = 5;

#[derive(Clone, Copy)]
enum Call {
    Alloc(usize, u64, Kind),
    Store(usize, u64, usize),
    Load(usize, usize, u64),
}

#[derive(Clone, Copy)]
#[allow(dead_code)]
enum Reply {
    Done,
    Word(u64),
    Refused(Refusal),
}

fn done(answer: Result<(), Refusal>) -> Reply {
    answer.map_or_else(Reply::Refused, |()| Reply::Done)
}

fn make(core: &mut Core, slot: usize, call: Call) -> Reply {
    match call {
        Call::Alloc(into, words, kind) => done(core.alloc(slot, into, words, kind)),
        Call::Store(at, offset, from) => done(core.store(slot, at, offset, from)),
        Call::Load(into, at, offset) => core.load(slot, into, at, offset).map_or_else(Reply::Refused, Reply::Word),
    }
}

fn calls() -> Vec<Call> {
    let mut calls = vec![Call::Alloc(1, 2, Kind::Normal)];
    for _ in 0..PAIRS {
        calls.push(Call::Store(1, 0, 2));
        calls.push(Call::Load(3, 1, 0));
    }
    calls
}

fn make_all(core: &Mutex<Core>, slot: usize, calls: &[Call], replies: &mut [Reply]) {
    for (reply, call) in replies.iter_mut().zip(calls) {
        *reply = make(&mut core.lock().unwrap(), slot, *call);
    }
}

fn run(core: &Mutex<Core>, lists: &[Vec<Call>]) -> Vec<Vec<Reply>> {
    let mut replies: Vec<_> = lists.iter().map(|calls| vec![Reply::Done; calls.len()]).collect();
    thread::scope(|scope| {
        for (slot, (replies, calls)) in replies.iter_mut().zip(lists).enumerate() {
            scope.spawn(move || make_all(core, slot, calls, replies));
        }
    });
    replies
}

fn cost(mutators: usize) -> u128 {
    let lists = black_box(vec![calls(); mutators]);
    let mut core = Core::new();
    for _ in 0..mutators {
        let _slot = core.attach();
    }
    let core = black_box(Mutex::new(core));
    let start = Instant::now();
    let _replies = black_box(run(&core, &lists));
    start.elapsed().as_nanos()
}

pub fn measure() {
    for mutators in [4, 2, 1] {
        let least = (0..ROUNDS).map(|_| cost(mutators)).min().unwrap_or(0);
        report(&format!("workload_line_by_{mutators}"), least, (2 * PAIRS * mutators) as u64, 0);
    }
}
