//! A list in a collected heap, from Rust: what a mutator's registers lead to stays through a cycle that marks in small steps.
mod mpheap;

use mpheap::{Heap, Mutator, Refusal, Result};

const LIST: u8 = 0;
const CELL: u8 = 1;
const NUMBER: u8 = 2;

// A cell of a number and the list so far becomes the list.
fn push_front(me: &Mutator, number: u64) -> Result<()> {
    me.alloc(CELL, 2)?;
    me.set(NUMBER, number)?;
    me.store(CELL, 0, NUMBER)?;
    me.store(CELL, 1, LIST)?;
    me.push(CELL)?;
    me.pop(LIST).map(|_cell| ())
}

fn sum(me: &Mutator) -> Result<u64> {
    let mut sum = 0;
    me.set(CELL, me.get(LIST)?)?;
    while me.get(CELL)? != 0 {
        sum += me.load(NUMBER, CELL, 0)?;
        me.load(CELL, CELL, 1)?;
    }
    Ok(sum)
}

fn run() -> Result<()> {
    let heap = Heap::open(4)?;
    let me = heap.attach()?;
    (1..=100).try_for_each(|number| push_front(&me, number))?;
    heap.begin()?;
    while heap.mark(16)? == 16 {
        me.alloc(CELL, 2)?; // and nothing will lead to it
    }
    me.set(CELL, 0)?;
    let _floating = heap.finish()?;
    println!("the sum is {}", sum(&me)?);
    println!("{} objects are gone", heap.collect()?);
    push_front(&me, 101)?;
    (0..3).try_for_each(|_| me.alloc(CELL, 2).map(|_base| ()))?;
    me.set(CELL, 0)?;
    heap.begin_partial()?;
    while heap.mark(16)? == 16 {}
    println!("{} young objects are gone, and the sum is {}", heap.finish()?, sum(&me)?);
    me.set(CELL, 8)?;
    assert_eq!(me.load(NUMBER, CELL, 0), Err(Refusal::NoObject));
    assert_eq!(Heap::open(0).err(), Some(Refusal::BadPages));
    Ok(())
}

fn main() {
    if let Err(refusal) = run() {
        eprintln!("{refusal}");
        std::process::exit(1);
    }
}
