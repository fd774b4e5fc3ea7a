//! What a user of a heap compares: `peers HEAP ROW` prints `PICOSECONDS ANSWER` of a row on a heap of its own, or nothing where the heap
//! has no such thing. HEAP is `proved`, `independent` or, where it was built in, `bdwgc`. Times are the thread's own on its processor.
#[cfg(bdwgc)]
mod bdwgc;
mod heap;
mod independent;
mod proved;
mod rows;

use heap::Heap;

fn main() {
    let words: Vec<String> = std::env::args().collect();
    let told = match words[1].as_str() {
        "proved" => rows::run::<proved::Proved>(&words[2]),
        "independent" => rows::run::<independent::Independent>(&words[2]),
        #[cfg(bdwgc)]
        "bdwgc" => rows::run::<bdwgc::Bdwgc>(&words[2]),
        _ => None,
    };
    if let Some((picoseconds, answer)) = told {
        println!("{picoseconds} {answer}");
    }
}
