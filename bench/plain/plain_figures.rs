//! Lines of figures.

/// Prints a line: a name, picoseconds a call, and what the calls answered. Here `instructions` ends a line's count.
#[inline(never)]
pub fn report(name: &str, nanoseconds: u128, calls: u64, answer: u64) {
    println!("{name} {} {answer}", nanoseconds * 1_000 / u128::from(calls));
}
