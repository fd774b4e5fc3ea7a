//! The random numbers of the proved benchmark: PCG32 (XSH RR 64/32) on its seventh stream. So the calls of both sides
//! have the same arguments.
const MULTIPLIER: u64 = 6_364_136_223_846_793_005;
const INCREMENT: u64 = 15;

/// A source of random numbers.
pub struct Random {
    state: u64,
}

impl Random {
    /// A source that begins with a seed.
    pub fn new(seed: u64) -> Random {
        let mut random = Random { state: seed.wrapping_add(INCREMENT) };
        random.step();
        random
    }

    fn step(&mut self) {
        self.state = self.state.wrapping_mul(MULTIPLIER).wrapping_add(INCREMENT);
    }

    /// A number below a limit, drawn from 32 bits.
    pub fn below(&mut self, limit: u64) -> u64 {
        let shifted = (((self.state >> 18) ^ self.state) >> 27) as u32;
        let word = shifted.rotate_right((self.state >> 59) as u32);
        self.step();
        u64::from(word) % limit
    }
}
