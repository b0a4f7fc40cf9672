//! A small generator of numbers (xorshift), the same on every run.

pub struct Random {
    state: u64,
}

const START: u64 = 0x9E37_79B9_7F4A_7C15;

impl Random {
    pub fn new() -> Self {
        Random { state: START }
    }

    /// Another sequence for each seed; 0 gives that of `new`.
    pub fn seeded(seed: u64) -> Self {
        match START ^ seed.wrapping_mul(0x2545_F491_4F6C_DD1D) {
            0 => Random::new(),
            state => Random { state },
        }
    }

    fn next(&mut self) -> u64 {
        self.state ^= self.state << 13;
        self.state ^= self.state >> 7;
        self.state ^= self.state << 17;
        self.state
    }

    /// A number from 0 to `limit` - 1.
    pub fn below(&mut self, limit: usize) -> usize {
        ((self.next() >> 16) % limit as u64) as usize
    }

    pub fn pick<'a, T>(&mut self, choices: &'a [T]) -> &'a T {
        &choices[self.below(choices.len())]
    }
}
