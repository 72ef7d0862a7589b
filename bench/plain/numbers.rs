//! A small generator of numbers (xorshift) for the programs of this folder: the same seed
//! gives the same numbers.

pub struct Numbers {
    state: u64,
}

impl Numbers {
    pub fn new(seed: u64) -> Numbers {
        Numbers {
            state: seed ^ 0x9E37_79B9_7F4A_7C15,
        }
    }

    pub fn next(&mut self) -> u64 {
        self.state ^= self.state << 13;
        self.state ^= self.state >> 7;
        self.state ^= self.state << 17;
        self.state
    }
}
