//! The inputs of the generated cases. Both programs write this generator down; it is no part of
//! the layer, whose seeds and secrets come from the caller.
//!
//! The state x is a number of 32 bits and never 0. One step is
//!
//! ```text
//! x = x xor (x << 13);   x = x xor (x >> 17);   x = x xor (x << 5)
//! ```
//!
//! where `<<` drops the bits above the 32nd. The byte of a step is x mod 256 after it.

/// The state of seed 0; the state of seed s is this xor s.
pub const START: u32 = 2_654_435_769;

pub struct Stream {
    x: u32,
}

impl Stream {
    pub fn of_seed(seed: u32) -> Stream {
        Stream { x: START ^ seed }
    }

    /// The state after one more step.
    pub fn step(&mut self) -> u32 {
        self.x ^= self.x << 13;
        self.x ^= self.x >> 17;
        self.x ^= self.x << 5;
        self.x
    }

    /// Fills a buffer, one step a byte.
    pub fn fill(&mut self, buffer: &mut [u8]) {
        for byte in buffer {
            *byte = (self.step() % 256) as u8;
        }
    }

    pub fn bytes(&mut self, length: usize) -> Vec<u8> {
        let mut buffer = vec![0; length];
        self.fill(&mut buffer);
        buffer
    }

    /// A number below `bound`, for tests.
    pub fn below(&mut self, bound: usize) -> usize {
        self.step() as usize % bound
    }
}

#[cfg(test)]
mod tests {
    use super::*;

    // The values that CASES.md gives.
    #[test]
    fn first_bytes() {
        assert_eq!(Stream::of_seed(0).bytes(8), [0x19, 0x3e, 0x3a, 0xb5, 0x1f, 0x37, 0xd0, 0xbf]);
        assert_eq!(Stream::of_seed(1).bytes(8), [0x38, 0x3f, 0xff, 0xfa, 0xce, 0xe7, 0xca, 0x0d]);
    }
}
