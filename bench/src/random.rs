//! Random numbers that are the same in every run (splitmix64).
use std::cell::Cell;

pub struct Random(Cell<u64>);

impl Random {
    pub fn new(seed: u64) -> Random {
        Random(Cell::new(seed))
    }

    /// The stream `index` of a seed, for work that is shared among threads and repeated in part.
    pub fn stream(seed: u64, index: u64) -> Random {
        Random::new(Random::new(Random::new(seed).next() ^ index).next())
    }

    fn next(&self) -> u64 {
        let x = self.0.get().wrapping_add(0x9E37_79B9_7F4A_7C15);
        self.0.set(x);
        let x = (x ^ x >> 30).wrapping_mul(0xBF58_476D_1CE4_E5B9);
        let x = (x ^ x >> 27).wrapping_mul(0x94D0_49BB_1331_11EB);
        x ^ x >> 31
    }

    pub fn below(&self, n: usize) -> usize {
        (self.next() >> 32) as usize % n
    }

    pub fn word(&self) -> u32 {
        (self.next() >> 32) as u32
    }

    pub fn byte(&self) -> u8 {
        (self.next() >> 56) as u8
    }

    pub fn bytes(&self, n: usize) -> Vec<u8> {
        (0..n).map(|_| self.byte()).collect()
    }

    pub fn pick<T: Copy>(&self, from: &[T]) -> T {
        from[self.below(from.len())]
    }
}
