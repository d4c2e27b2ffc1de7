//! Repeatable random numbers.

/// A stream of numbers that a seed settles (splitmix64).
#[derive(Clone)]
pub struct Random {
    state: u64,
}

impl Random {
    pub fn new(seed: u64) -> Self {
        Random { state: seed }
    }

    /// A stream of its own for one of many, so that each can be made again alone.
    pub fn of(seed: u64, index: usize) -> Self {
        let mut random = Random::new(seed ^ (index as u64).wrapping_mul(0xD134_2543_DE82_EF95));
        Random::new(random.number())
    }

    pub fn number(&mut self) -> u64 {
        self.state = self.state.wrapping_add(0x9E37_79B9_7F4A_7C15);
        let mixed = (self.state ^ (self.state >> 30)).wrapping_mul(0xBF58_476D_1CE4_E5B9);
        let mixed = (mixed ^ (mixed >> 27)).wrapping_mul(0x94D0_49BB_1331_11EB);
        mixed ^ (mixed >> 31)
    }

    pub fn byte(&mut self) -> u8 {
        (self.number() >> 56) as u8
    }

    /// A number from 0 to below the limit.
    pub fn below(&mut self, limit: usize) -> usize {
        (self.number() % limit as u64) as usize
    }

    pub fn one_in(&mut self, times: usize) -> bool {
        self.below(times) == 0
    }

    pub fn pick<T: Copy>(&mut self, items: &[T]) -> T {
        items[self.below(items.len())]
    }

    /// Bytes of which half are letters of blocks and other bytes that a wrong reader would stumble on.
    pub fn bytes(&mut self, length: usize) -> Vec<u8> {
        let telling = [b'M', b'R', b'V', b'\n', 0, 0xFF];
        (0..length).map(|_| if self.one_in(2) { self.pick(&telling) } else { self.byte() }).collect()
    }

    pub fn shuffle<T>(&mut self, items: &mut [T]) {
        for last in (1..items.len()).rev() {
            items.swap(last, self.below(last + 1));
        }
    }
}
