//! Seeded numbers, so that a stream can be made again from its seed (the generator xorshift64*).

pub struct Random(u64);

impl Random {
    pub fn new(seed: u64) -> Random {
        Random(seed.wrapping_mul(0x9E37_79B9_7F4A_7C15) | 1)
    }

    pub fn next(&mut self) -> u64 {
        self.0 ^= self.0 >> 12;
        self.0 ^= self.0 << 25;
        self.0 ^= self.0 >> 27;
        self.0.wrapping_mul(0x2545_F491_4F6C_DD1D) >> 16
    }

    /// A number from low to high, both included.
    pub fn from(&mut self, low: u32, high: u32) -> u32 {
        low + (self.next() % (high as u64 - low as u64 + 1)) as u32
    }

    pub fn place(&mut self, length: usize) -> usize {
        (self.next() % length as u64) as usize
    }

    /// True once in `times`.
    pub fn once_in(&mut self, times: u32) -> bool {
        self.from(1, times) == 1
    }

    pub fn one_of<T: Copy>(&mut self, choices: &[T]) -> T {
        choices[self.place(choices.len())]
    }
}
