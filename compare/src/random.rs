//! Numbers and bytes that are the same in every run.

pub struct Random(u64);

impl Random {
    pub fn new(seed: u64) -> Self {
        Random(seed.wrapping_mul(0x9E37_79B9_7F4A_7C15) | 1)
    }

    pub fn next(&mut self) -> u64 {
        self.0 ^= self.0 << 13;
        self.0 ^= self.0 >> 7;
        self.0 ^= self.0 << 17;
        self.0
    }

    pub fn below(&mut self, n: usize) -> usize {
        (self.next() >> 11) as usize % n
    }

    /// A number of any width up to 32 bits, each width as often.
    pub fn number(&mut self) -> u32 {
        let width = self.below(33);
        (self.next() >> 16 & ((1 << width) - 1)) as u32
    }

    pub fn bytes(&mut self, len: usize) -> Vec<u8> {
        (0..len).map(|_| self.next() as u8).collect()
    }

    /// Bytes of which most are 0, and some hold a single 1 bit.
    pub fn sparse(&mut self, len: usize) -> Vec<u8> {
        (0..len)
            .map(|_| match self.below(8) {
                0 => self.next() as u8,
                1 => 1 << self.below(8),
                _ => 0,
            })
            .collect()
    }

    /// Bytes 00 to 04, of which most are 00.
    pub fn escapable(&mut self, len: usize) -> Vec<u8> {
        (0..len)
            .map(|_| match self.below(3) {
                0 => self.below(5) as u8,
                _ => 0,
            })
            .collect()
    }
}
