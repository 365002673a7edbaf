//! A small xorshift generator: the same seed gives the same scripts.

pub struct Random(u64);

impl Random {
    pub fn new(seed: u64) -> Self {
        Random(seed.wrapping_mul(0x9E37_79B9_7F4A_7C15) | 1)
    }

    pub fn next(&mut self) -> u64 {
        self.0 ^= self.0 << 13;
        self.0 ^= self.0 >> 7;
        self.0 ^= self.0 << 17;
        self.0.wrapping_mul(0x2545_F491_4F6C_DD1D)
    }

    pub fn below(&mut self, n: usize) -> usize {
        ((self.next() >> 32) as usize) % n
    }

    pub fn one_in(&mut self, n: usize) -> bool {
        self.below(n) == 0
    }

    pub fn choice<T: Copy>(&mut self, from: &[T]) -> T {
        from[self.below(from.len())]
    }

    pub fn bytes(&mut self, length: usize) -> Vec<u8> {
        let mut out = Vec::with_capacity(length + 8);
        while out.len() < length {
            out.extend_from_slice(&self.next().to_le_bytes());
        }
        out.truncate(length);
        out
    }

    /// Sound of one character for the whole block: full range, soft, at the limits, or still.
    pub fn sound(&mut self, length: usize) -> Vec<u8> {
        let mut out = self.bytes(length);
        let character = self.below(8);
        if character < 4 {
            return out;
        }
        let still = self.next() as i16;
        for pair in out.chunks_exact_mut(2) {
            let x = i16::from_le_bytes([pair[0], pair[1]]);
            let sample = match character {
                4 => x >> 12,
                5 if x < 0 => i16::MIN,
                5 => i16::MAX,
                6 => x >> 5,
                _ => still,
            };
            pair.copy_from_slice(&sample.to_le_bytes());
        }
        out
    }
}
