//! Octets and damage that stand in for data, the same in every run.

pub struct Draw(u64);

impl Draw {
    pub fn new(seed: u64) -> Draw {
        Draw(seed.wrapping_mul(0x9E37_79B9_7F4A_7C15) | 1)
    }

    /// A number below a bound, by xorshift.
    pub fn below(&mut self, bound: usize) -> usize {
        self.0 ^= self.0 << 13;
        self.0 ^= self.0 >> 7;
        self.0 ^= self.0 << 17;
        (self.0 >> 32) as usize % bound
    }

    pub fn octets(&mut self, n: usize) -> Vec<u8> {
        (0..n).map(|_| self.below(256) as u8).collect()
    }

    /// Inverts each bit so many times in a hundred.
    pub fn noise(&mut self, octets: &mut [u8], percent: usize) {
        for bit in 0..8 * octets.len() {
            if self.below(100) < percent {
                octets[bit / 8] ^= 128 >> (bit % 8);
            }
        }
    }

    /// Changes so many symbols of one of a block's words, at different places.
    pub fn damage_word(&mut self, block: &mut [u8], depth: usize, w: usize, wrong: usize) {
        let mut places: Vec<usize> = (w..block.len()).step_by(depth).collect();
        for _ in 0..wrong {
            let place = places.swap_remove(self.below(places.len()));
            block[place] ^= 1 + self.below(255) as u8;
        }
    }

    /// The same of each word.
    pub fn damage(&mut self, block: &mut [u8], depth: usize, wrong: usize) {
        for w in 0..depth {
            self.damage_word(block, depth, w, wrong);
        }
    }
}

/// Puts 32 bits at a place of a stream, which is the number of a bit, top bit first.
pub fn put(stream: &mut [u8], place: usize, word: u32) {
    for k in 0..32 {
        let (at, bit) = (place + k, word >> (31 - k) & 1);
        let mask = 128 >> (at % 8);
        stream[at / 8] = stream[at / 8] & !mask | if bit == 1 { mask } else { 0 };
    }
}
