//! The randomiser by a table of the sequence, which repeats after 255 octets.

use super::limits;

pub struct Sequence([u8; 255]);

impl Sequence {
    pub fn new() -> Sequence {
        let mut bits = vec![1u8; 8];
        for n in 0..8 * 255 - 8 {
            bits.push(bits[n] ^ bits[n + 3] ^ bits[n + 5] ^ bits[n + 7]);
        }
        Sequence(std::array::from_fn(|k| {
            bits[8 * k..8 * k + 8]
                .iter()
                .fold(0, |octet, bit| octet << 1 | bit)
        }))
    }

    pub fn randomise(&self, block: &mut [u8]) -> u64 {
        let number = limits::randomise(block.len());
        if number == 0 {
            for part in block.chunks_mut(255) {
                for (octet, added) in part.iter_mut().zip(&self.0) {
                    *octet ^= added;
                }
            }
        }
        number
    }
}
