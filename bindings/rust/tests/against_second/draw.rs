//! Drawn inputs: they look random and are the same at every run.

use ironsimmer::Words;
use std::cell::Cell;

pub const STRENGTHS: [u32; 2] = [8, 16];
pub const DEPTHS: [u32; 6] = [1, 2, 3, 4, 5, 8];

/// The generator splitmix64, with its state.
pub struct Draw(Cell<u64>);

impl Draw {
    pub fn new(seed: u64) -> Draw {
        Draw(Cell::new(seed))
    }

    pub fn number(&self) -> u64 {
        let x = self.0.get().wrapping_add(0x9E37_79B9_7F4A_7C15);
        self.0.set(x);
        let x = (x ^ x >> 30).wrapping_mul(0xBF58_476D_1CE4_E5B9);
        let x = (x ^ x >> 27).wrapping_mul(0x94D0_49BB_1331_11EB);
        x ^ x >> 31
    }

    /// A number from 0 to `last`.
    pub fn upto(&self, last: usize) -> usize {
        (self.number() % (last as u64 + 1)) as usize
    }

    /// The same for the numbers that the calls take.
    pub fn upto32(&self, last: u32) -> u32 {
        self.upto(last as usize) as u32
    }

    /// True once in so many times.
    pub fn once_in(&self, times: usize) -> bool {
        self.upto(times - 1) == 0
    }

    pub fn one_of<T: Copy>(&self, choices: &[T]) -> T {
        choices[self.upto(choices.len() - 1)]
    }

    /// A legal choice mostly, else one of the others.
    pub fn mostly<T: Copy>(&self, legal: &[T], others: &[T]) -> T {
        self.one_of(if self.once_in(8) { others } else { legal })
    }

    pub fn tolerance(&self) -> u32 {
        self.mostly(&[0, 1, 2, 3], &[4, 5, 32, 255, u32::MAX])
    }

    pub fn octets(&self, n: usize) -> Vec<u8> {
        (0..n).map(|_| self.number() as u8).collect()
    }

    /// So many different places of `all`.
    pub fn places(&self, n: usize, all: usize) -> Vec<usize> {
        let mut places: Vec<usize> = (0..all).collect();
        for k in 0..n {
            places.swap(k, k + self.upto(all - 1 - k));
        }
        places.truncate(n);
        places
    }

    /// Every strength and depth, each with the fills 0, 1, the middle, the last, and a drawn one.
    pub fn all_words(&self) -> Vec<Words> {
        let mut all = vec![];
        for strength in STRENGTHS {
            let last = 254 - 2 * strength;
            for depth in DEPTHS {
                for fill in [0, 1, last / 2, last, self.upto32(last)] {
                    all.push(Words { strength, depth, fill });
                }
            }
        }
        all
    }

    pub fn frame(&self, words: Words) -> Vec<u8> {
        self.octets(words.frame_len().unwrap())
    }

    /// Changes exactly so many symbols of each word; octet k I + w of a block is symbol k of word w.
    pub fn spoil(&self, block: &mut [u8], wrong: &[u32]) {
        let depth = wrong.len();
        let symbols = block.len() / depth;
        for (w, n) in wrong.iter().enumerate() {
            for k in self.places(*n as usize, symbols) {
                block[k * depth + w] ^= 1 + self.upto(254) as u8;
            }
        }
    }

    /// Changes exactly so many bits of some octets.
    pub fn spoil_bits(&self, octets: &mut [u8], wrong: usize) {
        for bit in self.places(wrong, 8 * octets.len()) {
            octets[bit / 8] ^= 128 >> (bit % 8);
        }
    }

    /// Inverts all bits, every other time, and says whether it did.
    pub fn perhaps_invert(&self, octets: &mut [u8]) -> bool {
        let inverted = self.once_in(2);
        if inverted {
            invert(octets);
        }
        inverted
    }
}

/// Inverts all bits.
pub fn invert(octets: &mut [u8]) {
    octets.iter_mut().for_each(|octet| *octet = !*octet);
}
