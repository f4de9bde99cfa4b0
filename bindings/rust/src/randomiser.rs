//! The pseudo-random sequence.

use crate::raw;
use crate::refusal::{accepted, Refusal};

/// Adds the sequence to a block of at most 2,040 octets, in place, from the sequence's beginning. The same call undoes it.
/// Refuses by 5.
pub fn randomise(block: &mut [u8]) -> Result<(), Refusal> {
    accepted(raw::randomise(block))
}

/// The octets of the sequence, one after the other; they never end.
#[derive(Clone, Debug, PartialEq, Eq)]
pub struct Sequence {
    register: u8,
}

impl Sequence {
    /// The sequence from its beginning, FF 48 0E C0 9A.
    pub const fn new() -> Sequence {
        Sequence::from_register(255)
    }

    /// The sequence that goes on with these eight bits, the first in the top bit. From 0 it gives zeros.
    pub const fn from_register(register: u8) -> Sequence {
        Sequence { register }
    }

    /// The next eight bits.
    pub const fn register(&self) -> u8 {
        self.register
    }
}

impl Default for Sequence {
    fn default() -> Sequence {
        Sequence::new()
    }
}

impl Iterator for Sequence {
    type Item = u8;

    fn next(&mut self) -> Option<u8> {
        Some(raw::sequence(&mut self.register))
    }

    fn size_hint(&self) -> (usize, Option<usize>) {
        (usize::MAX, None)
    }
}
