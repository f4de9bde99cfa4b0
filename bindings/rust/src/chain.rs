//! From frames to marked blocks and back.

use crate::marker::MARKER;
use crate::raw;
use crate::refusal::{accepted, Refusal};
use crate::words::{Report, Words};

/// What both ends of a link must have in common.
#[derive(Clone, Copy, Debug, PartialEq, Eq, Hash)]
pub struct Chain {
    /// How a block is made of words.
    pub words: Words,
    /// Whether the block, but not its marker, is randomised. Nothing in a marked block says which: see [`Chain::receive`].
    pub randomised: bool,
}

/// What a received frame cost, and how it came.
#[derive(Clone, Copy, Debug, PartialEq, Eq, Hash)]
pub struct Reception {
    /// As decode reports.
    pub report: Report,
    /// Whether all bits of the block came inverted, and were inverted again.
    pub inverted: bool,
}

impl Chain {
    /// The octets of a marked block, (255 - Q) I + 4. Refuses by 1, 2, 3.
    pub fn marked_len(self) -> Result<usize, Refusal> {
        Ok(MARKER.len() + self.words.block_len()?)
    }

    /// Codes a frame, randomises the block if the chain does, and puts the marker in front. The receiver must be told whether it was
    /// randomised: with the other flag it may deliver another frame and count nothing wrong (see [`Chain::receive`]).
    /// Refuses by 1, 2, 3, 5, 6.
    pub fn transmit(self, frame: &[u8], marked: &mut [u8]) -> Result<(), Refusal> {
        accepted(raw::transmit(self.words, self.randomised, frame, marked))
    }

    /// Tests the marker, inverts the block after a complemented one, undoes the randomising if the chain does it, and decodes the block.
    /// `allowance` is of wrong symbols in each word, `tolerance` of wrong bits in the marker. Refuses by 1, 2, 3, 4, 8, 5, 6, 9, 10.
    ///
    /// **Warning:** `randomised` must be the flag that was sent; this call cannot see which it was. With the other flag a block of these
    /// sizes is delivered as **another frame**, with nothing counted beyond what was wrong before, because the sequence is there itself
    /// made of codewords: E 16, Q 0, I 1, 2, 4 or 8; E 8, Q 0, I 1, 2, 4, 5 or 8. At every other size a block that arrived as it was
    /// sent is then refused by 10.
    ///
    /// **Warning:** the marker alone says whether the block is inverted. At Q 0 the word of 255 octets FF is itself a codeword: a
    /// complemented marker before a block that is not inverted, or a true one before a block that is, is delivered as the **inverted
    /// frame**, with nothing counted beyond what was wrong before. With fill such a block, if it arrived as it was sent, is refused by 10.
    pub fn receive(
        self,
        allowance: u32,
        tolerance: u32,
        marked: &[u8],
        frame: &mut [u8],
    ) -> Result<Reception, Refusal> {
        let mut counts = [0; 10];
        accepted(raw::receive(self.words, allowance, tolerance, self.randomised, marked, frame, &mut counts))?;
        let [report @ .., inverted] = counts;
        Ok(Reception { report: Report::of(report), inverted: inverted != 0 })
    }
}
