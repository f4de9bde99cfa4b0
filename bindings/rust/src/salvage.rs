//! Salvage of a block of which not every word can be repaired.

use crate::raw;
use crate::refusal::{accepted, Refusal};
use crate::words::Words;
use core::slice::ChunksExact;

/// The octets of an entry.
const ENTRY: usize = 4;

/// An octet of the block that a repair changed.
#[derive(Clone, Copy, Debug, PartialEq, Eq, Hash)]
pub struct Change {
    /// Where it stands in the block, from 0: it is a symbol of word `position % depth`.
    pub position: usize,
    /// The octet as received.
    pub old: u8,
    /// The octet as repaired, which is another.
    pub new: u8,
}

/// What became of each word of a block, and which octets of the block were changed. It holds the list that was lent to the call, so that
/// the changes are those of this block.
#[derive(Clone, Copy, Debug, PartialEq, Eq, Hash)]
pub struct Salvage<'a> {
    counts: [Option<u32>; 8],
    depth: usize,
    entries: &'a [u8],
}

impl<'a> Salvage<'a> {
    /// For each word of the block, from word 0 on: if it is repaired, how many of its symbols, checks included, differed from the codeword
    /// found, 0 if it was that codeword as received; `None` if it is not repaired, and its symbols are as received.
    pub fn words(&self) -> &[Option<u32>] {
        &self.counts[..self.depth]
    }

    /// Whether every word is repaired. [`Words::decode`] delivers the block exactly then, with the same frame and counts.
    pub fn is_whole(&self) -> bool {
        self.words().iter().all(Option::is_some)
    }

    /// The octets of the block that the repairs changed, in the order of the block. Changed checks are among them.
    pub fn changes(&self) -> Changes<'a> {
        Changes(self.entries.chunks_exact(ENTRY))
    }

    /// The entries of the list, four octets each, as the call wrote them: a change's position, highest octet first, its old octet, its new.
    pub fn entries(&self) -> &'a [u8] {
        self.entries
    }
}

/// The changed octets of a block, in its order.
#[derive(Clone, Debug)]
pub struct Changes<'a>(ChunksExact<'a, u8>);

impl Iterator for Changes<'_> {
    type Item = Change;

    fn next(&mut self) -> Option<Change> {
        self.0.next().map(change)
    }

    fn size_hint(&self) -> (usize, Option<usize>) {
        self.0.size_hint()
    }
}

impl DoubleEndedIterator for Changes<'_> {
    fn next_back(&mut self) -> Option<Change> {
        self.0.next_back().map(change)
    }
}

impl ExactSizeIterator for Changes<'_> {}

fn change(entry: &[u8]) -> Change {
    Change { position: usize::from(u16::from_be_bytes([entry[0], entry[1]])), old: entry[2], new: entry[3] }
}

impl Words {
    /// The octets of salvage's list, four for each octet of a block, 4 (255 - Q) I. Refuses by 1, 2, 3.
    pub fn list_len(self) -> Result<usize, Refusal> {
        Ok(ENTRY * self.block_len()?)
    }

    /// Repairs every word of a block that lies within `allowance` symbols of a codeword whose fill is all zero, and leaves any other as
    /// received: what is wrong in it is then in the frame. The frame is that of the words as they then are. `list` gets an entry for each
    /// octet of the block that was changed, and its octets after the entries stay. What becomes of a word depends on its own symbols
    /// alone, and not on the other words. Refuses by 1, 2, 3, 4, 5, 6 (the frame's length, then the list's), and never by 10.
    ///
    /// ```
    /// use ironsimmer::{Change, Refusal, Words};
    ///
    /// fn main() -> Result<(), Refusal> {
    ///     let words = Words { strength: 8, depth: 2, fill: 0 };
    ///     let sent = vec![7; words.frame_len()?];
    ///     let mut block = vec![0; words.block_len()?];
    ///     words.encode(&sent, &mut block)?;
    ///     block[3] ^= 0x80; // a wrong symbol of word 1
    ///     (0..9).for_each(|k| block[2 * k] = 0xFF); // nine of word 0, which are too many
    ///
    ///     let mut frame = vec![0; words.frame_len()?];
    ///     let mut list = vec![0; words.list_len()?];
    ///     let salvage = words.salvage(8, &block, &mut frame, &mut list)?;
    ///     assert_eq!(salvage.words(), [None, Some(1)]);
    ///     assert!(salvage.changes().eq([Change { position: 3, old: 0x87, new: 7 }]));
    ///     assert_eq!(frame[..4], [0xFF, 7, 0xFF, 7]);
    ///
    ///     for change in salvage.changes() {
    ///         block[change.position] = change.new; // the block itself, repaired as far as it can be
    ///     }
    ///     assert_eq!(block[..4], frame[..4]);
    ///     Ok(())
    /// }
    /// ```
    pub fn salvage<'a>(
        self,
        allowance: u32,
        block: &[u8],
        frame: &mut [u8],
        list: &'a mut [u8],
    ) -> Result<Salvage<'a>, Refusal> {
        let mut told = [0; 17];
        accepted(raw::salvage(self, allowance, block, frame, list, &mut told))?;
        let counts = core::array::from_fn(|w| (told[w] != 0).then_some(told[8 + w]));
        Ok(Salvage { counts, depth: self.depth as usize, entries: &list[..ENTRY * told[16] as usize] })
    }
}
