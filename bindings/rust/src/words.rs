//! Blocks of interleaved words: encode and decode.

use crate::raw;
use crate::refusal::{accepted, Refusal};

/// How a block is made of words. Any numbers may stand here: the calls judge them.
#[derive(Clone, Copy, Debug, PartialEq, Eq, Hash)]
pub struct Words {
    /// The strength E, 8 or 16: each word has 2E check symbols, and up to E wrong symbols of it can be put right.
    pub strength: u32,
    /// The depth I, one of 1, 2, 3, 4, 5, 8: so many words are interleaved.
    pub depth: u32,
    /// The fill Q, at most 254 - 2E: so many symbols in front of each word are zero and not sent.
    pub fill: u32,
}

/// What a delivered frame cost: how many symbols of the received words, checks included, differed from the codewords found.
#[derive(Clone, Copy, Debug, PartialEq, Eq, Hash)]
pub struct Report {
    /// The differing symbols of each word, 0 beyond the depth.
    pub counts: [u32; 8],
    /// Their sum.
    pub total: u32,
}

impl Report {
    pub(crate) fn of([counts @ .., total]: [u32; 9]) -> Report {
        Report { counts, total }
    }
}

impl Words {
    /// The octets of a frame, (255 - 2E - Q) I. Refuses by 1, 2, 3.
    pub fn frame_len(self) -> Result<usize, Refusal> {
        self.judge()?;
        Ok(((255 - 2 * self.strength - self.fill) * self.depth) as usize)
    }

    /// The octets of a block, (255 - Q) I. Refuses by 1, 2, 3.
    pub fn block_len(self) -> Result<usize, Refusal> {
        self.judge()?;
        Ok(((255 - self.fill) * self.depth) as usize)
    }

    /// The octets of a block's checks, 2E I. Refuses by 1, 2, 3.
    pub fn checks_len(self) -> Result<usize, Refusal> {
        self.judge()?;
        Ok((2 * self.strength * self.depth) as usize)
    }

    /// Codes a frame as a block: the frame, then the checks of its words. Refuses by 1, 2, 3, 5, 6.
    pub fn encode(self, frame: &[u8], block: &mut [u8]) -> Result<(), Refusal> {
        accepted(raw::encode(self, frame, block))
    }

    /// Decodes a block: delivered exactly if every word lies within `allowance` symbols of a codeword whose fill is all zero. The
    /// frame is then that of those codewords. Refuses by 1, 2, 3, 4, 5, 6, 10.
    pub fn decode(self, allowance: u32, block: &[u8], frame: &mut [u8]) -> Result<Report, Refusal> {
        let mut counts = [0; 9];
        accepted(raw::decode(self, allowance, block, frame, &mut counts))?;
        Ok(Report::of(counts))
    }

    /// The proved code's own judgement of the three numbers. It judges them before lengths, and no frame is empty: so it refuses an
    /// empty one for its length exactly if the numbers are good.
    fn judge(self) -> Result<(), Refusal> {
        match self.encode(&[], &mut []) {
            Err(Refusal::InputLength) => Ok(()),
            refused => refused,
        }
    }
}
