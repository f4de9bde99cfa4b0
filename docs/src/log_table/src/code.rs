//! The parameters of a call, and how they and the lengths are judged.

/// Strength E, depth I and fill Q. Any numbers may stand here: the calls judge them.
#[derive(Clone, Copy, Debug, PartialEq, Eq)]
pub struct Code {
    pub e: u32,
    pub depth: u32,
    pub fill: u32,
}

/// Why a call was refused: of several reasons the first in this order.
#[derive(Clone, Copy, Debug, PartialEq, Eq)]
pub enum Refusal {
    /// E is neither 8 nor 16.
    Strength,
    /// I is none of 1, 2, 3, 4, 5, 8.
    Depth,
    /// Q is over 254 - 2E.
    Fill,
    /// s is over E.
    Allowance,
    InputLength,
    OutputLength,
    /// The lowest word that has no codeword with zero fill within s symbols.
    Word(usize),
}

impl Refusal {
    /// As document 01 numbers them.
    #[inline]
    pub fn number(self) -> u64 {
        match self {
            Refusal::Strength => 1,
            Refusal::Depth => 2,
            Refusal::Fill => 3,
            Refusal::Allowance => 4,
            Refusal::InputLength => 5,
            Refusal::OutputLength => 6,
            Refusal::Word(_) => 10,
        }
    }
}

#[inline]
fn demand(holds: bool, otherwise: Refusal) -> Result<(), Refusal> {
    if holds {
        Ok(())
    } else {
        Err(otherwise)
    }
}

impl Code {
    /// This and the other lengths mean something only for a code that is accepted.
    #[inline]
    pub fn frame_len(self) -> usize {
        ((255 - 2 * self.e - self.fill) * self.depth) as usize
    }

    #[inline]
    pub fn checks_len(self) -> usize {
        (2 * self.e * self.depth) as usize
    }

    #[inline]
    pub fn block_len(self) -> usize {
        ((255 - self.fill) * self.depth) as usize
    }

    #[inline]
    pub fn accept(self) -> Result<(), Refusal> {
        demand(self.e == 8 || self.e == 16, Refusal::Strength)?;
        demand(matches!(self.depth, 1..=5 | 8), Refusal::Depth)?;
        demand(self.fill <= 254 - 2 * self.e, Refusal::Fill)
    }

    pub(crate) fn accept_encode(self, frame: usize, block: usize) -> Result<(), Refusal> {
        self.accept()?;
        demand(frame == self.frame_len(), Refusal::InputLength)?;
        demand(block == self.block_len(), Refusal::OutputLength)
    }

    pub(crate) fn accept_decode(self, s: u32, block: usize, frame: usize) -> Result<(), Refusal> {
        self.accept()?;
        demand(s <= self.e, Refusal::Allowance)?;
        demand(block == self.block_len(), Refusal::InputLength)?;
        demand(frame == self.frame_len(), Refusal::OutputLength)
    }

    pub(crate) fn accept_salvage(self, s: u32, block: usize, frame: usize, list: usize) -> Result<(), Refusal> {
        self.accept_decode(s, block, frame)?;
        demand(list == 4 * block, Refusal::OutputLength)
    }
}
