//! Frames that come in portions.

use crate::raw;
use crate::refusal::{accepted, Refusal};
use crate::words::Words;

/// Codes one frame that comes in portions of 0 to 300 octets. Each portion is written through, and at the close come the checks. However
/// the frame is cut, all that is written, joined, and then the checks are the block of [`Words::encode`].
///
/// ```
/// use ironsimmer::{PortionEncoder, Refusal, Words};
///
/// fn main() -> Result<(), Refusal> {
///     let words = Words { strength: 16, depth: 5, fill: 0 };
///     let frame: Vec<u8> = (0..words.frame_len()?).map(|n| n as u8).collect();
///     let mut joined = vec![0; words.block_len()?];
///     let (information, checks) = joined.split_at_mut(frame.len());
///
///     let mut encoder = PortionEncoder::new(words);
///     encoder.push(&frame[..100], &mut information[..100])?;
///
///     // The state may be stored here, and taken up by another program or after a restart.
///     let (place, closed, rows) = (encoder.place(), encoder.is_closed(), *encoder.rows());
///     let mut encoder = PortionEncoder::from_state(words, place, closed, rows);
///     for (portion, written) in frame[100..].chunks(300).zip(information[100..].chunks_mut(300)) {
///         encoder.push(portion, written)?;
///     }
///     assert_eq!(encoder.remaining(), Ok(0));
///     encoder.close(checks)?;
///     assert_eq!(encoder.push(&[7], &mut [0]), Err(Refusal::Progress));
///
///     let mut block = vec![0; joined.len()];
///     words.encode(&frame, &mut block)?;
///     assert_eq!(joined, block);
///     Ok(())
/// }
/// ```
#[derive(Clone, Debug, PartialEq, Eq)]
pub struct PortionEncoder {
    words: Words,
    /// The place, then 0 if the frame is open or 1 if it is closed: what the calls take. Nothing else is ever put here, so that equal
    /// states are equal encoders.
    progress: [u32; 2],
    rows: [[u8; 32]; 8],
}

impl PortionEncoder {
    /// The start of a frame: nothing taken, open, all rows zero. The numbers are judged at each call.
    pub const fn new(words: Words) -> PortionEncoder {
        PortionEncoder::from_state(words, 0, false, [[0; 32]; 8])
    }

    /// Takes up a frame where [`place`](Self::place), [`is_closed`](Self::is_closed) and [`rows`](Self::rows) say that it stands. Any
    /// state may be given here: the calls judge it. `words` must be those of the frame so far: with others that are legal, the checks
    /// are those of another code.
    pub const fn from_state(words: Words, place: u32, closed: bool, rows: [[u8; 32]; 8]) -> PortionEncoder {
        PortionEncoder { words, progress: [place, closed as u32], rows }
    }

    /// Takes the next octets of the frame, 0 to 300, and writes them through to `written`, which is as long. Up to the frame's end and
    /// at it an empty portion is accepted. Refuses by 1, 2, 3, 5, 6, 14, and then this encoder is as it was.
    pub fn push(&mut self, portion: &[u8], written: &mut [u8]) -> Result<(), Refusal> {
        accepted(raw::encode_portion(self.words, &mut self.progress, &mut self.rows, portion, written))
    }

    /// Gives the checks, [`Words::checks_len`] octets, of a frame that was taken whole, and closes it: nothing more is taken. The next
    /// frame needs a new encoder. Refuses by 1, 2, 3, 6, 14, and then this encoder is as it was.
    pub fn close(&mut self, checks: &mut [u8]) -> Result<(), Refusal> {
        accepted(raw::encode_close(self.words, &mut self.progress, &mut self.rows, checks))
    }

    /// How the block is made of words.
    pub const fn words(&self) -> Words {
        self.words
    }

    /// How many octets of the frame were taken so far.
    pub const fn place(&self) -> u32 {
        self.progress[0]
    }

    /// Whether the frame is closed.
    pub const fn is_closed(&self) -> bool {
        self.progress[1] != 0
    }

    /// The check octets of each of eight words, as they stand on the line.
    pub const fn rows(&self) -> &[[u8; 32]; 8] {
        &self.rows
    }

    /// How many octets of the frame are still to come; 0 if the place is beyond its end. Refuses by 1, 2, 3.
    pub fn remaining(&self) -> Result<usize, Refusal> {
        Ok(self.words.frame_len()?.saturating_sub(self.place() as usize))
    }
}
