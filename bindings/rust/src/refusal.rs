//! Refusals, and how a call's one number tells them.

use core::error::Error;
use core::fmt;

/// Why a call was refused. If several refusals are due, the first in the order that the call names is given; after any of them, all
/// that was lent to be written holds what it held.
#[derive(Clone, Copy, Debug, PartialEq, Eq, Hash)]
pub enum Refusal {
    /// 1: the strength is neither 8 nor 16.
    Strength,
    /// 2: the depth is none of 1, 2, 3, 4, 5, 8.
    Depth,
    /// 3: the fill is over 254 - 2E.
    Fill,
    /// 4: the allowance is over the strength.
    Allowance,
    /// 5: what is read has not the length required, or is over the limit.
    InputLength,
    /// 6: what is written has not the length required.
    OutputLength,
    /// 7: the rate is none of 1 to 5, or the coder cannot be in the state at that rate: the register is over 63, the place is not below the
    /// rate's period, or more than 7 symbols are held.
    Rate,
    /// 8: the tolerance is over 3.
    Tolerance,
    /// 9: both forms of the marker have more wrong bits than the tolerance.
    Marker {
        /// How many bits are wrong, in the form that has fewer.
        wrong_bits: u32,
    },
    /// 10: a word has no codeword with zero fill within the allowance.
    Word {
        /// The lowest such word, from 0.
        word: u32,
    },
    /// 11: the search starts past the stream's end.
    Start,
    /// 14: the frame that comes in portions is closed, or the portion would pass its end, or the close is not at it.
    Progress,
}

impl Refusal {
    /// The refusal's number, 1 to 11 or 14.
    pub const fn number(self) -> u32 {
        match self {
            Refusal::Strength => 1,
            Refusal::Depth => 2,
            Refusal::Fill => 3,
            Refusal::Allowance => 4,
            Refusal::InputLength => 5,
            Refusal::OutputLength => 6,
            Refusal::Rate => 7,
            Refusal::Tolerance => 8,
            Refusal::Marker { .. } => 9,
            Refusal::Word { .. } => 10,
            Refusal::Start => 11,
            Refusal::Progress => 14,
        }
    }
}

impl fmt::Display for Refusal {
    fn fmt(&self, f: &mut fmt::Formatter) -> fmt::Result {
        write!(f, "refused {}: ", self.number())?;
        match self {
            Refusal::Strength => write!(f, "the strength is neither 8 nor 16"),
            Refusal::Depth => write!(f, "the depth is none of 1, 2, 3, 4, 5, 8"),
            Refusal::Fill => write!(f, "the fill leaves no information symbol"),
            Refusal::Allowance => write!(f, "the allowance is over the strength"),
            Refusal::InputLength => write!(f, "the input has not the length required, or is over the limit"),
            Refusal::OutputLength => write!(f, "the output has not the length required"),
            Refusal::Rate => write!(f, "the rate is none of 1 to 5, or the coder cannot be in the state at that rate"),
            Refusal::Tolerance => write!(f, "the tolerance is over 3"),
            Refusal::Marker { wrong_bits } => write!(f, "the marker has {wrong_bits} wrong bits in its nearer form"),
            Refusal::Word { word } => write!(f, "word {word} has no codeword within the allowance"),
            Refusal::Start => write!(f, "the search starts past the stream's end"),
            Refusal::Progress => {
                write!(f, "the frame is closed, or the portion would pass its end, or the close is not at it")
            }
        }
    }
}

impl Error for Refusal {}

/// What a call's one number says: the refusal's number in its lowest eight bits, 0 if accepted, and the refusal's value above them.
pub(crate) fn accepted(answer: u64) -> Result<(), Refusal> {
    // The largest value is half the number of a marker's bits, 16: one of its forms has no more wrong.
    let value = (answer >> 8) as u32;
    Err(match answer & 255 {
        0 => return Ok(()),
        1 => Refusal::Strength,
        2 => Refusal::Depth,
        3 => Refusal::Fill,
        4 => Refusal::Allowance,
        5 => Refusal::InputLength,
        6 => Refusal::OutputLength,
        7 => Refusal::Rate,
        8 => Refusal::Tolerance,
        9 => Refusal::Marker { wrong_bits: value },
        10 => Refusal::Word { word: value },
        11 => Refusal::Start,
        14 => Refusal::Progress,
        number => unreachable!("the calls are proved to answer 0 to 11 or 14, and not {number}"),
    })
}
