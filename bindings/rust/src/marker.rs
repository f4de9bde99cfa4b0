//! The marker: its test, and its search in a stream.

use crate::raw;
use crate::refusal::{accepted, Refusal};

/// The four octets in front of a marked block.
pub const MARKER: [u8; 4] = [0x1A, 0xCF, 0xFC, 0x1D];

/// How a marker was received.
#[derive(Clone, Copy, Debug, PartialEq, Eq, Hash)]
pub enum Form {
    /// As it is.
    True,
    /// With all bits inverted.
    Complement,
}

impl Form {
    fn of(number: u64) -> Form {
        match number {
            1 => Form::True,
            2 => Form::Complement,
            _ => unreachable!("a form is proved to be 1 or 2, and not {number}"),
        }
    }
}

/// What a search says. A place is the number of a bit in the stream, the top bit of its first octet being 0.
#[derive(Clone, Copy, Debug, PartialEq, Eq, Hash)]
pub enum Search {
    /// The marker is there in one of its forms, within the tolerance.
    Found {
        /// The first place that fits.
        place: u64,
        /// The form that fits.
        form: Form,
        /// That form's wrong bits there.
        wrong_bits: u32,
        /// How many places were looked at.
        looked: u64,
    },
    /// No place fits, of all from the start on.
    Absent {
        /// How many places were looked at, which is all that there were.
        looked: u64,
    },
    /// The budget was spent before the places were.
    Spent {
        /// The next place to look at.
        next: u64,
        /// How many places were looked at, which is the budget.
        looked: u64,
    },
}

/// Tests four octets against the marker and its complement. Gives the form whose wrong bits are at most the tolerance, 0 to 3, and how many
/// they are; never do both forms fit. Refuses by 8, 5, 9.
pub fn test_marker(tolerance: u32, octets: &[u8]) -> Result<(Form, u32), Refusal> {
    let mut found = [0; 2];
    accepted(raw::marker(tolerance, octets, &mut found))?;
    let [form, wrong_bits] = found;
    Ok((Form::of(form.into()), wrong_bits))
}

/// Looks for the marker, in either form, at every bit of a stream of at most 65,536 octets, from bit `start` on, at no more than `budget`
/// places. Refuses by 8, 5, 11.
pub fn search(tolerance: u32, stream: &[u8], start: u64, budget: u64) -> Result<Search, Refusal> {
    let mut found = [0; 5];
    accepted(raw::search(tolerance, stream, start, budget, &mut found))?;
    let [kind, place, wrong_bits, looked, form] = found;
    Ok(match kind {
        // A found marker has at most three wrong bits.
        1 => Search::Found { place, form: Form::of(form), wrong_bits: wrong_bits as u32, looked },
        2 => Search::Absent { looked },
        3 => Search::Spent { next: place, looked },
        _ => unreachable!("the search is proved to answer 1 to 3, and not {kind}"),
    })
}
