//! The decoder in two forms, which differ in how they come to the syndromes.

use crate::code::{Code, Refusal};
use crate::errors::{self, NO_ERRORS};
use crate::field::to_line;
use crate::syndromes::{of_all_symbols, of_checks, Syndromes};

/// The wrong symbols of each word, those among its checks included; 0 beyond the depth.
pub type Counts = [u32; 8];

/// The plain form. After a refusal the frame is as it was.
pub fn decode(code: Code, s: u32, block: &[u8], frame: &mut [u8]) -> Result<Counts, Refusal> {
    code.accept_decode(s, block.len(), frame.len())?;
    match code.e {
        8 => repair::<8, 16>(code, s, of_all_symbols(code, block), block, frame),
        _ => repair::<16, 32>(code, s, of_all_symbols(code, block), block, frame),
    }
}

/// The faster form, with the same outcome.
pub fn decode_by_coding_again(code: Code, s: u32, block: &[u8], frame: &mut [u8]) -> Result<Counts, Refusal> {
    code.accept_decode(s, block.len(), frame.len())?;
    match code.e {
        8 => repair::<8, 16>(code, s, of_checks(code, block), block, frame),
        _ => repair::<16, 32>(code, s, of_checks(code, block), block, frame),
    }
}

/// Writes the frame, which is the block's but for the errors, once every word is known to be good. CHECKS is 2E, which the language cannot
/// compute in a type.
fn repair<const E: usize, const CHECKS: usize>(
    code: Code,
    s: u32,
    syndromes: Syndromes<CHECKS>,
    block: &[u8],
    frame: &mut [u8],
) -> Result<Counts, Refusal> {
    let (depth, sent) = (code.depth as usize, 255 - code.fill as usize);
    let mut words = [NO_ERRORS; 8];
    for (w, errors) in words[..depth].iter_mut().enumerate() {
        *errors = errors::find::<E>(&syndromes[w], sent, s as usize).ok_or(Refusal::Word(w))?;
    }
    frame.copy_from_slice(&block[..frame.len()]);
    for (w, errors) in words.iter().enumerate() {
        for &(place, error) in &errors.list[..errors.count] {
            // An error among the checks is counted, and is no part of the frame.
            if let Some(octet) = frame.get_mut(place as usize * depth + w) {
                *octet ^= to_line(error);
            }
        }
    }
    Ok(words.map(|errors| errors.count as u32))
}
