//! Salvage in two forms, which differ as those of decode do.

use crate::code::{Code, Refusal};
use crate::errors::{self, Errors};
use crate::field::to_line;
use crate::syndromes::{of_all_symbols, of_checks, Syndromes};

/// The longest block.
const LONGEST: usize = 8 * 255;

/// The wrong symbols of each word, those among its checks included, if it could be repaired; how many entries the list has.
#[derive(Clone, Copy, Debug, PartialEq, Eq)]
pub struct Salvage {
    pub counts: [Option<u32>; 8],
    pub entries: usize,
}

/// The plain form. After a refusal frame and list are as they were.
pub fn salvage(code: Code, s: u32, block: &[u8], frame: &mut [u8], list: &mut [u8]) -> Result<Salvage, Refusal> {
    code.accept_salvage(s, block.len(), frame.len(), list.len())?;
    Ok(match code.e {
        8 => repair::<8, 16>(code, s, of_all_symbols(code, block), block, frame, list),
        _ => repair::<16, 32>(code, s, of_all_symbols(code, block), block, frame, list),
    })
}

/// The faster form, with the same outcome.
pub fn salvage_by_coding_again(
    code: Code,
    s: u32,
    block: &[u8],
    frame: &mut [u8],
    list: &mut [u8],
) -> Result<Salvage, Refusal> {
    code.accept_salvage(s, block.len(), frame.len(), list.len())?;
    Ok(match code.e {
        8 => repair::<8, 16>(code, s, of_checks(code, block), block, frame, list),
        _ => repair::<16, 32>(code, s, of_checks(code, block), block, frame, list),
    })
}

/// A block as it is repaired, and a bit for each octet that changed: the words find their errors one after the other, and the list wants
/// them in the order of the block, which the bits keep without a sort and without a look at every octet.
struct Repaired {
    octets: [u8; LONGEST],
    changed: [u64; LONGEST.div_ceil(64)],
}

impl Repaired {
    fn put(&mut self, errors: &Errors, depth: usize, w: usize) {
        for &(place, error) in &errors.list[..errors.count] {
            let at = place as usize * depth + w;
            self.octets[at] ^= to_line(error);
            self.changed[at / 64] |= 1 << (at % 64);
        }
    }

    /// Writes an entry for each octet that changed; how many there are.
    fn write_list(&self, block: &[u8], list: &mut [u8]) -> usize {
        let mut rest = list.chunks_exact_mut(4);
        let mut entries = 0;
        for (n, bits) in self.changed.iter().enumerate() {
            let mut bits = *bits;
            while bits != 0 {
                let at = 64 * n + bits.trailing_zeros() as usize;
                if let Some(entry) = rest.next() {
                    entry.copy_from_slice(&[(at >> 8) as u8, at as u8, block[at], self.octets[at]]);
                }
                entries += 1;
                bits &= bits - 1;
            }
        }
        entries
    }
}

/// CHECKS is 2E, which the language cannot compute in a type.
fn repair<const E: usize, const CHECKS: usize>(
    code: Code,
    s: u32,
    syndromes: Syndromes<CHECKS>,
    block: &[u8],
    frame: &mut [u8],
    list: &mut [u8],
) -> Salvage {
    let (depth, sent) = (code.depth as usize, 255 - code.fill as usize);
    let mut repaired = Repaired { octets: [0; LONGEST], changed: [0; LONGEST.div_ceil(64)] };
    repaired.octets[..block.len()].copy_from_slice(block);
    let mut counts = [None; 8];
    for (w, count) in counts[..depth].iter_mut().enumerate() {
        if let Some(errors) = errors::find::<E>(&syndromes[w], sent, s as usize) {
            repaired.put(&errors, depth, w);
            *count = Some(errors.count as u32);
        }
    }
    frame.copy_from_slice(&repaired.octets[..frame.len()]);
    Salvage { counts, entries: repaired.write_list(block, list) }
}
