//! The values of the received words at the code's zeros, in two ways.

use crate::code::Code;
use crate::encoder;
use crate::field::{beta_log, to_conventional, values};
use std::array::from_fn;

/// 2E values for each of up to eight words. The compiler knows how many, and keeps sixteen sums in registers if the machine has them.
pub type Syndromes<const CHECKS: usize> = [[u8; CHECKS]; 8];

/// Of symbols that come as line octets, highest power first, the values at beta^j, j from 128 - E on.
fn at_zeros<const CHECKS: usize>(symbols: impl Iterator<Item = u8>) -> [u8; CHECKS] {
    let zeros = from_fn(|i| beta_log(128 - CHECKS / 2 + i));
    values(&zeros, symbols.map(to_conventional))
}

/// Of all the symbols of each word.
pub fn of_all_symbols<const CHECKS: usize>(code: Code, block: &[u8]) -> Syndromes<CHECKS> {
    let depth = code.depth as usize;
    let mut all = [[0; CHECKS]; 8];
    for (w, sums) in all[..depth].iter_mut().enumerate() {
        *sums = at_zeros(block[w..].iter().step_by(depth).copied());
    }
    all
}

/// The frame is coded again: the sum of its checks and those received is the word's remainder after division by the generator, and so has
/// the word's values at the zeros. It has 2E symbols only, and none but zeros if nothing is wrong.
pub fn of_checks<const CHECKS: usize>(code: Code, block: &[u8]) -> Syndromes<CHECKS> {
    let depth = code.depth as usize;
    let (frame, received) = block.split_at(code.frame_len());
    let checks = encoder::checks(code, frame);
    let mut all = [[0; CHECKS]; 8];
    for (w, sums) in all[..depth].iter_mut().enumerate() {
        let received = received[w..].iter().step_by(depth);
        let remainder = received.zip(&checks[w]).map(|(a, b)| a ^ b);
        if remainder.clone().any(|octet| octet != 0) {
            *sums = at_zeros(remainder);
        }
    }
    all
}
