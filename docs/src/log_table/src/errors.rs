//! The errors that a word's syndromes tell of: Berlekamp-Massey, Chien search over the sent places, Forney's formula.

use crate::field::{beta_log, exp, log, product, quotient, values};
use std::array::from_fn;

/// Up to 16 wrong symbols: the place among those sent, and what to add there, as a conventional octet.
#[derive(Clone, Copy)]
pub struct Errors {
    pub count: usize,
    pub list: [(u8, u8); 16],
}

pub const NO_ERRORS: Errors = Errors { count: 0, list: [(0, 0); 16] };

/// The polynomial of the shortest register that gives the syndromes, lowest power first, and the register's length, if that is at most
/// `most`, itself at most 16. The length never goes down, so the first that is too long ends it.
fn shortest_register(sums: &[u8], most: usize) -> Option<([u8; 17], usize)> {
    let mut sigma = [0; 17];
    sigma[0] = 1;
    let mut kept = sigma;
    let (mut len, mut kept_len, mut kept_gap, mut shift) = (0, 0, 1, 1);
    for n in 0..sums.len() {
        let before = sums[n - len..n].iter().rev();
        let given = sigma[1..=len].iter().zip(before);
        let gap = given.fold(sums[n], |gap, (a, b)| gap ^ product(*a, *b));
        if gap == 0 {
            shift += 1;
            continue;
        }
        let grows = 2 * len <= n;
        if grows && n + 1 - len > most {
            return None;
        }
        let old = sigma;
        let factor = log(quotient(gap, kept_gap));
        for (a, b) in sigma[shift..].iter_mut().zip(&kept[..=kept_len]) {
            *a ^= exp(factor + log(*b));
        }
        if grows {
            (kept, kept_len, kept_gap, shift) = (old, len, gap, 1);
            len = n + 1 - len;
        } else {
            shift += 1;
        }
    }
    Some((sigma, len))
}

/// The powers of beta, one for each sent place from the last on, at whose inverses the locator vanishes, if they are as many as the locator
/// has terms after its first, which is 1. The list is filled up with zeros, which mean nothing.
fn roots<const E: usize>(locator: &[u8], sent: usize) -> Option<[usize; E]> {
    let count = locator.len() - 1;
    // All E terms, also those that are zero: with their number known the compiler keeps them in registers.
    let mut terms = [0; E];
    terms[..count].copy_from_slice(&locator[1..]);
    let growths: [usize; E] = from_fn(|j| 255 - beta_log(j + 1));
    let mut powers = [0; E];
    let mut found = 0;
    for power in 0..sent {
        let mut value = 1;
        for (term, growth) in terms.iter_mut().zip(&growths) {
            value ^= *term;
            *term = exp(log(*term) + growth);
        }
        if value == 0 {
            powers[found] = power;
            found += 1;
            if found == count {
                return Some(powers);
            }
        }
    }
    None
}

/// The lowest terms of the product of syndromes and locator, as many as the locator has after its first.
fn evaluator(sums: &[u8], locator: &[u8]) -> [u8; 16] {
    let mut omega = [0; 16];
    for (k, term) in omega[..locator.len() - 1].iter_mut().enumerate() {
        let pairs = locator[..=k].iter().zip(sums[..=k].iter().rev());
        *term = pairs.fold(0, |sum, (a, b)| sum ^ product(*a, *b));
    }
    omega
}

/// The errors if there are at most s <= E of them, all at sent places; otherwise nothing.
pub fn find<const E: usize>(sums: &[u8], sent: usize, s: usize) -> Option<Errors> {
    if sums.iter().all(|sum| *sum == 0) {
        return Some(NO_ERRORS);
    }
    let (sigma, count) = shortest_register(sums, s)?;
    let locator = &sigma[..=count];
    let powers: [usize; E] = roots(locator, sent)?;
    let omega = evaluator(sums, locator);
    let inverses = powers.map(|power| (255 - beta_log(power)) % 255);
    let above = values(&inverses, omega[..count].iter().rev().copied());
    // Terms of even power vanish in the derivative, and those of odd power lose one: a polynomial in the square.
    let odd = locator.iter().skip(1).step_by(2);
    let below = values(&inverses.map(|inverse| 2 * inverse % 255), odd.rev().copied());
    let mut errors = NO_ERRORS;
    errors.count = count;
    for (k, error) in errors.list[..count].iter_mut().enumerate() {
        // X^(1 - b), since the syndromes begin at power b = 128 - E.
        let scale = exp(inverses[k] * (127 - E) % 255);
        let added = product(quotient(above[k], below[k]), scale);
        *error = ((sent - 1 - powers[k]) as u8, added);
    }
    Some(errors)
}
