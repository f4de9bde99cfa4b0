//! One word of the code in conventional octets, c0 first: checks by long division, errors by Euclid's algorithm.

use crate::field::{power, product, quotient, raised};

/// The zeros alpha^(11 j), j from 128 - E to 127 + E.
fn zeros(e: usize) -> impl Iterator<Item = u8> {
    (128 - e..128 + e).map(|j| power(11 * j))
}

/// The product of x - alpha^(11 j) over the zeros, highest power first.
fn generator(e: usize) -> Vec<u8> {
    zeros(e).fold(vec![1], |g, zero| {
        let mut next = g.clone();
        next.push(0);
        for (k, c) in g.iter().enumerate() {
            next[k + 1] ^= product(*c, zero);
        }
        next
    })
}

/// The last coefficients of a dividend, highest power first, after so many steps of division by a divisor whose first is 1.
fn divided(mut dividend: Vec<u8>, divisor: &[u8], steps: usize) -> Vec<u8> {
    for place in 0..steps {
        let lead = dividend[place];
        for (k, c) in divisor.iter().enumerate() {
            dividend[place + k] ^= product(lead, *c);
        }
    }
    dividend.split_off(steps)
}

/// The remainder of the information symbols, 2E places up, after division by the generator.
pub fn checks(e: usize, information: &[u8]) -> Vec<u8> {
    let mut dividend = information.to_vec();
    dividend.resize(information.len() + 2 * e, 0);
    divided(dividend, &generator(e), information.len())
}

/// What further symbols make of a row of 32 that stands in for those before them: the row as many places up as there are symbols, and the
/// symbols 32 places up, divided by the generator 32 - 2E places up.
pub fn further(e: usize, row: &[u8], symbols: &[u8]) -> Vec<u8> {
    let mut dividend = symbols.to_vec();
    dividend.resize(symbols.len() + 32, 0);
    dividend.iter_mut().zip(row).for_each(|(sum, octet)| *sum ^= octet);
    let mut divisor = generator(e);
    divisor.resize(33, 0);
    divided(dividend, &divisor, symbols.len())
}

/// X of a place, alpha^(11 (254 - place)): a word's value at alpha^(11 j) is the sum of its symbols times X^j.
fn locator(place: usize) -> u8 {
    power(11 * (254 - place))
}

/// A full word's values at the zeros.
fn syndromes(e: usize, word: &[u8]) -> Vec<u8> {
    (128 - e..128 + e)
        .map(|j| word.iter().enumerate().fold(0, |sum, (place, c)| sum ^ product(*c, raised(locator(place), j))))
        .collect()
}

/// A polynomial, lowest power first, without zeros at its top.
type Polynomial = Vec<u8>;

fn trimmed(mut p: Polynomial) -> Polynomial {
    while p.last() == Some(&0) {
        p.pop();
    }
    p
}

/// a - factor x^shift b.
fn less(a: &[u8], factor: u8, shift: usize, b: &[u8]) -> Polynomial {
    let mut out = a.to_vec();
    out.resize(a.len().max(b.len() + shift), 0);
    for (k, c) in b.iter().enumerate() {
        out[k + shift] ^= product(factor, *c);
    }
    trimmed(out)
}

fn at(p: &[u8], x: u8) -> u8 {
    p.iter().rev().fold(0, |sum, c| product(sum, x) ^ c)
}

/// A term of odd power loses a power; one of even power vanishes, since 1 + 1 is 0.
fn derivative(p: &[u8]) -> Polynomial {
    p.iter().enumerate().skip(1).map(|(k, c)| if k % 2 == 1 { *c } else { 0 }).collect()
}

/// Locator and evaluator by Euclid's algorithm on x^(2E) and S(x), stopped at the first remainder of a degree below E.
fn key(e: usize, syndromes: &[u8]) -> (Polynomial, Polynomial) {
    let mut before: Polynomial = vec![0; 2 * e];
    before.push(1);
    let mut remainder = trimmed(syndromes.to_vec());
    let (mut factor_before, mut factor): (Polynomial, Polynomial) = (vec![], vec![1]);
    while remainder.len() > e {
        while before.len() >= remainder.len() {
            let lead = quotient(*before.last().unwrap(), *remainder.last().unwrap());
            let shift = before.len() - remainder.len();
            before = less(&before, lead, shift, &remainder);
            factor_before = less(&factor_before, lead, shift, &factor);
        }
        std::mem::swap(&mut before, &mut remainder);
        std::mem::swap(&mut factor_before, &mut factor);
    }
    (factor, remainder)
}

/// What Euclid's algorithm and Forney's formula propose to add to a full word, each value with its place. Nothing is promised of it.
fn proposed(e: usize, word: &[u8]) -> Vec<(usize, u8)> {
    let (locators, evaluator) = key(e, &syndromes(e, word));
    let slope = derivative(&locators);
    let value = |place: usize| {
        let inverse = quotient(1, locator(place));
        if at(&locators, inverse) != 0 || at(&slope, inverse) == 0 {
            return 0;
        }
        // X^(1 - b) with b = 128 - E.
        let scale = raised(inverse, 127 - e);
        product(scale, quotient(at(&evaluator, inverse), at(&slope, inverse)))
    };
    (0..word.len()).map(|place| (place, value(place))).filter(|error| error.1 != 0).collect()
}

fn added(word: &[u8], errors: &[(usize, u8)]) -> Vec<u8> {
    let mut sum = word.to_vec();
    errors.iter().for_each(|(place, value)| sum[*place] ^= value);
    sum
}

/// The errors of a full word, each value with its place, against the codeword with `fill` zeros in front that differs from it in at most
/// s <= E places. The proposal counts only if it leads to one: all values at the zeros vanish, the fill is zero, and it is near enough.
pub fn errors(e: usize, fill: usize, s: usize, word: &[u8]) -> Option<Vec<(usize, u8)>> {
    let errors = proposed(e, word);
    let codeword = added(word, &errors);
    let is_codeword = syndromes(e, &codeword).iter().all(|v| *v == 0);
    let is_filled = codeword[..fill].iter().all(|c| *c == 0);
    (is_codeword && is_filled && errors.len() <= s).then_some(errors)
}

/// That codeword, and in how many places it differs.
pub fn nearest(e: usize, fill: usize, s: usize, word: &[u8]) -> Option<(Vec<u8>, usize)> {
    errors(e, fill, s, word).map(|errors| (added(word, &errors), errors.len()))
}

#[cfg(test)]
mod tests {
    use super::*;
    use crate::data::drawn;

    fn codeword(e: usize, seed: u32) -> Vec<u8> {
        let mut word = drawn(seed, 255 - 2 * e);
        word.extend(checks(e, &word.clone()));
        word
    }

    /// Annex B of source 000 prints the generators' coefficients as powers of alpha.
    #[test]
    fn printed_generators() {
        let sixteen = [0, 249, 59, 66, 4, 43, 126, 251, 97, 30, 3, 213, 50, 66, 170, 5, 24];
        let eight = [0, 30, 230, 49, 235, 129, 81, 76, 173];
        for (e, printed) in [(16, &sixteen[..]), (8, &eight)] {
            let generator = generator(e);
            for (k, n) in printed.iter().enumerate() {
                assert_eq!(generator[k], power(*n));
                assert_eq!(generator[2 * e - k], power(*n));
            }
        }
    }

    #[test]
    fn codewords_vanish_at_the_zeros() {
        for e in [8, 16] {
            assert!(syndromes(e, &codeword(e, 5)).iter().all(|v| *v == 0));
        }
    }

    #[test]
    fn up_to_e_wrong_symbols_are_found() {
        for e in [8, 16] {
            for wrong in 0..=e {
                let sent = codeword(e, wrong as u32);
                let mut received = sent.clone();
                for k in 0..wrong {
                    received[(k * 37 + wrong) % 255] ^= 1 + 13 * k as u8;
                }
                assert_eq!(nearest(e, 0, e, &received), Some((sent, wrong)));
                assert!(wrong == 0 || nearest(e, 0, wrong - 1, &received).is_none());
            }
        }
    }

    /// Whatever is found for a word that is nobody's codeword is a codeword within E of it.
    #[test]
    fn beyond_e_wrong_symbols() {
        for e in [8, 16] {
            for seed in 0..200 {
                let mut received = codeword(e, seed);
                for k in 0..=e {
                    received[(k * 29 + seed as usize) % 255] ^= 1 + 11 * k as u8;
                }
                if let Some((found, differing)) = nearest(e, 0, e, &received) {
                    assert!(differing <= e && found != received);
                }
            }
        }
    }
}
