//! The convolutional coder on lists of bits, by document 02, (iii): the register's six bits stand before the input's, a symbol is a sum over
//! seven of them, and the symbols held stand before the new ones.

use crate::data::{bits, buffer, packed};

const G1: [usize; 5] = [0, 1, 2, 3, 6];
const G2: [usize; 5] = [0, 2, 3, 5, 6];
const PATTERNS: [(&str, &str); 5] =
    [("1", "1"), ("10", "11"), ("101", "110"), ("10101", "11010"), ("1000101", "1111010")];

/// The state between calls: the last six bits, the newest lowest; the place in the period; how many symbols are held; and those, top bit
/// first, with any bits below them.
#[derive(Clone, Copy, Debug, PartialEq)]
pub struct Coder {
    pub register: u8,
    pub place: u8,
    pub holds: u8,
    pub held: u8,
}

impl Coder {
    pub fn start() -> Coder {
        Coder { register: 0, place: 0, holds: 0, held: 0 }
    }

    fn held_symbols(&self) -> Vec<bool> {
        bits(&[self.held])[..self.holds as usize].to_vec()
    }

    /// What a line says of a state.
    fn told(&self) -> String {
        format!("{} {} {} {}", self.register, self.place, self.holds, self.held)
    }
}

/// The length of a rate's period, or 7 if there is no such rate, or no such state at it.
fn period(rate: u32, state: Coder) -> Result<usize, u64> {
    let fits = |period: &usize| state.register < 64 && (state.place as usize) < *period && state.holds < 8;
    PATTERNS.get((rate as usize).wrapping_sub(1)).map(|patterns| patterns.0.len()).filter(fits).ok_or(7)
}

/// The symbols of all the bits but the first six, which only stand before them. The first of these is at the given place of the period.
pub fn symbols(rate: u32, place: u8, bits: &[bool]) -> Vec<bool> {
    let sum = |taps: &[usize], last: &[bool]| taps.iter().filter(|&&t| last[6 - t]).count() % 2 == 1;
    let (first, second) = PATTERNS[rate as usize - 1];
    let sends = |pattern: &str, n: usize| pattern.as_bytes()[(place as usize + n) % pattern.len()] == b'1';
    let mut out = Vec::new();
    for (n, last) in bits.windows(7).enumerate() {
        if sends(first, n) {
            out.push(sum(&G1, last));
        }
        if sends(second, n) {
            out.push(sum(&G2, last) ^ (rate == 1));
        }
    }
    out
}

/// The octets that a call fills.
pub fn filled(rate: u32, state: Coder, octets: usize) -> usize {
    (state.holds as usize + symbols(rate, state.place, &vec![false; 6 + 8 * octets]).len()) / 8
}

/// The symbols of data of any length from the start on, packed.
pub fn packed_whole(rate: u32, data: &[u8]) -> Vec<u8> {
    packed(&symbols(rate, 0, &[&[false; 6], &bits(data)[..]].concat()))
}

/// The number of the data's own symbols, the octets written, which must be as many as the output has, and the state that is left; or the
/// refusal's number, and the state stays.
pub fn convolve(rate: u32, state: Coder, data: &[u8], output: usize) -> Result<(usize, Vec<u8>, Coder), u64> {
    let period = period(rate, state)?;
    if data.len() > 2044 {
        return Err(5);
    }
    let input = [&bits(&[state.register])[2..], &bits(data)].concat();
    let own = symbols(rate, state.place, &input);
    let to_send = [state.held_symbols(), own.clone()].concat();
    let (whole, rest) = to_send.split_at(to_send.len() / 8 * 8);
    if whole.len() / 8 != output {
        return Err(6);
    }
    let next = Coder {
        register: packed(&input[8 * data.len()..])[0] >> 2,
        place: ((state.place as usize + 8 * data.len()) % period) as u8,
        holds: rest.len() as u8,
        held: packed(rest).first().copied().unwrap_or(0),
    };
    Ok((own.len(), packed(whole), next))
}

/// The number of symbols held and the octet written, if there are any, which the output must have room for and no more; or the refusal's
/// number.
pub fn close(rate: u32, state: Coder, output: usize) -> Result<(usize, Vec<u8>), u64> {
    period(rate, state)?;
    let octets = packed(&state.held_symbols());
    if octets.len() != output {
        return Err(6);
    }
    Ok((state.holds as usize, octets))
}

/// Writes the line of a call, whose output holds so many octets 170 before, and gives the state that it leaves.
pub fn write_convolve(rate: u32, state: Coder, data: &[u8], output: usize) -> Coder {
    let (answer, next, after) = match convolve(rate, state, data, output) {
        Ok((count, octets, next)) => (format!("0 {count}"), next, octets),
        Err(number) => (number.to_string(), state, vec![170; output]),
    };
    println!("convolve {rate} {answer} {}{}", next.told(), buffer(&after));
    next
}

/// The same of a close, which leaves no state.
pub fn write_close(rate: u32, state: Coder, output: usize) {
    match close(rate, state, output) {
        Ok((count, octets)) => println!("convolve-close {rate} 0 {count}{}", buffer(&octets)),
        Err(number) => println!("convolve-close {rate} {number}{}", buffer(&vec![170; output])),
    }
}

#[cfg(test)]
mod tests {
    use super::*;
    use crate::data::drawn;

    /// (G), (H) and (I) of document 01, each with its close.
    #[test]
    fn as_printed() {
        let state = |place, holds, held| Coder { register: 0, place, holds, held };
        for (rate, octet, count, written, next, closed) in [
            (1, 0x00, 16, &[0x55, 0x55][..], state(0, 0, 0), (0, &[][..])),
            (1, 0x80, 16, &[0xBA, 0x49], state(0, 0, 0), (0, &[])),
            (3, 0x80, 11, &[0xDC], state(2, 3, 0xC0), (3, &[0xC0])),
        ] {
            let called = convolve(rate, Coder::start(), &[octet], written.len());
            assert_eq!(called, Ok((count, written.to_vec(), next)));
            assert_eq!(close(rate, next, closed.1.len()), Ok((closed.0, closed.1.to_vec())));
        }
    }

    /// Long inputs in calls of several sizes, an empty one after each, with dirt below the held symbols: octets, count and close are those of
    /// the whole.
    #[test]
    fn cuts() {
        let data = drawn(9, 5000);
        for rate in 1..=5 {
            for size in [1, 2, 7, 300, 2044] {
                let (mut state, mut total, mut joined) = (Coder::start(), 0, vec![]);
                for part in data.chunks(size) {
                    let (count, octets, next) = convolve(rate, state, part, filled(rate, state, part.len())).unwrap();
                    total += count;
                    joined.extend(octets);
                    state = Coder { held: next.held | 255 >> next.holds, ..next };
                    assert_eq!(convolve(rate, state, &[], 0), Ok((0, vec![], next)));
                }
                let held = usize::from(state.holds > 0);
                let (count, octets) = close(rate, state, held).unwrap();
                assert_eq!((joined.len() * 8 + count, joined.len() + held), (total, total.div_ceil(8)));
                joined.extend(octets);
                assert_eq!(joined, packed_whole(rate, &data));
            }
        }
    }
}
