//! Frames in portions, by document 02, (ii): each word's row by long division of all that a portion brings for it.

use crate::blocks::Code;
use crate::data::buffer;
use crate::field::{to_conventional, to_line};
use crate::word::further;

/// The state between calls: octets taken, closed, and a row of check octets, on the line, for each of eight words.
#[derive(Clone, Debug, PartialEq)]
pub struct Progress {
    pub place: u64,
    pub closed: bool,
    pub rows: [[u8; 32]; 8],
}

impl Progress {
    pub fn start() -> Progress {
        Progress { place: 0, closed: false, rows: [[0; 32]; 8] }
    }

    /// What a line says of a state: its place, 1 if it is closed, and its rows.
    fn told(&self) -> String {
        format!("{} {}{}", self.place, self.closed as u8, buffer(self.rows.as_flattened()))
    }
}

/// The numbers of document 02's order with whether each is due: the first that is.
fn first(order: &[(u64, bool)]) -> u64 {
    order.iter().find(|check| check.1).map_or(0, |check| check.0)
}

impl Code {
    /// Symbols of a frame, over all words. With illegal parameters it is nonsense, and nothing asks for it.
    fn frame(&self) -> i128 {
        (255 - 2 * self.e as i128 - self.q as i128) * self.i as i128
    }

    fn numbers_due(&self) -> [(u64, bool); 3] {
        let legal_depth = [1, 2, 3, 4, 5, 8].contains(&self.i);
        let most = 254 - 2 * self.e as i128;
        [(1, self.e != 8 && self.e != 16), (2, !legal_depth), (3, self.q as i128 > most)]
    }

    pub fn portion_number(&self, state: &Progress, portion: usize, written: usize) -> u64 {
        let past = state.place as i128 + portion as i128 > self.frame();
        let then = [(5, portion > 300), (6, written != portion), (14, state.closed || past)];
        first(&[&self.numbers_due()[..], &then].concat())
    }

    pub fn close_number(&self, state: &Progress, checks: usize) -> u64 {
        let required = 2 * self.e as u128 * self.i as u128;
        let elsewhere = state.place as i128 != self.frame();
        let then = [(6, checks as u128 != required), (14, state.closed || elsewhere)];
        first(&[&self.numbers_due()[..], &then].concat())
    }

    /// The number, the state and what is written, as they are afterwards.
    pub fn portion(&self, state: &Progress, portion: &[u8], before: &[u8]) -> (u64, Progress, Vec<u8>) {
        let number = self.portion_number(state, portion.len(), before.len());
        if number != 0 {
            return (number, state.clone(), before.to_vec());
        }
        let mut next = state.clone();
        next.place += portion.len() as u64;
        for (w, row) in next.rows.iter_mut().enumerate().take(self.i as usize) {
            let of_word = |k: &usize| (state.place + *k as u64) % self.i == w as u64;
            let symbols: Vec<u8> = (0..portion.len()).filter(of_word).map(|k| to_conventional(portion[k])).collect();
            let conventional = further(self.e as usize, &row.map(to_conventional), &symbols);
            row.iter_mut().zip(conventional).for_each(|(octet, c)| *octet = to_line(c));
        }
        (number, next, portion.to_vec())
    }

    /// The same of a close.
    pub fn close(&self, state: &Progress, before: &[u8]) -> (u64, Progress, Vec<u8>) {
        let number = self.close_number(state, before.len());
        if number != 0 {
            return (number, state.clone(), before.to_vec());
        }
        let rows = &state.rows[..self.i as usize];
        let checks = (0..2 * self.e as usize).flat_map(|j| rows.iter().map(move |row| row[j])).collect();
        (number, Progress { closed: true, ..state.clone() }, checks)
    }

    /// Writes the line of a portion, whose output holds so many octets 170 before, and gives what it leaves and has written.
    pub fn write_portion(&self, state: &Progress, portion: &[u8], written: usize) -> (Progress, Vec<u8>) {
        let (number, next, written) = self.portion(state, portion, &vec![170; written]);
        println!("portion {} {} {} {number} {}{}", self.e, self.i, self.q, next.told(), buffer(&written));
        (next, written)
    }

    /// The same of a close.
    pub fn write_close(&self, state: &Progress, checks: usize) -> (Progress, Vec<u8>) {
        let (number, next, checks) = self.close(state, &vec![170; checks]);
        println!("close {} {} {} {number} {}{}", self.e, self.i, self.q, next.told(), buffer(&checks));
        (next, checks)
    }
}

#[cfg(test)]
mod tests {
    use super::*;
    use crate::data::drawn;

    /// Frames cut into portions of every size from 1 to 300, with an empty one after each: the block is that of one call.
    #[test]
    fn cuts() {
        for (e, i, q) in [(16, 5, 0), (16, 8, 1), (8, 3, 100), (8, 8, 238), (16, 1, 222)] {
            let code = Code { e, i, q };
            let frame = drawn((e + i) as u32, code.frame() as usize);
            let (_, block) = code.encode(&frame, &vec![170; ((255 - q) * i) as usize]);
            for size in [1, 2, 7, 16, 255, 300] {
                let mut state = Progress::start();
                let mut joined = vec![];
                for portion in frame.chunks(size) {
                    let (number, next, written) = code.portion(&state, portion, &vec![170; portion.len()]);
                    assert_eq!(number, 0);
                    joined.extend(written);
                    state = code.portion(&next, &[], &[]).1;
                    assert_eq!(state, next);
                }
                let (number, closed, checks) = code.close(&state, &vec![170; (2 * e * i) as usize]);
                joined.extend(checks);
                assert_eq!((number, joined), (0, block.clone()));
                assert_eq!(
                    (code.portion(&closed, &[], &[]).0, code.close(&closed, &[170; 512][..(2 * e * i) as usize]).0),
                    (14, 14)
                );
            }
        }
    }
}
