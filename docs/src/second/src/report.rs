//! The inputs of the report programs, and what they must write of them.

use crate::blocks::Code;
use crate::data::{bits, drawn};
use crate::marker::{fit, Form, MARKER};
use crate::randomiser::randomised;
use std::io::Write;

const CODE: Code = Code { e: 16, i: 5, q: 0 };
const FRAME: usize = 1115;
const MARKED: usize = 1279;

fn transmitted(frame: &[u8]) -> Vec<u8> {
    let (number, block) = CODE.encode(frame, &[0; MARKED - 4]);
    assert_eq!(number, 0);
    [&MARKER[..], &randomised(&block).unwrap()].concat()
}

/// So many wrong symbols in word w, from its symbol 7 on; sent octet n is of word n mod 5.
fn damage(marked: &mut [u8], w: usize, symbols: usize) {
    marked[4 + w + 35..].iter_mut().step_by(5).take(symbols).for_each(|octet| *octet ^= 0xA5);
}

/// The document's example: the zero block, the same with the marker zeroed, three octets.
fn printed() -> Vec<u8> {
    let good = transmitted(&[0; FRAME]);
    let mut unmarked = good.clone();
    unmarked[..4].fill(0);
    [&good[..], &unmarked, b"abc"].concat()
}

/// One block: its frame's seed, the marker's first octets with wrong bits, and the wrong symbols of its words.
fn damaged(seed: u32, marker: [u8; 4], words: [usize; 5]) -> Vec<u8> {
    let mut marked = transmitted(&drawn(seed, FRAME));
    marked.iter_mut().zip(marker).for_each(|(octet, bits)| *octet ^= bits);
    words.iter().enumerate().for_each(|(w, symbols)| damage(&mut marked, w, *symbols));
    marked
}

fn inverted(mut marked: Vec<u8>) -> Vec<u8> {
    marked.iter_mut().for_each(|octet| *octet ^= 0xFF);
    marked
}

/// Clean, corrected, refused 9, refused 10 at the first, a middle and the last word, limits and one past each; a complemented marker before
/// a block that is not inverted, which is delivered as the inverted frame; inverted blocks, clean, corrected, refused 9 and refused 10; and a
/// remainder that lacks one octet.
fn kinds() -> Vec<u8> {
    [
        damaged(1, [0; 4], [0; 5]),
        damaged(2, [0; 4], [1, 0, 0, 0, 0]),
        damaged(3, [0; 4], [16; 5]),
        damaged(4, [1, 0x10, 0, 0x80], [0, 0, 3, 0, 0]),
        damaged(5, [1, 0x10, 2, 0x80], [0; 5]),
        damaged(6, [0xFF; 4], [0; 5]),
        damaged(7, [0; 4], [17, 0, 0, 0, 0]),
        damaged(8, [0; 4], [16, 16, 16, 17, 0]),
        damaged(9, [0; 4], [0, 0, 0, 0, 40]),
        damaged(10, [0; 4], [0, 17, 0, 17, 0]),
        damaged(11, [0xF0, 0, 0, 0], [17; 5]),
        damaged(12, [0; 4], [9, 0, 16, 5, 2]),
        inverted(damaged(14, [0; 4], [0; 5])),
        inverted(damaged(15, [1, 0x10, 0, 0x80], [0, 0, 3, 0, 16])),
        inverted(damaged(16, [1, 0x10, 2, 0x80], [0; 5])),
        inverted(damaged(17, [0; 4], [0, 0, 17, 0, 0])),
        drawn(13, MARKED - 1),
    ]
    .concat()
}

fn input(name: &str) -> Vec<u8> {
    match name {
        "report" => printed(),
        "report_kinds" => kinds(),
        "report_empty" => vec![],
        _ => panic!("report, report_kinds or report_empty"),
    }
}

fn verdict(marked: &[u8]) -> String {
    let Ok((form, _)) = fit(3, &bits(&marked[..4]), 0) else {
        return "refused 9".to_string();
    };
    let block: Vec<u8> =
        marked[4..].iter().map(|octet| if form == Form::Complement { !octet } else { *octet }).collect();
    let found = CODE.decode(16, &randomised(&block).unwrap(), &[0; FRAME]);
    match found.answer.split_once(' ') {
        Some((number, word)) => format!("refused {number} word {word}"),
        None => {
            let end = if form == Form::Complement { " inverted" } else { "" };
            format!("corrected {}{end}", found.counts.iter().sum::<usize>())
        }
    }
}

fn output(octets: &[u8]) -> String {
    let blocks = octets.chunks_exact(MARKED);
    let left = blocks.remainder().len();
    let count = blocks.len();
    let lines: String = blocks.enumerate().map(|(k, marked)| format!("block {k}: {}\n", verdict(marked))).collect();
    let short = if left > 0 { format!("short {left}\n") } else { String::new() };
    format!("{lines}{short}end {count}\n")
}

pub fn write_input(name: &str) {
    std::io::stdout().write_all(&input(name)).unwrap();
}

pub fn write_output(name: &str) {
    print!("{}", output(&input(name)));
}

#[cfg(test)]
mod tests {
    use super::*;

    #[test]
    fn as_printed() {
        assert_eq!(output(&printed()), "block 0: corrected 0\nblock 1: refused 9\nshort 3\nend 2\n");
    }

    #[test]
    fn inverted_blocks() {
        let lines = output(&inverted(printed())[..2 * MARKED]);
        assert_eq!(lines, "block 0: corrected 0 inverted\nblock 1: refused 9\nend 2\n");
    }

    /// The word of 255 octets FF is a codeword: the report says inverted, and corrects nothing.
    #[test]
    fn marker_alone_complemented() {
        assert_eq!(output(&damaged(6, [0xFF; 4], [0; 5])), "block 0: corrected 0 inverted\nend 1\n");
    }
}
