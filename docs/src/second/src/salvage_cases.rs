//! Salvage as the program `vectors` runs it: at every limit, with any words of a block lost, and near codewords that do not count.

use crate::blocks::Code;
use crate::data::{drawn, turn};
use crate::limits::salvage_number;

const M: u64 = u32::MAX as u64;

/// Writes the line of a salvage into a frame and a list of the right lengths.
fn whole(code: Code, s: u64, block: &[u8]) {
    code.write_salvage(s, block, block.len() - (2 * code.e * code.i) as usize, 4 * block.len());
}

/// So many wrong symbols in each word, at equal distances, its last symbol being the last of them.
fn worn(code: Code, block: &[u8], wrong: [usize; 8]) -> Vec<u8> {
    let depth = code.i as usize;
    let step = (254 - code.q) / code.e * code.i;
    let mut received = block.to_vec();
    for (w, wrong) in wrong.into_iter().enumerate().take(depth) {
        let mut x = w as u32;
        for back in 0..wrong {
            x = turn(x);
            received[block.len() - depth + w - back * step as usize] ^= (x >> 8) as u8 | 1;
        }
    }
    received
}

/// The line of a block with so many wrong symbols in each word.
fn write_worn(code: Code, s: u64, wrong: [usize; 8], block: &[u8]) {
    whole(code, s, &worn(code, block, wrong));
}

fn encoded(code: Code, seed: u32) -> Vec<u8> {
    let Code { e, i, q } = code;
    code.write_encode(&drawn(seed, ((255 - 2 * e - q) * i) as usize), &vec![170; ((255 - q) * i) as usize])
}

/// A clean block; few wrong symbols, all words repaired, then some, then the clean one only; as many as can be in every word, then all words
/// lost by the allowance; the first word past E, and of five and eight words the fifth; all words past E.
fn any_words_lost(code: Code) {
    let (most, past) = (code.e as usize, code.e as usize + 1);
    let block = encoded(code, 61);
    let few = [1, 0, 2, 3, 4, 5, 6, 7];
    for (s, wrong) in [
        (0, [0; 8]),
        (code.e, few),
        (3, few),
        (0, few),
        (code.e, [most; 8]),
        (code.e - 1, [most; 8]),
        (code.e, [past, 1, 0, most, past, 2, 0, 1]),
        (code.e, [past; 8]),
    ] {
        write_worn(code, s, wrong, &block);
    }
}

fn codes() {
    for (e, i, q) in [
        (16, 1, 222),
        (8, 1, 0),
        (16, 2, 0),
        (8, 2, 238),
        (16, 3, 100),
        (8, 3, 1),
        (16, 4, 1),
        (8, 4, 100),
        (16, 5, 0),
        (8, 5, 238),
        (16, 8, 0),
        (8, 8, 0),
        (16, 8, 222),
        (8, 8, 238),
    ] {
        any_words_lost(Code { e, i, q });
    }
}

/// Three words, the third with E wrong symbols, at the allowances about their numbers, and one past E.
fn allowances(e: u64, first: u64, second: u64) {
    let code = Code { e, i: 3, q: 200 };
    let block = encoded(code, 67);
    for s in [first - 1, first, second - 1, second, e - 1, e, e + 1] {
        write_worn(code, s, [first as usize, second as usize, e as usize, 0, 0, 0, 0, 0], &block);
    }
}

/// (K) of document 01, then one more symbol wrong.
fn worked() {
    let code = Code { e: 16, i: 1, q: 222 };
    let mut block = [0; 33];
    whole(code, 0, &block);
    block[..16].fill(0xFF);
    whole(code, 16, &block);
    whole(code, 15, &block);
    block[16] = 0xFF;
    whole(code, 16, &block);
}

/// The first symbols of a codeword of the shortest word, then zeros: repaired to the codeword, or to the zero word.
fn part(e: u64, kept: usize) {
    let code = Code { e, i: 1, q: 254 - 2 * e };
    let mut block = code.write_encode(&[0xA5], &vec![170; 2 * e as usize + 1]);
    block[kept..].fill(0);
    whole(code, e, &block);
    whole(code, e - 1, &block);
}

/// Full codewords sent without their fill, which is zero but for its last symbol in the last word; some symbols wrong in each.
fn nonzero_fill(code: Code, last: u8, wrong: usize) {
    let Code { e, i, q } = code;
    let unsent = (q * i) as usize;
    let mut frame = drawn(71, ((255 - 2 * e) * i) as usize);
    frame[..unsent].fill(0);
    frame[unsent - 1] = last;
    let block = Code { q: 0, ..code }.write_encode(&frame, &vec![170; (255 * i) as usize]);
    write_worn(code, e, [wrong; 8], &block[unsent..]);
}

fn nonzero_fills() {
    for last in [0, 1] {
        for (e, i, q, wrong) in [
            (16, 1, 1, 0),
            (16, 1, 100, 15),
            (16, 3, 5, 15),
            (16, 8, 1, 2),
            (8, 1, 1, 0),
            (8, 2, 3, 7),
            (8, 5, 100, 1),
            (8, 8, 1, 8),
        ] {
            nonzero_fill(Code { e, i, q }, last, wrong);
        }
    }
}

/// E, I, Q, s, then the octets of block, frame and list.
const LIMITS: [[u64; 7]; 55] = [
    [0, 1, 0, 0, 255, 255, 1020],
    [7, 1, 0, 0, 255, 241, 1020],
    [9, 1, 0, 0, 255, 237, 1020],
    [15, 1, 0, 0, 255, 225, 1020],
    [17, 1, 0, 0, 255, 221, 1020],
    [M, 1, 0, 0, 255, 255, 1020],
    [16, 0, 0, 0, 0, 0, 0],
    [16, 6, 0, 16, 1530, 1338, 6120],
    [16, 7, 0, 16, 1785, 1561, 7140],
    [8, 9, 238, 8, 153, 9, 612],
    [16, M, 0, 0, 0, 0, 0],
    [16, 1, 222, 16, 33, 1, 132],
    [16, 1, 223, 16, 32, 0, 128],
    [8, 1, 238, 8, 17, 1, 68],
    [8, 1, 239, 8, 16, 0, 64],
    [8, 1, M, 8, 17, 1, 68],
    [16, 1, 222, 17, 33, 1, 132],
    [8, 1, 238, 9, 17, 1, 68],
    [16, 1, 222, M, 33, 1, 132],
    [16, 1, 222, 16, 32, 1, 132],
    [16, 1, 222, 16, 34, 1, 132],
    [16, 1, 222, 16, 34, 1, 136],
    [16, 1, 222, 16, 0, 1, 0],
    [16, 1, 222, 16, 33, 0, 132],
    [16, 1, 222, 16, 33, 2, 132],
    [16, 1, 222, 16, 33, 1, 131],
    [16, 1, 222, 16, 33, 1, 133],
    [16, 1, 222, 16, 33, 1, 128],
    [16, 1, 222, 16, 33, 1, 136],
    [16, 1, 222, 16, 33, 1, 4],
    [16, 1, 222, 16, 33, 1, 33],
    [16, 1, 222, 16, 33, 1, 0],
    [8, 8, 0, 8, 2041, 1912, 8160],
    [8, 8, 0, 8, 2040, 1911, 8160],
    [8, 8, 0, 8, 2040, 1913, 8160],
    [8, 8, 0, 8, 2040, 1912, 8159],
    [8, 8, 0, 8, 2040, 1912, 8161],
    [8, 8, 0, 8, 2040, 1912, 7648],
    [8, 8, 0, 8, 2040, 1912, 2040],
    [16, 1, 222, 16, 33, 1, 132 + 65536],
    [16, 1, 222, 16, 33, 1, 133 + M],
    [16, 1, 222, 16, 33, 2 + M, 132],
    [16, 1, 222, 16, 34 + M, 1, 132],
    [16, 1, 222, 16, 33, 1, u64::MAX],
    // Two faults or more: the one that comes first in the order is the answer.
    [7, 6, 0, 0, 33, 1, 132],
    [16, 6, 223, 0, 33, 1, 132],
    [16, 1, 223, 17, 33, 1, 132],
    [16, 1, 222, 17, 32, 1, 132],
    [16, 1, 222, 17, 33, 2, 132],
    [16, 1, 222, 17, 33, 1, 131],
    [16, 1, 222, 16, 32, 2, 132],
    [16, 1, 222, 16, 32, 1, 128],
    [16, 1, 222, 16, 33, 2, 131],
    [16, 1, 222, 16, 32, 0, 0],
    [M, M, M, M, 0, 0, 1],
];

/// The shared check of the numbers and lengths, and the call itself where its buffers are not too long to be lent here.
fn limits() {
    for [e, i, q, s, block, frame, list] in LIMITS {
        println!("salvage-limits {}", salvage_number(e, i, q, s, block, frame, list));
        if block <= 2048 && frame <= 2048 && list <= 8192 {
            Code { e, i, q }.write_salvage(s, &drawn(73, block as usize), frame as usize, list as usize);
        }
    }
}

pub fn write_all() {
    worked();
    for (e, kept) in [(16, 17), (16, 16), (8, 9), (8, 8)] {
        part(e, kept);
    }
    codes();
    allowances(16, 4, 9);
    allowances(8, 2, 5);
    nonzero_fills();
    limits();
}
