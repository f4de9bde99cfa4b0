//! The Reed-Solomon cases of the program `vectors` that are no limits.

use crate::blocks::Code;
use crate::data::drawn;

/// (J) and (K) of document 01: the block is printed there, and the counts.
fn worked() {
    let code = Code { e: 16, i: 1, q: 222 };
    code.write_encode(&[0], &[170; 33]);
    println!("block{}", " 00".repeat(33));
    println!("decode 16 1 222 16 0 16 16 0 0 0 0 0 0 0 00");
    println!("decode 16 1 222 15 10 0 0 0 0 0 0 0 0 0 0 aa");
}

/// The first symbols of a codeword of the shortest word, then zeros: nearer to the codeword than to the zero word, or not.
fn part(e: u64, octet: u8, kept: usize) {
    let code = Code { e, i: 1, q: 254 - 2 * e };
    let mut block = code.write_encode(&[octet], &vec![170; 2 * e as usize + 1]);
    block[kept..].fill(0);
    code.write_decode(e, &block, 1);
    code.write_decode(e - 1, &block, 1);
}

fn parts() {
    for octet in [0x01, 0x80, 0xA5, 0xFF] {
        part(16, octet, 17);
        part(16, octet, 16);
        part(8, octet, 9);
        part(8, octet, 8);
    }
}

/// Three words with more wrong symbols from word to word: the word named is never an earlier one at a larger allowance.
fn allowances(e: u64, first: usize, second: usize, third: usize) {
    let code = Code { e, i: 3, q: 200 };
    let frame = drawn(21, 3 * (55 - 2 * e as usize));
    let mut block = code.write_encode(&frame, &[170; 165]);
    for (w, wrong) in [first, second, third].into_iter().enumerate() {
        for k in 0..wrong {
            block[3 * k + w] ^= 0x5A;
        }
    }
    for s in 0..=e + 1 {
        code.write_decode(s, &block, frame.len());
    }
}

/// A full codeword whose symbol before the sent ones is `last`, and zero before it: sent without them, with some wrong symbols.
fn nonzero_fill(e: u64, q: usize, last: u8, wrong: usize) {
    let mut frame = drawn(31, 255 - 2 * e as usize);
    frame[..q].fill(0);
    frame[q - 1] = last;
    let mut block = Code { e, i: 1, q: 0 }.write_encode(&frame, &[170; 255]);
    for k in 0..wrong {
        block[q + 3 * k] ^= 0x33;
    }
    Code { e, i: 1, q: q as u64 }.write_decode(e, &block[q..], frame.len() - q);
}

fn nonzero_fills() {
    for last in [0, 1] {
        for (e, q, wrong) in
            [(16, 1, 0), (16, 1, 15), (16, 1, 16), (16, 5, 0), (16, 100, 15), (8, 1, 0), (8, 1, 7), (8, 3, 7)]
        {
            nonzero_fill(e, q, last, wrong);
        }
    }
}

/// Seventeen wrong symbols, with each of the faults that come before refusal 10.
fn lost() {
    let code = Code { e: 16, i: 1, q: 222 };
    let mut block = [0; 33];
    block[..17].fill(0xFF);
    code.write_decode(16, &block, 1);
    code.write_decode(16, &block, 2);
    code.write_decode(16, &block, 0);
    code.write_decode(16, &block[..32], 1);
    code.write_decode(16, &block[..32], 2);
    code.write_decode(16, &[], 1);
    code.write_decode(17, &block, 1);
    code.write_decode(17, &block[..32], 2);
}

pub fn write_all() {
    worked();
    parts();
    allowances(16, 4, 9, 16);
    allowances(8, 2, 5, 9);
    nonzero_fills();
    lost();
}
