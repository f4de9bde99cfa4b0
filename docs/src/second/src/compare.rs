//! Long codewords at every strength and depth and several fills, damaged by drawn symbols.

use crate::blocks::Code;
use crate::data::{drawn, turn};

/// How the number of wrong symbols of a word goes by the word.
#[derive(Clone, Copy)]
enum Damage {
    None,
    Mixed,
    Full,
    LastPast,
    SomePast,
}

fn wrong_in(damage: Damage, e: usize, depth: usize, w: usize) -> usize {
    match damage {
        Damage::None => 0,
        Damage::Mixed => (5 * w + 2) % (e + 1),
        Damage::Full => e,
        Damage::LastPast if w + 1 == depth => e + 1,
        Damage::LastPast => 0,
        Damage::SomePast => (11 * w + 6) % (e + 2),
    }
}

/// Changes exactly `wrong` symbols of word w: each symbol in turn with the chance that is left for it.
pub fn change(block: &mut [u8], depth: usize, w: usize, wrong: usize, seed: u32) -> u32 {
    let symbols = block.len() / depth;
    let mut x = seed;
    let mut left = wrong;
    for k in 0..symbols {
        x = turn(x);
        let chosen = (x / 16) as usize % (symbols - k) < left;
        x = turn(x);
        if chosen {
            block[k * depth + w] ^= (x / 256 % 255 + 1) as u8;
            left -= 1;
        }
    }
    x
}

fn write_damaged(code: Code, damage: Damage, s: u64, block: &[u8], frame: usize) {
    let mut received = block.to_vec();
    let depth = code.i as usize;
    let mut x = (damage as u64 * 100 + code.e + code.i + code.q) as u32;
    for w in 0..depth {
        x = change(&mut received, depth, w, wrong_in(damage, code.e as usize, depth, w), x);
    }
    code.write_decode(s, &received, frame);
}

fn write_code(code: Code) {
    let Code { e, i, q } = code;
    let frame = drawn((e + i + q) as u32, ((255 - 2 * e - q) * i) as usize);
    let block = code.write_encode(&frame, &vec![170; ((255 - q) * i) as usize]);
    for (damage, s) in [
        (Damage::None, 0),
        (Damage::Mixed, e),
        (Damage::Mixed, 6),
        (Damage::Full, e),
        (Damage::Full, e - 1),
        (Damage::LastPast, e),
        (Damage::SomePast, e),
    ] {
        write_damaged(code, damage, s, &block, frame.len());
    }
}

pub fn write_all() {
    for e in [8, 16] {
        let k = 255 - 2 * e;
        for i in [1, 2, 3, 4, 5, 8] {
            for q in [0, 1, k / 2, k - 1] {
                write_code(Code { e, i, q });
            }
        }
    }
}
