//! Frames in portions as the program `vectors` gives them: cut anywhere, step by step, and at every limit of a state.

use crate::blocks::Code;
use crate::data::{buffer, drawn, turn};
use crate::portions::Progress;

/// The codes of document 01 with one fill or several, which may go by the number of information symbols.
fn for_each_code(fills: fn(u64) -> Vec<u64>, case: fn(Code)) {
    for e in [8, 16] {
        for i in [1, 2, 3, 4, 5, 8] {
            for q in fills(255 - 2 * e) {
                case(Code { e, i, q });
            }
        }
    }
}

/// A drawn frame in portions of drawn sizes and its close, then their outputs joined, then the block of the same frame in one call.
fn cut(code: Code) {
    let Code { e, i, q } = code;
    let mut x = (e + i + q) as u32;
    let frame = drawn(x, ((255 - 2 * e - q) * i) as usize);
    let mut state = Progress::start();
    let mut joined = vec![];
    while joined.len() < frame.len() {
        x = turn(x);
        let left = &frame[joined.len()..];
        let portion = &left[..left.len().min(x as usize % 301)];
        let (next, written) = code.write_portion(&state, portion, portion.len());
        joined.extend(written);
        state = next;
    }
    joined.extend(code.write_close(&state, (2 * e * i) as usize).1);
    println!("block{}", buffer(&joined));
    code.write_encode(&frame, &vec![170; joined.len()]);
}

/// A frame of eight octets: empty portions and single octets, a close too early, the rest, one octet too many, and calls after the close.
fn step_by_step() {
    let code = Code { e: 8, i: 8, q: 238 };
    let frame = drawn(41, 8);
    let steps: [&[&[u8]]; 3] =
        [&[&[], &frame[..1], &frame[1..2], &[], &frame[2..3]], &[&frame[3..], &[], &[0x55]], &[&[], &[0x55]]];
    let mut state = Progress::start();
    for portions in steps {
        for portion in portions {
            state = code.write_portion(&state, portion, portion.len()).0;
        }
        state = code.write_close(&state, 128).0;
    }
}

/// A state that no call handed out, its rows drawn.
fn state_at(place: u64, closed: bool, seed: u32) -> Progress {
    let mut state = Progress { place, closed, ..Progress::start() };
    state.rows.as_flattened_mut().copy_from_slice(&drawn(seed, 256));
    state
}

fn portion_at(code: Code, place: u64, closed: bool, seed: u32, portion: usize, written: usize) {
    code.write_portion(&state_at(place, closed, seed), &drawn(seed + 1, portion), written);
}

fn close_at(code: Code, place: u64, closed: bool, seed: u32, checks: usize) {
    code.write_close(&state_at(place, closed, seed), checks);
}

const M: u64 = u32::MAX as u64;

/// E, I, Q, place, whether it is closed, octets of the portion and of the output. A frame at E 16, I 5 and no fill has 1115 octets.
type PortionCase = (u64, u64, u64, u64, bool, usize, usize);

/// Lengths, places and closed states; from the twenty-third on, two faults at once.
const PORTIONS: [PortionCase; 32] = [
    (16, 5, 0, 0, false, 0, 0),
    (16, 5, 0, 0, false, 1, 1),
    (16, 5, 0, 0, false, 300, 300),
    (16, 5, 0, 0, false, 301, 301),
    (16, 5, 0, 0, false, 301, 300),
    (16, 5, 0, 0, false, 300, 299),
    (16, 5, 0, 0, false, 300, 301),
    (16, 5, 0, 0, false, 1, 0),
    (16, 5, 0, 0, false, 0, 1),
    (16, 5, 0, 1115, false, 0, 0),
    (16, 5, 0, 1115, false, 1, 1),
    (16, 5, 0, 1114, false, 1, 1),
    (16, 5, 0, 1114, false, 2, 2),
    (16, 5, 0, 815, false, 300, 300),
    (16, 5, 0, 816, false, 300, 300),
    (16, 5, 0, 1116, false, 0, 0),
    (16, 5, 0, M, false, 0, 0),
    (16, 5, 0, M, false, 1, 1),
    (16, 5, 0, M, false, 300, 300),
    (16, 5, 0, 0, true, 0, 0),
    (16, 5, 0, 1115, true, 0, 0),
    (16, 5, 0, 7, true, 5, 5),
    (16, 5, 0, 7, true, 5, 4),
    (16, 5, 0, 1115, false, 2, 1),
    (16, 5, 0, 1115, false, 301, 301),
    (16, 5, 0, 7, true, 301, 300),
    (7, 5, 0, 0, false, 301, 301),
    (7, 6, 0, 0, false, 1, 1),
    (16, 6, 223, 0, false, 0, 0),
    (16, 5, 223, 0, false, 301, 301),
    (16, 5, 223, 0, true, 0, 0),
    (M, M, M, M, true, 0, 0),
];

/// The same of a close, with the octets of its output; from the eleventh on two faults, illegal numbers, and two short frames.
const CLOSES: [(u64, u64, u64, u64, bool, usize); 21] = [
    (16, 5, 0, 1115, false, 160),
    (16, 5, 0, 1115, false, 159),
    (16, 5, 0, 1115, false, 161),
    (16, 5, 0, 1115, false, 0),
    (16, 5, 0, 1114, false, 160),
    (16, 5, 0, 1116, false, 160),
    (16, 5, 0, 0, false, 160),
    (16, 5, 0, M, false, 160),
    (16, 5, 0, 1115, true, 160),
    (16, 5, 0, 1115, true, 159),
    (16, 5, 0, 0, false, 161),
    (9, 5, 0, 1185, false, 90),
    (16, 0, 0, 0, false, 0),
    (16, 5, 223, 0, false, 160),
    (15, 7, 0, 1575, false, 210),
    (16, 7, 223, 0, false, 224),
    (16, 5, 223, 0, false, 159),
    (16, 1, 222, 1, false, 32),
    (16, 1, 222, 0, false, 32),
    (8, 8, 238, 8, false, 128),
    (8, 8, 238, 7, false, 128),
];

pub fn write_all() {
    for_each_code(|k| vec![0, 1, k / 2, k - 1], cut);
    step_by_step();
    for (e, i, q, place, closed, portion, written) in PORTIONS {
        portion_at(Code { e, i, q }, place, closed, 43, portion, written);
    }
    for_each_code(|_| vec![3], |code| portion_at(code, 7, false, (16 * code.i + code.e) as u32, 100, 100));
    for (e, i, q, place, closed, checks) in CLOSES {
        close_at(Code { e, i, q }, place, closed, 47, checks);
    }
    let at_the_end = |Code { e, i, q }: Code| {
        close_at(Code { e, i, q }, (252 - 2 * e) * i, false, (16 * i + e) as u32, (2 * e * i) as usize)
    };
    for_each_code(|_| vec![3], at_the_end);
}
