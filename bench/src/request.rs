//! The request as it is worded: many different blocks with as many wrong symbols as can be put right, and one ratio.

use crate::calls::{Calls, Code};
use crate::clock::cpu_time;
use crate::data::Draw;
use std::hint::black_box;

const BLOCKS: usize = 10_000;
const PASSES: usize = 5;
const WRONG: u32 = 16;
const CODE: Code = Code {
    e: 16,
    depth: 5,
    fill: 0,
};

/// A frame, and its block with the wrong symbols.
struct Sent {
    frame: Vec<u8>,
    received: Vec<u8>,
}

/// Different frames, and wrong symbols at drawn places in every word, the checks among them. A side is lent to code the frames.
fn sent(side: &dyn Calls) -> Vec<Sent> {
    let mut draw = Draw::new(3);
    let mut one = || {
        let frame = draw.octets(CODE.frame_len());
        let mut received = vec![0; CODE.block_len()];
        assert_eq!(side.encode(CODE, &frame, &mut received), 0);
        draw.damage(&mut received, CODE.depth as usize, WRONG as usize);
        Sent { frame, received }
    };
    (0..BLOCKS).map(|_| one()).collect()
}

/// Stops unless a side gives every frame and count that went in.
fn compare(side: &dyn Calls, blocks: &[Sent]) {
    let expected = [WRONG, WRONG, WRONG, WRONG, WRONG, 0, 0, 0, 5 * WRONG];
    for (n, block) in blocks.iter().enumerate() {
        // Not zero, so that it shows what was not written.
        let mut frame = vec![170; CODE.frame_len()];
        let mut counts = [170; 9];
        let answer = side.decode(CODE, CODE.e, &block.received, &mut frame, &mut counts);
        assert_eq!((answer, counts), (0, expected), "block {n}");
        assert!(frame == block.frame, "another frame: block {n}");
    }
}

/// The seconds of CPU time that a side takes for all blocks.
fn pass(side: &dyn Calls, blocks: &[Sent]) -> f64 {
    let mut frame = vec![0; CODE.frame_len()];
    let mut counts = [0; 9];
    let before = cpu_time();
    for block in blocks {
        // Side and code are hidden from the compiler: nothing may be fitted to this one code.
        let (side, code) = black_box((side, CODE));
        black_box(side.decode(code, code.e, &block.received, &mut frame, &mut counts));
    }
    let taken = cpu_time() - before;
    black_box((frame, counts));
    taken / 1e6
}

/// Times both sides, in turn from the one on and from the other, and writes the best of each.
pub fn run(ours: &dyn Calls, theirs: &dyn Calls) {
    let blocks = sent(ours);
    compare(ours, &blocks);
    compare(theirs, &blocks);
    let (mut our_best, mut their_best) = (f64::MAX, f64::MAX);
    for n in 0..PASSES {
        if n % 2 == 0 {
            our_best = our_best.min(pass(ours, &blocks));
            their_best = their_best.min(pass(theirs, &blocks));
        } else {
            their_best = their_best.min(pass(theirs, &blocks));
            our_best = our_best.min(pass(ours, &blocks));
        }
    }
    println!(
        "The request: {BLOCKS} different blocks, E 16, I 5, Q 0, s 16, {WRONG} wrong symbols in each word, all put right. \
         CPU time, best of {PASSES} passes each: ours {our_best:.3} s, plain Rust by log tables {their_best:.3} s; \
         ratio {:.2}, asked: at most 2.",
        our_best / their_best
    );
}
