//! Illegal numbers and wrong lengths, one and several at a time: the first in the order is answered.

use crate::both;
use crate::draw::{Draw, DEPTHS, STRENGTHS};
use crate::tally::Tally;
use ironsimmer::{Chain, Words};
use second::limits::encode_number;

const MOST: u32 = u32::MAX;

/// Strength, depth and fill, each legal mostly.
pub fn any_words(draw: &Draw) -> Words {
    let strength = draw.mostly(&STRENGTHS, &[0, 1, 7, 9, 15, 17, 24, 128, MOST]);
    let depth = draw.mostly(&DEPTHS, &[0, 6, 7, 9, 16, 255, MOST]);
    let last = 254_u32.saturating_sub(strength.saturating_mul(2));
    let fill = draw.mostly(&[0, 1, last / 2, last], &[last + 1, last + 2, 255, 256, 300, MOST]);
    Words { strength, depth, fill }
}

fn any_allowance(draw: &Draw, words: Words) -> u32 {
    let e = words.strength;
    draw.mostly(&[0, e / 2, e], &[e.saturating_add(1), 17, 255, MOST])
}

/// The length required mostly; if the numbers are illegal and none is, a small one.
fn any_len(draw: &Draw, required: Option<usize>) -> usize {
    let required = required.unwrap_or(33);
    draw.mostly(&[required], &[0, 1, required - 1, required + 1, required + 4, 2040, 2044, 2045])
}

/// Now and then ruins half of a block, so that a word has no codeword.
fn perhaps_ruin(draw: &Draw, block: &mut [u8]) {
    if draw.once_in(8) {
        let half = block.len() / 2;
        block[half..].fill(0x55);
    }
}

#[test]
fn encode_and_decode() {
    let draw = Draw::new(21);
    let (mut encoded, mut decoded) = (Tally::default(), Tally::default());
    for _ in 0..8000 {
        let words = any_words(&draw);
        let frame_len = any_len(&draw, words.frame_len().ok());
        let block_len = any_len(&draw, words.block_len().ok());
        let (answer, mut block) = both::encode(words, &draw.octets(frame_len), &draw.octets(block_len));
        encoded.count(&answer);
        perhaps_ruin(&draw, &mut block);
        let allowance = any_allowance(&draw, words);
        decoded.count(&both::decode(words, allowance, &block, &draw.octets(frame_len)).0);
    }
    encoded.demand("encode, limits", &[0, 1, 2, 3, 5, 6], 100);
    decoded.demand("decode, limits", &[0, 1, 2, 3, 4, 5, 6, 10], 100);
}

/// A list one octet or one entry too short or too long, as long as the block, or empty, beside the other faults.
#[test]
fn salvage() {
    let draw = Draw::new(23);
    let mut tally = Tally::default();
    for _ in 0..8000 {
        let words = any_words(&draw);
        let frame_len = any_len(&draw, words.frame_len().ok());
        let block_len = any_len(&draw, words.block_len().ok());
        let n = 4 * block_len;
        let list_len = draw.mostly(&[n], &[0, 1, block_len, n + 1, n + 4, n.max(4) - 1, n.max(4) - 4, 8160]);
        let (block, frame, list) = (draw.octets(block_len), draw.octets(frame_len), draw.octets(list_len));
        tally.count(&both::salvage(words, any_allowance(&draw, words), &block, &frame, &list).0);
    }
    tally.demand("salvage, limits", &[0, 1, 2, 3, 4, 5, 6], 100);
}

#[test]
fn transmit_and_receive() {
    let draw = Draw::new(22);
    let (mut sent, mut received) = (Tally::default(), Tally::default());
    for _ in 0..8000 {
        let chain = Chain { words: any_words(&draw), randomised: draw.once_in(2) };
        let frame_len = any_len(&draw, chain.words.frame_len().ok());
        let marked_len = any_len(&draw, chain.marked_len().ok());
        let (answer, mut marked) = both::transmit(chain, &draw.octets(frame_len), &draw.octets(marked_len));
        sent.count(&answer);
        let wrong_bits = draw.one_of(&[0, 0, 0, 1, 4]);
        if marked_len >= 4 {
            draw.spoil_bits(&mut marked[..4], wrong_bits);
        }
        perhaps_ruin(&draw, &mut marked);
        draw.perhaps_invert(&mut marked);
        let (allowance, tolerance) = (any_allowance(&draw, chain.words), draw.tolerance());
        let frame = draw.octets(frame_len);
        received.count(&both::receive(chain, allowance, tolerance, &marked, &frame).0);
    }
    sent.demand("transmit, limits", &[0, 1, 2, 3, 5, 6], 100);
    received.demand("receive, limits", &[0, 1, 2, 3, 4, 5, 6, 8, 9, 10], 100);
}

/// Every small number and the largest: the lengths are exactly those that the second program's encode accepts, and else the refusal is
/// its own.
#[test]
fn lengths() {
    let numbers = |last: u32| (0..=last).chain([254, 255, 256, 1000, MOST]);
    for strength in numbers(33) {
        for depth in numbers(10) {
            for fill in numbers(256) {
                let words = Words { strength, depth, fill };
                let (e, i, q) = (strength.into(), depth.into(), fill.into());
                match (words.frame_len(), words.block_len()) {
                    (Ok(frame), Ok(block)) => {
                        assert_eq!(encode_number(e, i, q, frame as u64, block as u64), 0, "{words:?}");
                        assert_eq!(words.checks_len(), Ok(block - frame));
                        assert_eq!(words.list_len(), Ok(4 * block));
                        assert_eq!(Chain { words, randomised: true }.marked_len(), Ok(block + 4));
                    }
                    (frame, block) => {
                        assert_eq!(frame, block);
                        let refusal = frame.expect_err("no frame without a block");
                        assert_eq!(u64::from(refusal.number()), encode_number(e, i, q, 0, 0), "{words:?}");
                        assert_eq!(words.checks_len(), Err(refusal));
                        assert_eq!(words.list_len(), Err(refusal));
                        assert_eq!(Chain { words, randomised: true }.marked_len(), Err(refusal));
                    }
                }
            }
        }
    }
}
