//! Frames coded, damaged and decoded.

use crate::both;
use crate::draw::Draw;
use crate::tally::Tally;
use ironsimmer::{Refusal, Report, Words};

/// A drawn frame and its block.
fn coded(draw: &Draw, words: Words) -> (Vec<u8>, Vec<u8>) {
    let frame = draw.frame(words);
    let before = draw.octets(words.block_len().unwrap());
    let (answer, block) = both::encode(words, &frame, &before);
    assert_eq!(answer, Ok(()));
    (frame, block)
}

fn decoded(draw: &Draw, words: Words, allowance: u32, block: &[u8]) -> (Result<Report, Refusal>, Vec<u8>) {
    both::decode(words, allowance, block, &draw.frame(words))
}

/// The report of so many wrong symbols in each word, if all were put right.
fn repaired(wrong: &[u32]) -> Report {
    let mut counts = [0; 8];
    counts[..wrong.len()].copy_from_slice(wrong);
    Report { counts, total: wrong.iter().sum() }
}

/// Decodes a block with so many wrong symbols in each word. Within the allowance it must be put right, whatever the second program says.
fn damaged(draw: &Draw, tally: &mut Tally, words: Words, wrong: &[u32], allowances: &[u32]) {
    let (frame, mut block) = coded(draw, words);
    draw.spoil(&mut block, wrong);
    for allowance in allowances {
        let (answer, found) = decoded(draw, words, *allowance, &block);
        if wrong.iter().all(|n| n <= allowance) {
            assert_eq!((answer, found), (Ok(repaired(wrong)), frame.clone()), "{words:?}, {wrong:?} wrong");
        }
        tally.count(&answer);
    }
}

/// None to E + 1 wrong symbols, as many in each word, at allowances about that number, at E, and at a drawn one.
#[test]
fn as_many_wrong_symbols_in_each_word() {
    let draw = Draw::new(1);
    let mut tally = Tally::default();
    for words in draw.all_words() {
        let e = words.strength;
        for wrong in (0..=e + 1).chain(0..=e + 1) {
            let allowances = [wrong.saturating_sub(1), wrong.min(e), e, draw.upto32(e)];
            damaged(&draw, &mut tally, words, &vec![wrong; words.depth as usize], &allowances);
        }
    }
    tally.demand("decode, as many wrong in each word", &[0, 10], 2000);
}

/// Drawn numbers of wrong symbols up to E, now and then E + 1 in one word, at every allowance.
#[test]
fn different_numbers_of_wrong_symbols() {
    let draw = Draw::new(2);
    let mut tally = Tally::default();
    for words in draw.all_words() {
        let e = words.strength;
        for _ in 0..6 {
            let mut wrong: Vec<u32> = (0..words.depth).map(|_| draw.upto32(e)).collect();
            if draw.once_in(4) {
                wrong[draw.upto(words.depth as usize - 1)] = e + 1;
            }
            let allowances: Vec<u32> = (0..=e).collect();
            damaged(&draw, &mut tally, words, &wrong, &allowances);
        }
    }
    tally.demand("decode, different numbers wrong", &[0, 10], 1000);
}

/// Wrong symbols in one word only, so that this word is the one named.
#[test]
fn one_word_past_the_allowance() {
    let draw = Draw::new(3);
    let mut tally = Tally::default();
    for words in draw.all_words() {
        for lost in 0..words.depth {
            let allowance = draw.upto32(words.strength - 1);
            let (_, mut block) = coded(&draw, words);
            let mut wrong = vec![0; words.depth as usize];
            wrong[lost as usize] = allowance + 1;
            draw.spoil(&mut block, &wrong);
            let (answer, _) = decoded(&draw, words, allowance, &block);
            assert_eq!(answer, Err(Refusal::Word { word: lost }));
            tally.count(&answer);
        }
    }
    tally.demand("decode, one word lost", &[10], 200);
}

/// Full codewords with a nonzero symbol in the fill of one word, sent without their fill: near, but none that counts as found.
#[test]
fn nonzero_fill() {
    let draw = Draw::new(4);
    let mut tally = Tally::default();
    for words in draw.all_words().into_iter().filter(|words| words.fill > 0) {
        for wrong in 0..words.strength {
            let full = Words { fill: 0, ..words };
            let unsent = (words.fill * words.depth) as usize;
            let mut frame = draw.frame(full);
            frame[..unsent].fill(0);
            let place = draw.upto(unsent - 1);
            frame[place] = draw.one_of(&[0, 1, 0x80, 0xFF]);
            let is_zero = frame[place] == 0;

            let (_, block) = both::encode(full, &frame, &draw.octets(full.block_len().unwrap()));
            let mut sent = block[unsent..].to_vec();
            draw.spoil(&mut sent, &vec![wrong; words.depth as usize]);
            let (answer, _) = decoded(&draw, words, words.strength, &sent);
            let word = place as u32 % words.depth;
            assert_eq!(answer.err(), (!is_zero).then_some(Refusal::Word { word }), "{words:?}");
            tally.count(&answer);
        }
    }
    tally.demand("decode, nonzero fill", &[0, 10], 100);
}

/// Blocks between two codewords of the shortest words: so many symbols of the one, the rest of the other.
#[test]
fn between_two_codewords() {
    let draw = Draw::new(5);
    let mut tally = Tally::default();
    for shortest in draw.all_words().into_iter().filter(|words| words.fill == 254 - 2 * words.strength) {
        let depth = shortest.depth as usize;
        for kept in 0..=2 * shortest.strength as usize + 1 {
            let (_, mut block) = coded(&draw, shortest);
            let (_, other) = coded(&draw, shortest);
            block[kept * depth..].copy_from_slice(&other[kept * depth..]);
            for allowance in [shortest.strength, draw.upto32(shortest.strength)] {
                tally.count(&decoded(&draw, shortest, allowance, &block).0);
            }
        }
    }
    tally.demand("decode, between two codewords", &[0, 10], 100);
}

/// Noise is nobody's codeword.
#[test]
fn noise() {
    let draw = Draw::new(6);
    let mut tally = Tally::default();
    for words in draw.all_words() {
        for _ in 0..5 {
            let block = draw.octets(words.block_len().unwrap());
            tally.count(&decoded(&draw, words, words.strength, &block).0);
        }
    }
    tally.demand("decode, noise", &[10], 300);
}
