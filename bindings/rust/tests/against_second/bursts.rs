//! The figures of docs/DATASHEET.md, read from it and tried: a burst so long is corrected wherever it begins, and one longer need not be.

use crate::both;
use crate::draw::{Draw, DEPTHS};
use crate::tally::Tally;
use ironsimmer::{Chain, Reception, Report, Words};

const SHEET: &str = include_str!("../../../../docs/DATASHEET.md");

/// The number that a row of the sheet has for a depth.
fn figure(row: &str, depth: u32) -> usize {
    let line =
        SHEET.lines().find(|line| line.starts_with(&format!("| {row}"))).unwrap_or_else(|| panic!("no row {row}"));
    let numbers: Vec<usize> = line.split('|').filter_map(|cell| cell.trim().replace(',', "").parse().ok()).collect();
    assert_eq!(numbers.len(), DEPTHS.len(), "{line}");
    numbers[DEPTHS.iter().position(|listed| *listed == depth).unwrap()]
}

fn symbols(words: Words) -> usize {
    figure(&format!("E {}: symbols", words.strength), words.depth)
}

fn bits(words: Words) -> usize {
    figure(&format!("E {}: bits", words.strength), words.depth)
}

/// Changes n symbols from symbol p on, each of them.
fn burst_of_symbols(draw: &Draw, block: &mut [u8], p: usize, n: usize) {
    for symbol in block.iter_mut().skip(p).take(n) {
        *symbol ^= 1 + draw.upto(254) as u8;
    }
}

/// Inverts the first and the last of n bits from bit p on, and a drawn choice of those between them.
fn burst_of_bits(draw: &Draw, block: &mut [u8], p: usize, n: usize) {
    for bit in p..(p + n).min(8 * block.len()) {
        if bit == p || bit == p + n - 1 || draw.once_in(2) {
            block[bit / 8] ^= 128 >> (bit % 8);
        }
    }
}

/// How many symbols of each word differ.
fn differing(words: Words, sent: &[u8], received: &[u8]) -> Report {
    let mut counts = [0; 8];
    for (place, (a, b)) in sent.iter().zip(received).enumerate() {
        counts[place % words.depth as usize] += u32::from(a != b);
    }
    Report { counts, total: counts.iter().sum() }
}

/// Spoils a block, and a marked block sent with either flag and received in either form, and demands that both calls deliver the frame and
/// the true counts.
fn corrected(draw: &Draw, tally: &mut Tally, words: Words, spoil: impl Fn(&mut [u8])) {
    let frame = draw.frame(words);
    let (_, sent) = both::encode(words, &frame, &draw.octets(words.block_len().unwrap()));
    let mut block = sent.clone();
    spoil(&mut block);
    let report = differing(words, &sent, &block);
    let (answer, found) = both::decode(words, words.strength, &block, &draw.frame(words));
    assert_eq!((answer, found), (Ok(report), frame.clone()), "{words:?}");
    tally.count(&answer);

    let chain = Chain { words, randomised: draw.once_in(2) };
    let (_, sent) = both::transmit(chain, &frame, &draw.octets(chain.marked_len().unwrap()));
    let mut marked = sent.clone();
    let tolerance = draw.upto(3);
    draw.spoil_bits(&mut marked[..4], tolerance);
    spoil(&mut marked[4..]);
    let report = differing(words, &sent[4..], &marked[4..]);
    let inverted = draw.perhaps_invert(&mut marked);
    let (answer, found) = both::receive(chain, words.strength, tolerance as u32, &marked, &draw.frame(words));
    assert_eq!((answer, found), (Ok(Reception { report, inverted }), frame), "{chain:?}");
    tally.count(&answer);
}

#[test]
fn bursts_of_the_figure() {
    let draw = Draw::new(21);
    let mut tally = Tally::default();
    for words in draw.all_words() {
        let (block, most, longest) = (words.block_len().unwrap(), symbols(words), bits(words));
        for p in [0, 1, block - most, block - 1, draw.upto(block - most), draw.upto(block - most)] {
            corrected(&draw, &mut tally, words, |list| burst_of_symbols(&draw, list, p, most));
        }
        for p in [0, 7, 8 * block - longest, draw.upto(8 * block - longest), draw.upto(8 * block - longest)] {
            corrected(&draw, &mut tally, words, |list| burst_of_bits(&draw, list, p, longest));
        }
    }
    tally.demand("bursts of the figure", &[0], 1000);
}

/// One bit in each of E + 1 symbols of one word, from the last bit of the first to the first bit of the last: a run of one symbol more,
/// and of one bit more. The frame is not what is delivered; of these blocks none is.
#[test]
fn one_more_is_not_the_frame() {
    let draw = Draw::new(22);
    let mut tally = Tally::default();
    for words in draw.all_words() {
        let (e, depth) = (words.strength as usize, words.depth as usize);
        for start in [0, depth - 1, draw.upto(words.block_len().unwrap() - e * depth - 1)] {
            let frame = draw.frame(words);
            let (_, sent) = both::encode(words, &frame, &draw.octets(words.block_len().unwrap()));
            let mut block = sent.clone();
            for k in 0..=e {
                block[start + k * depth] ^= if k == e { 128 } else { 1 };
            }
            let run = start..start + symbols(words) + 1;
            assert!((0..sent.len()).all(|place| run.contains(&place) || sent[place] == block[place]));
            let (first, last) = (8 * start + 7, 8 * (start + e * depth));
            assert_eq!(last - first + 1, bits(words) + 1);
            let (answer, found) = both::decode(words, words.strength, &block, &draw.frame(words));
            assert!(answer.is_err() || found != frame, "{words:?}");
            tally.count(&answer);
        }
    }
    tally.demand("one more than the figure", &[10], 180);
}

#[test]
fn lengths_of_the_sheet() {
    for words in Draw::new(23).all_words().into_iter().filter(|words| words.fill == 0) {
        let marked = Chain { words, randomised: true }.marked_len();
        assert_eq!(words.frame_len(), Ok(figure(&format!("E {}: frame", words.strength), words.depth)));
        assert_eq!(words.block_len(), Ok(figure("block", words.depth)));
        assert_eq!(marked, Ok(figure("marked block", words.depth)));
    }
}
