//! Frames transmitted, damaged and received.

use crate::both;
use crate::draw::{invert, Draw, DEPTHS, STRENGTHS};
use crate::tally::Tally;
use ironsimmer::{Chain, Reception, Refusal, Report, Words};

const NO_COUNT: Report = Report { counts: [0; 8], total: 0 };

/// One marked block: wrong bits in its marker, wrong symbols in its words, every other one inverted, and received with the same flag
/// or now and then the other. Within tolerance and allowance the frame must come back, whatever the second program says.
fn there_and_back(draw: &Draw, sent: &mut Tally, received: &mut Tally, chain: Chain) {
    let words = chain.words;
    let e = words.strength;
    let frame = draw.frame(words);
    let (answer, mut marked) = both::transmit(chain, &frame, &draw.octets(chain.marked_len().unwrap()));
    assert_eq!(answer, Ok(()));
    sent.count(&answer);

    let wrong_bits = draw.upto(5);
    draw.spoil_bits(&mut marked[..4], wrong_bits);
    let most = draw.one_of(&[0, 1, e - 1, e, e + 1]);
    let wrong: Vec<u32> = (0..words.depth).map(|_| draw.upto32(most)).collect();
    draw.spoil(&mut marked[4..], &wrong);

    let inverted = draw.perhaps_invert(&mut marked);
    let opened = Chain { randomised: chain.randomised ^ draw.once_in(8), ..chain };
    for tolerance in 0..=3 {
        let allowance = draw.one_of(&[e, e, most.min(e), draw.upto32(e)]);
        let (answer, found) = both::receive(opened, allowance, tolerance, &marked, &draw.frame(words));
        let is_good = wrong_bits <= tolerance as usize && wrong.iter().all(|n| *n <= allowance);
        if opened == chain && is_good {
            let said = answer.map(|reception| reception.inverted);
            assert_eq!((said, &found), (Ok(inverted), &frame), "{chain:?}, {wrong:?} wrong");
        }
        received.count(&answer);
    }
}

#[test]
fn transmitted_and_received() {
    let draw = Draw::new(11);
    let (mut sent, mut received) = (Tally::default(), Tally::default());
    for words in draw.all_words() {
        for randomised in [false, true] {
            for _ in 0..8 {
                there_and_back(&draw, &mut sent, &mut received, Chain { words, randomised });
            }
        }
    }
    sent.demand("transmit", &[0], 900);
    received.demand("receive", &[0, 9, 10], 300);
}

/// A marked block of any octets behind a marker that may be wrong, and the same with all bits inverted: the same answer and frame, the other
/// form where it is delivered, whatever the second program says.
#[test]
fn all_bits_inverted() {
    let draw = Draw::new(13);
    let mut received = Tally::default();
    for words in draw.all_words() {
        for randomised in [false, true] {
            let chain = Chain { words, randomised };
            let (_, mut marked) = both::transmit(chain, &draw.frame(words), &draw.octets(chain.marked_len().unwrap()));
            draw.spoil_bits(&mut marked[..4], draw.one_of(&[0, 3, 4, 16, 28, 29, 32]));
            let e = words.strength;
            let wrong: Vec<u32> = (0..words.depth).map(|_| draw.one_of(&[0, e, e, e, e + 1])).collect();
            draw.spoil(&mut marked[4..], &wrong);

            let before = draw.frame(words);
            let (answer, frame) = both::receive(chain, e, 3, &marked, &before);
            invert(&mut marked);
            let (turned, same_frame) = both::receive(chain, e, 3, &marked, &before);
            let expected = answer.map(|reception| Reception { inverted: !reception.inverted, ..reception });
            assert_eq!((turned, same_frame), (expected, frame), "{chain:?}, {wrong:?} wrong");
            received.count(&turned);
        }
    }
    received.demand("receive, all bits inverted", &[0, 9, 10], 10);
}

/// Marker or block inverted and not the other: at Q 0, where the word of 255 octets FF is a codeword, the inverted frame and no count; else
/// no codeword within E. The code is linear, so that any one frame shows it of all.
fn with_the_other_form(draw: &Draw, received: &mut Tally, chain: Chain) {
    let words = chain.words;
    let mut frame = draw.frame(words);
    let (_, mut marked) = both::transmit(chain, &frame, &draw.octets(chain.marked_len().unwrap()));
    invert(&mut marked[..4]);
    let inverted = !draw.perhaps_invert(&mut marked);
    let (answer, found) = both::receive(chain, words.strength, 0, &marked, &draw.frame(words));
    received.count(&answer);
    if words.fill == 0 {
        invert(&mut frame);
        assert_eq!((answer, found), (Ok(Reception { report: NO_COUNT, inverted }), frame), "{chain:?}");
    } else {
        assert!(matches!(answer, Err(Refusal::Word { .. })), "{chain:?}");
    }
}

/// Every legal strength, depth and fill.
fn sizes() -> impl Iterator<Item = Words> {
    let fills = |strength: u32| 0..255 - 2 * strength;
    let both = STRENGTHS.into_iter().flat_map(|strength| DEPTHS.map(|depth| (strength, depth)));
    both.flat_map(move |(strength, depth)| fills(strength).map(move |fill| Words { strength, depth, fill }))
}

#[test]
fn received_with_the_other_form() {
    let draw = Draw::new(14);
    let mut received = Tally::default();
    for words in sizes() {
        with_the_other_form(&draw, &mut received, Chain { words, randomised: draw.once_in(2) });
    }
    received.demand("receive, the other form", &[0, 10], STRENGTHS.len() * DEPTHS.len());
}

/// The strengths and depths at which, with no fill, receive does not see the other flag: those that the header warns of.
const UNSEEN: [(u32, u32); 9] = [(16, 1), (16, 2), (16, 4), (16, 8), (8, 1), (8, 2), (8, 4), (8, 5), (8, 8)];

/// A block as it was sent, received with the other flag: another frame and no count, or no codeword within E. The code is linear, so that
/// any one frame shows it of all.
fn with_the_other_flag(draw: &Draw, received: &mut Tally, chain: Chain) {
    let Words { strength, depth, fill } = chain.words;
    let frame = draw.frame(chain.words);
    let (_, mut marked) = both::transmit(chain, &frame, &draw.octets(chain.marked_len().unwrap()));
    let inverted = draw.perhaps_invert(&mut marked);
    let other = Chain { randomised: !chain.randomised, ..chain };
    let (answer, found) = both::receive(other, strength, 0, &marked, &draw.frame(chain.words));
    received.count(&answer);
    if fill == 0 && UNSEEN.contains(&(strength, depth)) {
        assert_eq!(answer, Ok(Reception { report: NO_COUNT, inverted }), "{chain:?}");
        assert_ne!(found, frame, "{chain:?}");
    } else {
        assert!(matches!(answer, Err(Refusal::Word { .. })), "{chain:?}");
    }
}

#[test]
fn received_with_the_other_flag() {
    let draw = Draw::new(12);
    let mut received = Tally::default();
    for words in sizes() {
        for randomised in [false, true] {
            with_the_other_flag(&draw, &mut received, Chain { words, randomised });
        }
    }
    received.demand("receive, the other flag", &[0, 10], 2 * UNSEEN.len());
}
