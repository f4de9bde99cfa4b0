//! The decoder at rate 1/2: against every input where these are few, from all registers, at all lengths and limits, and in portions.

use crate::both;
use crate::draw::Draw;
use crate::tally::Tally;
use ironsimmer::{CoderState, Convolver, Likeliest, Refusal};

const LONGEST: usize = 256;

/// What the coder sends of data from a register on, and the register that they lead to.
fn coded(register: u32, data: &[u8]) -> (Vec<u8>, u32) {
    let mut coder = Convolver::from_state(1, CoderState { register: register as u8, ..CoderState::default() });
    let mut symbols = vec![0; 2 * data.len()];
    coder.push(data, &mut symbols).unwrap();
    (symbols, coder.state().register.into())
}

fn differing(a: &[u8], b: &[u8]) -> u32 {
    a.iter().zip(b).map(|(a, b)| (a ^ b).count_ones()).sum()
}

/// Numbers of wrong symbols, from none to half of so many octets.
fn any_wrong(draw: &Draw, octets: usize) -> usize {
    let half = 4 * octets;
    draw.one_of(&[0, half.min(1), half / 50, half / 10, half / 5, half / 2, draw.upto(half), half])
}

/// Data from a register on, and their symbols, of which some are wrong.
fn received(draw: &Draw, register: u32, n: usize) -> (Vec<u8>, Vec<u8>, usize) {
    let data = draw.octets(n);
    let (mut symbols, _) = coded(register, &data);
    let wrong = any_wrong(draw, symbols.len());
    draw.spoil_bits(&mut symbols, wrong);
    (data, symbols, wrong)
}

/// Decodes in both programs. Whatever the second one says, the data found must differ in as many places as is told, must lead to the
/// register that is told, and can be no further from what was received than the data that were sent.
fn decoded(draw: &Draw, register: u32, symbols: &[u8], most: usize) -> (Likeliest, Vec<u8>) {
    let (answer, data) = both::likeliest(register, symbols, &draw.octets(symbols.len() / 2));
    let found = answer.unwrap();
    let (again, reached) = coded(register, &data);
    assert_eq!(found, Likeliest { places: differing(&again, symbols), register: reached });
    assert!(found.places as usize <= most);
    (found, data)
}

/// Every register with every pair of octets of symbols, against all 256 inputs, whatever the second program says. The least of the best
/// inputs, as a number, is the one with 0 at the first bit where they differ.
#[test]
fn one_octet() {
    let mut ties = 0;
    for register in 0..64 {
        let all: Vec<u16> =
            (0..=255).map(|octet| coded(register, &[octet]).0.try_into().map(u16::from_be_bytes).unwrap()).collect();
        for symbols in 0..=u16::MAX {
            let places = |octet: usize| (all[octet] ^ symbols).count_ones();
            let least = (0..256).map(places).min().unwrap();
            let best = (0..256).find(|octet| places(*octet) == least).unwrap();
            ties += usize::from((best + 1..256).any(|octet| places(octet) == least));
            let mut data = [!best as u8];
            let found = ironsimmer::likeliest(register, &symbols.to_be_bytes(), &mut data);
            let expected = Likeliest { places: least, register: best as u32 % 64 };
            assert_eq!((found, data), (Ok(expected), [best as u8]), "register {register}, symbols {symbols:04X}");
        }
    }
    println!("likeliest, one octet: {} calls, {ties} of them with several best inputs", 64 * 65536);
    assert!(ties > 1_000_000);
}

/// Two octets of data from every register, against all 65,536 inputs, and the second program.
#[test]
fn two_octets() {
    let draw = Draw::new(61);
    let mut ties = 0;
    for register in 0..64 {
        let all: Vec<Vec<u8>> = (0..=u16::MAX).map(|input| coded(register, &input.to_be_bytes()).0).collect();
        for _ in 0..8 {
            let (_, symbols, wrong) = received(&draw, register, 2);
            let (found, data) = decoded(&draw, register, &symbols, wrong);
            let places: Vec<u32> = all.iter().map(|coded| differing(coded, &symbols)).collect();
            let least = *places.iter().min().unwrap();
            let best: Vec<usize> = (0..65536).filter(|input| places[*input] == least).collect();
            assert_eq!((found.places, data), (least, (best[0] as u16).to_be_bytes().to_vec()));
            ties += usize::from(best.len() > 1);
        }
    }
    println!("likeliest, two octets: 512 calls, {ties} of them with several best inputs");
    assert!(ties > 100);
}

/// Each length up to the limit, from a drawn register, with none to half of the symbols wrong.
#[test]
fn every_length() {
    let draw = Draw::new(62);
    for n in 0..=LONGEST {
        let register = draw.upto32(63);
        let (_, symbols, wrong) = received(&draw, register, n);
        decoded(&draw, register, &symbols, wrong);
    }
}

/// Each register with none to half of the symbols wrong, and with symbols that were never coded.
#[test]
fn every_register() {
    let draw = Draw::new(63);
    for register in 0..64 {
        for _ in 0..40 {
            let (_, symbols, wrong) = received(&draw, register, draw.upto(12));
            decoded(&draw, register, &symbols, wrong);
            let symbols = draw.octets(symbols.len());
            decoded(&draw, register, &symbols, 8 * symbols.len());
        }
    }
}

/// Symbols that are all alike, or alternate: as far from any code as they can be, with many inputs at the same distance.
#[test]
fn plain_symbols() {
    let draw = Draw::new(64);
    for octet in [0x00, 0xFF, 0x55, 0xAA, 0x33, 0xCC, 0x0F, 0xF0] {
        for n in [1, 2, 3, 8, 33, 100, LONGEST] {
            decoded(&draw, draw.upto32(63), &vec![octet; 2 * n], 16 * n);
        }
    }
}

/// Coded data come back, with no differing place and the coder's own register: every length, and every register.
#[test]
fn coded_data_come_back() {
    let draw = Draw::new(65);
    for n in 0..=LONGEST {
        let (register, data) = (n as u32 % 64, draw.octets(n));
        let (symbols, reached) = coded(register, &data);
        let (found, after) = decoded(&draw, register, &symbols, 0);
        assert_eq!((found, after), (Likeliest { places: 0, register: reached }, data));
    }
}

/// One of the last two symbols wrong: the last bit 0 and the last bit 1 are then as good as each other and better than all else, and 0 is
/// taken, whichever was sent.
#[test]
fn last_bit_is_0_of_equals() {
    let draw = Draw::new(66);
    for register in 0..64 {
        for wrong in [1, 2] {
            let mut data = draw.octets(1 + draw.upto(40));
            let (mut symbols, _) = coded(register, &data);
            *symbols.last_mut().unwrap() ^= wrong;
            *data.last_mut().unwrap() &= !1;
            let (found, after) = decoded(&draw, register, &symbols, 1);
            assert_eq!((found.places, after), (1, data));
        }
    }
}

/// The refusal that is due, if one is, whatever the second program says.
fn due(register: u32, symbols: usize, data: usize) -> Result<(), Refusal> {
    if register >= 64 {
        Err(Refusal::Rate)
    } else if symbols % 2 != 0 || symbols > 2 * LONGEST {
        Err(Refusal::InputLength)
    } else if 2 * data != symbols {
        Err(Refusal::OutputLength)
    } else {
        Ok(())
    }
}

/// A call with drawn symbols and data of these lengths; both programs demand of a refusal that the data stay as they are.
fn judged(draw: &Draw, tally: &mut Tally, register: u32, symbols: usize, data: usize) {
    let (answer, _) = both::likeliest(register, &draw.octets(symbols), &draw.octets(data));
    let case = format!("register {register}, {symbols} octets of symbols, {data} of data");
    assert_eq!(answer.map(|_| ()), due(register, symbols, data), "{case}");
    tally.count(&answer);
}

/// Registers and lengths at their limits and past them, each with each.
#[test]
fn limits() {
    let draw = Draw::new(67);
    let mut tally = Tally::default();
    for register in [0, 1, 62, 63, 64, 65, 127, 128, 255, 256, 319, 1 << 31, u32::MAX] {
        for symbols in [0, 1, 2, 3, 4, 16, 511, 512, 513, 514, 1024, 1025] {
            let half = symbols / 2;
            for data in [half, half + 1, half.max(1) - 1, 0, symbols, LONGEST, LONGEST + 1] {
                judged(&draw, &mut tally, register, symbols, data);
            }
        }
    }
    tally.demand("likeliest, limits", &[0, 5, 6, 7], 20);
}

/// Wrong numbers and lengths, one and several at a time: the first in the order is answered.
#[test]
fn several_faults_at_once() {
    let draw = Draw::new(68);
    let mut tally = Tally::default();
    for _ in 0..16000 {
        let register = draw.mostly(&[0, 63, draw.upto32(63)], &[64, 65, 255, 256, u32::MAX]);
        let symbols = draw.mostly(&[0, 2, 2 * draw.upto(8)], &[1, 3, 5, 511, 513, 514, 1024]);
        let half = symbols / 2;
        let data = draw.mostly(&[half], &[0, 1, half + 1, half.max(1) - 1, symbols, LONGEST, 1000]);
        judged(&draw, &mut tally, register, symbols, data);
    }
    tally.demand("likeliest, several faults", &[0, 5, 6, 7], 500);
}

/// Decodes a stream in portions of drawn sizes, none and the longest among them, each from the register that the one before reached. Gives
/// the sum of the differing places, and the data.
fn in_portions(draw: &Draw, register: u32, symbols: &[u8], most: usize) -> (Likeliest, Vec<u8>) {
    let (mut sum, mut joined) = (Likeliest { places: 0, register }, vec![]);
    while 2 * joined.len() < symbols.len() {
        let rest = &symbols[2 * joined.len()..];
        let portion = &rest[..rest.len().min(2 * draw.one_of(&[0, 1, 2, most, draw.upto(most)]))];
        let (found, data) = decoded(draw, sum.register, portion, 8 * portion.len());
        sum = Likeliest { places: sum.places + found.places, register: found.register };
        joined.extend(data);
    }
    (sum, joined)
}

/// Symbols of streams longer than a call takes, as they were sent: with the register carried on they are decoded however they are cut.
#[test]
fn clean_portions() {
    let draw = Draw::new(69);
    for most in [1, 3, 16, 100, LONGEST, LONGEST] {
        let register = draw.upto32(63);
        let data = draw.octets(LONGEST + draw.upto(500));
        let (symbols, reached) = coded(register, &data);
        let (sum, joined) = in_portions(&draw, register, &symbols, most);
        assert_eq!((sum, joined), (Likeliest { places: 0, register: reached }, data));
    }
}

/// With wrong symbols a decoding in portions is an input too, so it is never better than that in one piece; and it is worse more often
/// than not.
#[test]
fn portions_are_not_one_piece() {
    let draw = Draw::new(70);
    let mut worse = 0;
    for _ in 0..100 {
        let register = draw.upto32(63);
        let (mut symbols, _) = coded(register, &draw.octets(40));
        draw.spoil_bits(&mut symbols, 32);
        let (sum, joined) = in_portions(&draw, register, &symbols, 8);
        let (whole, data) = decoded(&draw, register, &symbols, 32);
        assert!(whole.places <= sum.places);
        assert!(whole.places < sum.places || data <= joined);
        worse += usize::from(whole.places < sum.places);
    }
    println!("likeliest in portions: of 100 streams {worse} further from what was received than in one piece");
    assert!(worse > 50);
}
