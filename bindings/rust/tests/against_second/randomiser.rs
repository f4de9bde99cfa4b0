//! The sequence, and its addition to blocks.

use crate::both;
use crate::draw::Draw;
use crate::tally::Tally;
use ironsimmer::Sequence;

/// A block of each length up to the limit and two past it, and the same twice, which gives it back.
#[test]
fn every_length() {
    let draw = Draw::new(31);
    let mut tally = Tally::default();
    for n in 0..=2042 {
        let block = draw.octets(n);
        let (answer, once) = both::randomise(&block);
        let (again, twice) = both::randomise(&once);
        assert_eq!((answer, twice), (again, block));
        assert_eq!(answer.is_ok(), n <= 2040);
        tally.count(&answer);
    }
    tally.demand("randomise", &[0, 5], 2);
}

/// More than one period, which is 255 bits, from every content of the register.
#[test]
fn every_register() {
    for register in 0..=255 {
        both::sequence(register, 40);
    }
}

/// The first octets, as document 01 prints them.
#[test]
fn from_the_beginning() {
    let printed = [0xFF, 0x48, 0x0E, 0xC0, 0x9A];
    assert!(Sequence::new().take(5).eq(printed));
    assert!(Sequence::default().take(5).eq(printed));
    assert_eq!(both::sequence(255, 4), printed);
}
