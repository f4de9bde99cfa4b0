//! The marker's test and search.

use crate::both;
use crate::draw::Draw;
use crate::tally::Tally;
use ironsimmer::{Form, Refusal, Search, MARKER};

#[test]
fn tests() {
    let draw = Draw::new(41);
    let mut tally = Tally::default();
    for n in 0..6000 {
        let mut octets = MARKER.to_vec();
        let wrong_bits = draw.one_of(&[0, 1, 2, 3, 4, n % 33]);
        draw.spoil_bits(&mut octets, wrong_bits);
        draw.perhaps_invert(&mut octets);
        octets.extend([0; 4]);
        let octets_len = draw.mostly(&[4], &[0, 1, 3, 5, 8]);
        tally.count(&both::test_marker(draw.tolerance(), &octets[..octets_len]));
    }
    tally.demand("marker test", &[0, 5, 8, 9], 100);
}

/// Every number of wrong bits, whatever the second program says: up to 16 they are those of the marker, beyond it of the complement.
#[test]
fn nearer_form() {
    let draw = Draw::new(45);
    for wrong in 0..=32 {
        for tolerance in 0..=3 {
            let mut octets = MARKER;
            draw.spoil_bits(&mut octets, wrong as usize);
            let (form, wrong_bits) = if wrong <= 16 { (Form::True, wrong) } else { (Form::Complement, 32 - wrong) };
            let expected =
                if wrong_bits <= tolerance { Ok((form, wrong_bits)) } else { Err(Refusal::Marker { wrong_bits }) };
            assert_eq!(both::test_marker(tolerance, &octets), expected);
        }
    }
    assert_eq!(both::test_marker(3, &[0; 4]), Err(Refusal::Marker { wrong_bits: 13 }));
}

/// Puts the marker in a form, with so many wrong bits, at a bit of the stream.
fn put_marker(draw: &Draw, stream: &mut [u8], form: Form, place: usize, wrong_bits: usize) {
    let mut marker = MARKER.map(|octet| if form == Form::True { octet } else { !octet });
    draw.spoil_bits(&mut marker, wrong_bits);
    for k in 0..32 {
        let bit = marker[k / 8] << (k % 8) & 128;
        let at = place + k;
        stream[at / 8] = stream[at / 8] & !(128 >> (at % 8)) | bit >> (at % 8);
    }
}

fn any_form(draw: &Draw) -> Form {
    draw.one_of(&[Form::True, Form::Complement])
}

/// Some octets, with up to three markers in either form at drawn bits.
fn stream(draw: &Draw, octets: usize) -> Vec<u8> {
    let mut stream = draw.octets(octets);
    if octets >= 4 {
        for _ in 0..draw.upto(3) {
            let (place, wrong_bits) = (draw.upto(8 * octets - 32), draw.upto(4));
            put_marker(draw, &mut stream, any_form(draw), place, wrong_bits);
        }
    }
    stream
}

/// Counts what was found, and the refusals.
#[derive(Default)]
struct Kinds {
    tally: Tally,
    found_true: usize,
    found_complement: usize,
    absent: usize,
    spent: usize,
}

impl Kinds {
    fn count(&mut self, answer: Result<Search, Refusal>) {
        self.tally.count(&answer);
        match answer {
            Ok(Search::Found { form: Form::True, .. }) => self.found_true += 1,
            Ok(Search::Found { form: Form::Complement, .. }) => self.found_complement += 1,
            Ok(Search::Absent { .. }) => self.absent += 1,
            Ok(Search::Spent { .. }) => self.spent += 1,
            Err(_) => (),
        }
    }

    fn demand(&self, what: &str, answers: &[usize], least: usize) {
        self.tally.demand(what, answers, least);
        let Kinds { found_true, found_complement, absent, spent, .. } = self;
        println!("{what}: found {found_true}, as complement {found_complement}, absent {absent}, spent {spent}");
        assert!([found_true, found_complement, absent, spent].iter().all(|times| **times >= least));
    }
}

/// Starts up to one past the end; budgets of none, of some, of about as many places as are left, and of more than there can be.
#[test]
fn short_streams() {
    let draw = Draw::new(42);
    let mut kinds = Kinds::default();
    for _ in 0..24000 {
        let octets = draw.one_of(&[0, 3, 4, 5, 40, 40, 120, 120, 300, 300]);
        let stream = stream(&draw, octets);
        let bits = 8 * octets;
        let start = draw.one_of(&[0, 0, draw.upto(bits), draw.upto(bits), bits, bits + 1]) as u64;
        let left = (bits as u64 + 1).saturating_sub(32 + start);
        let some = draw.upto(bits) as u64;
        let budget = draw.one_of(&[0, 1, some, some, left.saturating_sub(1), left, left + 1, u64::MAX]);
        kinds.count(both::search(draw.tolerance(), &stream, start, budget));
    }
    kinds.demand("search, short streams", &[0, 8, 11], 1000);
}

/// A marker whose wrong bits are exactly those drawn is found where it was put, in a stream of zeros, whatever the second program says.
#[test]
fn found_where_it_was_put() {
    let draw = Draw::new(43);
    for _ in 0..500 {
        let mut stream = [0; 30];
        let (place, wrong_bits) = (draw.upto(208), draw.upto32(3));
        let form = any_form(&draw);
        put_marker(&draw, &mut stream, form, place, wrong_bits as usize);
        let place = place as u64;
        let answer = both::search(wrong_bits, &stream, 0, u64::MAX);
        assert_eq!(answer, Ok(Search::Found { place, form, wrong_bits, looked: place + 1 }));
    }
}

/// Of two markers in different forms the search stops at the first, and from behind it at the second, whatever the second program says.
#[test]
fn first_of_two_forms() {
    let draw = Draw::new(46);
    for _ in 0..500 {
        let mut stream = [0; 60];
        let (first, second) = (draw.upto(200), 232 + draw.upto(216));
        let forms = draw.one_of(&[[Form::True, Form::Complement], [Form::Complement, Form::True]]);
        put_marker(&draw, &mut stream, forms[0], first, 0);
        put_marker(&draw, &mut stream, forms[1], second, 0);
        let (first, second) = (first as u64, second as u64);
        let found = |place, form, looked| Ok(Search::Found { place, form, wrong_bits: 0, looked });
        assert_eq!(both::search(0, &stream, 0, first + 1), found(first, forms[0], first + 1));
        assert_eq!(both::search(0, &stream, 0, first), Ok(Search::Spent { next: first, looked: first }));
        assert_eq!(both::search(0, &stream, first + 1, u64::MAX), found(second, forms[1], second - first));
        assert_eq!(both::search(0, &stream, second + 1, u64::MAX), Ok(Search::Absent { looked: 448 - second }));
    }
}

/// Streams about the longest that is allowed.
#[test]
fn long_streams() {
    let draw = Draw::new(44);
    let mut kinds = Kinds::default();
    for n in 0..60 {
        let octets = [65536, 65535, 65536, 65537][n % 4];
        let mut stream = draw.octets(octets);
        let last = 8 * octets - 32;
        let place = draw.one_of(&[last, last, draw.upto(last)]);
        put_marker(&draw, &mut stream, any_form(&draw), place, n % 2);
        let start =
            draw.one_of(&[0, place.saturating_sub(100), place, last, last + 1, 8 * octets, 8 * octets + 1]) as u64;
        let budget = draw.one_of(&[1, 100, 1 << 18, 1 << 19, u64::MAX, u64::MAX]);
        kinds.count(both::search(draw.one_of(&[0, 1]), &stream, start, budget));
    }
    kinds.demand("search, long streams", &[0, 5, 11], 2);
}
