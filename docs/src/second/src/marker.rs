//! The marker test and the search, place by place on a list of bits.

use crate::data::{bits, drawn};

pub const MARKER: [u8; 4] = [0x1A, 0xCF, 0xFC, 0x1D];

/// The marker as it is, and with all bits inverted.
#[derive(Clone, Copy, Debug, PartialEq)]
pub enum Form {
    True = 1,
    Complement = 2,
}

impl Form {
    fn octets(self) -> [u8; 4] {
        match self {
            Form::True => MARKER,
            Form::Complement => MARKER.map(|octet| !octet),
        }
    }
}

/// The wrong bits of a form at a place, counted against that form's own bits.
pub fn wrong(form: Form, stream: &[bool], place: usize) -> u32 {
    bits(&form.octets()).iter().zip(&stream[place..]).filter(|(a, b)| a != b).count() as u32
}

/// The form that is within the tolerance, with its wrong bits; or the smaller of the two counts.
pub fn fit(tolerance: u32, stream: &[bool], place: usize) -> Result<(Form, u32), u32> {
    let counts = [Form::True, Form::Complement].map(|form| (form, wrong(form, stream, place)));
    let fitting = counts.into_iter().find(|(_, wrong)| *wrong <= tolerance);
    fitting.ok_or(counts[0].1.min(counts[1].1))
}

/// The form and its wrong bits, or the refusal's number with the smaller count if it came to counting.
pub fn test(tolerance: u32, octets: &[u8]) -> Result<(Form, u32), (u64, Option<u32>)> {
    if tolerance > 3 {
        return Err((8, None));
    }
    if octets.len() != 4 {
        return Err((5, None));
    }
    fit(tolerance, &bits(octets), 0).map_err(|wrong| (9, Some(wrong)))
}

fn write_test(tolerance: u32, octets: &[u8]) {
    match test(tolerance, octets) {
        Ok((form, wrong)) => println!("marker 0 {} {wrong}", form as u8),
        Err((number, Some(wrong))) => println!("marker {number} {wrong}"),
        Err((number, None)) => println!("marker {number}"),
    }
}

/// What an accepted search answers.
#[derive(Debug, PartialEq)]
pub enum Searched {
    Found { place: u64, wrong: u32, looked: u64, form: Form },
    Absent { looked: u64 },
    Spent { next: u64, looked: u64 },
}

/// The answer, or the refusal's number.
pub fn search(tolerance: u32, stream: &[u8], start: u64, budget: u64) -> Result<Searched, u64> {
    if tolerance > 3 {
        return Err(8);
    }
    if stream.len() > 65536 {
        return Err(5);
    }
    if start > 8 * stream.len() as u64 {
        return Err(11);
    }
    let stream = bits(stream);
    let places: Vec<usize> = (start as usize..stream.len() + 1).filter(|p| p + 32 <= stream.len()).collect();
    let seen = places.iter().take(budget.min(1 << 40) as usize);
    let first = seen.clone().find_map(|&place| fit(tolerance, &stream, place).ok().map(|found| (place, found)));
    if let Some((place, (form, wrong))) = first {
        let looked = place as u64 - start + 1;
        Ok(Searched::Found { place: place as u64, wrong, looked, form })
    } else if seen.len() < places.len() {
        Ok(Searched::Spent { next: places[seen.len()] as u64, looked: budget })
    } else {
        Ok(Searched::Absent { looked: places.len() as u64 })
    }
}

fn write_search(tolerance: u32, stream: &[u8], start: u64, budget: u64) {
    match search(tolerance, stream, start, budget) {
        Ok(Searched::Found { place, wrong, looked, form }) => {
            println!("search found {place} {wrong} {looked} {}", form as u8)
        }
        Ok(Searched::Spent { next, looked }) => println!("search spent {next} {looked}"),
        Ok(Searched::Absent { looked }) => println!("search absent {looked}"),
        Err(number) => println!("search refused {number}"),
    }
}

fn tests_at(tolerance: u32) {
    for octets in [
        &[0x1A, 0xCF, 0xFC, 0x1D][..],
        &[0x9A, 0xCF, 0xFC, 0x1D],
        &[0x9A, 0xCF, 0xFC, 0x1C],
        &[0x9A, 0xDF, 0xFC, 0x1C],
        &[0x9A, 0xDF, 0xF4, 0x1C],
        &[0x98, 0xDF, 0xF4, 0x1C],
        &[0; 4],
        &[0xFF; 4],
        &[0xE5, 0x30, 0x03, 0xE2],
        &[0x65, 0x30, 0x03, 0xE2],
        &[0x65, 0x30, 0x03, 0xE3],
        &[0x65, 0x20, 0x03, 0xE3],
        &[0x65, 0x20, 0x0B, 0xE3],
        &[0x67, 0x20, 0x0B, 0xE3],
        &[0x1A, 0xCF, 0xFC],
        &[0x1A, 0xCF, 0xFC, 0x1D, 0x00],
        &[],
    ] {
        write_test(tolerance, octets);
    }
}

fn short_stream(tolerance: u32) {
    let stream = [0x43, 0x59, 0xFF, 0x83, 0xB5, 0x55, 0x55, 0x55, 0x55, 0x55, 0x1A, 0xCF, 0xFF, 0x1C, 0x00];
    for (start, budget) in [
        (0, 0),
        (0, 3),
        (0, 4),
        (3, 1),
        (4, 75),
        (4, 76),
        (4, 77),
        (4, 84),
        (4, 85),
        (81, 7),
        (81, 8),
        (88, 0),
        (89, 0),
        (120, u64::MAX),
        (121, u64::MAX),
        (u64::MAX, 0),
    ] {
        write_search(tolerance, &stream, start, budget);
    }
}

/// One form at bit 8, with three wrong bits, then the other at bit 40, the last place.
fn two_forms(tolerance: u32, stream: &[u8]) {
    for (start, budget) in [(0, 8), (0, 9), (0, 40), (0, 41), (0, u64::MAX), (8, 1), (9, 31), (9, 32), (41, 1)] {
        write_search(tolerance, stream, start, budget);
    }
}

/// The complement first, then the true marker first.
fn either_first(tolerance: u32) {
    let stream = [0x55, 0x65, 0x20, 0x03, 0xE3, 0x1A, 0xCF, 0xFC, 0x1D];
    two_forms(tolerance, &stream);
    two_forms(tolerance, &stream.map(|octet: u8| !octet));
}

/// The longest stream, with a form of the marker at its last place.
fn longest(stream: &[u8]) {
    for (tolerance, start, budget) in [
        (0, 0, u64::MAX),
        (0, 0, 524256),
        (0, 0, 524257),
        (3, 100000, 300000),
        (3, 524256, 1),
        (3, 524257, 1),
        (3, 524288, 1),
        (3, 524289, 1),
    ] {
        write_search(tolerance, stream, start, budget);
    }
}

pub fn write_all() {
    for tolerance in 0..5 {
        tests_at(tolerance);
        short_stream(tolerance);
        either_first(tolerance);
    }
    tests_at(u32::MAX);
    write_search(3, &[], 0, 5);
    write_search(3, &[], 1, 5);
    write_search(3, &MARKER[..3], 0, 5);
    write_search(0, &MARKER, 0, 1);
    write_search(0, &MARKER, 0, 0);
    write_search(0, &MARKER, 1, 1);
    write_search(4, &MARKER, 33, 1);
    write_search(u32::MAX, &[], 0, 0);
    let mut long = drawn(11, 65537);
    for form in [Form::True, Form::Complement] {
        long[65532..65536].copy_from_slice(&form.octets());
        longest(&long[..65536]);
    }
    write_search(3, &long, 0, 1);
    write_search(3, &long, 524297, 1);
    write_search(4, &long, 0, 1);
}

#[cfg(test)]
mod tests {
    use super::*;

    /// Some octets with so many bits changed, from the first on, every third one.
    fn spoilt(octets: [u8; 4], bits: usize) -> [u8; 4] {
        let mut spoilt = octets;
        (0..bits).for_each(|k| spoilt[3 * k % 32 / 8] ^= 128 >> (3 * k % 8));
        spoilt
    }

    #[test]
    fn either_form() {
        for form in [Form::True, Form::Complement] {
            for bits in 0..8 {
                for tolerance in 0..4 {
                    let expected = if bits <= tolerance { Ok((form, bits)) } else { Err((9, Some(bits))) };
                    assert_eq!(test(tolerance, &spoilt(form.octets(), bits as usize)), expected);
                }
            }
        }
    }

    /// Of neither form the smaller count: zeros are nearer to the complement, ones to the marker, both by 13 to 19. Sixteen bits are as far
    /// from the one as from the other, which is the largest count that a refusal can carry.
    #[test]
    fn neither() {
        assert_eq!([Form::True, Form::Complement].map(|form| wrong(form, &bits(&[0; 4]), 0)), [19, 13]);
        assert_eq!(test(3, &[0; 4]), Err((9, Some(13))));
        assert_eq!(test(3, &[0xFF; 4]), Err((9, Some(13))));
        assert_eq!(test(3, &spoilt(MARKER, 16)), Err((9, Some(16))));
        assert_eq!(test(3, &spoilt(MARKER, 17)), Err((9, Some(15))));
    }

    #[test]
    fn refused_before_it_is_counted() {
        assert_eq!(test(4, &[0; 3]), Err((8, None)));
        assert_eq!(test(3, &Form::Complement.octets()[..3]), Err((5, None)));
    }

    /// The complement at bit 13 and the marker at bit 61, and the reverse: the search stops at the first, whichever form it is.
    #[test]
    fn first_place_of_either_form() {
        for (first, second) in [(Form::True, Form::Complement), (Form::Complement, Form::True)] {
            let mut stream = bits(&[0x55; 12]);
            stream[13..45].copy_from_slice(&bits(&first.octets()));
            stream[61..93].copy_from_slice(&bits(&second.octets()));
            let stream = crate::data::packed(&stream);
            let found = |place, form, looked| Ok(Searched::Found { place, wrong: 0, looked, form });
            assert_eq!(search(0, &stream, 0, u64::MAX), found(13, first, 14));
            assert_eq!(search(3, &stream, 0, 14), found(13, first, 14));
            assert_eq!(search(3, &stream, 0, 13), Ok(Searched::Spent { next: 13, looked: 13 }));
            assert_eq!(search(3, &stream, 14, 48), found(61, second, 48));
            assert_eq!(search(3, &stream, 14, 47), Ok(Searched::Spent { next: 61, looked: 47 }));
            assert_eq!(search(3, &stream, 62, 3), Ok(Searched::Absent { looked: 3 }));
        }
    }
}
