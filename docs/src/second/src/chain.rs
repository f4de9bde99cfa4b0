//! Transmit and receive put together from this program's own parts, and the chain's cases of the program `vectors`.

use crate::blocks::{Code, Decoding};
use crate::data::{bits, buffer, drawn};
use crate::limits::{receive_number, transmit_number};
use crate::marker::{fit, Form, MARKER};
use crate::randomiser::randomised;

/// The sequence added if the flag says so; a block is never over the randomiser's limit.
fn randomised_if(flag: bool, block: &[u8]) -> Vec<u8> {
    if flag {
        randomised(block).unwrap()
    } else {
        block.to_vec()
    }
}

/// The number, and the marked block as it is afterwards.
pub fn transmit(code: Code, flag: bool, frame: &[u8], before: &[u8]) -> (u64, Vec<u8>) {
    let number = transmit_number(code.e, code.i, code.q, frame.len() as u64, before.len() as u64);
    if number != 0 {
        return (number, before.to_vec());
    }
    let (_, block) = code.encode(frame, &before[4..]);
    (0, [&MARKER[..], &randomised_if(flag, &block)].concat())
}

/// The answer with its stage, number and value, whether it was inverted, and what decode reports.
pub fn receive(code: Code, s: u64, t: u64, flag: bool, marked: &[u8], before: &[u8]) -> Decoding {
    let number = receive_number(code.e, code.i, code.q, s, t, marked.len() as u64, before.len() as u64);
    if number != 0 {
        return Decoding::refused(format!("parameters {number} 0 0"), before);
    }
    let (front, block) = marked.split_at(4);
    let form = match fit(t as u32, &bits(front), 0) {
        Ok((form, _)) => form,
        Err(wrong) => return Decoding::refused(format!("marker 9 {wrong} 0"), before),
    };
    let block: Vec<u8> = block.iter().map(|octet| if form == Form::Complement { !octet } else { *octet }).collect();
    let mut out = code.decode(s, &randomised_if(flag, &block), before);
    let inverted = u8::from(form == Form::Complement);
    out.answer = if out.answer == "0" { format!("delivered 0 0 {inverted}") } else { format!("word {} 0", out.answer) };
    out
}

fn write_transmit(code: Code, flag: bool, frame: &[u8], marked: usize) -> Vec<u8> {
    let (number, marked) = transmit(code, flag, frame, &vec![170; marked]);
    println!("transmit {} {} {} {} {number}{}", code.e, code.i, code.q, u8::from(flag), buffer(&marked));
    marked
}

fn write_receive(code: Code, s: u64, t: u64, flag: bool, marked: &[u8], frame: usize) {
    let out = receive(code, s, t, flag, marked, &vec![170; frame]);
    println!("receive {} {} {} {s} {t} {} {} {}", code.e, code.i, code.q, u8::from(flag), out.answer, out.report());
}

/// All bits of some octets.
fn invert(octets: &mut [u8]) {
    octets.iter_mut().for_each(|octet| *octet = !*octet);
}

/// What a demodulator may make of a marked block: the block alone inverted, the marker alone, both; then, still inverted, so many wrong
/// octets, E in each word, and one more.
fn turned(code: Code, flag: bool, mut marked: Vec<u8>, frame: usize, worn: usize) {
    let receive = |marked: &[u8]| write_receive(code, code.e, 3, flag, marked, frame);
    invert(&mut marked[4..]);
    receive(&marked);
    invert(&mut marked);
    receive(&marked);
    invert(&mut marked[4..]);
    receive(&marked);
    marked[4..4 + worn].iter_mut().for_each(|octet| *octet ^= 0x5A);
    receive(&marked);
    marked[4 + worn] ^= 0x5A;
    receive(&marked);
}

/// Transmit with one flag, and receive of what then stands there with the other or the same.
fn there_and_back(code: Code, sent: bool, opened: bool, frame: usize, marked: usize) -> Vec<u8> {
    let marked = write_transmit(code, sent, &drawn(37, frame), marked);
    write_receive(code, code.e, 3, opened, &marked, frame);
    marked
}

/// The same of a size that is not refused, and then inverted.
fn both_ways(code: Code, sent: bool, opened: bool) {
    let (frame, worn) = ((255 - 2 * code.e - code.q) * code.i, code.e * code.i);
    let marked = there_and_back(code, sent, opened, frame as usize, (frame + 2 * worn + 4) as usize);
    turned(code, opened, marked, frame as usize, worn as usize);
}

/// The shortest and the longest marked block, and some between them, at every depth.
fn codes() {
    for (e, i, q) in [(16, 1, 222), (8, 2, 238), (8, 3, 100), (16, 4, 1), (16, 5, 0), (8, 8, 0)] {
        for (sent, opened) in [(false, false), (true, true), (true, false)] {
            both_ways(Code { e, i, q }, sent, opened);
        }
    }
    both_ways(Code { e: 8, i: 8, q: 0 }, false, true);
}

fn refusals() {
    for (e, i, q, frame, marked) in [
        (7, 1, 0, 241, 259),
        (9, 6, 0, 1422, 1534),
        (17, 1, 0, 221, 259),
        (16, 0, 0, 0, 4),
        (16, 6, 223, 0, 196),
        (16, 9, 0, 2007, 2299),
        (16, 1, 223, 0, 36),
        (8, 1, 239, 1, 20),
        (16, 1, 222, 0, 37),
        (16, 1, 222, 2, 37),
        (16, 1, 222, 1, 36),
        (16, 1, 222, 1, 38),
        (16, 1, 222, 2, 36),
        (16, 1, 222, 0, 0),
        (8, 8, 0, 1912, 2045),
        (8, 8, 0, 1913, 2044),
    ] {
        there_and_back(Code { e, i, q }, true, true, frame, marked);
    }
}

const SHORTEST: Code = Code { e: 16, i: 1, q: 222 };

/// All bits of the marked block, if it is inverted.
fn invert_if(inverted: bool, marked: &mut [u8]) {
    if inverted {
        invert(marked);
    }
}

/// A marker with no to four wrong bits at each tolerance, and at one past the last.
fn wrong_markers(inverted: bool) {
    let mut marked = write_transmit(SHORTEST, true, &[0xC3], 37);
    invert_if(inverted, &mut marked);
    for (at, bit) in [(0, 0), (0, 0x80), (3, 0x01), (1, 0x10), (2, 0x08)] {
        marked[at] ^= bit;
        for t in 0..5 {
            write_receive(SHORTEST, 16, t, true, &marked, 1);
        }
    }
}

/// Word 1 of three with E wrong symbols, then one in word 0 too, then one more in word 1.
fn damaged(e: u64, flag: bool, inverted: bool) {
    let code = Code { e, i: 3, q: 200 };
    let frame = drawn(41, 3 * (55 - 2 * e as usize));
    let mut marked = write_transmit(code, flag, &frame, 169);
    invert_if(inverted, &mut marked);
    for k in 0..e as usize {
        marked[4 + 3 * k + 1] ^= 0x5A;
    }
    write_receive(code, e, 0, flag, &marked, frame.len());
    write_receive(code, e - 1, 0, flag, &marked, frame.len());
    marked[4] ^= 0x5A;
    write_receive(code, e, 0, flag, &marked, frame.len());
    write_receive(code, 0, 0, flag, &marked, frame.len());
    marked[4 + 3 * 54 + 1] ^= 0x5A;
    write_receive(code, e, 0, flag, &marked, frame.len());
}

/// A lost word, and before it one by one the faults that come earlier in the order.
fn two_faults(inverted: bool) {
    let mut marked = write_transmit(SHORTEST, false, &[0], 37);
    invert_if(inverted, &mut marked);
    marked[4..21].iter_mut().for_each(|octet| *octet ^= 0xFF);
    write_receive(SHORTEST, 16, 3, false, &marked, 1);
    marked[..4].iter_mut().for_each(|octet| *octet ^= 0x40);
    write_receive(SHORTEST, 16, 3, false, &marked, 1);
    write_receive(SHORTEST, 16, 3, false, &marked, 2);
    write_receive(SHORTEST, 16, 3, false, &marked[..36], 2);
    write_receive(SHORTEST, 16, 4, false, &marked[..36], 1);
    write_receive(SHORTEST, 17, 4, false, &marked, 1);
    write_receive(Code { q: 223, ..SHORTEST }, 17, 3, false, &marked, 1);
    write_receive(Code { i: 6, q: 223, ..SHORTEST }, 17, 3, false, &marked, 1);
    write_receive(Code { e: 15, i: 6, q: 223 }, 17, 3, false, &marked, 1);
    write_receive(SHORTEST, u32::MAX.into(), u32::MAX.into(), false, &[], 0);
    write_receive(SHORTEST, 16, u32::MAX.into(), false, &[], 0);
    write_receive(SHORTEST, 0, 0, false, &[], 1);
}

pub fn write_all() {
    codes();
    refusals();
    for inverted in [false, true] {
        wrong_markers(inverted);
        damaged(16, true, inverted);
        damaged(8, false, inverted);
        two_faults(inverted);
    }
}

#[cfg(test)]
mod tests {
    use super::*;

    fn sent(code: Code, flag: bool) -> (Vec<u8>, Vec<u8>) {
        let frame = drawn(23, ((255 - 2 * code.e - code.q) * code.i) as usize);
        let (number, marked) = transmit(code, flag, &frame, &vec![170; ((255 - code.q) * code.i + 4) as usize]);
        assert_eq!(number, 0);
        (frame, marked)
    }

    fn sizes() -> Vec<Code> {
        let all = [8, 16].map(|e| [1, 2, 3, 4, 5, 8].map(|i| [0, 1, 100, 254 - 2 * e].map(|q| Code { e, i, q })));
        all.concat().concat()
    }

    /// With E wrong symbols in every word and three wrong bits in the marker the frame comes back from the inverted block too.
    #[test]
    fn inverted_blocks() {
        for code in sizes() {
            for flag in [false, true] {
                let (frame, mut marked) = sent(code, flag);
                let worn = 4..4 + (code.e * code.i) as usize;
                marked[worn].iter_mut().for_each(|octet| *octet ^= 0xA5);
                [0, 1, 3].into_iter().for_each(|at| marked[at] ^= 0x20);
                invert(&mut marked);
                let out = receive(code, code.e, 3, flag, &marked, &vec![170; frame.len()]);
                assert_eq!((out.answer.as_str(), out.frame), ("delivered 0 0 1", frame));
                assert!(out.counts[..code.i as usize].iter().all(|count| *count == code.e as usize));
            }
        }
    }

    /// The word of 255 octets FF is a codeword: without fill a complemented marker before a block that is not inverted goes unseen, and the
    /// inverted frame is delivered, with no count. With fill the block is refused.
    #[test]
    fn marker_alone_complemented() {
        for code in sizes() {
            let (frame, mut marked) = sent(code, true);
            invert(&mut marked[..4]);
            let out = receive(code, code.e, 0, true, &marked, &vec![170; frame.len()]);
            let expected = if code.q == 0 {
                ("delivered 0 0 1", frame.iter().map(|octet| !octet).collect())
            } else {
                ("word 10 0 0", vec![170; frame.len()])
            };
            assert_eq!((out.answer.as_str(), out.counts, out.frame), (expected.0, [0; 8], expected.1));
        }
    }

    #[test]
    fn refusals_do_not_say_inverted() {
        let (_, mut marked) = sent(SHORTEST, false);
        invert(&mut marked);
        let answer = |marked: &[u8]| receive(SHORTEST, 16, 3, false, marked, &[170]).answer;
        assert_eq!(answer(&marked), "delivered 0 0 1");
        assert_eq!(answer(&marked[..36]), "parameters 5 0 0");
        marked[4..21].iter_mut().for_each(|octet| *octet ^= 0xFF);
        assert_eq!(answer(&marked), "word 10 0 0");
        marked[0] ^= 0xF0;
        assert_eq!(answer(&marked), "marker 9 4 0");
        marked[..4].fill(0);
        assert_eq!(answer(&marked), "marker 9 13 0");
    }
}
