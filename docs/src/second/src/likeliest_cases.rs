//! The decoder at rate 1/2 as the program `vectors` runs it: at every limit, from each register, where inputs tie, and through noise, in
//! one call and in two.

use crate::convolution::{convolve, write_convolve, Coder};
use crate::data::{buffer, drawn};
use crate::likeliest::write_likeliest;

const M: u32 = u32::MAX;

/// The register, the octets received, and those of the output.
const LIMITS: [(u32, usize, usize); 39] = [
    (0, 0, 0),
    (63, 0, 0),
    (63, 2, 1),
    (64, 0, 0),
    (64, 2, 1),
    (M, 0, 0),
    (M, 2, 1),
    (0, 0, 1),
    (5, 2, 0),
    (5, 2, 2),
    (5, 4, 0),
    (5, 4, 1),
    (5, 4, 3),
    (5, 4, 4),
    (5, 1, 0),
    (5, 1, 1),
    (5, 3, 1),
    (5, 3, 2),
    (5, 511, 255),
    (5, 511, 256),
    (5, 513, 256),
    (5, 513, 257),
    (5, 510, 255),
    (5, 512, 256),
    (5, 512, 255),
    (5, 512, 257),
    (5, 512, 0),
    (5, 514, 257),
    // Two or three faults at once: the one that comes first in the order is the answer.
    (5, 514, 256),
    (5, 514, 0),
    (5, 3, 0),
    (63, 513, 0),
    (64, 1, 0),
    (64, 3, 3),
    (64, 2, 0),
    (64, 512, 257),
    (64, 513, 0),
    (M, 514, 257),
    (M, 513, 1),
];

/// A call on symbols that are drawn.
fn call(register: u32, received: usize, output: usize) {
    write_likeliest(register, &drawn(register % 256, received), output);
}

/// A call on symbols that are given.
fn given(register: u32, received: &[u8]) -> u32 {
    write_likeliest(register, received, received.len() / 2)
}

/// Inputs that differ in equally few places: two that part at the first bit, at the second, the fifth and the last, then twelve and
/// thirteen; and of two octets two that meet again in one register.
fn equals() {
    for (register, received) in [
        (0, [0x00, 0x01]),
        (21, [0x00, 0x04]),
        (0, [0x40, 0x15]),
        (0, [0x55, 0x11]),
        (0, [0x55, 0x54]),
        (21, [0x50, 0x01]),
        (0, [0x41, 0x11]),
        (0, [0x44, 0x41]),
    ] {
        given(register, &received);
    }
    given(42, &[0x5A, 0x89, 0x55, 0x55]);
    given(42, &[0x7F, 0x97, 0x59, 0xE3]);
}

/// The symbols in one call, then in two of half the length, the second from the register that the first reached.
fn whole_and_halves(register: u32, received: &[u8]) {
    given(register, received);
    let (first, second) = received.split_at(received.len() / 2);
    given(given(register, first), second);
}

/// Drawn data, coded, and received with so many wrong symbols in 256.
fn through_noise(register: u8, octets: usize, often: u8) {
    let data = drawn(octets as u32 + register as u32, octets);
    println!("data{}", buffer(&data));
    let state = Coder { register, ..Coder::start() };
    write_convolve(1, state, &data, 2 * octets);
    let (_, mut symbols, _) = convolve(1, state, &data, 2 * octets).unwrap();
    for (place, octet) in drawn(often as u32, 16 * octets).into_iter().enumerate() {
        if octet < often {
            symbols[place / 8] ^= 128 >> (place % 8);
        }
    }
    whole_and_halves(register.into(), &symbols);
}

pub fn write_all() {
    for (register, received, output) in LIMITS {
        call(register, received, output);
    }
    for register in 0..64 {
        call(register, 2, 1);
    }
    for register in [0, 1, 21, 32, 42, 62, 63] {
        call(register, 4, 2);
    }
    equals();
    // One wrong symbol, set right in one call and not in two.
    whole_and_halves(0, &[0x55, 0x54, 0xE9, 0x25]);
    for octets in [16, 256] {
        for (register, often) in [(0, 0), (9, 4), (27, 16), (45, 32), (63, 128)] {
            through_noise(register, octets, often);
        }
    }
}
