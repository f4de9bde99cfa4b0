//! The checks of parameters and lengths, by the table and the orders of document 01.

use crate::blocks::Code;
use crate::data::drawn;

struct Call {
    e: u64,
    i: u64,
    q: u64,
    s: u64,
    t: u64,
    input: u64,
    required_input: u64,
    output: u64,
    required_output: u64,
}

fn due(number: u64, c: &Call) -> bool {
    match number {
        1 => c.e != 8 && c.e != 16,
        2 => ![1, 2, 3, 4, 5, 8].contains(&c.i),
        3 => c.q > 254 - 2 * c.e,
        4 => c.s > c.e,
        5 => c.input != c.required_input,
        6 => c.output != c.required_output,
        8 => c.t > 3,
        _ => unreachable!(),
    }
}

fn first(order: &[u64], c: &Call) -> u64 {
    order.iter().copied().find(|&n| due(n, c)).unwrap_or(0)
}

/// Symbols per word times depth. A strength or a fill that is refused may make it nonsense; nothing asks for it then.
fn octets(symbols: i64, i: u64) -> u64 {
    symbols.wrapping_mul(i as i64) as u64
}

fn information(e: u64, q: u64) -> i64 {
    255 - 2 * e as i64 - q as i64
}

/// A call that takes a frame and gives a block with so many octets in front.
fn outgoing(e: u64, i: u64, q: u64, frame: u64, block: u64, front: u64) -> Call {
    Call {
        e,
        i,
        q,
        s: 0,
        t: 0,
        input: frame,
        required_input: octets(information(e, q), i),
        output: block,
        required_output: octets(255 - q as i64, i).wrapping_add(front),
    }
}

/// A call that takes a block with so many octets in front and gives a frame.
fn incoming(outgoing: Call, s: u64, t: u64) -> Call {
    Call {
        s,
        t,
        input: outgoing.output,
        required_input: outgoing.required_output,
        output: outgoing.input,
        required_output: outgoing.required_input,
        ..outgoing
    }
}

pub fn encode_number(e: u64, i: u64, q: u64, frame: u64, block: u64) -> u64 {
    first(&[1, 2, 3, 5, 6], &outgoing(e, i, q, frame, block, 0))
}

pub fn transmit_number(e: u64, i: u64, q: u64, frame: u64, block: u64) -> u64 {
    first(&[1, 2, 3, 5, 6], &outgoing(e, i, q, frame, block, 4))
}

/// Decode's number but for 10.
pub fn decode_number(e: u64, i: u64, q: u64, s: u64, block: u64, frame: u64) -> u64 {
    first(&[1, 2, 3, 4, 5, 6], &incoming(outgoing(e, i, q, frame, block, 0), s, 0))
}

/// Salvage's number: decode's, then 6 for a list that has not four octets for each octet of the block.
pub fn salvage_number(e: u64, i: u64, q: u64, s: u64, block: u64, frame: u64, list: u64) -> u64 {
    match decode_number(e, i, q, s, block, frame) {
        0 if list != 4 * block => 6,
        number => number,
    }
}

/// Receive's number but for 9 and 10.
pub fn receive_number(e: u64, i: u64, q: u64, s: u64, t: u64, block: u64, frame: u64) -> u64 {
    first(&[1, 2, 3, 4, 8, 5, 6], &incoming(outgoing(e, i, q, frame, block, 4), s, t))
}

const M: u64 = u32::MAX as u64;

const CASES: [[u64; 7]; 43] = [
    [0, 1, 0, 0, 0, 255, 255],
    [7, 1, 0, 0, 0, 241, 255],
    [8, 1, 0, 8, 3, 239, 255],
    [9, 1, 0, 0, 0, 237, 255],
    [15, 1, 0, 0, 0, 225, 255],
    [16, 1, 0, 16, 3, 223, 255],
    [17, 1, 0, 0, 0, 221, 255],
    [M, 0, 300, 400, 9, 0, 0],
    [16, 0, 0, 0, 0, 0, 0],
    [16, 2, 0, 0, 0, 446, 510],
    [16, 3, 0, 0, 0, 669, 765],
    [16, 4, 0, 0, 0, 892, 1020],
    [16, 5, 0, 0, 0, 1115, 1275],
    [16, 6, 0, 0, 0, 1338, 1530],
    [16, 7, 0, 0, 0, 1561, 1785],
    [16, 8, 0, 0, 0, 1784, 2040],
    [16, 9, 0, 0, 0, 2007, 2295],
    [16, M, 300, 400, 9, 0, 0],
    [16, 1, 222, 16, 3, 1, 33],
    [16, 1, 223, 16, 3, 0, 32],
    [8, 1, 238, 8, 3, 1, 17],
    [8, 1, 239, 8, 3, 0, 16],
    [8, 8, 238, 8, 3, 8, 136],
    [8, 1, M, 400, 9, 0, 0],
    [16, 1, 222, 17, 3, 1, 33],
    [8, 1, 238, 9, 3, 1, 17],
    [16, 1, 222, 17, 4, 1, 37],
    [16, 1, 222, 16, 4, 0, 0],
    [16, 1, 222, 16, 3, 1, 37],
    [16, 1, 222, M, M, 9, 9],
    [16, 5, 0, 16, 3, 1114, 1275],
    [16, 5, 0, 16, 3, 1116, 1275],
    [16, 5, 0, 16, 3, 1115, 1274],
    [16, 5, 0, 16, 3, 1115, 1276],
    [16, 5, 0, 16, 3, 1115, 1279],
    [16, 5, 0, 16, 3, 1114, 1278],
    [16, 5, 0, 16, 3, 0, 0],
    [7, 6, 0, 0, 0, 1, 33],
    [16, 6, 223, 16, 3, 1, 33],
    [16, 1, 223, 17, 3, 1, 33],
    [16, 1, 222, 17, 3, 1, 32],
    [16, 1, 222, 17, 3, 2, 33],
    [16, 1, 222, 16, 3, 2, 32],
];

pub fn write_all() {
    for [e, i, q, s, t, frame, block] in CASES {
        println!(
            "limits {} {} {} {}",
            encode_number(e, i, q, frame, block),
            transmit_number(e, i, q, frame, block),
            decode_number(e, i, q, s, block, frame),
            receive_number(e, i, q, s, t, block, frame),
        );
        let code = Code { e, i, q };
        let coded = code.write_encode(&drawn(5, frame as usize), &vec![170; block as usize]);
        code.write_decode(s, &coded, frame as usize);
    }
}
