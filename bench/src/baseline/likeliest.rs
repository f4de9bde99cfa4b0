//! The decoder at rate 1/2 in three forms. All go back over the symbols with the costs to go from each of 64 registers, and then forward
//! along what was chosen: so the choice at a bit is between two ways that differ there first, and of equals 0 is taken. Two forms keep
//! a word of 64 decisions for each bit, one keeps the octet of the cheapest way for each octet and register.

use super::limits;
use std::array::from_fn;

/// In how many places the symbols of a bit 0 from a register differ from a received pair. Those of a bit 1 differ in the others, and so
/// do those of a bit 0 from the register 32 above.
const fn cost(pair: usize, register: usize) -> u8 {
    let c1 = register ^ register >> 1 ^ register >> 2 ^ register >> 5;
    let c2 = !(register >> 1 ^ register >> 2 ^ register >> 4 ^ register >> 5);
    (((c1 ^ pair >> 1) & 1) + ((c2 ^ pair) & 1)) as u8
}

/// By the pair and the register; and again with `SPARE` less, modulo 256.
const COSTS: [[u8; 32]; 8] = {
    let mut costs = [[0; 32]; 8];
    let mut n = 0;
    while n < 128 {
        let (pair, register) = (n / 32, n % 32);
        costs[pair][register] = cost(pair, register);
        costs[pair + 4][register] = cost(pair, register).wrapping_sub(SPARE);
        n += 1;
    }
    costs
};

/// What is taken from all costs once the first of them is twice as much. No two differ by more than 12.
const SPARE: u8 = 64;

/// The decisions of eight bits, the first bit's first: at each register whether the bit 1 is the cheaper one.
type Words = [u64; 8];

/// Along the decisions, the last octet's coming first; gives the register reached.
#[inline(always)]
fn forward(register: u32, octets: &[Words], data: &mut [u8]) -> u32 {
    // The bits so far; the lowest six are the register.
    let mut way = register;
    for (octet, words) in data.iter_mut().zip(octets.iter().rev()) {
        for word in words {
            way = way << 1 | (word >> (way & 63)) as u32 & 1;
        }
        *octet = way as u8;
    }
    way & 63
}

/// The plain form: bit by bit, each decision shifted into its place.
#[inline(never)]
pub fn by_bits(register: u32, symbols: &[u8], data: &mut [u8], found: &mut [u32; 2]) -> u64 {
    let number = limits::likeliest(register, symbols.len(), data.len());
    if number != 0 {
        return number;
    }
    let mut costs = [0; 64];
    let mut octets = Vec::with_capacity(data.len());
    for pairs in symbols.chunks_exact(2).rev() {
        let pairs = u16::from_be_bytes([pairs[0], pairs[1]]);
        let mut words = [0; 8];
        for (shift, word) in words.iter_mut().rev().enumerate() {
            (costs, *word) = bit_back(&costs, (pairs >> (2 * shift) & 3).into());
        }
        octets.push(words);
    }
    let reached = forward(register, &octets, data);
    *found = [costs[register as usize].into(), reached];
    0
}

fn bit_back(costs: &[u16; 64], pair: usize) -> ([u16; 64], u64) {
    let (mut earlier, mut word) = ([0; 64], 0);
    for r in 0..32 {
        let (zero, one) = (costs[2 * r], costs[2 * r + 1]);
        let same = u16::from(COSTS[pair][r]);
        let other = 2 - same;
        earlier[r] = (same + zero).min(other + one);
        word |= u64::from(other + one < same + zero) << r;
        earlier[r + 32] = (other + zero).min(same + one);
        word |= u64::from(same + one < other + zero) << (r + 32);
    }
    (earlier, word)
}

/// Costs in octets, by the register, above a base; and with each what is carried along. The compiler makes vectors of them that stay in
/// registers, unless the costs are indexed by a number that it does not know, or handed on by value.
type Column = ([u8; 64], [u8; 64]);

/// Eight bits back from these costs, by a step that takes the column, the costs of the pair, what two opposite ones are together, and the
/// bit's weight in the octet. Adds to the base what it takes from the costs.
#[inline(always)]
fn octet_back(
    costs: &[u8; 64],
    pairs: &[u8],
    base: &mut u32,
    step: impl Fn(&[u8; 64], &[u8; 64], &[u8; 32], u8, u8) -> Column,
) -> Column {
    let pairs = usize::from(pairs[0]) << 8 | usize::from(pairs[1]);
    let of = |shift: usize| pairs >> shift & 3;
    let (mut first, mut both) = (of(0), 2_u8);
    if costs[0] >= 2 * SPARE {
        first += 4;
        both = both.wrapping_sub(2 * SPARE);
        *base += u32::from(SPARE);
    }
    // Not a loop, which takes a seventh longer.
    let (c, d) = step(costs, &[0; 64], &COSTS[first], both, 1);
    let (c, d) = step(&c, &d, &COSTS[of(2)], 2, 2);
    let (c, d) = step(&c, &d, &COSTS[of(4)], 2, 4);
    let (c, d) = step(&c, &d, &COSTS[of(6)], 2, 8);
    let (c, d) = step(&c, &d, &COSTS[of(8)], 2, 16);
    let (c, d) = step(&c, &d, &COSTS[of(10)], 2, 32);
    let (c, d) = step(&c, &d, &COSTS[of(12)], 2, 64);
    step(&c, &d, &COSTS[of(14)], 2, 128)
}

/// The faster form: the decisions of eight bits are gathered in an octet for each register, and then turned into words.
#[inline(never)]
pub fn by_words(register: u32, symbols: &[u8], data: &mut [u8], found: &mut [u32; 2]) -> u64 {
    let number = limits::likeliest(register, symbols.len(), data.len());
    if number != 0 {
        return number;
    }
    let (mut costs, mut base) = ([0; 64], 0);
    let mut octets = Vec::with_capacity(data.len());
    for pairs in symbols.chunks_exact(2).rev() {
        let (earlier, decisions) = octet_back(&costs, pairs, &mut base, deciding);
        octets.push(turned(&decisions));
        costs = earlier;
    }
    // Indexed in memory of its own.
    let costs = vec![costs];
    let reached = forward(register, &octets, data);
    *found = [base + u32::from(costs[0][register as usize]), reached];
    0
}

/// One bit back; decisions go in at the bottom.
#[inline(always)]
fn deciding(costs: &[u8; 64], decisions: &[u8; 64], pair: &[u8; 32], both: u8, _: u8) -> Column {
    let (mut earlier, mut further) = ([0; 64], [0; 64]);
    for r in 0..32 {
        let (zero, one) = (costs[2 * r], costs[2 * r + 1]);
        let (same, other) = (pair[r], both.wrapping_sub(pair[r]));
        let (a, b) = (same.wrapping_add(zero), other.wrapping_add(one));
        earlier[r] = a.min(b);
        further[r] = decisions[r] << 1 | u8::from(b < a);
        let (a, b) = (other.wrapping_add(zero), same.wrapping_add(one));
        earlier[r + 32] = a.min(b);
        further[r + 32] = decisions[r + 32] << 1 | u8::from(b < a);
    }
    (earlier, further)
}

/// Bit k of octet r goes to bit r of word k: eight squares of eight bits are turned, and then a square of eight octets.
#[inline(always)]
fn turned(octets: &[u8; 64]) -> Words {
    const HALVES: u64 = 0x0000_0000_FFFF_FFFF;
    const QUARTERS: u64 = 0x0000_FFFF_0000_FFFF;
    const EIGHTHS: u64 = 0x00FF_00FF_00FF_00FF;
    let mut words: Words = from_fn(|n| {
        let square = octets[8 * n..8 * n + 8].try_into();
        turned_square(u64::from_le_bytes(square.expect("eight octets")))
    });
    let mut swap = |n: usize, m: usize, low: u64, shift: u32| {
        let (a, b) = (words[n], words[m]);
        words[n] = a & low | (b & low) << shift;
        words[m] = (a & !low) >> shift | b & !low;
    };
    for n in [0, 1, 2, 3] {
        swap(n, n + 4, HALVES, 32);
    }
    for n in [0, 1, 4, 5] {
        swap(n, n + 2, QUARTERS, 16);
    }
    for n in [0, 2, 4, 6] {
        swap(n, n + 1, EIGHTHS, 8);
    }
    words
}

/// Bit k of octet n to bit n of octet k.
#[inline(always)]
fn turned_square(square: u64) -> u64 {
    let swap = |square: u64, shift: u32, which: u64| {
        let differing = (square ^ square >> shift) & which;
        square ^ differing ^ differing << shift
    };
    let square = swap(square, 7, 0x00AA_00AA_00AA_00AA);
    let square = swap(square, 14, 0x0000_CCCC_0000_CCCC);
    swap(square, 28, 0x0000_0000_F0F0_F0F0)
}

/// The fastest form: the octet of the cheapest way goes along with its cost, and the way forward is taken by octets.
#[inline(never)]
pub fn by_ways(register: u32, symbols: &[u8], data: &mut [u8], found: &mut [u32; 2]) -> u64 {
    let number = limits::likeliest(register, symbols.len(), data.len());
    if number != 0 {
        return number;
    }
    let (mut costs, mut base) = ([0; 64], 0);
    let mut ways = Vec::with_capacity(data.len());
    for pairs in symbols.chunks_exact(2).rev() {
        let (earlier, way) = octet_back(&costs, pairs, &mut base, carrying);
        ways.push(way);
        costs = earlier;
    }
    // Indexed in memory of its own.
    let costs = vec![costs];
    let mut at = register as usize;
    for (octet, way) in data.iter_mut().zip(ways.iter().rev()) {
        *octet = way[at];
        at = usize::from(*octet & 63);
    }
    *found = [base + u32::from(costs[0][register as usize]), at as u32];
    0
}

/// One bit back; the way has the bit's weight if the bit is 1.
#[inline(always)]
fn carrying(costs: &[u8; 64], ways: &[u8; 64], pair: &[u8; 32], both: u8, weight: u8) -> Column {
    let (mut earlier, mut further) = ([0; 64], [0; 64]);
    for r in 0..32 {
        let (zero, one) = (costs[2 * r], costs[2 * r + 1]);
        let (way_zero, way_one) = (ways[2 * r], ways[2 * r + 1] | weight);
        let (same, other) = (pair[r], both.wrapping_sub(pair[r]));
        let (a, b) = (same.wrapping_add(zero), other.wrapping_add(one));
        earlier[r] = a.min(b);
        further[r] = if b < a { way_one } else { way_zero };
        let (a, b) = (other.wrapping_add(zero), same.wrapping_add(one));
        earlier[r + 32] = a.min(b);
        further[r + 32] = if b < a { way_one } else { way_zero };
    }
    (earlier, further)
}
