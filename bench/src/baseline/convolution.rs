//! The convolutional coder in two forms: bit by bit with masks and counted ones, and octet by octet with sums of shifted windows.

use super::limits;
use crate::calls::Coder;
use std::array::from_fn;

/// The taps on a window whose lowest bit is the present one: 1111001 and 1011011, present bit first.
const G1: u32 = 0b100_1111;
const G2: u32 = 0b110_1101;

const BOTH: (bool, bool) = (true, true);
const C1: (bool, bool) = (true, false);
const C2: (bool, bool) = (false, true);

/// Whether C1 and C2 are sent, by bit time, for each rate.
pub const SENT: [&[(bool, bool)]; 5] = [
    &[BOTH],
    &[BOTH, C2],
    &[BOTH, C2, C1],
    &[BOTH, C2, C1, C2, C1],
    &[BOTH, C2, C2, C2, C1, C2, C1],
];

/// Symbols on their way into octets, the newest lowest.
pub struct Packer<'a> {
    out: std::slice::IterMut<'a, u8>,
    pub held: u64,
    pub holds: u32,
}

impl Packer<'_> {
    pub fn new(symbols: &mut [u8], holds: u8, held: u8) -> Packer<'_> {
        Packer {
            out: symbols.iter_mut(),
            held: u64::from(held) >> (8 - holds),
            holds: holds.into(),
        }
    }

    /// The lowest bit of a number, if it is sent. A branch, since the pattern is soon learnt; shifts by 0 or 1 are slower.
    #[inline(always)]
    fn push(&mut self, symbol: u32, sent: bool) {
        if sent {
            self.held = self.held << 1 | u64::from(symbol & 1);
            self.holds += 1;
        }
    }

    /// Writes the whole octets out.
    #[inline(always)]
    pub fn flush(&mut self) {
        while self.holds >= 8 {
            self.holds -= 8;
            if let Some(octet) = self.out.next() {
                *octet = (self.held >> self.holds) as u8;
            }
        }
    }

    /// How many symbols are left, and those.
    pub fn left(self) -> (u8, u8) {
        (self.holds as u8, (self.held << (8 - self.holds)) as u8)
    }
}

/// The state after so many octets, and the number of their symbols.
pub fn ran(
    before: Coder,
    period: usize,
    data: &[u8],
    filled: usize,
    left: (u8, u8),
) -> (Coder, u32) {
    let [register, place, held_before, _] = before;
    let (holds, held) = left;
    let register = data.last().map_or(register, |octet| octet & 63);
    let place = (place as usize + 8 * data.len()) % period;
    let count = 8 * filled as u32 + u32::from(holds) - u32::from(held_before);
    ([register, place as u8, holds, held], count)
}

/// One octet bit by bit. A sum modulo 2 is the lowest bit of the number of ones.
#[inline(always)]
pub fn enter<'a>(
    packer: &mut Packer,
    times: &mut impl Iterator<Item = &'a (bool, bool)>,
    window: &mut u32,
    octet: u8,
    inverted: u32,
) {
    for (shift, (first, second)) in (0..8).rev().zip(times) {
        *window = (*window << 1 | u32::from(octet >> shift & 1)) & 127;
        packer.push((*window & G1).count_ones(), *first);
        packer.push((*window & G2).count_ones() ^ inverted, *second);
    }
}

/// The plain form.
pub fn by_bits(
    rate: u32,
    state: &mut Coder,
    data: &[u8],
    symbols: &mut [u8],
    count: &mut u32,
) -> u64 {
    let number = limits::convolve(rate, *state, data.len(), symbols.len());
    if number != 0 {
        return number;
    }
    let [register, place, holds, held] = *state;
    let filled = symbols.len();
    let inverted = u32::from(rate == 1);
    let sent = SENT[rate as usize - 1];
    let mut times = sent.iter().cycle();
    for _ in 0..place {
        times.next();
    }
    let mut packer = Packer::new(symbols, holds, held);
    let mut window = register.into();
    for octet in data {
        enter(&mut packer, &mut times, &mut window, *octet, inverted);
        packer.flush();
    }
    (*state, *count) = ran(*state, sent.len(), data, filled, packer.left());
    0
}

pub fn close(rate: u32, state: Coder, symbols: &mut [u8], count: &mut u32) -> u64 {
    let number = limits::convolve_close(rate, state, symbols.len());
    if number == 0 {
        let [_, _, holds, held] = state;
        symbols.fill(held & !(255 >> holds));
        *count = holds.into();
    }
    number
}

/// The faster form. Its table has each octet's bits with a zero in front of each.
pub struct ByWindows([u16; 256]);

impl ByWindows {
    pub fn new() -> ByWindows {
        ByWindows(from_fn(|octet| {
            (0..8).fold(0, |spread, k| spread | ((octet >> k & 1) << (2 * k)) as u16)
        }))
    }

    pub fn convolve(
        &self,
        rate: u32,
        state: &mut Coder,
        data: &[u8],
        symbols: &mut [u8],
        count: &mut u32,
    ) -> u64 {
        let number = limits::convolve(rate, *state, data.len(), symbols.len());
        if number != 0 {
            return number;
        }
        let sent = SENT[rate as usize - 1];
        let filled = symbols.len();
        let left = match (rate, state[2]) {
            (1, 0) => self.pairs(state[0], data, symbols),
            (1, _) => self.pairs_behind(*state, data, symbols),
            _ => punctured(sent, *state, data, symbols),
        };
        (*state, *count) = ran(*state, sent.len(), data, filled, left);
        0
    }

    fn pair(&self, window: u32) -> u16 {
        let (first, second) = sums(window);
        self.0[first as usize] << 1 | self.0[!second as usize]
    }

    /// Rate 1/2 with nothing held: two octets for each.
    fn pairs(&self, register: u8, data: &[u8], symbols: &mut [u8]) -> (u8, u8) {
        let mut window = register.into();
        for (octet, pairs) in data.iter().zip(symbols.chunks_exact_mut(2)) {
            window = window << 8 | u32::from(*octet);
            pairs.copy_from_slice(&self.pair(window).to_be_bytes());
        }
        (0, 0)
    }

    /// The same behind held symbols.
    fn pairs_behind(&self, state: Coder, data: &[u8], symbols: &mut [u8]) -> (u8, u8) {
        let mut packer = Packer::new(symbols, state[2], state[3]);
        let mut window = state[0].into();
        for octet in data {
            window = window << 8 | u32::from(*octet);
            packer.held = packer.held << 16 | u64::from(self.pair(window));
            packer.holds += 16;
            packer.flush();
        }
        packer.left()
    }
}

/// C1 and C2 of the eight newest bits, at once.
fn sums(w: u32) -> (u8, u8) {
    let first = w ^ w >> 1 ^ w >> 2 ^ w >> 3 ^ w >> 6;
    let second = w ^ w >> 2 ^ w >> 3 ^ w >> 5 ^ w >> 6;
    (first as u8, second as u8)
}

fn punctured(sent: &[(bool, bool)], state: Coder, data: &[u8], symbols: &mut [u8]) -> (u8, u8) {
    let mut packer = Packer::new(symbols, state[2], state[3]);
    let mut window = state[0].into();
    let mut time = state[1] as usize;
    for octet in data {
        window = window << 8 | u32::from(*octet);
        let (c1, c2) = sums(window);
        for shift in (0..8).rev() {
            let (first, second) = sent[time];
            packer.push(u32::from(c1 >> shift), first);
            packer.push(u32::from(c2 >> shift), second);
            time = if time + 1 == sent.len() { 0 } else { time + 1 };
        }
        packer.flush();
    }
    packer.left()
}
