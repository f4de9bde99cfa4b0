//! The convolutional coder by tables, in groups of octets: the fastest plain Rust for it that we know.

use super::convolution::{enter, ran, Packer, SENT};
use super::limits;
use crate::calls::Coder;
use std::array::from_fn;

/// The symbols of an octet from a place of the period on: those after a register of zeros, and what another register adds to them, since
/// each is a sum of bits.
struct Row {
    of_octet: [u16; 256],
    of_register: [u16; 64],
    count: u32,
}

impl Row {
    fn new(rate: usize, place: usize) -> Row {
        let inverted = u32::from(rate == 1);
        let sent = |mut window: u32, octet: u8| {
            let mut packer = Packer::new(&mut [], 0, 0);
            let mut times = SENT[rate - 1].iter().cycle().skip(place);
            enter(&mut packer, &mut times, &mut window, octet, inverted);
            (packer.held as u16, packer.holds)
        };
        let (of_zeros, count) = sent(0, 0);
        Row {
            of_octet: from_fn(|octet| sent(0, octet as u8).0),
            of_register: from_fn(|register| sent(register as u32, 0).0 ^ of_zeros),
            count,
        }
    }

    #[inline(always)]
    fn symbols(&self, register: u8, octet: u8) -> u64 {
        u64::from(self.of_octet[octet as usize] ^ self.of_register[register as usize & 63])
    }
}

/// For each rate a row for each place of its period.
pub struct ByTables([Vec<Row>; 5]);

impl ByTables {
    pub fn new() -> ByTables {
        ByTables(from_fn(|k| {
            let places = 0..SENT[k].len();
            places.map(|place| Row::new(k + 1, place)).collect()
        }))
    }

    pub fn convolve(
        &self,
        rate: u32,
        state: &mut Coder,
        data: &[u8],
        symbols: &mut [u8],
        count: &mut u32,
    ) -> u64 {
        let number = limits::convolve(rate, *state, data.len(), symbols.len());
        if number != 0 {
            return number;
        }
        let [one, two, three, five, seven] = &self.0;
        (*state, *count) = match rate {
            1 => in_groups::<1, 4, 8>(one, *state, data, symbols),
            2 => in_groups::<2, 4, 6>(two, *state, data, symbols),
            3 => in_groups::<3, 3, 4>(three, *state, data, symbols),
            4 => in_groups::<5, 5, 6>(five, *state, data, symbols),
            _ => in_groups::<7, 7, 8>(seven, *state, data, symbols),
        };
        0
    }
}

/// All octets. N of them are so many periods of P bits that they give M whole octets of symbols, at most eight: they are taken together.
fn in_groups<const P: usize, const N: usize, const M: usize>(
    rows: &[Row],
    state: Coder,
    data: &[u8],
    symbols: &mut [u8],
) -> (Coder, u32) {
    let [register, place, holds, held] = state;
    let filled = symbols.len();
    let rows: [&Row; N] = from_fn(|k| &rows[(place as usize + 8 * k) % P]);
    let (groups, rest) = data.as_chunks::<N>();
    let (outputs, last) = symbols.split_at_mut(M * groups.len());
    let outputs = outputs.as_chunks_mut::<M>().0;
    let (mut register, held) = whole_groups(rows, groups, outputs, register, holds, held);
    let mut packer = Packer::new(last, holds, held);
    for (row, octet) in rows.iter().zip(rest) {
        packer.held = packer.held << row.count | row.symbols(register, *octet);
        packer.holds += row.count;
        register = octet & 63;
        packer.flush();
    }
    ran(state, P, data, filled, packer.left())
}

/// The register and the held symbols that groups of octets leave; the number of those held stays.
fn whole_groups<const N: usize, const M: usize>(
    rows: [&Row; N],
    groups: &[[u8; N]],
    outputs: &mut [[u8; M]],
    mut register: u8,
    holds: u8,
    held: u8,
) -> (u8, u8) {
    // At the top, and what a group sends below them.
    let mut held = u64::from(held & !(255 >> holds)) << 56;
    for (group, output) in groups.iter().zip(outputs) {
        let mut sent = 0;
        for (row, octet) in rows.iter().zip(group) {
            sent = sent << row.count | row.symbols(register, *octet);
            register = octet & 63;
        }
        sent <<= 64 - 8 * M;
        let octets = (held | sent >> holds).to_be_bytes();
        output.copy_from_slice(&octets[..M]);
        held = sent.unbounded_shl(8 * M as u32 - u32::from(holds));
    }
    (register, (held >> 56) as u8)
}
