//! The encoder: a table of 256 rows, the generator's multiples as line octets, one row for each feedback octet.
//! (Log tables take 2E products a symbol here, against four sums of eight octets.)

use crate::code::{Code, Refusal};
use crate::field::{beta_log, exp, product, to_conventional, to_line};

/// 32 octets, the first in the lowest bits: the checks of a word while its symbols enter.
type Row = [u64; 4];

static EIGHT: [Row; 256] = rows(&generator::<16>());
static SIXTEEN: [Row; 256] = rows(&generator::<32>());

/// The generator without its leading one, highest power first.
const fn generator<const CHECKS: usize>() -> [u8; CHECKS] {
    let mut coefficients = [0; CHECKS];
    let mut degree = 0;
    while degree < CHECKS {
        let zero = exp(beta_log(128 - CHECKS / 2 + degree));
        let mut k = degree;
        while k > 0 {
            coefficients[k] ^= product(coefficients[k - 1], zero);
            k -= 1;
        }
        coefficients[0] ^= zero;
        degree += 1;
    }
    coefficients
}

/// The row that each feedback octet adds. The line octets are a linear image of the field, so the sums may be taken of them.
const fn rows(generator: &[u8]) -> [Row; 256] {
    let mut rows = [[0; 4]; 256];
    let mut feedback = 0;
    while feedback < 256 {
        let factor = to_conventional(feedback as u8);
        let mut j = 0;
        while j < generator.len() {
            let octet = to_line(product(factor, generator[j]));
            rows[feedback][j / 8] |= (octet as u64) << (8 * (j % 8));
            j += 1;
        }
        feedback += 1;
    }
    rows
}

#[inline(always)]
fn rows_of(e: u32) -> &'static [Row; 256] {
    match e {
        8 => &EIGHT,
        _ => &SIXTEEN,
    }
}

/// A word's checks when one more symbol has entered.
#[inline(always)]
fn stepped(rows: &[Row; 256], checks: Row, symbol: u8) -> Row {
    let added = &rows[usize::from(symbol ^ checks[0] as u8)];
    [
        (checks[0] >> 8 | checks[1] << 56) ^ added[0],
        (checks[1] >> 8 | checks[2] << 56) ^ added[1],
        (checks[2] >> 8 | checks[3] << 56) ^ added[2],
        (checks[3] >> 8) ^ added[3],
    ]
}

/// The same on octets, for a frame that comes in portions.
#[inline(always)]
pub fn entered(e: u32, checks: [u8; 32], symbol: u8) -> [u8; 32] {
    let part = |j: usize| u64::from_le_bytes(std::array::from_fn(|k| checks[8 * j + k]));
    let after = stepped(rows_of(e), std::array::from_fn(part), symbol);
    let mut octets = [0; 32];
    for (eight, part) in octets.chunks_exact_mut(8).zip(after) {
        eight.copy_from_slice(&part.to_le_bytes());
    }
    octets
}

/// The check octets of each word of a frame, as line octets.
pub(crate) fn checks(code: Code, frame: &[u8]) -> [[u8; 32]; 8] {
    let rows = rows_of(code.e);
    let mut checks = [[0; 4]; 8];
    // Word after word would wait for each feedback in turn; in the order of the frame the words overlap.
    for symbols in frame.chunks_exact(code.depth as usize) {
        for (word, symbol) in checks.iter_mut().zip(symbols) {
            *word = stepped(rows, *word, *symbol);
        }
    }
    checks.map(|word: Row| std::array::from_fn(|j| (word[j / 8] >> (8 * (j % 8))) as u8))
}

/// Codes a frame. After a refusal the block is as it was.
pub fn encode(code: Code, frame: &[u8], block: &mut [u8]) -> Result<(), Refusal> {
    code.accept_encode(frame.len(), block.len())?;
    let checks = checks(code, frame);
    let (information, rest) = block.split_at_mut(frame.len());
    information.copy_from_slice(frame);
    for (j, octets) in rest.chunks_exact_mut(code.depth as usize).enumerate() {
        for (octet, word) in octets.iter_mut().zip(&checks) {
            *octet = word[j];
        }
    }
    Ok(())
}
