//! GF(256) by tables of powers and logarithms of alpha, and the line octets by a table each way.

/// F(x) = x^8 + x^7 + x^2 + x + 1, without its highest term.
const F: u8 = 0x87;

/// What a bit of an octet adds, top bit first.
const LINE_ROWS: [u8; 8] = [0x8D, 0xEF, 0xEC, 0x86, 0xFA, 0x99, 0xAF, 0x7B];
const CONVENTIONAL_ROWS: [u8; 8] = [0xC5, 0x42, 0x2E, 0xFD, 0xF0, 0x79, 0xAC, 0xCC];

/// Stands for the logarithm of zero: every sum with it falls where the table of powers has zeros, so that no product asks whether a factor
/// is zero.
const NO_LOG: u16 = 510;

/// alpha^n for n below 510, so that a sum of two logarithms needs no remainder; zeros above.
static EXP: [u8; 1024] = powers();
static LOG: [u16; 256] = logarithms();
static TO_LINE: [u8; 256] = sums_of_rows(LINE_ROWS);
static TO_CONVENTIONAL: [u8; 256] = sums_of_rows(CONVENTIONAL_ROWS);

const fn powers() -> [u8; 1024] {
    let mut table = [0; 1024];
    let mut power: u8 = 1;
    let mut n = 0;
    while n < 255 {
        table[n] = power;
        table[n + 255] = power;
        power = power << 1 ^ if power < 128 { 0 } else { F };
        n += 1;
    }
    table
}

const fn logarithms() -> [u16; 256] {
    let mut table = [NO_LOG; 256];
    let mut n = 0;
    while n < 255 {
        table[EXP[n] as usize] = n as u16;
        n += 1;
    }
    table
}

const fn sums_of_rows(rows: [u8; 8]) -> [u8; 256] {
    let mut table = [0; 256];
    let mut octet: usize = 1;
    while octet < 256 {
        // An octet without its lowest one is smaller, so its sum is there already.
        let lowest = octet.trailing_zeros() as usize;
        table[octet] = table[octet & (octet - 1)] ^ rows[7 - lowest];
        octet += 1;
    }
    table
}

/// alpha^n for a sum n of at most two logarithms. The mask spares a test of the bound.
#[inline(always)]
pub const fn exp(n: usize) -> u8 {
    EXP[n & 1023]
}

#[inline(always)]
pub const fn log(a: u8) -> usize {
    LOG[a as usize] as usize
}

#[inline(always)]
pub const fn product(a: u8, b: u8) -> u8 {
    exp(log(a) + log(b))
}

/// a / b for a nonzero b.
#[inline(always)]
pub const fn quotient(a: u8, b: u8) -> u8 {
    exp(log(a) + 255 - log(b))
}

/// The logarithm of beta^n, beta = alpha^11.
#[inline(always)]
pub const fn beta_log(n: usize) -> usize {
    11 * n % 255
}

#[inline(always)]
pub const fn to_line(conventional: u8) -> u8 {
    TO_LINE[conventional as usize]
}

#[inline(always)]
pub const fn to_conventional(line: u8) -> u8 {
    TO_CONVENTIONAL[line as usize]
}

/// The values, at points that are given by their logarithms, of a polynomial whose coefficients come highest power first. The loop over the
/// coefficients is the outer one: a sum waits for its own product before, and there are others to go on with meanwhile.
#[inline(always)]
pub fn values<const N: usize>(points: &[usize; N], coefficients: impl Iterator<Item = u8>) -> [u8; N] {
    let mut sums = [0; N];
    for coefficient in coefficients {
        for (sum, point) in sums.iter_mut().zip(points) {
            *sum = exp(log(*sum) + point) ^ coefficient;
        }
    }
    sums
}
