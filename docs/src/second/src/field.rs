//! GF(256) by powers of alpha, and line octets by the trace, as source 000 section 3 (11) defines them.

use std::sync::LazyLock;

/// F(x) = x^8 + x^7 + x^2 + x + 1.
const F: u16 = 0b1_1000_0111;

const fn powers() -> [u8; 255] {
    let mut table = [0; 255];
    let mut x: u16 = 1;
    let mut n = 0;
    while n < 255 {
        table[n] = x as u8;
        x <<= 1;
        if x > 255 {
            x ^= F;
        }
        n += 1;
    }
    table
}

const fn logarithms() -> [usize; 256] {
    let mut table = [0; 256];
    let mut n = 0;
    while n < 255 {
        table[POWERS[n] as usize] = n;
        n += 1;
    }
    table
}

static POWERS: [u8; 255] = powers();
static LOGARITHMS: [usize; 256] = logarithms();

/// alpha^n.
pub fn power(n: usize) -> u8 {
    POWERS[n % 255]
}

pub fn product(a: u8, b: u8) -> u8 {
    if a == 0 || b == 0 {
        return 0;
    }
    power(LOGARITHMS[a as usize] + LOGARITHMS[b as usize])
}

/// a / b for a nonzero b.
pub fn quotient(a: u8, b: u8) -> u8 {
    assert!(b != 0);
    if a == 0 {
        return 0;
    }
    power(LOGARITHMS[a as usize] + 255 - LOGARITHMS[b as usize])
}

/// a^n for a nonzero a.
pub fn raised(a: u8, n: usize) -> u8 {
    assert!(a != 0);
    power(LOGARITHMS[a as usize] * n)
}

/// The sum of z^(2^k) for k from 0 to 7, which is 0 or 1.
fn trace(z: u8) -> u8 {
    let mut sum = 0;
    let mut term = z;
    for _ in 0..8 {
        sum ^= term;
        term = product(term, term);
    }
    sum
}

/// The basis 1, beta, .. beta^7 of source 000, whose beta is alpha^117 (not the beta of the code's zeros).
fn basis(j: usize) -> u8 {
    power(117 * j)
}

/// The dual basis by its property: Tr(l_i beta^j) is 1 for i = j and else 0.
static DUAL: LazyLock<[u8; 8]> = LazyLock::new(|| {
    std::array::from_fn(|i| {
        let fits = |l: &u8| (0..8).all(|j| trace(product(*l, basis(j))) == (i == j) as u8);
        (1..=255).find(fits).expect("a dual basis")
    })
});

/// z0 to z7, z0 in the top bit: since u is the sum of z_i l_i, z_j is Tr(u beta^j).
pub fn to_line(u: u8) -> u8 {
    (0..8).map(|j| trace(product(u, basis(j))) << (7 - j)).sum()
}

pub fn to_conventional(line: u8) -> u8 {
    (0..8).filter(|i| line >> (7 - i) & 1 == 1).fold(0, |u, i| u ^ DUAL[i])
}

#[cfg(test)]
mod tests {
    use super::*;

    #[test]
    fn table_b1() {
        for row in crate::symbols::rows() {
            if let Ok(n) = row.0.parse() {
                assert_eq!(power(n), row.1);
            }
            assert_eq!(to_line(row.1), row.2);
            assert_eq!(to_conventional(row.2), row.1);
        }
    }

    #[test]
    fn worked_symbols() {
        assert_eq!(to_conventional(0xB9), 0x2A);
        assert_eq!(to_line(0x59), 0xE8);
        assert_eq!(to_line(0x01), 0x7B);
        assert_eq!(to_line(0x87), 0xC0);
        assert_eq!(product(0x80, 0x02), 0x87);
    }

    #[test]
    fn quotients() {
        for a in 0..=255 {
            for b in 1..=255 {
                assert_eq!(product(quotient(a, b), b), a);
            }
        }
    }
}
