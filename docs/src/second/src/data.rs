//! Octets that stand in for data, and how a buffer is written.

/// The next of the numbers that stand in for data.
pub fn turn(x: u32) -> u32 {
    (x * 25173 + 13849) % 65536
}

pub fn drawn(seed: u32, n: usize) -> Vec<u8> {
    let mut x = seed;
    (0..n)
        .map(|_| {
            x = turn(x);
            (x >> 8) as u8
        })
        .collect()
}

/// A short buffer whole; a long one by its length and a sum of its octets.
pub fn buffer(octets: &[u8]) -> String {
    if octets.len() <= 16 {
        octets.iter().map(|o| format!(" {o:02x}")).collect()
    } else {
        let sum = octets.iter().fold(0u32, |s, &o| (s * 31 + o as u32) % 65536);
        format!(" {} {}", octets.len(), sum)
    }
}

/// The bits of octets, top bit first.
pub fn bits(octets: &[u8]) -> Vec<bool> {
    octets.iter().flat_map(|o| (0..8).rev().map(move |k| o >> k & 1 == 1)).collect()
}

/// Bits packed top bit first, the last octet filled with zeros.
pub fn packed(bits: &[bool]) -> Vec<u8> {
    bits.chunks(8).map(|c| c.iter().enumerate().map(|(k, &b)| (b as u8) << (7 - k)).sum()).collect()
}
