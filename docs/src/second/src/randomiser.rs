//! The sequence from its recurrence, as one long list of bits.

use crate::data::{bits, buffer, drawn, packed};

/// The first n bits of the sequence whose first eight bits are given.
pub fn sequence(first: &[bool], n: usize) -> Vec<bool> {
    let mut b = first.to_vec();
    for k in 0..n {
        b.push(b[k] ^ b[k + 3] ^ b[k + 5] ^ b[k + 7]);
    }
    b.truncate(n);
    b
}

/// Refusal 5 over 2,040 octets; otherwise the block with the sequence added.
pub fn randomised(block: &[u8]) -> Result<Vec<u8>, u64> {
    if block.len() > 2040 {
        return Err(5);
    }
    let added = sequence(&[true; 8], 8 * block.len());
    let sum: Vec<bool> = bits(block).iter().zip(&added).map(|(a, b)| a ^ b).collect();
    Ok(packed(&sum))
}

pub fn write_all() {
    // As source 000 prints the first 40 bits.
    println!("sequence 11111111 01001000 00001110 11000000 10011010");
    for content in 0..=255u8 {
        let next = packed(&sequence(&bits(&[content]), 16));
        println!("register {:02x} {:02x}", next[0], next[1]);
    }
    for n in [0, 1, 5, 300, 2040, 2041] {
        let block = drawn(7, n);
        match randomised(&block) {
            Ok(once) => println!("randomise 0{} twice 0{}", buffer(&once), buffer(&block)),
            Err(k) => println!("randomise {k}{} twice {k}{}", buffer(&block), buffer(&block)),
        }
    }
}
