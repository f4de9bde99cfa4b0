//! Encode and decode on whole blocks, and the line that each call's outcome makes.

use crate::data::buffer;
use crate::field::{to_conventional, to_line};
use crate::limits::{decode_number, encode_number};
use crate::word::{checks, nearest};

/// The parameters that every call on words has.
#[derive(Clone, Copy)]
pub struct Code {
    pub e: u64,
    pub i: u64,
    pub q: u64,
}

impl Code {
    /// Symbol `Q + k` of word w is octet `k I + w`.
    pub fn word(&self, octets: &[u8], w: usize) -> Vec<u8> {
        let mut word = vec![0; self.q as usize];
        word.extend(octets.iter().skip(w).step_by(self.i as usize).map(|line| to_conventional(*line)));
        word
    }

    fn put_word(&self, octets: &mut [u8], w: usize, word: &[u8]) {
        let places = octets.iter_mut().skip(w).step_by(self.i as usize);
        places.zip(&word[self.q as usize..]).for_each(|(line, c)| *line = to_line(*c));
    }

    /// The number, and the block as it is afterwards.
    pub fn encode(&self, frame: &[u8], before: &[u8]) -> (u64, Vec<u8>) {
        let mut block = before.to_vec();
        let number = encode_number(self.e, self.i, self.q, frame.len() as u64, before.len() as u64);
        if number == 0 {
            for w in 0..self.i as usize {
                let mut word = self.word(frame, w);
                let checks = checks(self.e as usize, &word);
                word.extend(checks);
                self.put_word(&mut block, w, &word);
            }
        }
        (number, block)
    }

    pub fn decode(&self, s: u64, block: &[u8], before: &[u8]) -> Decoding {
        let number = decode_number(self.e, self.i, self.q, s, block.len() as u64, before.len() as u64);
        if number != 0 {
            return Decoding::refused(number.to_string(), before);
        }
        let mut out = Decoding::refused("0".to_string(), before);
        for w in 0..self.i as usize {
            let received = self.word(block, w);
            let Some((codeword, count)) = nearest(self.e as usize, self.q as usize, s as usize, &received) else {
                return Decoding::refused(format!("10 {w}"), before);
            };
            self.put_word(&mut out.frame, w, &codeword[..255 - 2 * self.e as usize]);
            out.counts[w] = count;
        }
        out
    }

    /// Writes the line of an encode, and gives the block as it is afterwards.
    pub fn write_encode(&self, frame: &[u8], before: &[u8]) -> Vec<u8> {
        let (number, block) = self.encode(frame, before);
        println!("encode {} {} {} {number}{}", self.e, self.i, self.q, buffer(&block));
        block
    }

    /// Writes the line of a decode into a frame of so many octets 170.
    pub fn write_decode(&self, s: u64, block: &[u8], frame: usize) {
        let out = self.decode(s, block, &vec![170; frame]);
        println!("decode {} {} {} {s} {} {}", self.e, self.i, self.q, out.answer, out.report());
    }
}

pub struct Decoding {
    pub answer: String,
    pub counts: [usize; 8],
    pub frame: Vec<u8>,
}

impl Decoding {
    /// What a line says after the answer: the total, the eight counts and the frame afterwards.
    pub fn report(&self) -> String {
        let total: usize = self.counts.iter().sum();
        let counts: String = self.counts.iter().map(|c| format!(" {c}")).collect();
        format!("{total}{counts}{}", buffer(&self.frame))
    }

    pub fn refused(answer: String, before: &[u8]) -> Decoding {
        Decoding { answer, counts: [0; 8], frame: before.to_vec() }
    }
}

#[cfg(test)]
mod tests {
    use super::*;
    use crate::data::drawn;

    const SHORTEST: Code = Code { e: 16, i: 1, q: 222 };

    #[test]
    fn case_j() {
        assert_eq!(SHORTEST.encode(&[0], &[170; 33]), (0, vec![0; 33]));
    }

    #[test]
    fn case_k() {
        let mut block = [0; 33];
        block[..16].fill(0xFF);
        let found = SHORTEST.decode(16, &block, &[170]);
        assert_eq!((found.answer.as_str(), found.counts, found.frame), ("0", [16, 0, 0, 0, 0, 0, 0, 0], vec![0]));
        let lost = SHORTEST.decode(15, &block, &[170]);
        assert_eq!((lost.answer.as_str(), lost.counts, lost.frame), ("10 0", [0; 8], vec![170]));
    }

    #[test]
    fn round_trips() {
        for e in [8, 16] {
            for i in [1, 2, 3, 4, 5, 8] {
                for q in [0, 1, 100, 254 - 2 * e] {
                    let code = Code { e, i, q };
                    let frame = drawn((e + i + q) as u32, ((255 - 2 * e - q) * i) as usize);
                    let (number, mut block) = code.encode(&frame, &vec![170; ((255 - q) * i) as usize]);
                    assert_eq!((number, &block[..frame.len()]), (0, &frame[..]));
                    for octet in &mut block[..(e * i) as usize] {
                        *octet ^= 0x55;
                    }
                    let back = code.decode(e, &block, &vec![170; frame.len()]);
                    assert_eq!((back.answer.as_str(), back.frame), ("0", frame));
                    assert!(back.counts[..i as usize].iter().all(|c| *c == e as usize));
                }
            }
        }
    }
}
