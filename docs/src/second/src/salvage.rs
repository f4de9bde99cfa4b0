//! Salvage of part of a frame, by document 02, (vii): the errors of each word by themselves, the changes that they make in the block, and
//! those of all words sorted by their positions.

use crate::blocks::Code;
use crate::data::{buffer, drawn};
use crate::field::to_line;
use crate::limits::salvage_number;
use crate::word::errors;

/// A changed octet of a block.
#[derive(Clone, Copy, Debug, PartialEq, Eq, PartialOrd, Ord)]
pub struct Change {
    pub position: usize,
    pub old: u8,
    pub new: u8,
}

impl Change {
    fn entry(&self) -> [u8; 4] {
        [(self.position >> 8) as u8, self.position as u8, self.old, self.new]
    }
}

/// The number, which words are repaired (1) or not (0), in how many symbols, and frame and list as they are afterwards.
pub struct Salvage {
    pub number: u64,
    pub marks: [u8; 8],
    pub counts: [usize; 8],
    pub entries: usize,
    pub frame: Vec<u8>,
    pub list: Vec<u8>,
}

impl Salvage {
    fn untouched(number: u64, frame: &[u8], list: &[u8]) -> Salvage {
        Salvage { number, marks: [0; 8], counts: [0; 8], entries: 0, frame: frame.to_vec(), list: list.to_vec() }
    }

    /// The front of the block with its changes becomes the frame, and the entries of all changes the front of the list.
    fn put(&mut self, block: &[u8], changes: &[Change]) {
        let front = self.frame.len();
        self.frame.copy_from_slice(&block[..front]);
        changes.iter().filter(|c| c.position < front).for_each(|c| self.frame[c.position] = c.new);
        self.list.chunks_mut(4).zip(changes).for_each(|(entry, c)| entry.copy_from_slice(&c.entry()));
        self.entries = changes.len();
    }

    /// What a line says after the number: marks, counts, entries, the frame, the list's entries and what stands behind them.
    fn told(&self) -> String {
        let marks: String = self.marks.iter().map(|m| format!(" {m}")).collect();
        let counts: String = self.counts.iter().map(|c| format!(" {c}")).collect();
        let (entries, behind) = self.list.split_at(4 * self.entries);
        let octets: String = entries.iter().map(|o| format!(" {o:02x}")).collect();
        format!("{marks}{counts} {}{}{octets}{}", self.entries, buffer(&self.frame), buffer(behind))
    }
}

impl Code {
    /// The changes that repair word w, if it can be repaired. Octets on the line add as symbols do.
    fn changes(&self, s: u64, block: &[u8], w: usize) -> Option<Vec<Change>> {
        let errors = errors(self.e as usize, self.q as usize, s as usize, &self.word(block, w))?;
        let change = |(place, value): (usize, u8)| {
            let position = (place - self.q as usize) * self.i as usize + w;
            Change { position, old: block[position], new: block[position] ^ to_line(value) }
        };
        Some(errors.into_iter().map(change).collect())
    }

    pub fn salvage(&self, s: u64, block: &[u8], frame: &[u8], list: &[u8]) -> Salvage {
        let [received, informed, listed] = [block, frame, list].map(|octets| octets.len() as u64);
        let number = salvage_number(self.e, self.i, self.q, s, received, informed, listed);
        let mut out = Salvage::untouched(number, frame, list);
        if number != 0 {
            return out;
        }
        let mut all = vec![];
        for w in 0..self.i as usize {
            if let Some(changes) = self.changes(s, block, w) {
                out.marks[w] = 1;
                out.counts[w] = changes.len();
                all.extend(changes);
            }
        }
        all.sort();
        out.put(block, &all);
        out
    }

    /// Writes the line of a salvage into a frame of so many octets 170 and a list of so many octets that are drawn.
    pub fn write_salvage(&self, s: u64, block: &[u8], frame: usize, list: usize) {
        let out = self.salvage(s, block, &vec![170; frame], &drawn(51, list));
        println!("salvage {} {} {} {s} {}{}", self.e, self.i, self.q, out.number, out.told());
    }
}

#[cfg(test)]
mod tests {
    use super::*;
    use crate::compare::change;
    use crate::word::checks;

    fn sizes() -> Vec<Code> {
        let all = [8, 16].map(|e| [1, 2, 3, 4, 5, 8].map(|i| [0, 1, 100, 254 - 2 * e].map(|q| Code { e, i, q })));
        all.concat().concat()
    }

    fn block_len(code: Code) -> usize {
        ((255 - code.q) * code.i) as usize
    }

    fn frame_len(code: Code) -> usize {
        block_len(code) - (2 * code.e * code.i) as usize
    }

    fn coded(code: Code, frame: &[u8]) -> Vec<u8> {
        let (number, block) = code.encode(frame, &vec![170; block_len(code)]);
        assert_eq!(number, 0);
        block
    }

    fn lent(code: Code) -> (Vec<u8>, Vec<u8>) {
        (vec![170; frame_len(code)], drawn(7, 4 * block_len(code)))
    }

    fn salvaged(code: Code, s: u64, block: &[u8]) -> Salvage {
        let (frame, list) = lent(code);
        code.salvage(s, block, &frame, &list)
    }

    /// No word wrong, all as wrong as can be, different numbers, the last past E, some past E, all past E.
    fn damages(e: usize, depth: usize) -> [Vec<usize>; 6] {
        let by_word = |wrong: &dyn Fn(usize) -> usize| (0..depth).map(wrong).collect();
        [
            by_word(&|_| 0),
            by_word(&|_| e),
            by_word(&|w| (5 * w + 2) % (e + 1)),
            by_word(&|w| (w + 1) / depth * (e + 1)),
            by_word(&|w| (11 * w + 6) % (e + 2)),
            by_word(&|_| e + 1),
        ]
    }

    fn damaged(code: Code, sent: &[u8], wrong: &[usize]) -> Vec<u8> {
        let mut block = sent.to_vec();
        let mut seed = (code.q + code.i) as u32;
        for (w, n) in wrong.iter().enumerate() {
            seed = change(&mut block, code.i as usize, w, *n, seed);
        }
        block
    }

    fn entries(out: &Salvage) -> Vec<Change> {
        let octets = out.list[..4 * out.entries].chunks(4);
        octets.map(|x| Change { position: 256 * x[0] as usize + x[1] as usize, old: x[2], new: x[3] }).collect()
    }

    /// The block with the list's entries applied, which must rise, be true of the block, and be followed by what stood in the list.
    fn repaired(code: Code, block: &[u8], out: &Salvage) -> Vec<u8> {
        let changes = entries(out);
        assert!(changes.windows(2).all(|pair| pair[0].position < pair[1].position));
        assert_eq!(out.list[4 * out.entries..], lent(code).1[4 * out.entries..]);
        let mut repaired = block.to_vec();
        for change in changes {
            assert!(change.old == block[change.position] && change.new != change.old);
            repaired[change.position] = change.new;
        }
        repaired
    }

    /// The frame is the repaired block's; a word marked is a codeword that differs in as many symbols as are counted, which the allowance
    /// allows; any other is as received.
    fn confirm(code: Code, s: u64, block: &[u8], out: &Salvage) {
        let repaired = repaired(code, block, out);
        assert_eq!((out.number, &out.frame[..]), (0, &repaired[..frame_len(code)]));
        for w in 0..code.i as usize {
            let (before, after) = (code.word(block, w), code.word(&repaired, w));
            let differing = before.iter().zip(&after).filter(|(a, b)| a != b).count();
            let information = &after[..255 - 2 * code.e as usize];
            assert_eq!(differing, out.counts[w]);
            match out.marks[w] {
                1 => {
                    assert!(differing as u64 <= s && checks(code.e as usize, information) == after[information.len()..])
                }
                mark => assert_eq!((mark, differing), (0, 0)),
            }
        }
        let beyond = code.i as usize..;
        assert!(out.marks[beyond.clone()].iter().all(|m| *m == 0) && out.counts[beyond].iter().all(|c| *c == 0));
    }

    /// Words within the allowance come back as they were sent; all words are repaired exactly if decode delivers, with its frame and counts.
    #[test]
    fn as_decode() {
        for code in sizes() {
            let sent = coded(code, &drawn(29, frame_len(code)));
            for wrong in damages(code.e as usize, code.i as usize) {
                let block = damaged(code, &sent, &wrong);
                for s in [0, 5, code.e - 1, code.e] {
                    let out = salvaged(code, s, &block);
                    confirm(code, s, &block, &out);
                    let repaired = repaired(code, &block, &out);
                    for (w, n) in wrong.iter().enumerate().filter(|(_, n)| **n as u64 <= code.e) {
                        let near = *n as u64 <= s;
                        assert_eq!((out.marks[w], out.counts[w]), (near as u8, if near { *n } else { 0 }));
                        assert!(!near || code.word(&repaired, w) == code.word(&sent, w));
                    }
                    let delivered = code.decode(s, &block, &lent(code).0);
                    let whole = out.marks[..code.i as usize].iter().all(|mark| *mark == 1);
                    assert_eq!(whole, delivered.answer == "0");
                    assert!(!whole || (out.frame, out.counts) == (delivered.frame, delivered.counts));
                }
            }
        }
    }

    /// Word w by itself: its mark, its count, its information octets, and its changes by their symbols.
    fn told_of(code: Code, out: &Salvage, w: usize) -> (u8, usize, Vec<u8>, Vec<Change>) {
        let depth = code.i as usize;
        let of_word = entries(out).into_iter().filter(|change| change.position % depth == w);
        let changes = of_word.map(|change| Change { position: change.position / depth, ..change }).collect();
        (out.marks[w], out.counts[w], out.frame.iter().skip(w).step_by(depth).copied().collect(), changes)
    }

    /// The same of each word in a block of its own, and as the last word of blocks of other depths, among drawn octets.
    #[test]
    fn a_word_alone() {
        for code in sizes() {
            let wrong = &damages(code.e as usize, code.i as usize)[4];
            let block = damaged(code, &coded(code, &drawn(43, frame_len(code))), wrong);
            let out = salvaged(code, code.e, &block);
            for w in 0..code.i as usize {
                for i in [1, 3, 8] {
                    let other = Code { i, ..code };
                    let mut octets = drawn(w as u32, block_len(other));
                    let word = block.iter().skip(w).step_by(code.i as usize);
                    octets.iter_mut().skip(i as usize - 1).step_by(i as usize).zip(word).for_each(|(o, x)| *o = *x);
                    let last = told_of(other, &salvaged(other, code.e, &octets), i as usize - 1);
                    assert_eq!(told_of(code, &out, w), last);
                }
            }
        }
    }

    fn distance(a: &[u8], b: &[u8]) -> usize {
        a.iter().zip(b).filter(|(a, b)| a != b).count()
    }

    /// All blocks of one word without errors: sums of those with one information octet that is not zero.
    fn all_codewords(code: Code) -> Vec<Vec<u8>> {
        let sum = |a: &[u8], b: &[u8]| a.iter().zip(b).map(|(a, b)| a ^ b).collect::<Vec<u8>>();
        (0..frame_len(code)).fold(vec![vec![0; block_len(code)]], |sums, at| {
            let octet_at = |octet| (0..frame_len(code)).map(|k| if k == at { octet } else { 0 }).collect::<Vec<u8>>();
            let one: Vec<Vec<u8>> = (0..=255).map(|octet| coded(code, &octet_at(octet))).collect();
            sums.iter().flat_map(|a| one.iter().map(|b| sum(a, b))).collect()
        })
    }

    /// Holds a block of one word, at each allowance, against all codewords with zero fill.
    fn against_all(code: Code, codewords: &[Vec<u8>], block: &[u8]) {
        let (nearest, codeword) = codewords.iter().map(|c| (distance(c, block), c)).min().unwrap();
        for s in 0..=code.e {
            let out = salvaged(code, s, block);
            let near = nearest as u64 <= s;
            let (expected, count) = if near { (&codeword[..], nearest) } else { (block, 0) };
            assert_eq!((out.marks[0], out.counts[0], out.entries), (near as u8, count, count));
            assert_eq!(repaired(code, block, &out), expected);
        }
    }

    /// Words of one and of two information symbols: the front of one codeword before the rest of another, without and with noise.
    #[test]
    fn all_codewords_tried() {
        for (e, q) in [(8, 238), (16, 222), (8, 237)] {
            let code = Code { e, i: 1, q };
            let codewords = all_codewords(code);
            for front in 0..=block_len(code) {
                let (a, b) = (&codewords[37 * front % 256], &codewords[(91 * front + 1) % codewords.len()]);
                let mut block = [&a[..front], &b[front..]].concat();
                against_all(code, &codewords, &block);
                change(&mut block, 1, 0, front % 5, front as u32);
                against_all(code, &codewords, &block);
            }
            against_all(code, &codewords, &drawn(3, block_len(code)));
        }
    }

    /// A full codeword with a nonzero symbol in the fill of its last word, sent without its fill: that word alone is not repaired.
    #[test]
    fn nonzero_fill() {
        for code in sizes().into_iter().filter(|code| code.q > 0) {
            let (unsent, full) = ((code.q * code.i) as usize, Code { q: 0, ..code });
            let mut frame = drawn(31, frame_len(full));
            frame[..unsent].fill(0);
            frame[unsent - 1] = 1;
            let block = &coded(full, &frame)[unsent..];
            let out = salvaged(code, code.e, block);
            let last = code.i as usize - 1;
            let mut marks = [0; 8];
            marks[..last].fill(1);
            assert_eq!((out.number, out.marks, out.counts, out.entries), (0, marks, [0; 8], 0));
            assert_eq!(out.frame, block[..frame_len(code)]);
        }
    }

    /// Each fault with all that come after it in the order; frame and list stay.
    #[test]
    fn refusals() {
        for (e, i, q, s, block, frame, list, number) in [
            (7, 6, 300, 400, 0, 0, 1, 1),
            (16, 6, 300, 400, 0, 0, 1, 2),
            (16, 2, 223, 400, 0, 0, 1, 3),
            (16, 2, 222, 17, 0, 0, 1, 4),
            (16, 2, 222, 16, 65, 0, 1, 5),
            (16, 2, 222, 16, 65, 2, 264, 5),
            (16, 2, 222, 16, 66, 1, 264, 6),
            (16, 2, 222, 16, 66, 3, 265, 6),
            (16, 2, 222, 16, 66, 2, 263, 6),
            (16, 2, 222, 16, 66, 2, 265, 6),
            (16, 2, 222, 16, 66, 2, 66, 6),
        ] {
            let (frame, list) = (drawn(1, frame), drawn(2, list));
            let out = Code { e, i, q }.salvage(s, &vec![0; block], &frame, &list);
            assert_eq!((out.number, out.marks, out.counts, out.entries), (number, [0; 8], [0; 8], 0));
            assert_eq!((out.frame, out.list), (frame, list));
        }
    }
}
