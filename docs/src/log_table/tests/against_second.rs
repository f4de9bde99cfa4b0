//! The encoder, both decoders and both forms of salvage against the second program, which knows the code by other methods.

use log_table::{decode, decode_by_coding_again, encode, salvage, salvage_by_coding_again, Code, Counts, Refusal};
use second::blocks;

/// Numbers that stand in for data, the same in every run.
struct Draw(u64);

impl Draw {
    fn below(&mut self, bound: usize) -> usize {
        self.0 ^= self.0 << 13;
        self.0 ^= self.0 >> 7;
        self.0 ^= self.0 << 17;
        (self.0 >> 32) as usize % bound
    }

    fn octets(&mut self, n: usize) -> Vec<u8> {
        (0..n).map(|_| self.below(256) as u8).collect()
    }

    /// Changes so many symbols of a block's word, at different places.
    fn damage(&mut self, block: &mut [u8], code: Code, word: usize, wrong: usize) {
        let mut places: Vec<usize> = (word..block.len()).step_by(code.depth as usize).collect();
        for _ in 0..wrong {
            let place = places.swap_remove(self.below(places.len()));
            block[place] ^= 1 + self.below(255) as u8;
        }
    }
}

fn second_of(code: Code) -> blocks::Code {
    blocks::Code { e: code.e.into(), i: code.depth.into(), q: code.fill.into() }
}

/// Not zero, so that it shows what was not written.
fn untouched(octets: usize) -> Vec<u8> {
    vec![170; octets]
}

/// What a call answered, and what it left in the buffer that it was lent.
#[derive(Debug, PartialEq)]
struct Outcome<T> {
    answer: Result<T, Refusal>,
    left: Vec<u8>,
}

/// The outcome of an encode, which the second program must have too.
fn coded(code: Code, frame: &[u8], block: usize) -> Outcome<()> {
    let mut left = untouched(block);
    let answer = encode(code, frame, &mut left);
    let number = answer.map_or_else(Refusal::number, |()| 0);
    assert!((number, left.clone()) == second_of(code).encode(frame, &untouched(block)), "encode, {code:?}");
    Outcome { answer, left }
}

/// The outcome of a decode in both forms, which the second program must have too.
fn decoded(code: Code, s: u32, block: &[u8], frame: usize) -> Outcome<Counts> {
    let mut left = untouched(frame);
    let answer = decode(code, s, block, &mut left);
    let outcome = Outcome { answer, left };
    let mut left = untouched(frame);
    let answer = decode_by_coding_again(code, s, block, &mut left);
    assert_eq!(outcome, Outcome { answer, left }, "the two forms, {code:?}, s {s}");
    let number = match answer {
        Ok(_) => "0".to_string(),
        Err(Refusal::Word(word)) => format!("10 {word}"),
        Err(refusal) => refusal.number().to_string(),
    };
    let counts = answer.unwrap_or_default().map(|count| count as usize);
    let expected = second_of(code).decode(s.into(), block, &untouched(frame));
    assert_eq!((number, counts), (expected.answer, expected.counts), "decode, {code:?}, s {s}");
    assert!(outcome.left == expected.frame, "the frame of decode, {code:?}, s {s}");
    outcome
}

/// Salvages in both forms, and demands that both have the second program's outcome. The list is lent with other octets than the frame.
fn salvaged(code: Code, s: u32, block: &[u8], frame: usize, list: usize) -> [Option<u32>; 8] {
    let expected = second_of(code).salvage(s.into(), block, &untouched(frame), &vec![85; list]);
    let marked = |w: usize| (expected.marks[w] == 1).then_some(expected.counts[w] as u32);
    let counts = std::array::from_fn(marked);
    for form in [salvage, salvage_by_coding_again] {
        let (mut left, mut listed) = (untouched(frame), vec![85; list]);
        let answer = form(code, s, block, &mut left, &mut listed);
        let number = answer.map_or_else(Refusal::number, |_| 0);
        assert_eq!(number, expected.number, "salvage, {code:?}, s {s}");
        assert!(left == expected.frame && listed == expected.list, "what salvage left, {code:?}, s {s}");
        if let Ok(salvage) = answer {
            assert_eq!((salvage.counts, salvage.entries), (counts, expected.entries), "salvage, {code:?}, s {s}");
        }
    }
    counts
}

fn all_codes() -> impl Iterator<Item = Code> {
    let fills = |e: u32| [0, 1, 100, 254 - 2 * e];
    let depths = |e: u32| [1, 2, 3, 4, 5, 8].into_iter().map(move |depth| (e, depth));
    [8, 16].into_iter().flat_map(depths).flat_map(move |(e, depth)| fills(e).map(|fill| Code { e, depth, fill }))
}

/// Each code with no to E wrong symbols, as many in each word: put right if s allows it.
#[test]
fn wrong_symbols_up_to_the_strength() {
    let mut draw = Draw(1);
    for code in all_codes() {
        let frame = draw.octets(code.frame_len());
        let block = coded(code, &frame, code.block_len());
        assert_eq!(block.answer, Ok(()));
        for wrong in 0..=code.e {
            let mut received = block.left.clone();
            let mut counts = [0; 8];
            for (word, count) in counts[..code.depth as usize].iter_mut().enumerate() {
                draw.damage(&mut received, code, word, wrong as usize);
                *count = wrong;
            }
            let repaired = Outcome { answer: Ok(counts), left: frame.clone() };
            assert_eq!(decoded(code, code.e, &received, frame.len()), repaired);
            assert_eq!(decoded(code, wrong, &received, frame.len()), repaired);
            if wrong > 0 {
                let refused = Outcome { answer: Err(Refusal::Word(0)), left: untouched(frame.len()) };
                assert_eq!(decoded(code, wrong - 1, &received, frame.len()), refused);
            }
        }
    }
}

/// Each code with numbers of wrong symbols that differ from word to word, now and then over E.
#[test]
fn wrong_symbols_past_the_strength() {
    let mut draw = Draw(2);
    let (mut delivered, mut refused) = (0, 0);
    for code in all_codes().chain(all_codes()).chain(all_codes()) {
        let frame = draw.octets(code.frame_len());
        let mut received = coded(code, &frame, code.block_len()).left;
        for word in 0..code.depth as usize {
            let wrong = if draw.below(8) == 0 { code.e as usize + 1 } else { draw.below(code.e as usize + 1) };
            draw.damage(&mut received, code, word, wrong);
        }
        match decoded(code, code.e, &received, frame.len()).answer {
            Ok(_) => delivered += 1,
            Err(_) => refused += 1,
        }
    }
    assert!(delivered > 20 && refused > 20, "delivered {delivered}, refused {refused}");
}

/// The same of salvage, with up to 2E wrong symbols in a word and at smaller allowances.
#[test]
fn some_words_past_the_allowance() {
    let mut draw = Draw(5);
    let (mut repaired, mut left) = (0, 0);
    for code in all_codes().chain(all_codes()).chain(all_codes()) {
        let frame = draw.octets(code.frame_len());
        let mut received = coded(code, &frame, code.block_len()).left;
        for word in 0..code.depth as usize {
            let wrong = draw.below(code.e as usize + 1) * (1 + draw.below(2));
            draw.damage(&mut received, code, word, wrong);
        }
        for s in [code.e, draw.below(code.e as usize) as u32] {
            let counts = salvaged(code, s, &received, frame.len(), 4 * received.len());
            let found = counts.iter().flatten().count();
            repaired += found;
            left += code.depth as usize - found;
        }
    }
    assert!(repaired > 200 && left > 200, "repaired {repaired}, left {left}");
}

/// A codeword of the full code whose fill is not zero, sent without it. Up to E - 1 wrong symbols more leave it the nearest, and still it
/// does not count: one of its errors is at no sent place.
#[test]
fn nonzero_fill() {
    let mut draw = Draw(3);
    for e in [8, 16] {
        let full = Code { e, depth: 1, fill: 0 };
        for (fill, last) in [(1, 0), (1, 1), (5, 0), (5, 77), (100, 0), (100, 255)] {
            let code = Code { fill: fill as u32, ..full };
            let mut frame = draw.octets(full.frame_len());
            frame[..fill].fill(0);
            frame[fill - 1] = last;
            for wrong in [0, 1, e - 1] {
                let mut word = coded(full, &frame, 255).left.split_off(fill);
                draw.damage(&mut word, code, 0, wrong as usize);
                let repaired = Ok([wrong, 0, 0, 0, 0, 0, 0, 0]);
                let expected = if last == 0 { repaired } else { Err(Refusal::Word(0)) };
                assert_eq!(decoded(code, e, &word, code.frame_len()).answer, expected);
            }
        }
    }
}

/// Parameters and lengths about their limits, with several faults at once.
#[test]
fn refusals() {
    let mut draw = Draw(4);
    let mut numbers = [0; 11];
    let one_of = |draw: &mut Draw, choices: &[u32]| choices[draw.below(choices.len())];
    let about = |draw: &mut Draw, len: usize| [len, len, len, len + 1, len - 1, 0][draw.below(6)];
    for _ in 0..20_000 {
        let code = Code {
            e: one_of(&mut draw, &[0, 7, 8, 8, 8, 9, 15, 16, 16, 16, 17, u32::MAX]),
            depth: one_of(&mut draw, &[0, 1, 1, 2, 3, 4, 5, 6, 7, 8, 9, u32::MAX]),
            fill: one_of(&mut draw, &[200, 221, 222, 222, 223, 237, 238, 239, u32::MAX]),
        };
        let s = one_of(&mut draw, &[0, 7, 8, 9, 15, 16, 17, u32::MAX]);
        let (frame, block) = if code.accept().is_ok() { (code.frame_len(), code.block_len()) } else { (1, 33) };
        let given = about(&mut draw, frame);
        coded(code, &draw.octets(given), about(&mut draw, block));
        let given = about(&mut draw, block);
        let outcome = decoded(code, s, &draw.octets(given), about(&mut draw, frame));
        salvaged(code, s, &draw.octets(given), about(&mut draw, frame), about(&mut draw, 4 * block));
        numbers[outcome.answer.map_or_else(Refusal::number, |_| 0) as usize] += 1;
    }
    for number in [1, 2, 3, 4, 5, 6, 10] {
        assert!(numbers[number] > 200, "refusal {number} came {} times", numbers[number]);
    }
}
