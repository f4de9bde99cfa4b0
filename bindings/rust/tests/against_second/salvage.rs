//! Blocks of which not every word can be repaired: what becomes of each word, and what the list says.

use crate::both::{self, Salvaged};
use crate::draw::{Draw, DEPTHS};
use ironsimmer::{Change, Words};

/// A salvaged block, and the block with the changes of its list made.
struct Outcome {
    salvaged: Salvaged,
    frame: Vec<u8>,
    repaired: Vec<u8>,
}

/// The block of a drawn frame.
fn coded(draw: &Draw, words: Words) -> Vec<u8> {
    let (answer, block) = both::encode(words, &draw.frame(words), &draw.octets(words.block_len().unwrap()));
    assert_eq!(answer, Ok(()));
    block
}

/// The symbols of one word.
fn word(octets: &[u8], depth: u32, w: usize) -> Vec<u8> {
    octets.iter().skip(w).step_by(depth as usize).copied().collect()
}

fn differing(a: &[u8], b: &[u8]) -> u32 {
    a.iter().zip(b).filter(|(a, b)| a != b).count() as u32
}

/// The block with the changes made. They come in the order of the block; old is what was received, new is another.
fn with_changes(block: &[u8], changes: &[Change]) -> Vec<u8> {
    assert!(changes.windows(2).all(|pair| pair[0].position < pair[1].position));
    let mut repaired = block.to_vec();
    for change in changes {
        assert!(change.old == block[change.position] && change.new != change.old, "{change:?}");
        repaired[change.position] = change.new;
    }
    repaired
}

/// Salvages in both programs, and demands of the answer what is true whatever the second one says: the octets behind the entries stay; the
/// frame is the front of the block with the changes made; a word that is repaired is then a codeword, as far away as is told and no
/// further than the allowance, and any other is as received; and all words are repaired exactly if decode delivers, the same.
fn salvaged(draw: &Draw, words: Words, allowance: u32, block: &[u8]) -> Outcome {
    let (before, listed) = (draw.frame(words), draw.octets(words.list_len().unwrap()));
    let (answer, frame, list) = both::salvage(words, allowance, block, &before, &listed);
    let salvaged = answer.unwrap();
    let behind = 4 * salvaged.changes.len();
    assert_eq!(list[behind..], listed[behind..]);
    let repaired = with_changes(block, &salvaged.changes);
    assert_eq!(frame, repaired[..frame.len()]);

    let mut recoded = vec![0; block.len()];
    words.encode(&frame, &mut recoded).unwrap();
    for (w, count) in salvaged.words.iter().enumerate() {
        let [received, after, codeword] = [block, &repaired, &recoded].map(|octets| word(octets, words.depth, w));
        let expected = count.map_or(&received, |_| &codeword);
        assert_eq!((&after, differing(&received, &after)), (expected, count.unwrap_or(0)), "{words:?}, word {w}");
        assert!(count.is_none_or(|count| count <= allowance));
    }
    let (decoded, found) = both::decode(words, allowance, block, &before);
    assert_eq!(decoded.is_ok(), salvaged.words.iter().all(Option::is_some));
    if let Ok(report) = decoded {
        let counts = report.counts[..words.depth as usize].iter().map(|count| Some(*count));
        assert!(counts.eq(salvaged.words.iter().copied()) && found == frame);
    }
    Outcome { salvaged, frame, repaired }
}

/// How many words were repaired and how many were not: a comparison that never met one of the two would say nothing about it.
#[derive(Default)]
struct Fates {
    repaired: usize,
    left: usize,
}

impl Fates {
    fn count(&mut self, words: &[Option<u32>]) {
        let repaired = words.iter().flatten().count();
        self.repaired += repaired;
        self.left += words.len() - repaired;
    }

    fn demand(&self, what: &str, repaired: usize, left: usize) {
        println!("{what}: {} words repaired, {} left as received", self.repaired, self.left);
        assert!(self.repaired >= repaired && self.left >= left, "{what}");
    }
}

/// Salvages a block with so many wrong symbols in each word. Whatever the second program says, a word within the allowance is as it was
/// sent; one beyond it is left as received, unless it is so far away that another codeword may be within the allowance.
fn damaged(draw: &Draw, fates: &mut Fates, words: Words, wrong: &[u32], allowance: u32) {
    let sent = coded(draw, words);
    let mut block = sent.clone();
    draw.spoil(&mut block, wrong);
    let Outcome { salvaged, repaired, .. } = salvaged(draw, words, allowance, &block);
    for (w, n) in wrong.iter().enumerate() {
        if *n <= allowance {
            assert_eq!(salvaged.words[w], Some(*n), "{words:?}, {wrong:?} wrong, allowance {allowance}");
            assert_eq!(word(&repaired, words.depth, w), word(&sent, words.depth, w));
        } else if n + allowance <= 2 * words.strength {
            assert_eq!(salvaged.words[w], None, "{words:?}, {wrong:?} wrong, allowance {allowance}");
        }
    }
    fates.count(&salvaged.words);
}

/// No symbol wrong, as many as the allowance, one more, E, E + 1, and up to all of a word, in each word another number.
#[test]
fn from_none_to_all_wrong() {
    let draw = Draw::new(71);
    let mut fates = Fates::default();
    for words in draw.all_words() {
        let e = words.strength;
        let symbols = 255 - words.fill;
        for _ in 0..8 {
            let allowance = draw.one_of(&[0, 1, e / 2, e - 1, e, e, draw.upto32(e)]);
            let any = || draw.one_of(&[0, 1, allowance, allowance + 1, e, e + 1, 2 * e, draw.upto32(e), symbols]);
            let wrong: Vec<u32> = (0..words.depth).map(|_| any().min(symbols)).collect();
            damaged(&draw, &mut fates, words, &wrong, allowance);
        }
    }
    fates.demand("salvage, none to all wrong", 800, 800);
}

/// No word wrong: nothing is listed. All words wrong alike: all are repaired, or none is.
#[test]
fn all_words_alike() {
    let draw = Draw::new(72);
    let mut fates = Fates::default();
    for words in draw.all_words() {
        let e = words.strength;
        for wrong in [0, 1, e - 1, e, e + 1] {
            for allowance in [e, e.min(wrong), wrong.saturating_sub(1).min(e - 1)] {
                damaged(&draw, &mut fates, words, &vec![wrong; words.depth as usize], allowance);
            }
        }
        let Outcome { salvaged, .. } = salvaged(&draw, words, 0, &coded(&draw, words));
        assert_eq!((salvaged.words, salvaged.changes), (vec![Some(0); words.depth as usize], vec![]));
    }
    fates.demand("salvage, all words alike", 1000, 500);
}

/// A burst of E x I + n octets, n below I, is E wrong symbols in most words and one more in n of them: with allowance E - 1 none is
/// repaired, with E those with E, which decode would have refused for the sake of the others.
#[test]
fn longer_bursts() {
    let draw = Draw::new(73);
    let mut fates = Fates::default();
    for words in draw.all_words() {
        let (e, depth) = (words.strength as usize, words.depth as usize);
        let sent = coded(&draw, words);
        for n in 0..depth {
            let mut block = sent.clone();
            let length = e * depth + n;
            let start = draw.upto(block.len() - length);
            block[start..start + length].iter_mut().for_each(|octet| *octet ^= 1 + draw.upto(254) as u8);
            let Outcome { salvaged: none, .. } = salvaged(&draw, words, words.strength - 1, &block);
            assert_eq!(none.words, vec![None; depth]);
            let Outcome { salvaged: most, .. } = salvaged(&draw, words, words.strength, &block);
            let longer = |w: usize| (start..start + n).any(|place| place % depth == w);
            assert!((0..depth).all(|w| longer(w) || most.words[w] == Some(words.strength)));
            fates.count(&none.words);
            fates.count(&most.words);
        }
    }
    fates.demand("salvage, bursts", 500, 1000);
}

/// One block at every allowance: a word is repaired from its distance on, and then always alike.
#[test]
fn larger_allowances() {
    let draw = Draw::new(74);
    let mut fates = Fates::default();
    for words in draw.all_words() {
        let mut block = coded(&draw, words);
        let wrong: Vec<u32> = (0..words.depth).map(|_| draw.upto32(words.strength + 3)).collect();
        draw.spoil(&mut block, &wrong);
        let mut before = vec![None; words.depth as usize];
        for allowance in 0..=words.strength {
            let Outcome { salvaged, repaired, .. } = salvaged(&draw, words, allowance, &block);
            for (w, count) in salvaged.words.iter().enumerate() {
                let symbols = count.map(|count| (count, word(&repaired, words.depth, w)));
                assert!(before[w].is_none() || before[w] == symbols, "{words:?}, word {w}, allowance {allowance}");
                assert!(before[w].is_some() || count.is_none_or(|count| count == allowance));
                before[w] = symbols;
            }
            fates.count(&salvaged.words);
        }
    }
    fates.demand("salvage, all allowances", 1000, 1000);
}

/// All that an outcome says of one word: its count, its information symbols, and its changes by their symbols.
fn told_of(words: Words, outcome: &Outcome, w: usize) -> (Option<u32>, Vec<u8>, Vec<Change>) {
    let depth = words.depth as usize;
    let of_word = outcome.salvaged.changes.iter().filter(|change| change.position % depth == w);
    let changes = of_word.map(|change| Change { position: change.position / depth, ..*change }).collect();
    (outcome.salvaged.words[w], word(&outcome.frame, words.depth, w), changes)
}

/// A block with these symbols as one of its words, at a drawn place, among noise or among good words.
fn among_others(draw: &Draw, words: Words, symbols: &[u8]) -> (Vec<u8>, usize) {
    let mut block = if draw.once_in(2) { coded(draw, words) } else { draw.octets(words.block_len().unwrap()) };
    let depth = words.depth as usize;
    let place = draw.upto(depth - 1);
    block.iter_mut().skip(place).step_by(depth).zip(symbols).for_each(|(octet, symbol)| *octet = *symbol);
    (block, place)
}

/// A word of a block again, in blocks of other depths: the same becomes of it.
#[test]
fn a_word_alone() {
    let draw = Draw::new(75);
    let mut fates = Fates::default();
    for words in draw.all_words() {
        let allowance = draw.upto32(words.strength);
        let mut block = coded(&draw, words);
        let wrong: Vec<u32> = (0..words.depth).map(|_| draw.upto32(allowance + 2)).collect();
        draw.spoil(&mut block, &wrong);
        let first = salvaged(&draw, words, allowance, &block);
        for w in 0..words.depth as usize {
            for depth in [1, draw.one_of(&DEPTHS)] {
                let other = Words { depth, ..words };
                let (octets, place) = among_others(&draw, other, &word(&block, words.depth, w));
                let again = salvaged(&draw, other, allowance, &octets);
                let (told, told_again) = (told_of(words, &first, w), told_of(other, &again, place));
                assert_eq!(told, told_again, "{words:?}, word {w}, in {other:?}");
                fates.count(&[told.0]);
            }
        }
    }
    fates.demand("salvage, a word alone", 200, 80);
}

/// The shortest words have one information symbol and so 256 codewords. Blocks between two of them, without and with noise, are held against
/// all 256 at every allowance, whatever the second program says.
#[test]
fn against_every_codeword() {
    let draw = Draw::new(76);
    let mut fates = Fates::default();
    for strength in [8, 16] {
        let words = Words { strength, depth: 1, fill: 254 - 2 * strength };
        let codewords: Vec<Vec<u8>> = (0..=255)
            .map(|octet| {
                let mut block = vec![0; words.block_len().unwrap()];
                words.encode(&[octet], &mut block).unwrap();
                block
            })
            .collect();
        for kept in 0..=2 * strength as usize + 1 {
            let (a, b) = (&codewords[draw.upto(255)], &codewords[draw.upto(255)]);
            let mut block = [&a[..kept], &b[kept..]].concat();
            draw.spoil(&mut block, &[draw.one_of(&[0, 0, 1, 3])]);
            let (nearest, codeword) = codewords.iter().map(|c| (differing(c, &block), c)).min().unwrap();
            for allowance in 0..=strength {
                let Outcome { salvaged, repaired, .. } = salvaged(&draw, words, allowance, &block);
                let near = nearest <= allowance;
                assert_eq!(salvaged.words, [near.then_some(nearest)]);
                assert_eq!(repaired, *if near { codeword } else { &block });
                fates.count(&salvaged.words);
            }
        }
    }
    fates.demand("salvage, against every codeword", 100, 100);
}

/// Full codewords with nonzero symbols in the fill of some words, sent without their fill: those words are left as received.
#[test]
fn nonzero_fill() {
    let draw = Draw::new(77);
    let mut fates = Fates::default();
    for words in draw.all_words().into_iter().filter(|words| words.fill > 0) {
        let full = Words { fill: 0, ..words };
        let unsent = (words.fill * words.depth) as usize;
        let mut frame = draw.frame(full);
        frame[..unsent].fill(0);
        let spoilt: Vec<bool> = (0..words.depth).map(|_| draw.once_in(2)).collect();
        for w in (0..words.depth).filter(|w| spoilt[*w as usize]) {
            frame[(draw.upto32(words.fill - 1) * words.depth + w) as usize] = 1 + draw.upto(254) as u8;
        }
        let (_, block) = both::encode(full, &frame, &draw.octets(full.block_len().unwrap()));
        let mut sent = block[unsent..].to_vec();
        let wrong = draw.upto32(words.strength - 1);
        draw.spoil(&mut sent, &vec![wrong; words.depth as usize]);
        let Outcome { salvaged, .. } = salvaged(&draw, words, words.strength, &sent);
        let expected = spoilt.iter().map(|spoilt| (!spoilt).then_some(wrong));
        assert!(expected.eq(salvaged.words.iter().copied()), "{words:?}");
        fates.count(&salvaged.words);
    }
    fates.demand("salvage, nonzero fill", 50, 50);
}
