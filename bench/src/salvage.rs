//! Salvage beside decode of the same blocks: what it costs to list the changes and to go on past a word.

use crate::agreement;
use crate::calls::{Calls, Code};
use crate::cases::{Case, Input, Lent, Work, INPUTS};
use crate::data::Draw;
use crate::timing::{self, pair, Timing};

const ROUNDS: usize = 100;

/// How much longer than decode it may take where all words are good.
const ASKED: f64 = 1.15;

/// Which symbols of a block are wrong.
#[derive(Clone, Copy)]
enum Damage {
    /// One of the whole block.
    One,
    /// So many of each word.
    Each(u32),
    /// One more of word 1 than can be put right, and as many of the others as can be.
    Lost,
}

/// Strength, depth, fill, damage.
const CASES: [(u32, u32, u32, Damage); 14] = [
    (16, 5, 0, Damage::Each(0)),
    (16, 5, 0, Damage::One),
    (16, 5, 0, Damage::Each(1)),
    (16, 5, 0, Damage::Each(8)),
    (16, 5, 0, Damage::Each(16)),
    (8, 5, 0, Damage::Each(4)),
    (8, 5, 0, Damage::Each(8)),
    (16, 1, 0, Damage::One),
    (16, 1, 0, Damage::Each(16)),
    (16, 8, 0, Damage::One),
    (16, 8, 0, Damage::Each(16)),
    (16, 5, 100, Damage::One),
    (16, 5, 100, Damage::Each(16)),
    (16, 5, 0, Damage::Lost),
];

struct Sent {
    block: Vec<u8>,
    received: Vec<u8>,
}

impl Damage {
    fn name(self) -> String {
        match self {
            Damage::One => "1 wrong in one word".to_string(),
            Damage::Each(wrong) => format!("{wrong} wrong a word"),
            Damage::Lost => "E wrong a word, but E + 1 in word 1".to_string(),
        }
    }

    fn put(self, draw: &mut Draw, code: Code, block: &mut [u8]) {
        let depth = code.depth as usize;
        match self {
            Damage::One => {
                let w = draw.below(depth);
                draw.damage_word(block, depth, w, 1);
            }
            Damage::Each(wrong) => draw.damage(block, depth, wrong as usize),
            Damage::Lost => {
                for w in 0..depth {
                    draw.damage_word(block, depth, w, code.e as usize + usize::from(w == 1));
                }
            }
        }
    }
}

/// Different blocks, as they were sent and as they are received. A side is lent to code the frames.
fn sent(draw: &mut Draw, side: &dyn Calls, code: Code, damage: Damage) -> Vec<Sent> {
    let mut one = || {
        let mut block = vec![0; code.block_len()];
        let frame = draw.octets(code.frame_len());
        assert_eq!(side.encode(code, &frame, &mut block), 0);
        let mut received = block.clone();
        damage.put(draw, code, &mut received);
        Sent { block, received }
    };
    (0..INPUTS).map(|_| one()).collect()
}

/// What salvage must leave: words with at most E wrong symbols as they were sent, the others as received, and of the changes a list.
fn expected(code: Code, sent: &Sent) -> Lent {
    let depth = code.depth as usize;
    let mut wrong = [0; 8];
    let pairs = || sent.received.iter().zip(&sent.block).enumerate();
    let differing = || pairs().filter(|(_, (old, new))| old != new);
    differing().for_each(|(at, _)| wrong[at % depth] += 1);
    let is_good = |at: usize| wrong[at % depth] <= code.e;
    let mut lent = fresh(code);
    for (octet, (at, (old, new))) in lent.octets.iter_mut().zip(pairs()) {
        *octet = if is_good(at) { *new } else { *old };
    }
    lent.words = [0; 17];
    for w in (0..depth).filter(|w| is_good(*w)) {
        (lent.words[w], lent.words[8 + w]) = (1, wrong[w]);
    }
    let changes = differing().filter(|(at, _)| is_good(*at));
    for (entry, (at, (old, new))) in lent.list.chunks_exact_mut(4).zip(changes) {
        entry.copy_from_slice(&[(at >> 8) as u8, at as u8, *old, *new]);
        lent.words[16] += 1;
    }
    lent
}

fn fresh(code: Code) -> Lent {
    let mut lent = Lent::new(code.frame_len());
    lent.list = vec![170; 4 * code.block_len()];
    lent
}

fn salvage(code: Code, name: String, blocks: &[Sent]) -> Case {
    let mut blocks = blocks.iter();
    let input = || {
        let sent = blocks.next().expect("a block for each input");
        Input {
            read: sent.received.clone(),
            expected: Some(expected(code, sent)),
        }
    };
    let mut case = Case::new(name, Work::Salvage(code), code.frame_len(), input);
    case.fresh = fresh(code);
    case
}

/// Decode of the same blocks, which gives the same frames and counts.
fn decode(code: Code, name: String, blocks: &[Sent]) -> Case {
    let mut blocks = blocks.iter();
    let input = || {
        let sent = blocks.next().expect("a block for each input");
        let salvaged = expected(code, sent);
        let mut lent = Lent::new(code.frame_len());
        lent.octets = salvaged.octets;
        lent.counts[..8].copy_from_slice(&salvaged.words[8..16]);
        lent.counts[8] = salvaged.words[8..16].iter().sum();
        Input {
            read: sent.received.clone(),
            expected: Some(lent),
        }
    };
    Case::new(name, Work::Decode(code), code.frame_len(), input)
}

/// Each case of salvage, with that of decode where all words are good.
fn cases(side: &dyn Calls) -> Vec<(Case, Option<Case>)> {
    let mut draw = Draw::new(4);
    let mut case = |(e, depth, fill, damage): (u32, u32, u32, Damage)| {
        let code = Code { e, depth, fill };
        let blocks = sent(&mut draw, side, code, damage);
        let name = format!("E {e}, I {depth}, Q {fill}, {}", damage.name());
        let decode = (!matches!(damage, Damage::Lost)).then(|| decode(code, name.clone(), &blocks));
        (salvage(code, name, &blocks), decode)
    };
    CASES.into_iter().map(&mut case).collect()
}

/// A row of the table; how much longer salvage takes than decode, of the best, if decode was timed. The timings are of salvage on each
/// side, and then of our decode.
fn write_row(timings: &mut [Timing]) -> Option<f64> {
    let name = timings[0].case_name().to_string();
    let results: Vec<(f64, f64)> = timings.iter_mut().map(Timing::result).collect();
    let (ours, theirs) = (results[0], &results[1..3]);
    let ratio = |other: (f64, f64)| pair(ours.0 / other.0, ours.1 / other.1);
    let decode = results.get(3);
    let beside = decode.map_or_else(
        || [String::new(), String::new()],
        |decode| [pair(decode.0, decode.1), ratio(*decode)],
    );
    print!(
        "| {name} | {} | {} | {} |",
        beside[0],
        pair(ours.0, ours.1),
        beside[1]
    );
    for other in theirs {
        print!(" {} | {} |", pair(other.0, other.1), ratio(*other));
    }
    println!();
    decode.map(|decode| ours.0 / decode.0)
}

/// Compares the sides, which are ours and two of plain Rust, on every input, times them, and writes a table.
pub fn run(sides: &[&dyn Calls; 3]) {
    let cases = cases(sides[0]);
    for (salvage, decode) in &cases {
        agreement::of_case(salvage, sides);
        if let Some(decode) = decode {
            agreement::of_case(decode, sides);
        }
    }
    let mut timings: Vec<Vec<Timing>> = cases
        .iter()
        .map(|(salvage, decode)| {
            let ours = decode.iter().map(|case| Timing::new(case, sides[0]));
            let salvages = sides.iter().map(|side| Timing::new(salvage, *side));
            salvages.chain(ours).collect()
        })
        .collect();
    timing::run_rounds(&mut timings, ROUNDS);

    println!();
    println!(
        "Salvage, and decode of the same blocks where all words are good; the sides agree on every input. Best (median) of {ROUNDS} rounds."
    );
    println!();
    println!(
        "| Case | Our decode | Our salvage | Salvage / decode | Plain Rust | Ratio | Faster plain Rust | Ratio |"
    );
    println!("|---|---|---|---|---|---|---|---|");
    let ratios = timings.iter_mut().filter_map(|row| write_row(row));
    let most = ratios.fold(0.0, f64::max);
    println!();
    println!(
        "Salvage takes at most {most:.3} times as long as decode of the same block, of the best; asked: at most {ASKED}."
    );
}
