//! That the sides answer alike: on every timed input, and on a sweep of parameters, limits and refusals.

use crate::calls::{filled_len, Calls, Code, Coder, State};
use crate::calls::{COMPLEMENT, FOUND, MARKER, PERIODS};
use crate::cases::{Case, Lent};
use crate::data::{put, Draw};
use std::array::from_fn;

/// Asks each side, each with the same lent buffers, and gives what all of them answered and wrote.
fn alike<F>(sides: &[&dyn Calls], fresh: &Lent, what: &str, ask: F) -> (u64, Lent)
where
    F: Fn(&dyn Calls, &mut Lent) -> u64,
{
    let outcomes = sides.iter().map(|side| {
        let mut lent = fresh.clone();
        (ask(*side, &mut lent), lent)
    });
    let outcomes: Vec<(u64, Lent)> = outcomes.collect();
    for other in &outcomes[1..] {
        assert!(outcomes[0] == *other, "the sides differ: {what}");
    }
    outcomes[0].clone()
}

pub fn of_case(case: &Case, sides: &[&dyn Calls]) {
    for input in &case.inputs {
        let ask = |side: &dyn Calls, lent: &mut Lent| case.call(input, side, lent);
        let (answer, lent) = alike(sides, &case.fresh, &case.name, ask);
        assert_eq!(answer, 0, "refused: {}", case.name);
        if let Some(expected) = &input.expected {
            assert!(lent == *expected, "not as expected: {}", case.name);
        }
    }
}

/// A length, or one past it, or one short of it, mostly the first.
fn about(draw: &mut Draw, len: usize) -> usize {
    match draw.below(8) {
        0 => len + 1,
        1 => len.saturating_sub(1),
        _ => len,
    }
}

/// One of the first eight times in ten, else one of the others.
fn one_of(draw: &mut Draw, legal: &[u32], others: &[u32]) -> u32 {
    let from = if draw.below(10) < 8 { legal } else { others };
    from[draw.below(from.len())]
}

fn any_code(draw: &mut Draw) -> (Code, bool) {
    let e = one_of(draw, &[8, 16], &[0, 7, 9, 15, 17, u32::MAX]);
    let depth = one_of(draw, &[1, 2, 3, 4, 5, 8], &[0, 6, 7, 9, u32::MAX]);
    let fill = one_of(draw, &[0, 1, 100, 222], &[223, 238, 239, u32::MAX]);
    let code = Code { e, depth, fill };
    let fits = (8..=16).contains(&e) && depth <= 8 && fill < 255 - 2 * e;
    (code, fits)
}

/// A portion and a close from a drawn state, mostly about the frame's end.
fn portions(draw: &mut Draw, sides: &[&dyn Calls]) {
    let (code, fits) = any_code(draw);
    let (frame_len, checks_len) = if fits {
        (code.frame_len(), code.checks_len())
    } else {
        (1, 32)
    };
    let n = [0, 1, 2, 5, 16, 300, 301][draw.below(7)];
    let portion = draw.octets(n);
    let closed = one_of(draw, &[0], &[1, u32::MAX]);
    let mut fresh = Lent::new(about(draw, n));
    fresh.state = State {
        progress: [about(draw, frame_len.saturating_sub(n)) as u32, closed],
        rows: from_fn(|_| from_fn(|_| draw.below(256) as u8)),
    };
    let what = format!("portion, {code:?}, {n} octets");
    let (_, taken) = alike(sides, &fresh, &what, |side, lent| {
        side.portion(code, &mut lent.state, &portion, &mut lent.octets)
    });
    let mut fresh = Lent::new(about(draw, checks_len));
    fresh.state = taken.state;
    let what = format!("close, {code:?}");
    alike(sides, &fresh, &what, |side, lent| {
        side.close(code, &mut lent.state, &mut lent.octets)
    });
}

fn words(draw: &mut Draw, sides: &[&dyn Calls]) -> u64 {
    let (code, fits) = any_code(draw);
    let Code { e, depth, .. } = code;
    let (frame_len, block_len) = if fits {
        (code.frame_len(), code.block_len())
    } else {
        (1, 33)
    };
    let given = about(draw, frame_len);
    let frame = draw.octets(given);
    let fresh = Lent::new(about(draw, block_len));
    let what = format!("encode, {code:?}");
    let (answer, coded) = alike(sides, &fresh, &what, |side, lent| {
        side.encode(code, &frame, &mut lent.octets)
    });
    let mut block = coded.octets;
    if answer == 0 {
        let wrong = draw.below(e as usize + 2);
        draw.damage(&mut block, depth as usize, wrong);
    }
    let s = one_of(draw, &[e], &[0, e / 2, e.saturating_sub(1), u32::MAX]);
    let fresh = Lent::new(about(draw, frame_len));
    let what = format!("decode, {code:?}, s {s}");
    let (answer, _) = alike(sides, &fresh, &what, |side, lent| {
        side.decode(code, s, &block, &mut lent.octets, &mut lent.counts)
    });
    answer & 255
}

/// A salvage of a block with none to twice E wrong symbols in a word, in each word another number; now and then a number is past its limit.
/// Gives how many words were repaired, and how many were not.
fn salvage(draw: &mut Draw, sides: &[&dyn Calls]) -> [usize; 2] {
    let (code, fits) = any_code(draw);
    let depth = code.depth as usize;
    let (frame_len, block_len) = if fits {
        (code.frame_len(), code.block_len())
    } else {
        (1, 33)
    };
    let mut block = draw.octets(block_len);
    let frame = draw.octets(frame_len);
    if sides[0].encode(code, &frame, &mut block) == 0 {
        for w in 0..depth {
            let wrong = draw.below(code.e as usize + 1) * (1 + draw.below(2));
            draw.damage_word(&mut block, depth, w, wrong);
        }
    }
    block.resize(about(draw, block_len), 170);
    let s = one_of(draw, &[code.e], &[0, code.e / 2, u32::MAX]);
    let mut fresh = Lent::new(about(draw, frame_len));
    fresh.list = vec![170; about(draw, 4 * block_len)];
    let what = format!("salvage, {code:?}, s {s}");
    let (answer, lent) = alike(sides, &fresh, &what, |side, lent| {
        let (out, list) = (&mut lent.octets, &mut lent.list);
        side.salvage(code, s, &block, out, list, &mut lent.words)
    });
    let repaired = lent.words[..8].iter().sum::<u32>() as usize;
    match answer {
        0 => [repaired, depth - repaired],
        _ => [0, 0],
    }
}

/// A stream with up to two markers in either form, at drawn bits, with up to four wrong bits. Starts and budgets lie anywhere, but mostly
/// about the last that was put there, and about the end. Gives the refusal's number, then the kind and the form.
fn stream(draw: &mut Draw, sides: &[&dyn Calls]) -> (u64, [u64; 2]) {
    let n = [0, 3, 4, 5, 12, 12, 40, 40, 100, 300, 300, 65536, 65537][draw.below(13)];
    let mut octets = draw.octets(n);
    let last = (8 * n).saturating_sub(32);
    let mut place = last;
    for _ in 0..draw.below(3) {
        place = [draw.below(last + 1), draw.below(last + 1), last][draw.below(3)];
        let form = [MARKER, !MARKER][draw.below(2)];
        let wrong = (0..draw.below(5)).fold(0, |bits, _| bits | 1 << draw.below(32));
        if n >= 4 {
            put(&mut octets, place, form ^ wrong);
        }
    }
    let tolerance = one_of(draw, &[0, 1, 2, 3, 3], &[4, u32::MAX]);
    let near = place.saturating_sub(draw.below(20));
    let start = [0, near, near, place + 1, draw.below(8 * n + 2)][draw.below(5)] as u64;
    let there = (place as u64).saturating_sub(start);
    let left = (last as u64 + 1).saturating_sub(start);
    let some = draw.below(1000) as u64;
    let budgets = [
        0,
        1,
        some,
        there,
        there + 1,
        left.saturating_sub(1),
        left,
        u64::MAX,
    ];
    let budget = budgets[draw.below(8)];
    let what = format!("search, {n} octets, tolerance {tolerance}, start {start}, budget {budget}");
    let (answer, lent) = alike(sides, &Lent::new(0), &what, |side, lent| {
        side.search(tolerance, &octets, start, budget, &mut lent.found)
    });
    (answer, [lent.found[0], lent.found[4]])
}

/// A state of the convolutional coder with a period of so many bits; now and then a number in it is past its limit.
fn any_coder(draw: &mut Draw, period: usize) -> Coder {
    let [register, place, holds] = [64, period, 8].map(|limit| match draw.below(32) {
        0 => limit as u8,
        1 => 255,
        _ => draw.below(limit) as u8,
    });
    [register, place, holds, draw.below(256) as u8]
}

/// A call of the convolutional coder from a drawn state, and a close; whether the call was accepted.
fn coder(draw: &mut Draw, sides: &[&dyn Calls]) -> bool {
    let n = [0, 1, 2, 5, 16, 255, 1275, 2043, 2044, 2045][draw.below(10)];
    let data = draw.octets(n);
    let rate = one_of(draw, &[1, 2, 3, 4, 5], &[0, 1, 6, u32::MAX]);
    let period = PERIODS.get((rate as usize).wrapping_sub(1));
    let state = any_coder(draw, *period.unwrap_or(&1));
    let filled = period.map_or(3, |_| filled_len(rate, state, n));
    let mut fresh = Lent::new(about(draw, filled));
    fresh.coder = state;
    let what = format!("convolve, rate {rate}, {state:?}, {n} octets");
    let (answer, ran) = alike(sides, &fresh, &what, |side, lent| {
        let (octets, count) = (&mut lent.octets, &mut lent.count);
        side.convolve(rate, &mut lent.coder, &data, octets, count)
    });
    let mut fresh = Lent::new(about(draw, usize::from(ran.coder[2] > 0)));
    fresh.coder = ran.coder;
    let what = format!("convolve_close, rate {rate}, {:?}", ran.coder);
    alike(sides, &fresh, &what, |side, lent| {
        side.convolve_close(rate, &lent.coder, &mut lent.octets, &mut lent.count)
    });
    answer == 0
}

/// A decoding at rate 1/2 of coded symbols, of which none to half are wrong; now and then a number is past its limit. Whether it was
/// accepted.
fn decoder(draw: &mut Draw, sides: &[&dyn Calls]) -> bool {
    let n = [0, 1, 2, 3, 16, 60, 255, 256, 257][draw.below(9)];
    let data = draw.octets(n);
    let register = draw.below(64) as u8;
    let (mut state, mut count) = ([register, 0, 0, 0], 0);
    let mut symbols = vec![0; 2 * n];
    sides[0].convolve(1, &mut state, &data, &mut symbols, &mut count);
    let percent = [0, 1, 5, 10, 25, 50][draw.below(6)];
    draw.noise(&mut symbols, percent);
    symbols.resize(about(draw, 2 * n), 170);
    let register = one_of(draw, &[register.into()], &[63, 64, 255, 256, u32::MAX]);
    let fresh = Lent::new(about(draw, n));
    let what = format!("likeliest, register {register}, {n} octets");
    let (answer, _) = alike(sides, &fresh, &what, |side, lent| {
        side.likeliest(register, &symbols, &mut lent.octets, &mut lent.likeliest)
    });
    answer == 0
}

fn randomise(draw: &mut Draw, sides: &[&dyn Calls]) {
    let n = [0, 1, 2, 5, 255, 1275, 2040, 2041, 2044][draw.below(9)];
    alike(sides, &Lent::new(n), "randomise", |side, lent| {
        side.randomise(&mut lent.octets)
    });
}

/// What the sides answered, all of them alike.
#[derive(Default)]
pub struct Sweep {
    /// How often each number was decode's answer.
    pub decoded: [usize; 11],
    /// How many words salvage repaired, and how many it left as received.
    pub salvaged: [usize; 2],
    /// How many calls of the convolutional coder were accepted.
    pub convolved: usize,
    /// How many decodings at rate 1/2 were accepted.
    pub likeliest: usize,
    /// How many searches were refused, found the marker, found nothing, and spent their budget.
    pub searched: [usize; 4],
    /// How many of those that found it found the complement.
    pub complements: usize,
}

pub fn of_sweep(sides: &[&dyn Calls], draws: usize) -> Sweep {
    let mut draw = Draw::new(2);
    let mut sweep = Sweep::default();
    for n in 0..draws {
        sweep.decoded[words(&mut draw, sides) as usize] += 1;
        let salvaged = salvage(&mut draw, sides);
        sweep.salvaged = from_fn(|k| sweep.salvaged[k] + salvaged[k]);
        portions(&mut draw, sides);
        sweep.convolved += usize::from(coder(&mut draw, sides));
        sweep.likeliest += usize::from(decoder(&mut draw, sides));
        randomise(&mut draw, sides);
        if n % 2 == 0 {
            let (number, [kind, form]) = stream(&mut draw, sides);
            let kind = if number == 0 { kind } else { 0 };
            sweep.searched[kind as usize] += 1;
            sweep.complements += usize::from(kind == FOUND && form == COMPLEMENT);
        }
    }
    sweep
}
