//! The cases that are timed: each a call on inputs that were made beforehand.

use crate::calls::{filled_len, Calls, Code, Coder, State};
use crate::calls::{ABSENT, COMPLEMENT, FOUND, MARKER, SPENT, TRUE};
use crate::data::{put, Draw};

/// Different inputs in turn, so that no side's branches are learnt by heart. Those of likeliest are short, and so there are more.
pub const INPUTS: usize = 20;
const SHORT_INPUTS: usize = 200;
const STREAM: usize = 65536;
const PLACES: u64 = 8 * STREAM as u64 - 31;

/// Everything that a call may write.
#[derive(Clone, Debug, PartialEq)]
pub struct Lent {
    pub octets: Vec<u8>,
    pub counts: [u32; 9],
    pub list: Vec<u8>,
    pub words: [u32; 17],
    pub found: [u64; 5],
    pub count: u32,
    pub likeliest: [u32; 2],
    pub state: State,
    pub coder: Coder,
}

impl Lent {
    /// Not zero, so that it shows what was not written.
    pub fn new(octets: usize) -> Lent {
        Lent {
            octets: vec![170; octets],
            counts: [170; 9],
            list: Vec::new(),
            words: [170; 17],
            found: [170; 5],
            count: 170,
            likeliest: [170; 2],
            state: State::start(),
            coder: [0; 4],
        }
    }
}

pub enum Work {
    Encode(Code),
    /// A whole frame in portions of so many octets, and the close.
    Portions(Code, usize),
    /// As many empty portions as the frame has octets.
    EmptyPortions(Code),
    Decode(Code),
    Salvage(Code),
    /// From a start, with a budget.
    Search(u64, u64),
    /// From a state of the coder.
    Convolve(u32, Coder),
    /// From the start in calls of so many octets, which fill so many each, and the close.
    Stream(u32, usize, Vec<usize>),
    /// From a register.
    Likeliest(u32),
    Randomise,
}

pub struct Input {
    pub read: Vec<u8>,
    /// The outcome, where it is known before any side is asked.
    pub expected: Option<Lent>,
}

pub struct Case {
    pub name: String,
    work: Work,
    pub inputs: Vec<Input>,
    pub fresh: Lent,
}

impl Case {
    pub fn call(&self, input: &Input, side: &dyn Calls, lent: &mut Lent) -> u64 {
        let (read, out) = (&input.read, &mut lent.octets);
        match self.work {
            Work::Encode(code) => side.encode(code, read, out),
            Work::Portions(code, size) => in_portions(side, code, size, read, lent),
            Work::EmptyPortions(code) => (read.iter())
                .map(|_| side.portion(code, &mut lent.state, &[], &mut []))
                .fold(0, |all, number| all | number),
            Work::Decode(code) => side.decode(code, code.e, read, out, &mut lent.counts),
            Work::Salvage(code) => {
                side.salvage(code, code.e, read, out, &mut lent.list, &mut lent.words)
            }
            Work::Search(start, budget) => side.search(3, read, start, budget, &mut lent.found),
            Work::Convolve(rate, state) => {
                lent.coder = state;
                side.convolve(rate, &mut lent.coder, read, out, &mut lent.count)
            }
            Work::Stream(rate, size, ref filled) => in_calls(side, rate, size, filled, read, lent),
            Work::Likeliest(register) => side.likeliest(register, read, out, &mut lent.likeliest),
            Work::Randomise => side.randomise(out),
        }
    }

    /// In how many forms the baseline does the work.
    pub fn forms(&self) -> usize {
        match self.work {
            Work::Convolve(..) | Work::Stream(..) | Work::Likeliest(_) => 3,
            Work::Decode(_) | Work::Salvage(_) | Work::Search(..) => 2,
            _ => 1,
        }
    }

    pub fn new(name: String, work: Work, octets: usize, input: impl FnMut() -> Input) -> Case {
        let inputs = match work {
            Work::Likeliest(_) => SHORT_INPUTS,
            _ => INPUTS,
        };
        Case {
            name,
            work,
            inputs: std::iter::repeat_with(input).take(inputs).collect(),
            fresh: Lent::new(octets),
        }
    }
}

fn code(e: u32) -> Code {
    Code {
        e,
        depth: 5,
        fill: 0,
    }
}

fn encode(draw: &mut Draw, e: u32) -> Case {
    let code = code(e);
    let input = || Input {
        read: draw.octets(code.frame_len()),
        expected: None,
    };
    let name = format!("encode, E {e}, I 5, Q 0");
    Case::new(name, Work::Encode(code), code.block_len(), input)
}

fn in_portions(side: &dyn Calls, code: Code, size: usize, frame: &[u8], lent: &mut Lent) -> u64 {
    lent.state = State::start();
    let (information, checks) = lent.octets.split_at_mut(frame.len());
    let both = frame.chunks(size).zip(information.chunks_mut(size));
    for (portion, written) in both {
        let number = side.portion(code, &mut lent.state, portion, written);
        if number != 0 {
            return number;
        }
    }
    side.close(code, &mut lent.state, checks)
}

/// Whole frames; the block is that of one call.
fn portions(draw: &mut Draw, side: &dyn Calls, size: usize) -> Case {
    let code = code(16);
    let input = || {
        let frame = draw.octets(code.frame_len());
        let mut block = vec![0; code.block_len()];
        assert_eq!(side.encode(code, &frame, &mut block), 0);
        let mut lent = Lent::new(block.len());
        assert_eq!(in_portions(side, code, size, &frame, &mut lent), 0);
        assert_eq!(lent.octets, block, "another block in portions of {size}");
        Input {
            read: frame,
            expected: Some(lent),
        }
    };
    let name = format!("encode in portions of {size}, E 16, I 5, Q 0");
    Case::new(name, Work::Portions(code, size), code.block_len(), input)
}

fn empty_portions(draw: &mut Draw) -> Case {
    let code = code(16);
    let input = || Input {
        read: draw.octets(code.frame_len()),
        expected: None,
    };
    let name = format!("{} empty portions, E 16, I 5, Q 0", code.frame_len());
    Case::new(name, Work::EmptyPortions(code), 0, input)
}

fn decode(draw: &mut Draw, side: &dyn Calls, e: u32, wrong: u32) -> Case {
    let code = code(e);
    let mut expected = Lent::new(code.frame_len());
    expected.counts = [wrong, wrong, wrong, wrong, wrong, 0, 0, 0, 5 * wrong];
    let input = || {
        expected.octets = draw.octets(code.frame_len());
        let mut block = vec![0; code.block_len()];
        assert_eq!(side.encode(code, &expected.octets, &mut block), 0);
        draw.damage(&mut block, 5, wrong as usize);
        Input {
            read: block,
            expected: Some(expected.clone()),
        }
    };
    let name = format!("decode, E {e}, I 5, Q 0, {wrong} wrong a word");
    Case::new(name, Work::Decode(code), code.frame_len(), input)
}

/// Drawn octets without the marker. They have it in one of its forms, with up to three wrong bits, about as often as not: it is taken out
/// where it is found. One of its octets inverted is too much for either form.
fn without_marker(draw: &mut Draw, side: &dyn Calls, octets: usize) -> Vec<u8> {
    let mut stream = draw.octets(octets);
    let mut found = [FOUND, 0, 0, 0, 0];
    while found[0] == FOUND {
        assert_eq!(side.search(3, &stream, 0, u64::MAX, &mut found), 0);
        if found[0] == FOUND {
            stream[found[1] as usize / 8 + 1] ^= 255;
        }
    }
    stream
}

/// A search whose outcome is known: nothing fits but a marker that is put there, if one is.
fn search(
    draw: &mut Draw,
    side: &dyn Calls,
    name: &str,
    octets: usize,
    marker: Option<(u64, u32)>,
    work: (u64, u64),
    found: [u64; 5],
) -> Case {
    let mut expected = Lent::new(0);
    expected.found = found;
    let input = || {
        let mut stream = without_marker(draw, side, octets);
        if let Some((place, word)) = marker {
            put(&mut stream, place as usize, word);
        }
        Input {
            read: stream,
            expected: Some(expected.clone()),
        }
    };
    let name = format!("search, {octets} octets, tolerance 3, {name}");
    Case::new(name, Work::Search(work.0, work.1), 0, input)
}

/// Absent, found at a place in either form, and spent: in the longest stream, in one as long as a marked block, and in a short one.
fn searches(draw: &mut Draw, side: &dyn Calls) -> Vec<Case> {
    const LAST: u64 = PLACES - 1;
    const HALF: u64 = PLACES / 2;
    const MIDDLE: u64 = 4 * 1279 + 1;
    let whole = (0, u64::MAX);
    let mut absent = |octets| {
        let found = [ABSENT, 0, 0, 8 * octets as u64 - 31, 0];
        search(draw, side, "absent", octets, None, whole, found)
    };
    let mut cases = vec![absent(STREAM), absent(40)];
    let mut found = |name: &str, octets, start, place, form| {
        let word = if form == TRUE { MARKER } else { !MARKER };
        let (marker, from) = (Some((place, word)), (start, u64::MAX));
        let found = [FOUND, place, 0, place - start + 1, form];
        search(draw, side, name, octets, marker, from, found)
    };
    cases.extend([
        found("at the end", STREAM, 0, LAST, TRUE),
        found("complement at the end", STREAM, 0, LAST, COMPLEMENT),
        found("at the start", 1279, 0, 0, TRUE),
        found("16 octets on", 1279, 0, 8 * 16 + 1, TRUE),
        found("48 octets on", 1279, 0, 8 * 48 + 1, TRUE),
        found("in the middle, start 3", 1279, 3, MIDDLE, TRUE),
    ]);
    let (marker, work) = (Some((LAST, MARKER)), (0, HALF));
    let spent = [SPENT, HALF, 0, HALF, 0];
    let name = "half the places, spent";
    cases.push(search(draw, side, name, STREAM, marker, work, spent));
    cases
}

const RATES: [&str; 5] = ["1/2", "2/3", "3/4", "5/6", "7/8"];

fn convolve(draw: &mut Draw, rate: u32, state: Coder, after: &str) -> Case {
    let input = || Input {
        read: draw.octets(2044),
        expected: None,
    };
    let spelt = RATES[rate as usize - 1];
    let name = format!("convolve, 2044 octets, rate {spelt}{after}");
    let symbols = filled_len(rate, state, 2044);
    Case::new(name, Work::Convolve(rate, state), symbols, input)
}

fn in_calls(
    side: &dyn Calls,
    rate: u32,
    size: usize,
    filled: &[usize],
    data: &[u8],
    lent: &mut Lent,
) -> u64 {
    lent.coder = [0; 4];
    let mut out = &mut lent.octets[..];
    for (data, n) in data.chunks(size).zip(filled) {
        let (symbols, rest) = out.split_at_mut(*n);
        let number = side.convolve(rate, &mut lent.coder, data, symbols, &mut lent.count);
        if number != 0 {
            return number;
        }
        out = rest;
    }
    side.convolve_close(rate, &lent.coder, out, &mut lent.count)
}

/// The octets that each call of so many octets fills.
fn filled_by(rate: u32, size: usize, octets: usize) -> Vec<usize> {
    let until = |n: usize| filled_len(rate, [0; 4], n.min(octets));
    let calls = (0..octets).step_by(size);
    calls.map(|n| until(n + size) - until(n)).collect()
}

/// A stream in calls and a close; the symbols are those of one call and a close.
fn stream(draw: &mut Draw, side: &dyn Calls, rate: u32, size: usize) -> Case {
    let filled = filled_by(rate, size, 2044);
    let whole = filled_len(rate, [0; 4], 2044);
    // As if seven symbols were held: the octets of all symbols, rounded up.
    let closed = filled_len(rate, [0, 0, 7, 0], 2044);
    let input = || {
        let data = draw.octets(2044);
        let mut one = Lent::new(closed);
        assert_eq!(in_calls(side, rate, 2044, &[whole], &data, &mut one), 0);
        let mut lent = Lent::new(closed);
        assert_eq!(in_calls(side, rate, size, &filled, &data, &mut lent), 0);
        assert!(lent == one, "other symbols in calls of {size}");
        Input {
            read: data,
            expected: Some(lent),
        }
    };
    let spelt = RATES[rate as usize - 1];
    let name = format!("convolve in calls of {size}, 2044 octets, rate {spelt}");
    Case::new(
        name,
        Work::Stream(rate, size, filled.clone()),
        closed,
        input,
    )
}

/// Symbols that were coded from a register, 5 in 100 of them wrong.
fn likeliest(draw: &mut Draw, side: &dyn Calls, octets: usize) -> Case {
    let register = 45;
    let input = || {
        let mut symbols = vec![0; 2 * octets];
        let (mut state, mut count) = ([register, 0, 0, 0], 0);
        let data = draw.octets(octets);
        let number = side.convolve(1, &mut state, &data, &mut symbols, &mut count);
        assert_eq!(number, 0);
        draw.noise(&mut symbols, 5);
        Input {
            read: symbols,
            expected: None,
        }
    };
    let name = format!("likeliest, n {octets}, 5 in 100 symbols wrong");
    Case::new(name, Work::Likeliest(register.into()), octets, input)
}

/// In place: each call undoes the one before, on every side alike.
fn randomise() -> Case {
    let input = || Input {
        read: Vec::new(),
        expected: None,
    };
    let name = "randomise, 1275 octets".to_string();
    Case::new(name, Work::Randomise, 1275, input)
}

/// All cases; a side is lent to make their inputs.
pub fn all(side: &dyn Calls) -> Vec<Case> {
    let mut draw = Draw::new(1);
    let mut cases = vec![encode(&mut draw, 16), encode(&mut draw, 8)];
    for size in [300, 16, 1] {
        cases.push(portions(&mut draw, side, size));
    }
    cases.push(empty_portions(&mut draw));
    for (e, wrong) in [(16, 0), (16, 8), (16, 16), (8, 0), (8, 4), (8, 8)] {
        cases.push(decode(&mut draw, side, e, wrong));
    }
    cases.extend(searches(&mut draw, side));
    for rate in 1..=5 {
        cases.push(convolve(&mut draw, rate, [0; 4], ""));
    }
    cases.push(convolve(&mut draw, 1, [45, 0, 3, 0xA0], ", 3 held"));
    cases.push(stream(&mut draw, side, 5, 16));
    for octets in [1, 16, 256] {
        cases.push(likeliest(&mut draw, side, octets));
    }
    cases.push(randomise());
    cases
}
