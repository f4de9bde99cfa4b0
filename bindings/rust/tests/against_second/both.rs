//! The fourteen calls, each made in both programs on the same input. All that they answer and leave behind is compared.

use ironsimmer::{
    Chain, Change, CoderState, Convolver, Form, Likeliest, PortionEncoder, Reception, Refusal, Report, Salvage, Search,
    Sequence, Words,
};
use second::blocks::{Code, Decoding};
use second::convolution::Coder;
use second::data::{bits, packed};
use second::marker::Searched;
use second::portions::Progress;
use std::fmt::Debug;

const GUARD: [u8; 8] = [0xC5; 8];

/// Lends a buffer to a call, and gives the answer and the buffer as it is afterwards. Octets beside the buffer must stay as they are.
fn lent<T>(before: &[u8], call: impl FnOnce(&mut [u8]) -> T) -> (T, Vec<u8>) {
    let mut around = [&GUARD, before, &GUARD].concat();
    let inside = GUARD.len()..GUARD.len() + before.len();
    let answer = call(&mut around[inside.clone()]);
    assert_eq!((&around[..inside.start], &around[inside.end..]), (&GUARD[..], &GUARD[..]), "octets beside the buffer");
    (answer, around[inside].to_vec())
}

/// The same with a state beside the buffer, which is lent between two others. They must stay as they are.
fn lent_with<S: Clone + Debug + PartialEq, T>(
    state: &mut S,
    beside: S,
    before: &[u8],
    call: impl FnOnce(&mut S, &mut [u8]) -> T,
) -> (T, Vec<u8>) {
    let mut around = [beside.clone(), state.clone(), beside.clone()];
    let (answer, after) = lent(before, |buffer| call(&mut around[1], buffer));
    let [left, middle, right] = around;
    *state = middle;
    assert_eq!((&left, &right), (&beside, &beside), "octets beside the state");
    (answer, after)
}

/// An answer's number and value; 0 and 0 if accepted.
fn numbers<T>(answer: &Result<T, Refusal>) -> (u64, u64) {
    match answer {
        Ok(_) => (0, 0),
        Err(Refusal::Marker { wrong_bits }) => (9, u64::from(*wrong_bits)),
        Err(Refusal::Word { word }) => (10, u64::from(*word)),
        Err(refusal) => (u64::from(refusal.number()), 0),
    }
}

fn code(words: Words) -> Code {
    Code { e: words.strength.into(), i: words.depth.into(), q: words.fill.into() }
}

fn form(form: second::marker::Form) -> Form {
    match form {
        second::marker::Form::True => Form::True,
        second::marker::Form::Complement => Form::Complement,
    }
}

/// Demands that a decoding is the second program's, whose answer tells the number and perhaps the value, in a chain after the stage.
fn same_decoding(answer: &Result<Report, Refusal>, frame: &[u8], expected: &Decoding, case: &str) {
    let mut told = expected.answer.split(' ').filter_map(|word| word.parse().ok());
    let number_and_value = (told.next().unwrap(), told.next().unwrap_or(0));
    assert_eq!(numbers(answer), number_and_value, "{case}");
    assert_eq!(frame, expected.frame, "{case}");
    if let Ok(report) = answer {
        let counts = expected.counts.map(|count| count as u32);
        assert_eq!(*report, Report { counts, total: counts.iter().sum() }, "{case}");
    }
}

/// The answer, and the block as it is afterwards.
pub fn encode(words: Words, frame: &[u8], before: &[u8]) -> (Result<(), Refusal>, Vec<u8>) {
    let (answer, block) = lent(before, |block| words.encode(frame, block));
    let (number, expected) = code(words).encode(frame, before);
    assert_eq!(numbers(&answer), (number, 0), "{words:?}");
    assert_eq!(block, expected, "{words:?}");
    (answer, block)
}

/// An encoder's state, as the second program has it.
fn state(encoder: &PortionEncoder) -> Progress {
    Progress { place: encoder.place().into(), closed: encoder.is_closed(), rows: *encoder.rows() }
}

/// Lends an encoder and a buffer to a call. Demands that number, state and buffer are then those expected, and that the encoder stays as it
/// is if it refuses.
fn stepped(
    encoder: &mut PortionEncoder,
    before: &[u8],
    expected: (u64, Progress, Vec<u8>),
    call: impl FnOnce(&mut PortionEncoder, &mut [u8]) -> Result<(), Refusal>,
) -> (Result<(), Refusal>, Vec<u8>) {
    let held = encoder.clone();
    let beside = PortionEncoder::from_state(held.words(), u32::MAX, true, [[GUARD[0]; 32]; 8]);
    let (answer, after) = lent_with(encoder, beside, before, call);

    let (number, next, output) = expected;
    assert_eq!(numbers(&answer), (number, 0), "{held:?}");
    assert_eq!((encoder.words(), state(encoder)), (held.words(), next), "{held:?}");
    assert_eq!(after, output, "{held:?}");
    assert!(answer.is_ok() || *encoder == held, "a refusal changed {held:?}");
    (answer, after)
}

/// The answer, and the output as it is afterwards. The encoder is left as the call leaves it.
pub fn portion(encoder: &mut PortionEncoder, portion: &[u8], before: &[u8]) -> (Result<(), Refusal>, Vec<u8>) {
    let expected = code(encoder.words()).portion(&state(encoder), portion, before);
    stepped(encoder, before, expected, |encoder, written| encoder.push(portion, written))
}

/// The answer, and the checks as they are afterwards. The encoder is left as the call leaves it.
pub fn close(encoder: &mut PortionEncoder, before: &[u8]) -> (Result<(), Refusal>, Vec<u8>) {
    let expected = code(encoder.words()).close(&state(encoder), before);
    stepped(encoder, before, expected, |encoder, checks| encoder.close(checks))
}

/// The answer, and the frame as it is afterwards.
pub fn decode(words: Words, allowance: u32, block: &[u8], before: &[u8]) -> (Result<Report, Refusal>, Vec<u8>) {
    let (answer, frame) = lent(before, |frame| words.decode(allowance, block, frame));
    let expected = code(words).decode(allowance.into(), block, before);
    same_decoding(&answer, &frame, &expected, &format!("{words:?}, allowance {allowance}"));
    (answer, frame)
}

/// What salvage tells, without the list that it holds.
#[derive(Clone, Debug, PartialEq)]
pub struct Salvaged {
    pub words: Vec<Option<u32>>,
    pub changes: Vec<Change>,
}

impl Salvaged {
    fn of(salvage: Salvage) -> Salvaged {
        let changes: Vec<Change> = salvage.changes().collect();
        let octets = |c: &Change| [(c.position >> 8) as u8, c.position as u8, c.old, c.new];
        assert_eq!(changes.iter().flat_map(octets).collect::<Vec<u8>>(), salvage.entries());
        assert!(salvage.changes().rev().eq(changes.iter().rev().copied()));
        assert_eq!(salvage.changes().len(), changes.len());
        assert_eq!(salvage.is_whole(), salvage.words().iter().all(|count| count.is_some()));
        Salvaged { words: salvage.words().to_vec(), changes }
    }
}

/// The answer, and frame and list as they are afterwards.
pub fn salvage(
    words: Words,
    allowance: u32,
    block: &[u8],
    before: &[u8],
    listed: &[u8],
) -> (Result<Salvaged, Refusal>, Vec<u8>, Vec<u8>) {
    let call = |frame: &mut [u8], list: &mut [u8]| words.salvage(allowance, block, frame, list).map(Salvaged::of);
    let ((answer, list), frame) = lent(before, |frame| lent(listed, |list| call(frame, list)));
    let expected = code(words).salvage(allowance.into(), block, before, listed);
    let case = format!("{words:?}, allowance {allowance}");
    assert_eq!(numbers(&answer), (expected.number, 0), "{case}");
    assert!((&frame, &list) == (&expected.frame, &expected.list), "{case}");
    if let Ok(salvaged) = &answer {
        let told = |w: usize| (expected.marks[w] == 1).then_some(expected.counts[w] as u32);
        assert_eq!(salvaged.words, (0..words.depth as usize).map(told).collect::<Vec<_>>(), "{case}");
        assert_eq!(salvaged.changes.len(), expected.entries, "{case}");
    }
    (answer, frame, list)
}

/// The answer, and the marked block as it is afterwards.
pub fn transmit(chain: Chain, frame: &[u8], before: &[u8]) -> (Result<(), Refusal>, Vec<u8>) {
    let (answer, marked) = lent(before, |marked| chain.transmit(frame, marked));
    let (number, expected) = second::chain::transmit(code(chain.words), chain.randomised, frame, before);
    assert_eq!(numbers(&answer), (number, 0), "{chain:?}");
    assert_eq!(marked, expected, "{chain:?}");
    (answer, marked)
}

/// The answer, and the frame as it is afterwards.
pub fn receive(
    chain: Chain,
    allowance: u32,
    tolerance: u32,
    marked: &[u8],
    before: &[u8],
) -> (Result<Reception, Refusal>, Vec<u8>) {
    let (answer, frame) = lent(before, |frame| chain.receive(allowance, tolerance, marked, frame));
    let (s, t) = (allowance.into(), tolerance.into());
    let expected = second::chain::receive(code(chain.words), s, t, chain.randomised, marked, before);
    let case = format!("{chain:?}, allowance {allowance}, tolerance {tolerance}");
    same_decoding(&answer.map(|reception| reception.report), &frame, &expected, &case);
    // The second program's answer ends with 1 where it delivers an inverted block, else with 0.
    assert_eq!(answer.is_ok_and(|reception| reception.inverted), expected.answer.ends_with(" 1"), "{case}");
    (answer, frame)
}

/// The answer, and the block as it is afterwards.
pub fn randomise(before: &[u8]) -> (Result<(), Refusal>, Vec<u8>) {
    let (answer, block) = lent(before, ironsimmer::randomise);
    match second::randomiser::randomised(before) {
        Ok(expected) => assert_eq!((numbers(&answer), &block), ((0, 0), &expected)),
        Err(number) => assert_eq!((numbers(&answer), &block[..]), ((number, 0), before)),
    }
    (answer, block)
}

/// So many octets of the sequence from a register on, and the register's content afterwards, which is the octet after them.
pub fn sequence(register: u8, n: usize) -> Vec<u8> {
    let mut sequence = Sequence::from_register(register);
    let mut octets: Vec<u8> = sequence.by_ref().take(n).collect();
    octets.push(sequence.register());
    assert_eq!(octets, packed(&second::randomiser::sequence(&bits(&[register]), 8 * (n + 1))));
    octets
}

pub fn test_marker(tolerance: u32, octets: &[u8]) -> Result<(Form, u32), Refusal> {
    let answer = ironsimmer::test_marker(tolerance, octets);
    let told = answer.map_err(|refusal| match refusal {
        Refusal::Marker { wrong_bits } => (9, Some(wrong_bits)),
        refusal => (u64::from(refusal.number()), None),
    });
    assert_eq!(told, second::marker::test(tolerance, octets).map(|(named, wrong)| (form(named), wrong)));
    answer
}

pub fn search(tolerance: u32, stream: &[u8], start: u64, budget: u64) -> Result<Search, Refusal> {
    let answer = ironsimmer::search(tolerance, stream, start, budget);
    let expected = second::marker::search(tolerance, stream, start, budget).map(|searched| match searched {
        Searched::Found { place, wrong, looked, form: named } => {
            Search::Found { place, form: form(named), wrong_bits: wrong, looked }
        }
        Searched::Absent { looked } => Search::Absent { looked },
        Searched::Spent { next, looked } => Search::Spent { next, looked },
    });
    let case = format!("tolerance {tolerance}, start {start}, budget {budget}");
    assert_eq!(answer.map_err(|refusal| u64::from(refusal.number())), expected, "{case}");
    answer
}

/// A coder's state, as the second program has it.
fn carried(coder: &Convolver) -> Coder {
    let CoderState { register, place, holds, held } = coder.state();
    Coder { register, place, holds, held }
}

/// Lends a coder and a buffer to a call. Demands that count, state and symbols are then those expected, and that coder and buffer stay as
/// they are if it refuses, also the bits below the symbols held.
fn coded(
    coder: &mut Convolver,
    before: &[u8],
    expected: Result<(usize, Vec<u8>, Coder), u64>,
    call: impl FnOnce(&mut Convolver, &mut [u8]) -> Result<u32, Refusal>,
) -> (Result<u32, Refusal>, Vec<u8>) {
    let held = coder.clone();
    let guards = CoderState { register: GUARD[0], place: GUARD[0], holds: GUARD[0], held: GUARD[0] };
    let beside = Convolver::from_state(u32::MAX, guards);
    let (answer, after) = lent_with(coder, beside, before, call);

    assert_eq!(coder.rate(), held.rate());
    match expected {
        Ok((count, symbols, next)) => {
            assert_eq!((answer, carried(coder)), (Ok(count as u32), next), "{held:?}");
            assert_eq!(after, symbols, "{held:?}");
        }
        Err(number) => {
            assert_eq!((numbers(&answer), &*coder), ((number, 0), &held));
            assert_eq!(after, before, "{held:?}");
        }
    }
    (answer, after)
}

/// The answer, and the symbols as they are afterwards. The coder is left as the call leaves it.
pub fn convolve(coder: &mut Convolver, data: &[u8], before: &[u8]) -> (Result<u32, Refusal>, Vec<u8>) {
    let expected = second::convolution::convolve(coder.rate(), carried(coder), data, before.len());
    coded(coder, before, expected, |coder, symbols| coder.push(data, symbols))
}

/// The answer, and the symbols as they are afterwards. The coder stays as it is.
pub fn convolve_close(coder: &mut Convolver, before: &[u8]) -> (Result<u32, Refusal>, Vec<u8>) {
    let state = carried(coder);
    let closed = second::convolution::close(coder.rate(), state, before.len());
    let expected = closed.map(|(count, octets)| (count, octets, state));
    coded(coder, before, expected, |coder, symbols| coder.finish(symbols))
}

/// The answer, and the symbols as they are afterwards, of data that are coded by themselves: in the second program a call from the start
/// and a close. The octets are the call's, or but the last, which is then the close's.
pub fn convolve_alone(rate: u32, data: &[u8], before: &[u8]) -> (Result<u32, Refusal>, Vec<u8>) {
    let (answer, symbols) = lent(before, |symbols| ironsimmer::convolve(rate, data, symbols));
    let split_at = |filled: usize| {
        let (count, octets, next) = second::convolution::convolve(rate, Coder::start(), data, filled)?;
        let (_, last) = second::convolution::close(rate, next, before.len() - filled)?;
        Ok::<_, u64>((count, [octets, last].concat()))
    };
    let expected = split_at(before.len()).or_else(|_| split_at(before.len().saturating_sub(1)));
    match expected {
        Ok((count, expected)) => assert_eq!((answer, &symbols), (Ok(count as u32), &expected), "rate {rate}"),
        Err(number) => assert_eq!((numbers(&answer), &symbols[..]), ((number, 0), before), "rate {rate}"),
    }
    (answer, symbols)
}

/// The answer, and the data as they are afterwards.
pub fn likeliest(register: u32, symbols: &[u8], before: &[u8]) -> (Result<Likeliest, Refusal>, Vec<u8>) {
    let (answer, data) = lent(before, |data| ironsimmer::likeliest(register, symbols, data));
    let case = format!("register {register}, symbols {symbols:02X?}");
    match second::likeliest::likeliest(register, symbols, before.len()) {
        Ok((places, register, expected)) => {
            assert_eq!((answer, &data), (Ok(Likeliest { places, register }), &expected), "{case}")
        }
        Err(number) => assert_eq!((numbers(&answer), &data[..]), ((number, 0), before), "{case}"),
    }
    (answer, data)
}
