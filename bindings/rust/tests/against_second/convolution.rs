//! The convolutional coder: from every kind of state, cut anywhere, at every limit, and closed.

use crate::both;
use crate::draw::Draw;
use crate::tally::Tally;
use ironsimmer::{symbols_len, CoderState, Convolver, Refusal};
use second::convolution::packed_whole;

const LONGEST: usize = 2044;

/// Rates that there are not.
const NO_RATES: [u32; 5] = [0, 6, 255, 257, u32::MAX];

/// The answers of calls and of closes.
#[derive(Default)]
struct Tallies {
    calls: Tally,
    closes: Tally,
}

impl Tallies {
    /// Codes so many drawn octets, with so many for the output.
    fn call(&mut self, draw: &Draw, coder: &mut Convolver, n: usize, output: usize) -> Result<u32, Refusal> {
        let (answer, _) = both::convolve(coder, &draw.octets(n), &draw.octets(output));
        self.calls.count(&answer);
        answer
    }

    /// Closes, with so many octets for the output.
    fn close(&mut self, draw: &Draw, coder: &mut Convolver, output: usize) -> Result<u32, Refusal> {
        let (answer, _) = both::convolve_close(coder, &draw.octets(output));
        self.closes.count(&answer);
        answer
    }
}

/// The bits of a rate's period, if there is such a rate.
fn period(rate: u32) -> Option<usize> {
    [1, 2, 3, 5, 7].get((rate as usize).wrapping_sub(1)).copied()
}

/// A state that a rate may have, with any bits below the symbols held.
fn any_state(draw: &Draw, rate: u32) -> CoderState {
    CoderState {
        register: draw.upto(63) as u8,
        place: draw.upto(period(rate).unwrap_or(1) - 1) as u8,
        holds: draw.upto(7) as u8,
        held: draw.number() as u8,
    }
}

/// Each rate with data of each length up to the limit, from a drawn state with a close after it, and by themselves.
#[test]
fn every_rate_and_length() {
    let draw = Draw::new(51);
    let (mut tallies, mut alone) = (Tallies::default(), Tally::default());
    for rate in 1..=5 {
        for n in 0..=LONGEST {
            let mut coder = Convolver::from_state(rate, any_state(&draw, rate));
            let filled = coder.symbols_len(n).unwrap();
            tallies.call(&draw, &mut coder, n, filled).unwrap();
            let last = coder.finish_len().unwrap();
            tallies.close(&draw, &mut coder, last).unwrap();
            let symbols = draw.octets(symbols_len(rate, n).unwrap());
            alone.count(&both::convolve_alone(rate, &draw.octets(n), &symbols).0);
        }
    }
    tallies.calls.demand("convolve", &[0], 10225);
    tallies.closes.demand("convolve_close", &[0], 10225);
    alone.demand("convolve by itself", &[0], 10225);
}

/// Every register, place and number of held symbols, with drawn symbols and bits below them, and none to three octets of data.
#[test]
fn every_state() {
    let draw = Draw::new(52);
    let mut tallies = Tallies::default();
    for rate in 1..=5 {
        for register in 0..64 {
            for place in 0..period(rate).unwrap() as u8 {
                for holds in 0..8 {
                    let state = CoderState { register, place, holds, held: draw.number() as u8 };
                    for n in 0..=3 {
                        let mut coder = Convolver::from_state(rate, state);
                        let filled = coder.symbols_len(n).unwrap();
                        tallies.call(&draw, &mut coder, n, filled).unwrap();
                    }
                }
            }
        }
    }
    tallies.calls.demand("convolve, every state", &[0], 36864);
}

/// Every number of held symbols, in every octet, at every rate: what is below them is not written.
#[test]
fn every_close() {
    let draw = Draw::new(53);
    let mut tallies = Tallies::default();
    for rate in 1..=5 {
        for holds in 0..8 {
            for held in 0..=255 {
                let mut coder = Convolver::from_state(rate, CoderState { holds, held, ..any_state(&draw, rate) });
                let last = coder.finish_len().unwrap();
                assert_eq!(tallies.close(&draw, &mut coder, last), Ok(holds.into()));
            }
        }
    }
    tallies.closes.demand("convolve_close, every octet", &[0], 10240);
}

/// Codes a stream in calls of these sizes, the last as long as what is left. The state is stored and taken up after each of them. All that
/// is written, the close's octet too, must be what one run of the second program gives over the whole stream.
fn cut(draw: &Draw, tallies: &mut Tallies, rate: u32, len: usize, size: impl Fn() -> usize) {
    let stream = draw.octets(len);
    let mut coder = Convolver::new(rate);
    let (mut joined, mut symbols, mut place) = (vec![], 0, 0);
    while place < len {
        let data = &stream[place..][..size().min(len - place)];
        let before = draw.octets(coder.symbols_len(data.len()).unwrap());
        let (answer, filled) = both::convolve(&mut coder, data, &before);
        tallies.calls.count(&answer);
        symbols += answer.unwrap() as usize;
        joined.extend(filled);
        place += data.len();
        assert_eq!(symbols, 8 * joined.len() + usize::from(coder.state().holds));
        let stored = Convolver::from_state(coder.rate(), coder.state());
        assert_eq!(stored, coder);
        coder = stored;
    }
    let before = draw.octets(coder.finish_len().unwrap());
    let (answer, last) = both::convolve_close(&mut coder, &before);
    tallies.closes.count(&answer);
    assert_eq!(answer, Ok((symbols - 8 * joined.len()) as u32));
    joined.extend(last);
    assert_eq!(joined, packed_whole(rate, &stream), "rate {rate}, {len} octets");
}

/// Streams longer than a call may be, in sizes drawn for each call, none, 1 and 2,044 among them, and in one size for all.
#[test]
fn cut_anywhere() {
    let draw = Draw::new(54);
    let mut tallies = Tallies::default();
    for rate in 1..=5 {
        for most in [1, 7, 100, LONGEST, LONGEST, LONGEST, LONGEST, LONGEST] {
            let len = LONGEST + 1 + draw.upto(4000);
            cut(&draw, &mut tallies, rate, len, || draw.one_of(&[0, 1, most, draw.upto(most)]));
        }
        for size in [1, 2, 3, 5, 7, 16, 255, 2043, LONGEST] {
            let len = LONGEST + 1 + draw.upto(4000);
            cut(&draw, &mut tallies, rate, len, || size);
        }
    }
    tallies.calls.demand("convolve, cut anywhere", &[0], 50000);
    tallies.closes.demand("convolve_close, cut anywhere", &[0], 85);
}

/// A stream whose rate changes at drawn places: the state that one rate left is taken by any rate whose period its place is below, and by
/// no other.
#[test]
fn another_rate() {
    let draw = Draw::new(56);
    let mut tallies = Tallies::default();
    for _ in 0..2000 {
        let mut coder = Convolver::new(draw.one_of(&[3, 4, 5]));
        for _ in 0..5 {
            let n = draw.one_of(&[0, 1, 2, draw.upto(40)]);
            let filled = coder.symbols_len(n).unwrap();
            tallies.call(&draw, &mut coder, n, filled).unwrap();
            let rate = draw.one_of(&[1, 2, 3, 4, 5]);
            let mut other = Convolver::from_state(rate, coder.state());
            if usize::from(coder.state().place) < period(rate).unwrap() {
                coder = other;
            } else {
                assert_eq!(tallies.call(&draw, &mut other, n, filled), Err(Refusal::Rate));
                assert_eq!(tallies.close(&draw, &mut other, 1), Err(Refusal::Rate));
            }
        }
        let last = coder.finish_len().unwrap();
        tallies.close(&draw, &mut coder, last).unwrap();
    }
    tallies.calls.demand("convolve, another rate", &[0, 7], 2000);
    tallies.closes.demand("convolve_close, another rate", &[0, 7], 2000);
}

/// Whether the rate and a state of it are legal, whatever the second program says.
fn fits(coder: &Convolver) -> bool {
    let CoderState { register, place, holds, .. } = coder.state();
    period(coder.rate()).is_some_and(|period| register < 64 && usize::from(place) < period && holds < 8)
}

/// The octets that a call fills, counted bit by bit; or what is due before they are asked for.
fn due_len(coder: &Convolver, n: usize) -> Result<usize, Refusal> {
    if !fits(coder) {
        return Err(Refusal::Rate);
    }
    if n > LONGEST {
        return Err(Refusal::InputLength);
    }
    let (place, period) = (usize::from(coder.state().place), period(coder.rate()).unwrap());
    let begun = (place..place + 8 * n).filter(|time| time % period == 0).count();
    Ok((usize::from(coder.state().holds) + 8 * n + begun) / 8)
}

/// The same of a close.
fn due_finish_len(coder: &Convolver) -> Result<usize, Refusal> {
    if !fits(coder) {
        return Err(Refusal::Rate);
    }
    Ok(if coder.state().holds == 0 { 0 } else { 1 })
}

/// Demands that an answer is the refusal due, or the output's if its length is not the one required, or else an acceptance.
fn as_due(answer: Result<u32, Refusal>, due: Result<usize, Refusal>, output: usize, coder: &Convolver) {
    let expected = due.and_then(|required| if output == required { Ok(()) } else { Err(Refusal::OutputLength) });
    assert_eq!(answer.map(|_| ()), expected, "output {output}, {coder:?}");
}

/// Calls about the limit of data and a close, each with an output that fits, is one long, one short or none.
fn limits_from(draw: &Draw, tallies: &mut Tallies, coder: Convolver) {
    for n in [0, 1, 2, 2043, LONGEST, LONGEST + 1, LONGEST + 2] {
        let due = due_len(&coder, n);
        assert_eq!(coder.symbols_len(n), due, "{n} octets, {coder:?}");
        let required = due.unwrap_or(3);
        for output in [required, required + 1, required.max(1) - 1, 0] {
            as_due(tallies.call(draw, &mut coder.clone(), n, output), due, output, &coder);
        }
    }
    let due = due_finish_len(&coder);
    assert_eq!(coder.finish_len(), due, "{coder:?}");
    for output in [0, 1, 2, 8] {
        as_due(tallies.close(draw, &mut coder.clone(), output), due, output, &coder);
    }
}

/// At each rate each number of the state at its limits and past them, one at a time; and rates that there are not.
#[test]
fn limits() {
    let draw = Draw::new(57);
    let mut tallies = Tallies::default();
    for rate in (1..=5).chain(NO_RATES) {
        let end = period(rate).unwrap_or(1) as u8;
        let mut try_state = |state| limits_from(&draw, &mut tallies, Convolver::from_state(rate, state));
        for register in [0, 62, 63, 64, 65, 127, 128, 255] {
            try_state(CoderState { register, ..any_state(&draw, rate) });
        }
        for place in [0, end - 1, end, end + 1, 64, 128, 255] {
            try_state(CoderState { place, ..any_state(&draw, rate) });
        }
        for holds in [0, 1, 6, 7, 8, 9, 15, 16, 128, 255] {
            try_state(CoderState { holds, ..any_state(&draw, rate) });
        }
    }
    tallies.calls.demand("convolve, limits", &[0, 5, 6, 7], 300);
    tallies.closes.demand("convolve_close, limits", &[0, 6, 7], 45);
}

/// Illegal rates and states and wrong lengths, one and several at a time: the first in the order is answered.
#[test]
fn several_faults_at_once() {
    let draw = Draw::new(58);
    let mut tallies = Tallies::default();
    for _ in 0..16000 {
        let rate = draw.mostly(&[1, 2, 3, 4, 5], &NO_RATES);
        let end = period(rate).unwrap_or(1) as u8;
        let legal = any_state(&draw, rate);
        let state = CoderState {
            register: draw.mostly(&[legal.register], &[64, 100, 255]),
            place: draw.mostly(&[legal.place], &[end, end + 1, 7, 255]),
            holds: draw.mostly(&[legal.holds], &[8, 9, 255]),
            held: legal.held,
        };
        let mut coder = Convolver::from_state(rate, state);
        let n = draw.mostly(&[0, 1, draw.upto(300), LONGEST], &[LONGEST + 1, 2100]);
        let (due, due_close) = (due_len(&coder, n), due_finish_len(&coder));
        let required = due_close.unwrap_or(1);
        let output = draw.mostly(&[required], &[0, 1, 2, 3]);
        as_due(tallies.close(&draw, &mut coder, output), due_close, output, &coder);
        let required = due.unwrap_or(3);
        let output = draw.mostly(&[required], &[0, 1, required.max(1) - 1, required + 1]);
        let before = coder.clone();
        as_due(tallies.call(&draw, &mut coder, n, output), due, output, &before);
    }
    tallies.calls.demand("convolve, several faults", &[0, 5, 6, 7], 500);
    tallies.closes.demand("convolve_close, several faults", &[0, 6, 7], 500);
}

/// Data that are coded by themselves, with rates, lengths and symbols at and past their limits.
#[test]
fn limits_by_itself() {
    let draw = Draw::new(59);
    let mut tally = Tally::default();
    for _ in 0..4000 {
        let rate = draw.one_of(&[1, 2, 3, 4, 5, draw.one_of(&NO_RATES)]);
        let n = draw.one_of(&[0, 1, 7, 100, 2043, 2044, 2045, 2046]);
        let required = symbols_len(rate, n).unwrap_or(5);
        let len = draw.one_of(&[required, required, required.saturating_sub(1), required + 1, 0]);
        let (answer, _) = both::convolve_alone(rate, &draw.octets(n), &draw.octets(len));
        // The length is refused as the call is, before the symbols' own length is looked at.
        let of_lengths = answer.err().filter(|refusal| *refusal != Refusal::OutputLength);
        assert_eq!(symbols_len(rate, n).err(), of_lengths);
        tally.count(&answer);
    }
    tally.demand("convolve by itself, limits", &[0, 5, 6, 7], 400);
}

/// (G), (H) and (I), as document 01 prints them: a call from the start, and its close.
#[test]
fn as_printed() {
    for (rate, octet, count, printed) in
        [(1, 0x00, 16, [0x55, 0x55]), (1, 0x80, 16, [0xBA, 0x49]), (3, 0x80, 11, [0xDC, 0xC0])]
    {
        let mut coder = Convolver::new(rate);
        let (filled, last) = printed.split_at(coder.symbols_len(1).unwrap());
        assert_eq!(both::convolve(&mut coder, &[octet], &vec![0; filled.len()]), (Ok(count), filled.to_vec()));
        assert_eq!(both::convolve_close(&mut coder, &vec![0; last.len()]), (Ok(count % 8), last.to_vec()));
    }
}
