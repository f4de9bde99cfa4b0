//! Frames in portions: cut anywhere, at every limit, and from states that no call handed out.

use crate::both;
use crate::draw::Draw;
use crate::limits::any_words;
use crate::tally::Tally;
use ironsimmer::{PortionEncoder, Refusal, Words};

/// The answers of portions and of closes.
#[derive(Default)]
struct Tallies {
    portions: Tally,
    closes: Tally,
}

impl Tallies {
    /// Hands over a drawn portion of so many octets, with so many for the output.
    fn portion(&mut self, draw: &Draw, encoder: &mut PortionEncoder, n: usize, output: usize) -> Result<(), Refusal> {
        let (answer, _) = both::portion(encoder, &draw.octets(n), &draw.octets(output));
        self.portions.count(&answer);
        answer
    }

    /// Closes, with so many octets for the checks.
    fn close(&mut self, draw: &Draw, encoder: &mut PortionEncoder, output: usize) -> Result<(), Refusal> {
        let (answer, _) = both::close(encoder, &draw.octets(output));
        self.closes.count(&answer);
        answer
    }
}

fn end(words: Words) -> u32 {
    words.frame_len().unwrap() as u32
}

/// A state of this place, whose rows are any octets.
fn standing(draw: &Draw, words: Words, place: u32, closed: bool) -> PortionEncoder {
    let mut rows = [[draw.one_of(&[0, 0xFF]); 32]; 8];
    if !draw.once_in(8) {
        rows.as_flattened_mut().copy_from_slice(&draw.octets(256));
    }
    PortionEncoder::from_state(words, place, closed, rows)
}

/// Codes a frame in portions of these sizes, the last as long as what is left. The state is stored and taken up after each of them, and
/// the joined block must be encode's. Nothing is taken after the close.
fn cut(draw: &Draw, tallies: &mut Tallies, words: Words, size: impl Fn() -> usize) {
    let frame = draw.frame(words);
    let mut encoder = PortionEncoder::new(words);
    let mut joined = vec![];
    while joined.len() < frame.len() {
        let left = &frame[joined.len()..];
        let portion = &left[..size().min(left.len())];
        let (answer, written) = both::portion(&mut encoder, portion, &draw.octets(portion.len()));
        assert_eq!((answer, &written[..]), (Ok(()), portion), "{words:?}");
        tallies.portions.count(&answer);
        joined.extend(written);
        assert_eq!((encoder.place() as usize, encoder.is_closed()), (joined.len(), false));
        assert_eq!(encoder.remaining(), Ok(frame.len() - joined.len()));
        let stored = PortionEncoder::from_state(words, encoder.place(), encoder.is_closed(), *encoder.rows());
        assert_eq!(stored, encoder);
        encoder = stored;
    }
    let checks_len = words.checks_len().unwrap();
    let (answer, checks) = both::close(&mut encoder, &draw.octets(checks_len));
    assert_eq!((answer, encoder.is_closed()), (Ok(()), true), "{words:?}");
    tallies.closes.count(&answer);
    joined.extend(checks);
    let (_, block) = both::encode(words, &frame, &draw.octets(words.block_len().unwrap()));
    assert_eq!(joined, block, "{words:?}");

    for n in [0, 1] {
        assert_eq!(tallies.portion(draw, &mut encoder, n, n), Err(Refusal::Progress));
    }
    assert_eq!(tallies.close(draw, &mut encoder, checks_len), Err(Refusal::Progress));
}

/// Sizes drawn for each portion, none, 1 and 300 among them, and one size for all.
#[test]
fn cut_anywhere() {
    let draw = Draw::new(61);
    let mut tallies = Tallies::default();
    for words in draw.all_words() {
        for most in [1, 7, 300, 300, 300, 300] {
            cut(&draw, &mut tallies, words, || draw.one_of(&[0, 1, most, draw.upto(most)]));
        }
        for size in [2, 7, 16, 255, 299, 300] {
            cut(&draw, &mut tallies, words, || size);
        }
    }
    tallies.portions.demand("portions, cut anywhere", &[0, 14], 1400);
    tallies.closes.demand("closes, cut anywhere", &[0, 14], 700);
}

#[test]
fn single_octets() {
    let draw = Draw::new(62);
    let mut tallies = Tallies::default();
    for words in draw.all_words() {
        cut(&draw, &mut tallies, words, || 1);
    }
    tallies.portions.demand("portions, single octets", &[0, 14], 120);
    tallies.closes.demand("closes, single octets", &[0, 14], 60);
}

/// Places about the frame's start, about the last at which 300 octets fit, about its end, and far beyond it.
fn places(words: Words) -> Vec<u32> {
    let end = end(words);
    let before = [301, 300, 299, 2, 1, 0].map(|n| end.saturating_sub(n));
    let far = [300, 299, 1, 0].map(|n| u32::MAX - n);
    [&[0, 1], &before[..], &[end + 1, end + 300, 10 * end], &far].concat()
}

/// What the limits demand of a portion of so many octets, whatever the second program says; the numbers of its words are legal.
fn due_of_portion(encoder: &PortionEncoder, n: usize, output: usize) -> Result<(), Refusal> {
    if n > 300 {
        Err(Refusal::InputLength)
    } else if output != n {
        Err(Refusal::OutputLength)
    } else if encoder.is_closed() || encoder.place() as usize + n > end(encoder.words()) as usize {
        Err(Refusal::Progress)
    } else {
        Ok(())
    }
}

/// The same of a close.
fn due_of_close(encoder: &PortionEncoder, output: usize) -> Result<(), Refusal> {
    if output != encoder.words().checks_len().unwrap() {
        Err(Refusal::OutputLength)
    } else if encoder.is_closed() || encoder.place() != end(encoder.words()) {
        Err(Refusal::Progress)
    } else {
        Ok(())
    }
}

/// None to 301 octets at a place, with an output that fits, is one long or one short; then a close there, with room for the checks that
/// fits, is one long or one short, is none, or is the block's.
fn limits_at(draw: &Draw, tallies: &mut Tallies, words: Words, place: u32, closed: bool) {
    let before = standing(draw, words, place, closed);
    assert_eq!(before.remaining(), Ok(end(words).saturating_sub(place) as usize));
    for n in [0, 1, 2, 299, 300, 301] {
        for output in [n, n + 1, n.max(1) - 1] {
            let answer = tallies.portion(draw, &mut before.clone(), n, output);
            assert_eq!(answer, due_of_portion(&before, n, output), "{n} octets, output {output}, {before:?}");
        }
    }
    let required = words.checks_len().unwrap();
    for output in [required, required + 1, required - 1, 0, words.block_len().unwrap()] {
        let answer = tallies.close(draw, &mut before.clone(), output);
        assert_eq!(answer, due_of_close(&before, output), "output {output}, {before:?}");
    }
}

#[test]
fn limits() {
    let draw = Draw::new(63);
    let mut tallies = Tallies::default();
    for words in draw.all_words() {
        for place in places(words) {
            limits_at(&draw, &mut tallies, words, place, false);
            limits_at(&draw, &mut tallies, words, place, true);
        }
    }
    tallies.portions.demand("portions, limits", &[0, 5, 6, 14], 1000);
    tallies.closes.demand("closes, limits", &[0, 6, 14], 60);
}

/// States that no call handed out, at any place of the frame or anywhere, given some portions and closed where they then stand; and such
/// states at the frame's end.
#[test]
fn states_of_no_call() {
    let draw = Draw::new(64);
    let mut tallies = Tallies::default();
    for words in draw.all_words() {
        let (end, checks_len) = (end(words), words.checks_len().unwrap());
        for _ in 0..30 {
            let place = draw.mostly(&[draw.upto32(end), draw.upto32(end), end], &[draw.number() as u32]);
            let mut encoder = standing(&draw, words, place, draw.once_in(8));
            for _ in 0..3 {
                let left = encoder.remaining().unwrap().min(300);
                let n = draw.one_of(&[0, 1, left, draw.upto(left), draw.upto(300)]);
                let _ = tallies.portion(&draw, &mut encoder, n, n);
            }
            let _ = tallies.close(&draw, &mut encoder, checks_len);
            let mut at_the_end = standing(&draw, words, end, draw.once_in(8));
            let _ = tallies.close(&draw, &mut at_the_end, checks_len);
        }
    }
    tallies.portions.demand("portions, states of no call", &[0, 14], 1000);
    tallies.closes.demand("closes, states of no call", &[0, 14], 1000);
}

/// Illegal numbers, wrong lengths and unfit states, one and several at a time: the first in the order is answered.
#[test]
fn several_faults_at_once() {
    let draw = Draw::new(65);
    let mut tallies = Tallies::default();
    for _ in 0..16000 {
        let words = any_words(&draw);
        // If the numbers are illegal, no length is required: then a small one.
        let end = words.frame_len().unwrap_or(33) as u32;
        let beyond = [end + 1, end + 301, u32::MAX];
        let n = draw.mostly(&[0, 1, draw.upto(300), 300], &[301, 302, 2040]);
        let output = draw.mostly(&[n], &[0, n + 1, n.max(1) - 1, 300, 301]);
        let mut encoder = standing(&draw, words, draw.mostly(&[0, end / 2, end], &beyond), draw.once_in(8));
        assert_eq!(encoder.remaining().err(), words.frame_len().err());
        let _ = tallies.portion(&draw, &mut encoder, n, output);

        let required = words.checks_len().unwrap_or(33);
        let output = draw.mostly(&[required], &[0, required - 1, required + 1, 255, 256]);
        let place = draw.mostly(&[end], &[0, end - 1, end + 1, u32::MAX]);
        let _ = tallies.close(&draw, &mut standing(&draw, words, place, draw.once_in(8)), output);
    }
    tallies.portions.demand("portions, several faults", &[0, 1, 2, 3, 5, 6, 14], 100);
    tallies.closes.demand("closes, several faults", &[0, 1, 2, 3, 6, 14], 100);
}
