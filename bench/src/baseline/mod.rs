//! Plain Rust that does the same: safe code, tables built once, no intrinsics. The Reed-Solomon code is that of docs/src/log_table.

mod convolution;
mod eights;
mod groups;
mod likeliest;
mod limits;
mod marker;
mod portions;
mod randomiser;

use crate::calls::{Calls, Code, Coder, State};
use convolution::ByWindows;
use eights::ByEights;
use groups::ByTables;
use log_table::{Counts, Refusal, Salvage};
use randomiser::Sequence;

/// Which form of decoder, salvage, search, convolutional coder and its decoder answers; the other calls have one form, the first three of
/// these have two.
pub enum Form {
    Plain,
    Faster,
    Fastest,
}

pub struct Baseline {
    form: Form,
    by_windows: ByWindows,
    by_tables: ByTables,
    by_eights: ByEights,
    sequence: Sequence,
}

impl Baseline {
    pub fn new(form: Form) -> Baseline {
        Baseline {
            form,
            by_windows: ByWindows::new(),
            by_tables: ByTables::new(),
            by_eights: ByEights::new(),
            sequence: Sequence::new(),
        }
    }
}

/// The one number of include/ironsimmer.h: the refusal's, and above its eight bits the word that 10 names.
fn answer(refusal: Refusal) -> u64 {
    match refusal {
        Refusal::Word(word) => refusal.number() | (word as u64) << 8,
        _ => refusal.number(),
    }
}

fn report(words: Counts, counts: &mut [u32; 9]) -> u64 {
    counts[..8].copy_from_slice(&words);
    counts[8] = words.iter().sum();
    0
}

fn told(salvage: Salvage, words: &mut [u32; 17]) -> u64 {
    for (w, count) in salvage.counts.iter().enumerate() {
        words[w] = u32::from(count.is_some());
        words[8 + w] = count.unwrap_or(0);
    }
    words[16] = salvage.entries as u32;
    0
}

impl Calls for Baseline {
    fn encode(&self, code: Code, frame: &[u8], block: &mut [u8]) -> u64 {
        log_table::encode(code, frame, block).map_or_else(answer, |()| 0)
    }

    fn portion(&self, code: Code, state: &mut State, portion: &[u8], written: &mut [u8]) -> u64 {
        let (number, next) = portions::portion(code, *state, portion, written);
        *state = next;
        number
    }

    fn close(&self, code: Code, state: &mut State, checks: &mut [u8]) -> u64 {
        let (number, next) = portions::close(code, *state, checks);
        *state = next;
        number
    }

    fn decode(
        &self,
        code: Code,
        s: u32,
        block: &[u8],
        frame: &mut [u8],
        counts: &mut [u32; 9],
    ) -> u64 {
        let decoded = match self.form {
            Form::Plain => log_table::decode(code, s, block, frame),
            Form::Faster | Form::Fastest => {
                log_table::decode_by_coding_again(code, s, block, frame)
            }
        };
        decoded.map_or_else(answer, |words| report(words, counts))
    }

    fn salvage(
        &self,
        code: Code,
        s: u32,
        block: &[u8],
        frame: &mut [u8],
        list: &mut [u8],
        words: &mut [u32; 17],
    ) -> u64 {
        let salvaged = match self.form {
            Form::Plain => log_table::salvage(code, s, block, frame, list),
            Form::Faster | Form::Fastest => {
                log_table::salvage_by_coding_again(code, s, block, frame, list)
            }
        };
        salvaged.map_or_else(answer, |salvage| told(salvage, words))
    }

    fn search(
        &self,
        tolerance: u32,
        stream: &[u8],
        start: u64,
        budget: u64,
        found: &mut [u64; 5],
    ) -> u64 {
        match self.form {
            Form::Plain => marker::search(tolerance, stream, start, budget, found),
            Form::Faster | Form::Fastest => {
                (self.by_eights).search(tolerance, stream, start, budget, found)
            }
        }
    }

    fn convolve(
        &self,
        rate: u32,
        state: &mut Coder,
        data: &[u8],
        symbols: &mut [u8],
        count: &mut u32,
    ) -> u64 {
        match self.form {
            Form::Plain => convolution::by_bits(rate, state, data, symbols, count),
            Form::Faster => self.by_windows.convolve(rate, state, data, symbols, count),
            Form::Fastest => self.by_tables.convolve(rate, state, data, symbols, count),
        }
    }

    fn convolve_close(&self, rate: u32, state: &Coder, symbols: &mut [u8], count: &mut u32) -> u64 {
        convolution::close(rate, *state, symbols, count)
    }

    fn likeliest(
        &self,
        register: u32,
        symbols: &[u8],
        data: &mut [u8],
        found: &mut [u32; 2],
    ) -> u64 {
        match self.form {
            Form::Plain => likeliest::by_bits(register, symbols, data, found),
            Form::Faster => likeliest::by_words(register, symbols, data, found),
            Form::Fastest => likeliest::by_ways(register, symbols, data, found),
        }
    }

    fn randomise(&self, block: &mut [u8]) -> u64 {
        self.sequence.randomise(block)
    }
}
