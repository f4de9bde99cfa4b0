//! The checks of parameters and lengths but for encode and decode, which are the library's: the refusal's number, 0 if there is none.

use crate::calls::{filled_len, Code, Coder, State, PERIODS};
use log_table::Refusal;

fn code(code: Code) -> u64 {
    code.accept().map_or_else(Refusal::number, |()| 0)
}

pub fn portion(parameters: Code, state: State, portion: usize, written: usize) -> u64 {
    let [place, closed] = state.progress;
    match code(parameters) {
        0 if portion > 300 => 5,
        0 if written != portion => 6,
        0 if closed != 0 || place as usize + portion > parameters.frame_len() => 14,
        number => number,
    }
}

pub fn close(parameters: Code, state: State, checks: usize) -> u64 {
    let [place, closed] = state.progress;
    match code(parameters) {
        0 if checks != parameters.checks_len() => 6,
        0 if closed != 0 || place as usize != parameters.frame_len() => 14,
        number => number,
    }
}

pub fn search(tolerance: u32, stream: usize, start: u64) -> u64 {
    if tolerance > 3 {
        8
    } else if stream > 65536 {
        5
    } else if start > 8 * stream as u64 {
        11
    } else {
        0
    }
}

/// 7 if there is no such rate, or the coder has no such state at it.
fn coder(rate: u32, state: Coder) -> u64 {
    let [register, place, holds, _] = state;
    let period = PERIODS.get((rate as usize).wrapping_sub(1));
    match period {
        Some(period) if register < 64 && (place as usize) < *period && holds < 8 => 0,
        _ => 7,
    }
}

pub fn convolve(rate: u32, state: Coder, data: usize, symbols: usize) -> u64 {
    match coder(rate, state) {
        0 if data > 2044 => 5,
        0 if symbols != filled_len(rate, state, data) => 6,
        number => number,
    }
}

pub fn convolve_close(rate: u32, state: Coder, symbols: usize) -> u64 {
    match coder(rate, state) {
        0 if symbols != usize::from(state[2] > 0) => 6,
        number => number,
    }
}

pub fn likeliest(register: u32, symbols: usize, data: usize) -> u64 {
    if register > 63 {
        7
    } else if symbols % 2 == 1 || symbols > 512 {
        5
    } else if data != symbols / 2 {
        6
    } else {
        0
    }
}

pub fn randomise(block: usize) -> u64 {
    if block > 2040 {
        5
    } else {
        0
    }
}
