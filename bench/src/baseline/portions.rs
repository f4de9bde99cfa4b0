//! Frames in portions: the state goes in and comes back by value, and each symbol enters the row of its word by the encoder's own step.

use super::limits;
use crate::calls::{Code, State};
use log_table::entered;

/// Not inlined, as no caller of an archive has it inlined: the state is copied in and out.
#[inline(never)]
pub fn portion(code: Code, state: State, portion: &[u8], written: &mut [u8]) -> (u64, State) {
    let number = limits::portion(code, state, portion.len(), written.len());
    if number != 0 {
        return (number, state);
    }
    written.copy_from_slice(portion);
    let depth = code.depth as usize;
    let mut next = state;
    let mut word = state.progress[0] as usize % depth;
    for symbol in portion {
        next.rows[word] = entered(code.e, next.rows[word], *symbol);
        word += 1;
        if word == depth {
            word = 0;
        }
    }
    next.progress[0] += portion.len() as u32;
    (0, next)
}

#[inline(never)]
pub fn close(code: Code, state: State, checks: &mut [u8]) -> (u64, State) {
    let number = limits::close(code, state, checks.len());
    if number != 0 {
        return (number, state);
    }
    for (j, octets) in checks.chunks_exact_mut(code.depth as usize).enumerate() {
        for (octet, row) in octets.iter_mut().zip(&state.rows) {
            *octet = row[j];
        }
    }
    let mut next = state;
    next.progress[1] = 1;
    (0, next)
}
