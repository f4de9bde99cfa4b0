//! The Reed-Solomon code of document 01, and its salvage of document 02, in plain Rust, by tables of logarithms and powers: what the proved code's speed is held against.
//!
//! [`decode`] is the plain form: all symbols of a word into 2E sums, Berlekamp-Massey, Chien search, Forney's formula.
//! [`decode_by_coding_again`] is faster: it codes the received frame again and works on the checks that differ. Both judge parameters and
//! lengths as the proved call does, answer the same, and leave the same frame behind. [`salvage`] and [`salvage_by_coding_again`] are the
//! same of salvage.

#![forbid(unsafe_code)]

mod code;
mod decoder;
mod encoder;
mod errors;
mod field;
mod salvager;
mod syndromes;

pub use code::{Code, Refusal};
pub use decoder::{decode, decode_by_coding_again, Counts};
pub use encoder::{encode, entered};
pub use salvager::{salvage, salvage_by_coding_again, Salvage};
