#![doc = include_str!("../README.md")]
#![no_std]
#![deny(missing_docs, unsafe_code, unsafe_op_in_unsafe_fn)]

mod chain;
mod convolution;
mod likeliest;
mod marker;
mod portions;
mod randomiser;
#[allow(unsafe_code)]
mod raw;
mod refusal;
mod salvage;
mod words;

pub use chain::{Chain, Reception};
pub use convolution::{convolve, symbols_len, CoderState, Convolver};
pub use likeliest::{likeliest, Likeliest};
pub use marker::{search, test_marker, Form, Search, MARKER};
pub use portions::PortionEncoder;
pub use randomiser::{randomise, Sequence};
pub use refusal::Refusal;
pub use salvage::{Change, Changes, Salvage};
pub use words::{Report, Words};
