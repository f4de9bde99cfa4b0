//! The proved code, called through this crate, against the second program (`docs/src/second`), which was written from the same document
//! by other methods. Every call of `both` is made in both programs, and all that it answers and leaves behind must be the same.
//!
//! Inputs are drawn, the same at every run. Run with `--nocapture` the tests say how many calls they compared.

mod blocks;
mod both;
mod bursts;
mod chain;
mod convolution;
mod draw;
mod likeliest;
mod limits;
mod marker;
mod portions;
mod randomiser;
mod salvage;
mod tally;
