//! The second program's parts, for its own `main` and for other programs' tests: documents 01 and 02 once more, in plain Rust and by other
//! methods than the proved code. Each call takes what the proved call takes and gives back what that must leave behind.

pub mod blocks;
pub mod chain;
pub mod coder_cases;
pub mod compare;
pub mod convolution;
pub mod data;
pub mod field;
pub mod likeliest;
pub mod likeliest_cases;
pub mod limits;
pub mod marker;
pub mod portion_cases;
pub mod portions;
pub mod randomiser;
pub mod reed_solomon;
pub mod report;
pub mod salvage;
pub mod salvage_cases;
pub mod symbols;
pub mod word;
