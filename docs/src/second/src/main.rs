//! The second program: documents 01 and 02 once more, in plain Rust and by other methods than the proved code.
//! `second NAME` writes what the program NAME must write; `second report-input NAME` and `second report-output NAME` write what a
//! report program reads and what it must write of that.

use second::{
    chain, coder_cases, compare, likeliest_cases, limits, marker, portion_cases, randomiser, reed_solomon, report,
    salvage_cases, symbols,
};

fn main() {
    let argument = |n: usize| std::env::args().nth(n).unwrap_or_default();
    match argument(1).as_str() {
        "vectors" => {
            symbols::write_all();
            randomiser::write_all();
            marker::write_all();
            coder_cases::write_all();
            likeliest_cases::write_all();
            limits::write_all();
            reed_solomon::write_all();
            salvage_cases::write_all();
            portion_cases::write_all();
            chain::write_all();
        }
        "compare" => compare::write_all(),
        "report-input" => report::write_input(&argument(2)),
        "report-output" => report::write_output(&argument(2)),
        _ => eprintln!("second vectors | compare | report-input NAME | report-output NAME"),
    }
}
