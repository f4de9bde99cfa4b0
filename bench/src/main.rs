//! Times the calls of the proved code beside plain Rust that does the same. `bench/run` builds and starts it.

mod agreement;
mod baseline;
mod calls;
mod cases;
mod clock;
mod data;
mod ours;
mod request;
mod salvage;
mod timing;

use baseline::{Baseline, Form};
use calls::Calls;
use cases::Case;
use timing::{pair, Timing};

const ROUNDS: usize = 200;
const DRAWS: usize = 4000;

/// What the compiler may use beyond the plainest machine of its kind, of what would matter here.
fn features() -> String {
    let known = [
        ("sse2", cfg!(target_feature = "sse2")),
        ("ssse3", cfg!(target_feature = "ssse3")),
        ("popcnt", cfg!(target_feature = "popcnt")),
        ("avx2", cfg!(target_feature = "avx2")),
        ("avx512bw", cfg!(target_feature = "avx512bw")),
        ("neon", cfg!(target_feature = "neon")),
    ];
    let used: Vec<&str> = known.iter().filter(|f| f.1).map(|f| f.0).collect();
    used.join(" ")
}

fn compare(sides: &[&dyn Calls], cases: &[Case]) {
    let sweep = agreement::of_sweep(sides, DRAWS);
    for case in cases {
        agreement::of_case(case, sides);
    }
    let [refused, found, absent, spent] = sweep.searched;
    let [repaired, left] = sweep.salvaged;
    println!(
        "The sides agree on {DRAWS} draws of parameters and data (decode delivered {}, refused {} by 10, the rest by 1 to 6; \
         salvage repaired {repaired} words and left {left} as received; convolve accepted {}, likeliest {}; \
         search found {found}, {} of them complements, absent {absent}, spent {spent}, refused {refused}), and on every timed input.",
        sweep.decoded[0], sweep.decoded[10], sweep.convolved, sweep.likeliest, sweep.complements
    );
}

fn write_row(sides: &mut [Timing]) {
    let (best, median) = sides[0].result();
    print!("| {} | {} |", sides[0].case_name(), pair(best, median));
    for k in 1..4 {
        match sides.get_mut(k).map(Timing::result) {
            Some((b, m)) => print!(" {} | {} |", pair(b, m), pair(best / b, median / m)),
            None => print!(" | |"),
        }
    }
    println!();
}

/// The best times, in microseconds, of the cases whose names begin so.
fn best(timings: &mut [Vec<Timing>], name: &str) -> f64 {
    let sides = timings
        .iter_mut()
        .find(|sides| sides[0].case_name().starts_with(name));
    sides.expect("a case of that name")[0].result().0
}

/// What portions cost beside one call: a frame of 1115 octets is as many steps.
fn write_portions(timings: &mut [Vec<Timing>]) {
    let mut ours = |name: &str| best(timings, name);
    let whole = ours("encode, E 16");
    let [long, middle, single] = [300, 16, 1].map(|n| ours(&format!("encode in portions of {n},")));
    let nanoseconds = |time: f64| 1000.0 * time / 1115.0;
    println!();
    println!(
        "Ours, of the best: a frame in portions of 300, 16 and 1 octets takes {:.2}, {:.2} and {:.2} times one call.",
        long / whole,
        middle / whole,
        single / whole
    );
    println!(
        "A portion of 1 octet takes {:.1} ns; an empty one, which copies the state in and out, {:.1} ns, and a step of one call {:.1} ns.",
        nanoseconds(single),
        nanoseconds(ours("1115 empty portions")),
        nanoseconds(whole)
    );
}

/// What calls of 16 octets cost beside one call.
fn write_streams(timings: &mut [Vec<Timing>]) {
    let whole = best(timings, "convolve, 2044 octets, rate 7/8");
    let in_calls = best(timings, "convolve in calls of 16,");
    println!(
        "A stream of 2044 octets at rate 7/8 takes {:.2} times one call in calls of 16 octets; an octet takes {:.2} ns.",
        in_calls / whole,
        1000.0 * whole / 2044.0
    );
}

/// How fast data are decoded at rate 1/2, which is asked for in bits.
fn write_likeliest(timings: &mut [Vec<Timing>]) {
    let [short, middle, long] = [1, 16, 256].map(|octets| {
        let taken = best(timings, &format!("likeliest, n {octets},"));
        8.0 * octets as f64 / taken
    });
    println!(
        "Decoding at rate 1/2: {long:.1} Mbit/s of data in calls of 256 octets, {middle:.1} in calls of 16, {short:.1} in calls of 1."
    );
}

fn main() {
    let plain = Baseline::new(Form::Plain);
    let faster = Baseline::new(Form::Faster);
    let fastest = Baseline::new(Form::Fastest);
    let sides: [&dyn Calls; 4] = [&ours::Ours, &plain, &faster, &fastest];
    let arch = std::env::consts::ARCH;
    println!("Plain Rust may use, on {arch}: {}.", features());

    let cases = cases::all(&ours::Ours);
    compare(&sides, &cases);
    request::run(&ours::Ours, &plain);
    let timed = |case| {
        let sides = &sides[..=Case::forms(case)];
        sides.iter().map(|side| Timing::new(case, *side)).collect()
    };
    let mut timings: Vec<Vec<Timing>> = cases.iter().map(timed).collect();
    timing::run_rounds(&mut timings, ROUNDS);

    println!(
        "CPU time in microseconds a call, best (median) of {ROUNDS} rounds; \
         a ratio is ours / theirs, of the best (of the medians)."
    );
    println!();
    println!(
        "| Case | Ours | Plain Rust | Ratio | Faster plain Rust | Ratio | Fastest plain Rust | Ratio |"
    );
    println!("|---|---|---|---|---|---|---|---|");
    timings.iter_mut().for_each(|sides| write_row(sides));
    write_portions(&mut timings);
    write_streams(&mut timings);
    write_likeliest(&mut timings);
    salvage::run(&[&ours::Ours, &plain, &faster]);
}
