//! Samples of CPU time, taken in rounds.

use crate::calls::Calls;
use crate::cases::Case;
use crate::clock::cpu_time;
use std::hint::black_box;

/// Of CPU time, in microseconds: far more than a look at the clock takes.
const SAMPLE: f64 = 1000.0;

/// One case on one side: how often its inputs are gone through for a sample, and the samples, in microseconds a call.
pub struct Timing<'a> {
    case: &'a Case,
    side: &'a dyn Calls,
    passes: usize,
    samples: Vec<f64>,
}

impl<'a> Timing<'a> {
    pub fn new(case: &'a Case, side: &'a dyn Calls) -> Timing<'a> {
        let mut timing = Timing {
            case,
            side,
            passes: 1,
            samples: Vec::new(),
        };
        // The first pass warms caches and predictors up.
        timing.sample();
        let pass = timing.sample() * case.inputs.len() as f64;
        timing.passes = (SAMPLE / pass).ceil() as usize;
        timing
    }

    pub fn case_name(&self) -> &str {
        &self.case.name
    }

    fn sample(&self) -> f64 {
        let mut lent = self.case.fresh.clone();
        let before = cpu_time();
        for _ in 0..self.passes {
            for input in &self.case.inputs {
                // The side is hidden from the compiler: neither code nor numbers of a call may be fitted to the case.
                black_box(self.case.call(input, black_box(self.side), &mut lent));
            }
        }
        let taken = cpu_time() - before;
        black_box(&lent);
        taken / (self.passes * self.case.inputs.len()) as f64
    }

    /// The best and the median sample.
    pub fn result(&mut self) -> (f64, f64) {
        self.samples.sort_by(f64::total_cmp);
        (self.samples[0], self.samples[self.samples.len() / 2])
    }
}

fn number(x: f64) -> String {
    if x < 1.0 {
        format!("{x:.3}")
    } else {
        format!("{x:.2}")
    }
}

/// A best and a median as they are written.
pub fn pair(best: f64, median: f64) -> String {
    format!("{} ({})", number(best), number(median))
}

/// Each round takes every case once on every side, in turn from the first side on and from the last.
pub fn run_rounds(cases: &mut [Vec<Timing>], rounds: usize) {
    let take = |timing: &mut Timing| {
        let taken = timing.sample();
        timing.samples.push(taken);
    };
    for round in 0..rounds {
        for sides in cases.iter_mut() {
            if round % 2 == 0 {
                sides.iter_mut().for_each(take);
            } else {
                sides.iter_mut().rev().for_each(take);
            }
        }
    }
}
