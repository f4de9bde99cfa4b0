//! How often each answer was given: a comparison that never met a refusal would say nothing about it.

use ironsimmer::Refusal;

/// Of each number, how many answers had it. No refusal has the numbers 12 and 13.
#[derive(Default)]
pub struct Tally([usize; 15]);

impl Tally {
    /// Counts an answer by its number, 0 if accepted.
    pub fn count<T>(&mut self, answer: &Result<T, Refusal>) {
        let number = answer.as_ref().map_or_else(|refusal| refusal.number(), |_| 0);
        self.0[number as usize] += 1;
    }

    /// Tells the numbers, and demands that exactly these answers were given, each at least so many times.
    pub fn demand(&self, what: &str, answers: &[usize], least: usize) {
        let all: usize = self.0.iter().sum();
        println!("{what}: {all} calls, by the answer's number {:?}", self.0);
        for (number, times) in self.0.iter().enumerate() {
            let enough = if answers.contains(&number) { *times >= least } else { *times == 0 };
            assert!(enough, "{what}: answer {number} was given {times} times");
        }
    }
}
