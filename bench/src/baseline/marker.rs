//! The search: a window of 32 bits that is shifted bit by bit, and its ones against the marker, 32 less them against the complement.

use super::limits;
use crate::calls::{ABSENT, COMPLEMENT, FOUND, MARKER, SPENT, TRUE};

/// What is to be looked at: as many places of those that remain as the budget allows.
pub struct Places {
    pub start: u64,
    pub count: u64,
    remaining: u64,
}

impl Places {
    pub fn new(octets: usize, start: u64, budget: u64) -> Places {
        let remaining = (8 * octets as u64 + 1).saturating_sub(start + 32);
        Places {
            start,
            count: remaining.min(budget),
            remaining,
        }
    }

    /// The answer at a place that fits, by the ones there against the marker.
    pub fn found(&self, place: u64, ones: u32) -> [u64; 5] {
        let (wrong, form) = nearer(ones);
        [FOUND, place, wrong.into(), place - self.start + 1, form]
    }

    /// The answer if no place fits.
    pub fn unfound(&self) -> [u64; 5] {
        if self.count < self.remaining {
            [SPENT, self.start + self.count, 0, self.count, 0]
        } else {
            [ABSENT, 0, 0, self.count, 0]
        }
    }
}

/// The wrong bits of the form that has fewer, and that form.
fn nearer(ones: u32) -> (u32, u64) {
    if ones <= 16 {
        (ones, TRUE)
    } else {
        (32 - ones, COMPLEMENT)
    }
}

fn look(tolerance: u32, stream: &[u8], places: Places) -> [u64; 5] {
    // 31 bits fill the window; each bit after them completes a place.
    let first = places.start + 31;
    let mut window: u32 = 0;
    let mut bit = places.start - places.start % 8;
    'octets: for &octet in &stream[(places.start / 8) as usize..] {
        for shift in (0..8).rev() {
            window = window << 1 | u32::from(octet >> shift & 1);
            if bit >= first {
                if bit - first == places.count {
                    break 'octets;
                }
                let ones = (window ^ MARKER).count_ones();
                if nearer(ones).0 <= tolerance {
                    return places.found(bit - 31, ones);
                }
            }
            bit += 1;
        }
    }
    places.unfound()
}

pub fn search(tolerance: u32, stream: &[u8], start: u64, budget: u64, found: &mut [u64; 5]) -> u64 {
    let number = limits::search(tolerance, stream.len(), start);
    if number == 0 {
        *found = look(tolerance, stream, Places::new(stream.len(), start, budget));
    }
    number
}
