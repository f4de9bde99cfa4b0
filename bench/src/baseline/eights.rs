//! The search by tables, the eight places of an octet at once: the fastest plain Rust for it that we know.

use super::limits;
use super::marker::Places;
use crate::calls::MARKER;
use std::array::from_fn;

/// Eight numbers in the octets of one; the lowest is that of the first place.
type Eight = u64;

const ONES: Eight = 0x0101_0101_0101_0101;

/// For each of five octets in a row what it adds to the ones against the marker at the eight places that begin in the first of them.
pub struct ByEights([[Eight; 256]; 5]);

/// How many bits of an octet, the k-th of the five, differ from the marker that is laid at bit b of the first.
fn differing(k: usize, octet: usize, b: usize) -> u64 {
    let wrong = |j: usize| {
        let n = (8 * k + j).checked_sub(b).filter(|n| *n < 32);
        n.is_some_and(|n| MARKER >> (31 - n) & 1 != octet as u32 >> (7 - j) & 1)
    };
    (0..8).filter(|j| wrong(*j)).count() as u64
}

/// The places of an octet that fit in so many of their bits, as top bits. No sum passes its octet: a count is at most 32.
#[derive(Clone, Copy)]
struct Fits {
    /// Added to a count, this sets its top bit if it is over the tolerance.
    over: Eight,
    /// And this, if the bits less the count are within the tolerance.
    complement: Eight,
}

impl Fits {
    fn new(tolerance: u32, bits: u64) -> Fits {
        let tolerance = u64::from(tolerance);
        Fits {
            over: ONES * (127 - tolerance),
            complement: ONES * (128 - bits + tolerance),
        }
    }

    #[inline(always)]
    fn of(self, counts: Eight) -> Eight {
        (!(counts + self.over) | (counts + self.complement)) & ONES << 7
    }
}

impl ByEights {
    pub fn new() -> ByEights {
        let eight = |k, octet| (0..8).fold(0, |all, b| all | differing(k, octet, b) << (8 * b));
        ByEights(from_fn(|k| from_fn(|octet| eight(k, octet))))
    }

    #[inline(always)]
    fn counts(&self, five: &[u8; 5]) -> Eight {
        let [a, b, c, d, e] = &self.0;
        a[five[0] as usize]
            + b[five[1] as usize]
            + c[five[2] as usize]
            + d[five[3] as usize]
            + e[five[4] as usize]
    }

    /// The same of the three octets in the middle, which all eight places have whole.
    #[inline(always)]
    fn common(&self, three: &[u8; 3]) -> Eight {
        let [_, b, c, d, _] = &self.0;
        b[three[0] as usize] + c[three[1] as usize] + d[three[2] as usize]
    }

    /// Whether a place that begins in one of four octets may fit, by the six octets behind the first.
    #[inline(always)]
    fn near(&self, fits: Fits, six: &[u8; 6]) -> bool {
        let three = six.array_windows::<3>();
        three.fold(0, |all, three| all | fits.of(self.common(three))) != 0
    }

    /// The counts of the places that begin in an octet near an end of the stream. Octets past that are taken as zero: no place that is
    /// looked at reaches them.
    fn counts_at(&self, stream: &[u8], octet: usize) -> Eight {
        self.counts(&from_fn(|k| stream.get(octet + k).copied().unwrap_or(0)))
    }

    fn look(&self, tolerance: u32, stream: &[u8], places: Places) -> [u64; 5] {
        if places.count == 0 {
            return places.unfound();
        }
        let fits = Fits::new(tolerance, 32);
        let found = |octet: usize, counts: Eight, fitting: Eight| {
            let b = fitting.trailing_zeros() / 8;
            let ones = (counts >> (8 * b)) as u32 & 255;
            places.found(8 * octet as u64 + u64::from(b), ones)
        };
        let last_place = places.start + places.count - 1;
        let (first, last) = ((places.start / 8) as usize, (last_place / 8) as usize);
        // Of the first and the last octet not all places count.
        let from_start = u64::MAX << (8 * (places.start % 8));
        let to_last = u64::MAX >> (8 * (7 - last_place % 8));

        let counts = self.counts_at(stream, first);
        let only = if first == last { to_last } else { u64::MAX };
        let fitting = fits.of(counts) & from_start & only;
        if fitting != 0 {
            return found(first, counts, fitting);
        }
        if first == last {
            return places.unfound();
        }
        let singly = |from: usize, octets: &[u8]| {
            octets
                .array_windows::<5>()
                .enumerate()
                .find_map(|(k, five)| {
                    let counts = self.counts(five);
                    let fitting = fits.of(counts);
                    (fitting != 0).then(|| found(from + k, counts, fitting))
                })
        };
        // The octets between go by fours, which are passed over unless the bits that their places have in common come near.
        let between = &stream[first + 1..last + 4];
        let common = Fits::new(tolerance, 24);
        let mut k = 0;
        while let Some(eight) = between[k..].first_chunk::<8>() {
            let [_, six @ .., _] = eight;
            if self.near(common, six) {
                if let Some(answer) = singly(first + 1 + k, eight) {
                    return answer;
                }
            }
            k += 4;
        }
        if let Some(answer) = singly(first + 1 + k, &between[k..]) {
            return answer;
        }
        let counts = self.counts_at(stream, last);
        match fits.of(counts) & to_last {
            0 => places.unfound(),
            fitting => found(last, counts, fitting),
        }
    }

    pub fn search(
        &self,
        tolerance: u32,
        stream: &[u8],
        start: u64,
        budget: u64,
        found: &mut [u64; 5],
    ) -> u64 {
        let number = limits::search(tolerance, stream.len(), start);
        if number == 0 {
            *found = self.look(tolerance, stream, Places::new(stream.len(), start, budget));
        }
        number
    }
}
