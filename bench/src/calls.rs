//! The calls that are timed, as every side answers them: numbers, buffers and refusals as in include/ironsimmer.h.

pub use log_table::Code;

/// The state of a frame in portions: place and closed, and the rows of checks.
#[derive(Clone, Copy, Debug, PartialEq)]
pub struct State {
    pub progress: [u32; 2],
    pub rows: [[u8; 32]; 8],
}

impl State {
    pub fn start() -> State {
        State {
            progress: [0; 2],
            rows: [[0; 32]; 8],
        }
    }
}

/// The state of the convolutional coder: register, place in the period, how many symbols are held, and those. All zero is the start.
pub type Coder = [u8; 4];

/// The bits of the puncture periods, by the rate's number from 1 on.
pub const PERIODS: [usize; 5] = [1, 2, 3, 5, 7];

/// The octets that a call of the coder fills at a rate and from a state that are legal. One symbol comes of each bit, and one more of each
/// that begins a period.
pub fn filled_len(rate: u32, state: Coder, data: usize) -> usize {
    let period = PERIODS[rate as usize - 1];
    let (place, holds) = (state[1] as usize, state[2] as usize);
    let begun = (place + 8 * data).div_ceil(period) - usize::from(place > 0);
    (holds + 8 * data + begun) / 8
}

/// The marker, as it is sent; its complement has all bits inverted.
pub const MARKER: u32 = 0x1ACFFC1D;

/// What search answers first; the numbers of the header.
pub const FOUND: u64 = 1;
pub const ABSENT: u64 = 2;
pub const SPENT: u64 = 3;

/// What it answers last, if it found a marker: its form.
pub const TRUE: u64 = 1;
pub const COMPLEMENT: u64 = 2;

pub trait Calls {
    fn encode(&self, code: Code, frame: &[u8], block: &mut [u8]) -> u64;

    fn portion(&self, code: Code, state: &mut State, portion: &[u8], written: &mut [u8]) -> u64;

    fn close(&self, code: Code, state: &mut State, checks: &mut [u8]) -> u64;

    fn decode(
        &self,
        code: Code,
        s: u32,
        block: &[u8],
        frame: &mut [u8],
        counts: &mut [u32; 9],
    ) -> u64;

    fn salvage(
        &self,
        code: Code,
        s: u32,
        block: &[u8],
        frame: &mut [u8],
        list: &mut [u8],
        words: &mut [u32; 17],
    ) -> u64;

    fn search(
        &self,
        tolerance: u32,
        stream: &[u8],
        start: u64,
        budget: u64,
        found: &mut [u64; 5],
    ) -> u64;

    fn convolve(
        &self,
        rate: u32,
        state: &mut Coder,
        data: &[u8],
        symbols: &mut [u8],
        count: &mut u32,
    ) -> u64;

    fn convolve_close(&self, rate: u32, state: &Coder, symbols: &mut [u8], count: &mut u32) -> u64;

    fn likeliest(
        &self,
        register: u32,
        symbols: &[u8],
        data: &mut [u8],
        found: &mut [u32; 2],
    ) -> u64;

    fn randomise(&self, block: &mut [u8]) -> u64;
}
