//! The convolutional coder, which runs on from call to call until it is closed.

use crate::raw;
use crate::refusal::{accepted, Refusal};

/// The longest marked block.
const LONGEST_DATA: usize = 2044;

/// The bits of a puncture period. Refuses by 7.
const fn period(rate: u32) -> Result<usize, Refusal> {
    match rate {
        1 => Ok(1),
        2 => Ok(2),
        3 => Ok(3),
        4 => Ok(5),
        5 => Ok(7),
        _ => Err(Refusal::Rate),
    }
}

/// The symbols of so many octets of data from a place of the period on: one of each bit, and one more of each that begins a period.
/// Refuses by 7, 5.
const fn symbol_count(rate: u32, place: usize, data_len: usize) -> Result<usize, Refusal> {
    let period = match period(rate) {
        Ok(period) => period,
        Err(refusal) => return Err(refusal),
    };
    if data_len > LONGEST_DATA {
        return Err(Refusal::InputLength);
    }
    let bits = 8 * data_len;
    Ok(bits + (place + bits).div_ceil(period) - place.div_ceil(period))
}

/// The octets that [`convolve`] writes of so many octets of data. Refuses by 7, 5.
pub const fn symbols_len(rate: u32, data_len: usize) -> Result<usize, Refusal> {
    match symbol_count(rate, 0, data_len) {
        Ok(symbols) => Ok(symbols.div_ceil(8)),
        Err(refusal) => Err(refusal),
    }
}

/// Convolutional symbols of at most 2,044 octets at rates 1 to 5 (1/2, 2/3, 3/4, 5/6, 7/8), packed top bit first, the last octet
/// filled with zeros; gives the number of symbols. It is one [`push`](Convolver::push) into a new coder, and its
/// [`finish`](Convolver::finish), with [`symbols_len`] octets for both. Refuses by 7, 5, 6.
pub fn convolve(rate: u32, data: &[u8], symbols: &mut [u8]) -> Result<u32, Refusal> {
    // Judged before the first call, since a close refused after it would leave the octets that it wrote.
    if symbols.len() != symbols_len(rate, data.len())? {
        return Err(Refusal::OutputLength);
    }
    let mut coder = Convolver::new(rate);
    let (filled, rest) = symbols.split_at_mut(coder.symbols_len(data.len())?);
    let count = coder.push(data, filled)?;
    coder.finish(rest)?;
    Ok(count)
}

/// What the coder carries from call to call. All zero is the start. Any numbers may stand here: the calls judge them.
#[derive(Clone, Copy, Debug, Default, PartialEq, Eq, Hash)]
pub struct CoderState {
    /// The last six bits that came in, the newest lowest.
    pub register: u8,
    /// The place of the next bit in the puncture period of 1, 2, 3, 5 or 7 bits, from 0.
    pub place: u8,
    /// How many symbols are held, 0 to 7, because they fill no octet yet.
    pub holds: u8,
    /// Those symbols, from the top bit on. The bits below them are not looked at, and a call that is accepted leaves zeros there.
    pub held: u8,
}

/// Codes a stream of any length, at most 2,044 octets at a time. Each call writes the octets that its symbols fill, top bit first, after
/// those held from the call before, and at the close the last ones come out. However the stream is cut, all that is written, joined, is
/// its symbols.
///
/// ```
/// use ironsimmer::{convolve, symbols_len, Convolver, Refusal};
///
/// fn main() -> Result<(), Refusal> {
///     let rate = 5;
///     let stream: Vec<u8> = (0..2000).map(|n| n as u8).collect();
///     let mut joined = vec![];
///
///     let mut coder = Convolver::new(rate);
///     let mut symbols = vec![0; coder.symbols_len(100)?];
///     coder.push(&stream[..100], &mut symbols)?;
///     joined.extend(symbols);
///
///     // The state may be stored here, and taken up by another program or after a restart.
///     let state = coder.state();
///     let mut coder = Convolver::from_state(rate, state);
///     for data in stream[100..].chunks(16) {
///         let mut symbols = vec![0; coder.symbols_len(data.len())?];
///         coder.push(data, &mut symbols)?;
///         joined.extend(symbols);
///     }
///     let mut last = vec![0; coder.finish_len()?];
///     assert_eq!(coder.finish(&mut last), Ok(coder.state().holds.into()));
///     joined.extend(last);
///
///     let mut whole = vec![0; symbols_len(rate, stream.len())?];
///     convolve(rate, &stream, &mut whole)?;
///     assert_eq!(joined, whole);
///     Ok(())
/// }
/// ```
#[derive(Clone, Debug, PartialEq, Eq)]
pub struct Convolver {
    rate: u32,
    /// Register, place, how many symbols are held, and those: what the calls take.
    state: [u8; 4],
}

impl Convolver {
    /// The start of a stream: register and place zero, nothing held. The rate, 1 to 5 (1/2, 2/3, 3/4, 5/6, 7/8), is judged at each call.
    pub const fn new(rate: u32) -> Convolver {
        Convolver { rate, state: [0; 4] }
    }

    /// Takes up a stream where [`state`](Self::state) says that it stands. Any state may be given here: the calls judge it. The rate may
    /// be another than before if the place is below its period: what is held is then sent first, as it is.
    pub const fn from_state(rate: u32, state: CoderState) -> Convolver {
        let CoderState { register, place, holds, held } = state;
        Convolver { rate, state: [register, place, holds, held] }
    }

    /// Codes the next octets of the stream, 0 to 2,044, and writes the octets that are filled, [`symbols_len`](Self::symbols_len) of
    /// them. Gives the number of symbols of these data, without those held before. Refuses by 7, 5, 6, and then this coder is as it was,
    /// bit for bit.
    pub fn push(&mut self, data: &[u8], symbols: &mut [u8]) -> Result<u32, Refusal> {
        let mut count = 0;
        accepted(raw::convolve(self.rate, &mut self.state, data, symbols, &mut count))?;
        Ok(count)
    }

    /// Ends the stream: writes the symbols held, if there are any, as one octet that is filled with zeros ([`finish_len`](Self::finish_len)
    /// octets), and gives their number. This coder is only read, and nothing in it says that its stream has ended; the next stream needs
    /// a new one. Refuses by 7, 6.
    pub fn finish(&self, symbols: &mut [u8]) -> Result<u32, Refusal> {
        let mut count = 0;
        accepted(raw::convolve_close(self.rate, &self.state, symbols, &mut count))?;
        Ok(count)
    }

    /// The number of the rate.
    pub const fn rate(&self) -> u32 {
        self.rate
    }

    /// What is carried to the next call.
    pub const fn state(&self) -> CoderState {
        let [register, place, holds, held] = self.state;
        CoderState { register, place, holds, held }
    }

    /// The octets that a push of so many octets of data writes now. Refuses by 7, 5.
    pub fn symbols_len(&self, data_len: usize) -> Result<usize, Refusal> {
        self.judge()?;
        let CoderState { place, holds, .. } = self.state();
        let symbols = symbol_count(self.rate, place.into(), data_len)?;
        Ok((usize::from(holds) + symbols) / 8)
    }

    /// The octets that [`finish`](Self::finish) writes now: 1 if any symbols are held, else 0. Refuses by 7.
    pub fn finish_len(&self) -> Result<usize, Refusal> {
        self.judge()?;
        Ok(usize::from(self.state().holds).div_ceil(8))
    }

    /// The proved code's own judgement of rate and state. It judges them before lengths, and no close writes two octets: so it refuses
    /// two for their length exactly if rate and state are good.
    fn judge(&self) -> Result<(), Refusal> {
        match self.finish(&mut [0; 2]) {
            Err(Refusal::OutputLength) => Ok(()),
            refused => refused.map(|_| ()),
        }
    }
}
