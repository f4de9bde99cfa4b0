//! The decoder of the convolutional code at rate 1/2.

use crate::raw;
use crate::refusal::{accepted, Refusal};

/// How far the data found are from the symbols received, and where they lead.
#[derive(Clone, Copy, Debug, PartialEq, Eq, Hash)]
pub struct Likeliest {
    /// In how many places the data's symbols differ from those received.
    pub places: u32,
    /// The register that the data lead to: their last six bits, the newest lowest, or the given register if there are no data.
    pub register: u32,
}

/// Decodes the symbols of 0 to 256 octets of data at rate 1/2. Of all inputs of that length, `data` gets the one whose symbols, coded from
/// `register`, differ from those received in the fewest places; of several such inputs, the one that has 0 at the first bit where they
/// differ. `register` is the coder's when it wrote the first of these symbols, 0 at the start of a stream; the one at the end is free.
/// `symbols` is twice as long as `data`, top bit first. Refuses by 7 (a register over 63), 5 (an odd number of octets of symbols, or over
/// 512), 6.
///
/// ```
/// use ironsimmer::{convolve, likeliest, Likeliest, Refusal};
///
/// fn main() -> Result<(), Refusal> {
///     let sent = [0xB5];
///     let mut symbols = [0; 2];
///     convolve(1, &sent, &mut symbols)?;
///     symbols[0] ^= 0x10; // a wrong symbol
///
///     let mut data = [0];
///     let found = likeliest(0, &symbols, &mut data)?;
///     assert_eq!((data, found), (sent, Likeliest { places: 1, register: 0xB5 % 64 }));
///     Ok(())
/// }
/// ```
///
/// The register reached may be handed on to the next call, and symbols that arrived as they were sent are so decoded in any portions. But
/// decoding in portions is not decoding in one piece: a portion is judged by its own symbols alone, so that with wrong symbols near its end
/// its last bits may be others than in one piece, and the next portion then starts from another register than the coder did.
pub fn likeliest(register: u32, symbols: &[u8], data: &mut [u8]) -> Result<Likeliest, Refusal> {
    let mut found = [0; 2];
    accepted(raw::likeliest(register, symbols, data, &mut found))?;
    let [places, register] = found;
    Ok(Likeliest { places, register })
}
