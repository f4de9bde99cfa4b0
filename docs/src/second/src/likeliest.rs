//! Maximum-likelihood decoding at rate 1/2, by document 02, (vi): forward over the symbols, one bit at a time, with the whole input of the
//! best way to each register.

use crate::convolution::symbols;
use crate::data::{bits, buffer};

/// A way from the starting register: in how many places its symbols differ from those received so far, then its input, with zeros behind
/// it. The smaller of two is the better one, and of two that meet in a register it stays so, whatever follows.
type Way = (u32, Vec<u8>);

fn differing(a: &[bool], b: &[bool]) -> u32 {
    a.iter().zip(b).filter(|(a, b)| a != b).count() as u32
}

/// In how many places a received pair differs from the symbols of each number of seven bits, a register's six and then the input's.
fn costs(received: &[bool]) -> Vec<u32> {
    (0..128).map(|seven: u8| differing(received, &symbols(1, 0, &bits(&[seven])[1..]))).collect()
}

/// The best way to a register, if any leads there, by the bit at this place of the input, which is the register's lowest.
fn best_to(reached: usize, place: usize, ways: &[Option<Way>], costs: &[u32]) -> Option<Way> {
    let by = |seven: usize| ways[seven / 2].as_ref().map(|(places, input)| (places + costs[seven], input));
    let (places, before) = [by(reached), by(reached + 64)].into_iter().flatten().min()?;
    let mut input = before.clone();
    input[place / 8] |= (reached as u8 & 1) << (7 - place % 8);
    Some((places, input))
}

/// The best way to each register.
fn best_ways(register: usize, received: &[u8]) -> Vec<Option<Way>> {
    let pairs = [[false, false], [false, true], [true, false], [true, true]].map(|pair| (pair, costs(&pair)));
    let mut ways = vec![None; 64];
    ways[register] = Some((0, vec![0; received.len() / 2]));
    for (place, symbols) in bits(received).chunks(2).enumerate() {
        let (_, costs) = pairs.iter().find(|(pair, _)| pair == symbols).unwrap();
        ways = (0..64).map(|reached| best_to(reached, place, &ways, costs)).collect();
    }
    ways
}

/// In how many places the symbols of the best input differ from those received, the register that it leads to, and the input itself, which
/// must be as long as the output; or the refusal's number.
pub fn likeliest(register: u32, received: &[u8], output: usize) -> Result<(u32, u32, Vec<u8>), u64> {
    if register > 63 {
        return Err(7);
    }
    if received.len() % 2 == 1 || received.len() > 512 {
        return Err(5);
    }
    if output != received.len() / 2 {
        return Err(6);
    }
    let ways = best_ways(register as usize, received).into_iter().zip(0..);
    let ((places, input), reached) = ways.filter_map(|(way, reached)| Some((way?, reached))).min().unwrap();
    Ok((places, reached, input))
}

/// Writes the line of a call, whose output holds so many octets 170 before, and gives the register to carry on from.
pub fn write_likeliest(register: u32, received: &[u8], output: usize) -> u32 {
    let (answer, next, after) = match likeliest(register, received, output) {
        Ok((places, reached, data)) => (format!("0 {places} {reached}"), reached, data),
        Err(number) => (number.to_string(), register, vec![170; output]),
    };
    println!("likeliest {register} {answer}{}", buffer(&after));
    next
}

#[cfg(test)]
mod tests {
    use super::*;
    use crate::convolution::{convolve, Coder};
    use crate::data::{drawn, packed};

    /// The symbols of data from a register, and the register that the coder reaches.
    fn coded(register: u32, data: &[u8]) -> (Vec<u8>, u32) {
        let state = Coder { register: register as u8, ..Coder::start() };
        let (_, symbols, next) = convolve(1, state, data, 2 * data.len()).unwrap();
        (symbols, next.register.into())
    }

    fn places(register: u32, data: &[u8], received: &[u8]) -> u32 {
        differing(&bits(&coded(register, data).0), &bits(received))
    }

    /// Every input of so many octets with its differing places, the one with 0 first before the other.
    fn tried(register: u32, received: &[u8], octets: usize) -> Vec<(u32, Vec<u8>)> {
        let inputs = (0..1u32 << (8 * octets)).map(|number| number.to_be_bytes()[4 - octets..].to_vec());
        inputs.map(|data| (places(register, &data, received), data)).collect()
    }

    /// Demands that the search finds the first of the best inputs, by trying all; gives these.
    fn confirmed(register: u32, received: &[u8]) -> Vec<Vec<u8>> {
        let mut all = tried(register, received, received.len() / 2);
        let least = all.iter().map(|(places, _)| *places).min().unwrap();
        all.retain(|(places, _)| *places == least);
        let expected = (least, coded(register, &all[0].1).1, all[0].1.clone());
        assert_eq!(likeliest(register, received, received.len() / 2), Ok(expected), "{register} {received:02x?}");
        all.into_iter().map(|(_, data)| data).collect()
    }

    #[test]
    fn against_all_inputs() {
        for register in 0..64 {
            assert_eq!(confirmed(register, &[]), [[]]);
            for seed in 0..20 {
                confirmed(register, &drawn(100 * register + seed, 2));
            }
        }
        for register in [0, 21, 42, 63] {
            confirmed(register, &drawn(register, 4));
        }
    }

    /// The first bit at which the best inputs differ, and how many they are, up to 13. Those of two octets meet in one register.
    #[test]
    fn equals() {
        for (register, received, first, best) in [
            (0, &[0x00, 0x01][..], 0, 2),
            (21, &[0x00, 0x04], 0, 2),
            (0, &[0x40, 0x15], 1, 2),
            (0, &[0x55, 0x11], 4, 2),
            (0, &[0x55, 0x54], 7, 2),
            (21, &[0x50, 0x01], 7, 2),
            (0, &[0x41, 0x11], 0, 12),
            (0, &[0x44, 0x41], 1, 13),
            (42, &[0x5A, 0x89, 0x55, 0x55], 0, 2),
            (42, &[0x7F, 0x97, 0x59, 0xE3], 2, 2),
        ] {
            let all = confirmed(register, received);
            let parting = |data: &Vec<u8>| bits(&all[0]).iter().zip(bits(data)).position(|(a, b)| *a != b);
            let parted = all[1..].iter().map(|data| parting(data).unwrap()).min();
            assert_eq!((parted, all.len()), (Some(first), best), "{register} {received:02x?}");
            assert!(all[0].len() == 1 || coded(register, &all[0]).1 == coded(register, &all[1]).1);
        }
    }

    #[test]
    fn coded_comes_back() {
        for register in 0..64 {
            let data = drawn(register, 4 * register as usize + 4);
            let (symbols, reached) = coded(register, &data);
            assert_eq!(likeliest(register, &symbols, data.len()), Ok((0, reached, data)));
        }
    }

    /// One symbol in sixteen is wrong: what is told of the input is true of it, and it is no worse than what was sent.
    #[test]
    fn noise() {
        for register in (0..64).step_by(9) {
            let sent = drawn(register, 256);
            let wrong: Vec<bool> = drawn(1000 + register, 8 * 512).iter().map(|octet| *octet < 16).collect();
            let clean = bits(&coded(register, &sent).0);
            let received = packed(&clean.iter().zip(&wrong).map(|(a, b)| a ^ b).collect::<Vec<bool>>());
            let (told, reached, found) = likeliest(register, &received, 256).unwrap();
            assert_eq!((told, reached), (places(register, &found, &received), coded(register, &found).1));
            assert!(told <= places(register, &sent, &received));
        }
    }

    /// The register is carried on, but the first portion is decided without what the second tells of it: a wrong symbol is set right in one
    /// call, and costs three more places in two.
    #[test]
    fn portions_do_not_join() {
        let received = [0x55, 0x54, 0xE9, 0x25];
        assert_eq!(coded(0, &[0x01, 0x00]), (vec![0x55, 0x56, 0xE9, 0x25], 0));
        assert_eq!(likeliest(0, &received, 2), Ok((1, 0, vec![0x01, 0x00])));
        assert_eq!(likeliest(0, &received[..2], 1), Ok((1, 0, vec![0x00])));
        assert_eq!(likeliest(0, &received[2..], 1), Ok((3, 17, vec![0x51])));
    }

    #[test]
    fn order_of_refusals() {
        for (register, received, output, number) in
            [(64, 3, 9, 7), (u32::MAX, 514, 257, 7), (63, 3, 9, 5), (63, 514, 257, 5), (63, 2, 0, 6), (63, 512, 257, 6)]
        {
            assert_eq!(likeliest(register, &drawn(1, received), output), Err(number));
        }
    }
}
