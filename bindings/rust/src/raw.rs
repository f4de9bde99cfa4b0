//! The fourteen calls of `include/ironsimmer.h`, each behind a function that anyone may call. No other module has `unsafe` in it.
//!
//! The header asks two things of its caller. Each pointer is not null and points to as many octets or numbers as are said to be
//! there: a reference is never null, not even an empty slice's, and a slice's own length goes with it. And what is lent to be
//! written overlaps nothing else that is lent: a `&mut` is the only way to what it lends. Nothing is kept after a call.

use crate::words::Words;

extern "C" {
    fn ironsimmer_encode(
        e: u32,
        depth: u32,
        fill: u32,
        frame: *const u8,
        frame_len: usize,
        block: *mut u8,
        block_len: usize,
    ) -> u64;

    fn ironsimmer_encode_portion(
        e: u32,
        depth: u32,
        fill: u32,
        progress: *mut u32,
        rows: *mut u8,
        portion: *const u8,
        portion_len: usize,
        written: *mut u8,
        written_len: usize,
    ) -> u64;

    fn ironsimmer_encode_close(
        e: u32,
        depth: u32,
        fill: u32,
        progress: *mut u32,
        rows: *mut u8,
        checks: *mut u8,
        checks_len: usize,
    ) -> u64;

    fn ironsimmer_decode(
        e: u32,
        depth: u32,
        fill: u32,
        s: u32,
        block: *const u8,
        block_len: usize,
        frame: *mut u8,
        frame_len: usize,
        counts: *mut u32,
    ) -> u64;

    fn ironsimmer_salvage(
        e: u32,
        depth: u32,
        fill: u32,
        s: u32,
        block: *const u8,
        block_len: usize,
        frame: *mut u8,
        frame_len: usize,
        list: *mut u8,
        list_len: usize,
        words: *mut u32,
    ) -> u64;

    fn ironsimmer_randomise(block: *mut u8, block_len: usize) -> u64;

    fn ironsimmer_sequence(reg: *mut u8) -> u8;

    fn ironsimmer_marker(tolerance: u32, octets: *const u8, octets_len: usize, found: *mut u32) -> u64;

    fn ironsimmer_search(
        tolerance: u32,
        stream: *const u8,
        stream_len: usize,
        start: u64,
        budget: u64,
        found: *mut u64,
    ) -> u64;

    fn ironsimmer_convolve(
        rate: u32,
        state: *mut u8,
        data: *const u8,
        data_len: usize,
        symbols: *mut u8,
        symbols_len: usize,
        count: *mut u32,
    ) -> u64;

    fn ironsimmer_convolve_close(
        rate: u32,
        state: *const u8,
        symbols: *mut u8,
        symbols_len: usize,
        count: *mut u32,
    ) -> u64;

    fn ironsimmer_likeliest(
        reg: u32,
        symbols: *const u8,
        symbols_len: usize,
        data: *mut u8,
        data_len: usize,
        found: *mut u32,
    ) -> u64;

    fn ironsimmer_transmit(
        e: u32,
        depth: u32,
        fill: u32,
        randomised: u32,
        frame: *const u8,
        frame_len: usize,
        marked: *mut u8,
        marked_len: usize,
    ) -> u64;

    fn ironsimmer_receive(
        e: u32,
        depth: u32,
        fill: u32,
        s: u32,
        tolerance: u32,
        randomised: u32,
        marked: *const u8,
        marked_len: usize,
        frame: *mut u8,
        frame_len: usize,
        counts: *mut u32,
    ) -> u64;
}

pub fn encode(words: Words, frame: &[u8], block: &mut [u8]) -> u64 {
    let Words { strength, depth, fill } = words;
    // SAFETY: both slices go with their own lengths, and the block, lent by `&mut`, overlaps no frame.
    unsafe { ironsimmer_encode(strength, depth, fill, frame.as_ptr(), frame.len(), block.as_mut_ptr(), block.len()) }
}

pub fn encode_portion(
    words: Words,
    progress: &mut [u32; 2],
    rows: &mut [[u8; 32]; 8],
    portion: &[u8],
    written: &mut [u8],
) -> u64 {
    let Words { strength, depth, fill } = words;
    // SAFETY: both slices go with their own lengths, progress has the two numbers that are written and rows, flattened, the 256 octets,
    // and progress, rows and the output, each lent by `&mut`, overlap neither the portion nor each other.
    unsafe {
        ironsimmer_encode_portion(
            strength,
            depth,
            fill,
            progress.as_mut_ptr(),
            rows.as_flattened_mut().as_mut_ptr(),
            portion.as_ptr(),
            portion.len(),
            written.as_mut_ptr(),
            written.len(),
        )
    }
}

pub fn encode_close(words: Words, progress: &mut [u32; 2], rows: &mut [[u8; 32]; 8], checks: &mut [u8]) -> u64 {
    let Words { strength, depth, fill } = words;
    // SAFETY: the checks go with their own length, progress has the two numbers that are written and rows, flattened, the 256 octets,
    // and the three, each lent by `&mut`, do not overlap each other.
    unsafe {
        ironsimmer_encode_close(
            strength,
            depth,
            fill,
            progress.as_mut_ptr(),
            rows.as_flattened_mut().as_mut_ptr(),
            checks.as_mut_ptr(),
            checks.len(),
        )
    }
}

pub fn decode(words: Words, allowance: u32, block: &[u8], frame: &mut [u8], counts: &mut [u32; 9]) -> u64 {
    let Words { strength, depth, fill } = words;
    // SAFETY: both slices go with their own lengths, counts has the nine numbers that are written, and the frame and the counts, each
    // lent by `&mut`, overlap neither the block nor each other.
    unsafe {
        ironsimmer_decode(
            strength,
            depth,
            fill,
            allowance,
            block.as_ptr(),
            block.len(),
            frame.as_mut_ptr(),
            frame.len(),
            counts.as_mut_ptr(),
        )
    }
}

pub fn salvage(
    words: Words,
    allowance: u32,
    block: &[u8],
    frame: &mut [u8],
    list: &mut [u8],
    told: &mut [u32; 17],
) -> u64 {
    let Words { strength, depth, fill } = words;
    // SAFETY: the three slices go with their own lengths, told has the seventeen numbers that are written, and the frame, the list and
    // told, each lent by `&mut`, overlap neither the block nor each other.
    unsafe {
        ironsimmer_salvage(
            strength,
            depth,
            fill,
            allowance,
            block.as_ptr(),
            block.len(),
            frame.as_mut_ptr(),
            frame.len(),
            list.as_mut_ptr(),
            list.len(),
            told.as_mut_ptr(),
        )
    }
}

pub fn randomise(block: &mut [u8]) -> u64 {
    // SAFETY: the block goes with its own length, and nothing else is lent.
    unsafe { ironsimmer_randomise(block.as_mut_ptr(), block.len()) }
}

pub fn sequence(register: &mut u8) -> u8 {
    // SAFETY: the register is the one octet that is written, and nothing else is lent.
    unsafe { ironsimmer_sequence(register) }
}

pub fn marker(tolerance: u32, octets: &[u8], found: &mut [u32; 2]) -> u64 {
    // SAFETY: the octets go with their own length, found has the two numbers that are written and, lent by `&mut`, overlaps no octet.
    unsafe { ironsimmer_marker(tolerance, octets.as_ptr(), octets.len(), found.as_mut_ptr()) }
}

pub fn search(tolerance: u32, stream: &[u8], start: u64, budget: u64, found: &mut [u64; 5]) -> u64 {
    // SAFETY: the stream goes with its own length, found has the five numbers that are written and, lent by `&mut`, overlaps no stream.
    unsafe { ironsimmer_search(tolerance, stream.as_ptr(), stream.len(), start, budget, found.as_mut_ptr()) }
}

pub fn convolve(rate: u32, state: &mut [u8; 4], data: &[u8], symbols: &mut [u8], count: &mut u32) -> u64 {
    // SAFETY: both slices go with their own lengths, state has the four octets that are written, and the state, the symbols and the one
    // number written, each lent by `&mut`, overlap neither the data nor each other.
    unsafe {
        ironsimmer_convolve(
            rate,
            state.as_mut_ptr(),
            data.as_ptr(),
            data.len(),
            symbols.as_mut_ptr(),
            symbols.len(),
            count,
        )
    }
}

pub fn convolve_close(rate: u32, state: &[u8; 4], symbols: &mut [u8], count: &mut u32) -> u64 {
    // SAFETY: the symbols go with their own length, state has the four octets that are read, and the symbols and the one number written,
    // each lent by `&mut`, overlap neither the state nor each other.
    unsafe { ironsimmer_convolve_close(rate, state.as_ptr(), symbols.as_mut_ptr(), symbols.len(), count) }
}

pub fn likeliest(register: u32, symbols: &[u8], data: &mut [u8], found: &mut [u32; 2]) -> u64 {
    // SAFETY: both slices go with their own lengths, found has the two numbers that are written, and the data and found, each lent by
    // `&mut`, overlap neither the symbols nor each other.
    unsafe {
        ironsimmer_likeliest(
            register,
            symbols.as_ptr(),
            symbols.len(),
            data.as_mut_ptr(),
            data.len(),
            found.as_mut_ptr(),
        )
    }
}

pub fn transmit(words: Words, randomised: bool, frame: &[u8], marked: &mut [u8]) -> u64 {
    let Words { strength, depth, fill } = words;
    // SAFETY: both slices go with their own lengths, and the marked block, lent by `&mut`, overlaps no frame.
    unsafe {
        ironsimmer_transmit(
            strength,
            depth,
            fill,
            randomised.into(),
            frame.as_ptr(),
            frame.len(),
            marked.as_mut_ptr(),
            marked.len(),
        )
    }
}

pub fn receive(
    words: Words,
    allowance: u32,
    tolerance: u32,
    randomised: bool,
    marked: &[u8],
    frame: &mut [u8],
    counts: &mut [u32; 10],
) -> u64 {
    let Words { strength, depth, fill } = words;
    // SAFETY: both slices go with their own lengths, counts has the ten numbers that are written, and the frame and the counts, each
    // lent by `&mut`, overlap neither the marked block nor each other.
    unsafe {
        ironsimmer_receive(
            strength,
            depth,
            fill,
            allowance,
            tolerance,
            randomised.into(),
            marked.as_ptr(),
            marked.len(),
            frame.as_mut_ptr(),
            frame.len(),
            counts.as_mut_ptr(),
        )
    }
}
