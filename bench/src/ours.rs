//! The proved code, through its C interface.

use crate::calls::{Calls, Code, Coder, State};

extern "C" {
    fn ironsimmer_encode(
        e: u32,
        depth: u32,
        fill: u32,
        frame: *const u8,
        frame_len: usize,
        block: *mut u8,
        block_len: usize,
    ) -> u64;
    fn ironsimmer_encode_portion(
        e: u32,
        depth: u32,
        fill: u32,
        progress: *mut u32,
        rows: *mut [u8; 32],
        portion: *const u8,
        portion_len: usize,
        written: *mut u8,
        written_len: usize,
    ) -> u64;
    fn ironsimmer_encode_close(
        e: u32,
        depth: u32,
        fill: u32,
        progress: *mut u32,
        rows: *mut [u8; 32],
        checks: *mut u8,
        checks_len: usize,
    ) -> u64;
    fn ironsimmer_decode(
        e: u32,
        depth: u32,
        fill: u32,
        s: u32,
        block: *const u8,
        block_len: usize,
        frame: *mut u8,
        frame_len: usize,
        counts: *mut u32,
    ) -> u64;
    fn ironsimmer_salvage(
        e: u32,
        depth: u32,
        fill: u32,
        s: u32,
        block: *const u8,
        block_len: usize,
        frame: *mut u8,
        frame_len: usize,
        list: *mut u8,
        list_len: usize,
        words: *mut u32,
    ) -> u64;
    fn ironsimmer_search(
        tolerance: u32,
        stream: *const u8,
        stream_len: usize,
        start: u64,
        budget: u64,
        found: *mut u64,
    ) -> u64;
    fn ironsimmer_convolve(
        rate: u32,
        state: *mut u8,
        data: *const u8,
        data_len: usize,
        symbols: *mut u8,
        symbols_len: usize,
        count: *mut u32,
    ) -> u64;
    fn ironsimmer_convolve_close(
        rate: u32,
        state: *const u8,
        symbols: *mut u8,
        symbols_len: usize,
        count: *mut u32,
    ) -> u64;
    fn ironsimmer_likeliest(
        reg: u32,
        symbols: *const u8,
        symbols_len: usize,
        data: *mut u8,
        data_len: usize,
        found: *mut u32,
    ) -> u64;
    fn ironsimmer_randomise(block: *mut u8, block_len: usize) -> u64;
}

pub struct Ours;

// What the header asks of its caller holds in each call below, since the pointers are those of Rust's references: not null, with as many
// octets or numbers behind them as are said to be there, and no overlap of what is written with anything else.
impl Calls for Ours {
    fn encode(&self, code: Code, frame: &[u8], block: &mut [u8]) -> u64 {
        let (e, depth, fill) = (code.e, code.depth, code.fill);
        let out = block.as_mut_ptr();
        unsafe {
            ironsimmer_encode(
                e,
                depth,
                fill,
                frame.as_ptr(),
                frame.len(),
                out,
                block.len(),
            )
        }
    }

    fn portion(&self, code: Code, state: &mut State, portion: &[u8], written: &mut [u8]) -> u64 {
        let (progress, rows) = (state.progress.as_mut_ptr(), state.rows.as_mut_ptr());
        unsafe {
            ironsimmer_encode_portion(
                code.e,
                code.depth,
                code.fill,
                progress,
                rows,
                portion.as_ptr(),
                portion.len(),
                written.as_mut_ptr(),
                written.len(),
            )
        }
    }

    fn close(&self, code: Code, state: &mut State, checks: &mut [u8]) -> u64 {
        let (progress, rows) = (state.progress.as_mut_ptr(), state.rows.as_mut_ptr());
        let (out, out_len) = (checks.as_mut_ptr(), checks.len());
        unsafe {
            ironsimmer_encode_close(code.e, code.depth, code.fill, progress, rows, out, out_len)
        }
    }

    fn decode(
        &self,
        code: Code,
        s: u32,
        block: &[u8],
        frame: &mut [u8],
        counts: &mut [u32; 9],
    ) -> u64 {
        unsafe {
            ironsimmer_decode(
                code.e,
                code.depth,
                code.fill,
                s,
                block.as_ptr(),
                block.len(),
                frame.as_mut_ptr(),
                frame.len(),
                counts.as_mut_ptr(),
            )
        }
    }

    fn salvage(
        &self,
        code: Code,
        s: u32,
        block: &[u8],
        frame: &mut [u8],
        list: &mut [u8],
        words: &mut [u32; 17],
    ) -> u64 {
        unsafe {
            ironsimmer_salvage(
                code.e,
                code.depth,
                code.fill,
                s,
                block.as_ptr(),
                block.len(),
                frame.as_mut_ptr(),
                frame.len(),
                list.as_mut_ptr(),
                list.len(),
                words.as_mut_ptr(),
            )
        }
    }

    fn search(
        &self,
        tolerance: u32,
        stream: &[u8],
        start: u64,
        budget: u64,
        found: &mut [u64; 5],
    ) -> u64 {
        let (octets, len) = (stream.as_ptr(), stream.len());
        unsafe { ironsimmer_search(tolerance, octets, len, start, budget, found.as_mut_ptr()) }
    }

    fn convolve(
        &self,
        rate: u32,
        state: &mut Coder,
        data: &[u8],
        symbols: &mut [u8],
        count: &mut u32,
    ) -> u64 {
        let (read, read_len) = (data.as_ptr(), data.len());
        let (out, out_len) = (symbols.as_mut_ptr(), symbols.len());
        let state = state.as_mut_ptr();
        unsafe { ironsimmer_convolve(rate, state, read, read_len, out, out_len, count) }
    }

    fn convolve_close(&self, rate: u32, state: &Coder, symbols: &mut [u8], count: &mut u32) -> u64 {
        let (out, out_len) = (symbols.as_mut_ptr(), symbols.len());
        unsafe { ironsimmer_convolve_close(rate, state.as_ptr(), out, out_len, count) }
    }

    fn likeliest(
        &self,
        register: u32,
        symbols: &[u8],
        data: &mut [u8],
        found: &mut [u32; 2],
    ) -> u64 {
        let (read, read_len) = (symbols.as_ptr(), symbols.len());
        let (out, out_len) = (data.as_mut_ptr(), data.len());
        unsafe { ironsimmer_likeliest(register, read, read_len, out, out_len, found.as_mut_ptr()) }
    }

    fn randomise(&self, block: &mut [u8]) -> u64 {
        unsafe { ironsimmer_randomise(block.as_mut_ptr(), block.len()) }
    }
}
