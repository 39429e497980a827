//! include/lilivrez_agent.h
use crate::{Span, Target, TraceBuffer};

extern "C" {
    fn lilivrez_fetch(
        image_first: u64,
        image: *const u8,
        image_length: usize,
        work_first: u64,
        work: *const u8,
        work_length: usize,
        address: u64,
        size: u64,
        out: *mut [u64; 2],
    ) -> u32;

    fn lilivrez_run(
        expression: *const u8,
        length: usize,
        registers: *const u64,
        register_count: usize,
        image_first: u64,
        image: *const u8,
        image_length: usize,
        work_first: u64,
        work: *const u8,
        work_length: usize,
        variables: *mut [u64; 64],
        buffer: *mut u8,
        buffer_length: usize,
        used: usize,
        tracepoint: u16,
        allowance: u64,
        out: *mut [u64; 6],
    ) -> u32;

    fn lilivrez_run_default(
        expression: *const u8,
        length: usize,
        registers: *const u64,
        register_count: usize,
        image_first: u64,
        image: *const u8,
        image_length: usize,
        work_first: u64,
        work: *const u8,
        work_length: usize,
        variables: *mut [u64; 64],
        buffer: *mut u8,
        buffer_length: usize,
        used: usize,
        tracepoint: u16,
        out: *mut [u64; 6],
    ) -> u32;

    fn lilivrez_agent_version() -> u32;
}

pub fn agent_version() -> u32 {
    // SAFETY: it is given nothing.
    unsafe { lilivrez_agent_version() }
}

pub fn fetch([image, work]: [Span; 2], address: u64, size: u64, out: &mut [u64; 2]) -> u32 {
    // SAFETY: each pointer and length are of one slice, and `out` is borrowed by nobody else.
    unsafe {
        lilivrez_fetch(
            image.first,
            image.bytes.as_ptr(),
            image.bytes.len(),
            work.first,
            work.bytes.as_ptr(),
            work.bytes.len(),
            address,
            size,
            out,
        )
    }
}

/// Without an allowance, lilivrez_run_default. The used length of the buffer is in `out` and not stored in `buffer`.
pub fn run(
    expression: &[u8],
    Target {
        registers,
        image,
        work,
    }: &Target,
    variables: &mut [u64; 64],
    buffer: &mut TraceBuffer,
    tracepoint: u16,
    allowance: Option<u64>,
    out: &mut [u64; 6],
) -> u32 {
    // What both entries are given, before the allowance that one of them takes.
    macro_rules! call {
        ($entry:ident, $($allowance:expr,)?) => {
            $entry(
                expression.as_ptr(),
                expression.len(),
                registers.as_ptr(),
                registers.len(),
                image.first,
                image.bytes.as_ptr(),
                image.bytes.len(),
                work.first,
                work.bytes.as_ptr(),
                work.bytes.len(),
                variables,
                buffer.bytes.as_mut_ptr(),
                buffer.bytes.len(),
                buffer.used,
                tracepoint,
                $($allowance,)?
                out,
            )
        };
    }
    // SAFETY: each pointer and length are of one slice; `variables`, the buffer and `out` are borrowed by nobody else.
    unsafe {
        match allowance {
            Some(allowance) => call!(lilivrez_run, allowance,),
            None => call!(lilivrez_run_default,),
        }
    }
}
