//! include/lilivrez_frames.h

extern "C" {
    fn lilivrez_read(
        buffer: *const u8,
        buffer_length: usize,
        used: usize,
        frame: u64,
        index: u64,
        out: *mut [u64; 6],
    ) -> u32;

    fn lilivrez_count(
        buffer: *const u8,
        buffer_length: usize,
        used: usize,
        frame: u64,
        out: *mut [u64; 5],
    ) -> u32;

    fn lilivrez_locate(
        buffer: *const u8,
        buffer_length: usize,
        used: usize,
        frame: u64,
        out: *mut [u64; 4],
    ) -> u32;

    fn lilivrez_walk(
        buffer: *const u8,
        buffer_length: usize,
        place: usize,
        out: *mut [u64; 5],
    ) -> u32;

    fn lilivrez_next_record(
        buffer: *const u8,
        buffer_length: usize,
        end: usize,
        place: usize,
        out: *mut [u64; 6],
    ) -> u32;

    fn lilivrez_frames_version() -> u32;
}

pub fn frames_version() -> u32 {
    // SAFETY: it is given nothing.
    unsafe { lilivrez_frames_version() }
}

pub fn read(buffer: &[u8], used: usize, frame: u64, index: u64, out: &mut [u64; 6]) -> u32 {
    // SAFETY: pointer and length are of one slice, and `out` is borrowed by nobody else.
    unsafe { lilivrez_read(buffer.as_ptr(), buffer.len(), used, frame, index, out) }
}

pub fn count(buffer: &[u8], used: usize, frame: u64, out: &mut [u64; 5]) -> u32 {
    // SAFETY: as for `read`.
    unsafe { lilivrez_count(buffer.as_ptr(), buffer.len(), used, frame, out) }
}

pub fn locate(buffer: &[u8], used: usize, frame: u64, out: &mut [u64; 4]) -> u32 {
    // SAFETY: as for `read`.
    unsafe { lilivrez_locate(buffer.as_ptr(), buffer.len(), used, frame, out) }
}

pub fn walk(buffer: &[u8], place: usize, out: &mut [u64; 5]) -> u32 {
    // SAFETY: as for `read`.
    unsafe { lilivrez_walk(buffer.as_ptr(), buffer.len(), place, out) }
}

pub fn next_record(buffer: &[u8], end: usize, place: usize, out: &mut [u64; 6]) -> u32 {
    // SAFETY: as for `read`.
    unsafe { lilivrez_next_record(buffer.as_ptr(), buffer.len(), end, place, out) }
}
