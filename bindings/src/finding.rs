//! liblilivrez_frames.a: where the frames are.
use crate::library;
use crate::{Refusal, Refused};

/// The records take `length` bytes from `start` on.
#[derive(Clone, Copy, Debug, PartialEq, Eq)]
pub struct Frame {
    pub tracepoint: u64,
    pub start: u64,
    pub length: u64,
}

/// Where frame number `frame` is; its records are not looked at.
pub fn locate(buffer: &[u8], used: usize, frame: u64) -> Result<Frame, Refused> {
    let mut out = [0; 4];
    let number = library::locate(buffer, used, frame, &mut out);
    frame_or_refusal(number, out)
}

pub(crate) fn frame_or_refusal(
    number: u32,
    [offset, tracepoint, start, length]: [u64; 4],
) -> Result<Frame, Refused> {
    match Refusal::of(number) {
        Some(refusal) => Err(Refused { refusal, offset }),
        None => Ok(Frame {
            tracepoint,
            start,
            length,
        }),
    }
}

/// Over the frames from the newest to the oldest: at first `place` is the used length.
#[derive(Clone, Copy, Debug)]
pub struct Walker<'a> {
    pub buffer: &'a [u8],
    pub place: usize,
}

impl Walker<'_> {
    /// The next older frame, or a refusal with the place kept.
    pub fn step(&mut self) -> Result<Frame, Refused> {
        let mut out = [0; 5];
        let number = library::walk(self.buffer, self.place, &mut out);
        let [offset, tracepoint, start, length, next] = out;
        self.place = next as usize;
        frame_or_refusal(number, [offset, tracepoint, start, length])
    }
}
