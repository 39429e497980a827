//! liblilivrez_frames.a: the records of a frame.
use crate::finding::frame_or_refusal;
use crate::library;
use crate::{Frame, Refusal, Refused};

#[derive(Clone, Copy, Debug, PartialEq, Eq)]
pub enum Record<'a> {
    Memory { address: u64, bytes: &'a [u8] },
    Variable { number: u64, value: u64 },
}

/// A record, and the tracepoint number of its frame.
#[derive(Clone, Copy, Debug, PartialEq, Eq)]
pub struct Read<'a> {
    pub tracepoint: u64,
    pub record: Record<'a>,
}

/// Record number `index` of frame number `frame`, both from 0; frame 0 is the newest. The bytes are those in the
/// buffer.
pub fn read(buffer: &[u8], used: usize, frame: u64, index: u64) -> Result<Read<'_>, Refused> {
    let mut out = [0; 6];
    let number = library::read(buffer, used, frame, index, &mut out);
    if let Some(refusal) = Refusal::of(number) {
        let offset = out[0];
        return Err(Refused { refusal, offset });
    }
    let [_, tracepoint, kind, first, second, third] = out;
    let record = record(buffer, [kind, first, second, third]);
    Ok(Read { tracepoint, record })
}

/// Of a kind, with the address, the length and the place of its bytes, or with the number and the value.
fn record(buffer: &[u8], [kind, first, second, third]: [u64; 4]) -> Record<'_> {
    match kind {
        1 => Record::Memory {
            address: first,
            bytes: &buffer[third as usize..][..second as usize],
        },
        _ => Record::Variable {
            number: first,
            value: second,
        },
    }
}

/// Over the records of one frame, from the first written to the last. They end at `end`; at first `place` is where they start.
#[derive(Clone, Copy, Debug)]
pub struct Records<'a> {
    pub buffer: &'a [u8],
    pub end: usize,
    pub place: usize,
}

impl<'a> Records<'a> {
    /// Those of a frame that was located, counted or walked to in this buffer.
    pub fn of(buffer: &'a [u8], frame: Frame) -> Records<'a> {
        Records {
            buffer,
            end: frame.start.saturating_add(frame.length) as usize,
            place: frame.start as usize,
        }
    }

    /// The record at the place, or a refusal with the place kept: 25 behind the last record.
    pub fn step(&mut self) -> Result<Record<'a>, Refused> {
        let mut out = [0; 6];
        let number = library::next_record(self.buffer, self.end, self.place, &mut out);
        let [offset, kind, first, second, third, next] = out;
        self.place = next as usize;
        match Refusal::of(number) {
            Some(refusal) => Err(Refused { refusal, offset }),
            None => Ok(record(self.buffer, [kind, first, second, third])),
        }
    }
}

/// A frame and the number of its records.
#[derive(Clone, Copy, Debug, PartialEq, Eq)]
pub struct Counted {
    pub frame: Frame,
    pub records: u64,
}

/// How many records frame number `frame` has.
pub fn count(buffer: &[u8], used: usize, frame: u64) -> Result<Counted, Refused> {
    let mut out = [0; 5];
    let number = library::count(buffer, used, frame, &mut out);
    let [offset, tracepoint, start, length, records] = out;
    let frame = frame_or_refusal(number, [offset, tracepoint, start, length])?;
    Ok(Counted { frame, records })
}
