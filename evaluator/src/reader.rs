//! The frame reader of document 01, "Frames": frames counted from the newest,
//! the records of one, the walker's step, and a step over the records of a
//! frame. This module knows only frames.

use crate::frames::{self, Record};
use crate::verify::Refused;

/// "reader: trailer broken; record broken".
const BROKEN_TRAILER: u8 = 22;
pub const BROKEN_RECORD: u8 = 23;
/// "no such frame; no such record".
const NO_FRAME: u8 = 24;
const NO_RECORD: u8 = 25;

/// "the next older frame's tracepoint number, start and record length".
#[derive(Clone, Copy, Debug, PartialEq, Eq)]
pub struct Frame {
    pub tracepoint: u16,
    pub start: usize,
    pub length: usize,
}

/// "Its answer is plain numbers: the frame's tracepoint number and the record's
/// kind, with the address, the length and the place of its bytes in the buffer,
/// or the variable's number and value."
#[derive(Clone, Copy, Debug, PartialEq, Eq)]
pub enum Reading {
    Memory {
        tracepoint: u16,
        address: u64,
        length: usize,
        place: usize,
    },
    Variable {
        tracepoint: u16,
        number: u32,
        value: u64,
    },
}

fn refuse<T>(number: u8, offset: usize) -> Result<T, Refused> {
    Err(Refused { number, offset })
}

/// "It checks 15"; its offset is 0.
fn check(buffer: &[u8], used: u64) -> Result<usize, Refused> {
    frames::used_within(buffer, used).map_err(|number| Refused { number, offset: 0 })
}

/// The frame that ends at `end`: "nothing left is 24", "24 reports 0"; "under 8
/// bytes, a wrong mark, a second byte other than 00 or a length beyond what
/// lies before is 22 (offset: that frame's end)", which is just past its
/// trailer (reading A-23).
fn ending_at(buffer: &[u8], end: usize) -> Result<Frame, Refused> {
    if end == 0 {
        return refuse(NO_FRAME, 0);
    }
    let Some(trailer) = frames::decode_trailer(&buffer[..end]) else {
        return refuse(BROKEN_TRAILER, end);
    };
    let before = end - frames::encode_trailer(trailer).len();
    let length = trailer.length as usize;
    match before.checked_sub(length) {
        None => refuse(BROKEN_TRAILER, end),
        Some(start) => Ok(Frame {
            tracepoint: trailer.tracepoint,
            start,
            length,
        }),
    }
}

/// "The walker keeps the lent buffer and its own place in it": its step from
/// that place, which is the frame's start afterwards, and kept on a refusal.
pub fn step(buffer: &[u8], place: u64) -> Result<Frame, Refused> {
    ending_at(buffer, check(buffer, place)?)
}

/// "The reader counts frames from the newest, 0. It checks 15; then walks back".
/// The trailers of newer frames are looked at, their records are not (reading
///
pub fn locate(buffer: &[u8], used: u64, number: u64) -> Result<Frame, Refused> {
    let mut end = check(buffer, used)?;
    for _ in 0..number {
        end = ending_at(buffer, end)?.start;
    }
    ending_at(buffer, end)
}

/// "Then the chosen frame must divide into records exactly": each record with
/// the place just past it; "else 23 at the first bad record", whose offset is
/// its place in the buffer (reading A-26).
fn records(buffer: &[u8], frame: Frame) -> Result<Vec<(Record, usize)>, Refused> {
    let end = frame.start + frame.length;
    let mut records = Vec::new();
    let mut offset = frame.start;
    while offset < end {
        let Some((record, size)) = frames::decode(&buffer[offset..end]) else {
            return refuse(BROKEN_RECORD, offset);
        };
        offset += size;
        records.push((record, offset));
    }
    Ok(records)
}

/// The frame and how many records it has.
pub fn count(buffer: &[u8], used: u64, number: u64) -> Result<(Frame, usize), Refused> {
    let frame = locate(buffer, used, number)?;
    Ok((frame, records(buffer, frame)?.len()))
}

/// "Then 25, at the frame's start". The place of a record's bytes is that of
/// the first of them (reading A-28).
pub fn read(buffer: &[u8], used: u64, number: u64, index: u64) -> Result<Reading, Refused> {
    let frame = locate(buffer, used, number)?;
    let records = records(buffer, frame)?;
    let chosen = usize::try_from(index).ok().and_then(|i| records.get(i));
    let tracepoint = frame.tracepoint;
    match chosen {
        None => refuse(NO_RECORD, frame.start),
        Some((Record::Memory { address, bytes }, end)) => Ok(Reading::Memory {
            tracepoint,
            address: *address,
            length: bytes.len(),
            place: end - bytes.len(),
        }),
        Some((Record::Variable { number, value }, _)) => Ok(Reading::Variable {
            tracepoint,
            number: *number,
            value: *value,
        }),
    }
}

/// A step over the records that end at `end`: the record at the place, and the
/// place just past it. 15 as everywhere, 25 where nothing is left before the
/// end, 23 where no record stands; both at the place.
pub fn next_record(buffer: &[u8], end: u64, place: u64) -> Result<(Record, usize), Refused> {
    let end = check(buffer, end)?;
    let place = place as usize;
    if place >= end {
        return refuse(NO_RECORD, place);
    }
    match frames::decode(&buffer[place..end]) {
        Some((record, size)) => Ok((record, place + size)),
        None => refuse(BROKEN_RECORD, place),
    }
}

#[cfg(test)]
mod tests {
    use super::*;
    use crate::hex;

    /// The worked frame of "Examples": two bytes at 4096, tracepoint 7.
    const WORKED: &str = "4d 00 10 00 00 00 00 00 00 02 00 41 00 46 00 07 00 0d 00 00 00";
    /// Variable 3 is 7; tracepoint 9.
    const SECOND: &str = "56 03 00 00 00 07 00 00 00 00 00 00 00 46 00 09 00 0d 00 00 00";
    const EMPTY: &str = "46 00 01 00 00 00 00 00";

    fn bytes(texts: &[&str]) -> Vec<u8> {
        hex::read(&texts.join(" ")).expect("these are hex")
    }

    fn frame(tracepoint: u16, start: usize, length: usize) -> Frame {
        Frame {
            tracepoint,
            start,
            length,
        }
    }

    /// The frames, the oldest first, with changes of single bytes.
    fn changed(changes: &[(usize, u8)]) -> Vec<u8> {
        let mut buffer = bytes(&[WORKED, SECOND, EMPTY]);
        for (place, byte) in changes {
            assert_ne!(buffer[*place], *byte);
            buffer[*place] = *byte;
        }
        buffer
    }

    /// The number and offset for each frame from the newest; 0 at 0 if it is
    /// read.
    fn refusals(buffer: &[u8]) -> [(u8, usize); 4] {
        let used = buffer.len() as u64;
        [0, 1, 2, 3].map(|number| match count(buffer, used, number) {
            Ok(_) => (0, 0),
            Err(refused) => (refused.number, refused.offset),
        })
    }

    #[test]
    fn the_worked_frame() {
        let buffer = bytes(&[WORKED]);
        let worked = frame(7, 0, 13);
        assert_eq!(step(&buffer, 21), Ok(worked));
        assert_eq!(locate(&buffer, 21, 0), Ok(worked));
        assert_eq!(count(&buffer, 21, 0), Ok((worked, 1)));
        let reading = Reading::Memory {
            tracepoint: 7,
            address: 4096,
            length: 2,
            place: 11,
        };
        assert_eq!(read(&buffer, 21, 0, 0), Ok(reading));
        assert_eq!(read(&buffer, 21, 0, 1), refuse(25, 0));
        assert_eq!(read(&buffer, 21, 1, 0), refuse(24, 0));
        assert_eq!(step(&buffer, 0), refuse(24, 0));
    }

    #[test]
    fn frames_count_from_the_newest() {
        let buffer = changed(&[]);
        assert_eq!(count(&buffer, 50, 0), Ok((frame(1, 42, 0), 0)));
        assert_eq!(count(&buffer, 50, 1), Ok((frame(9, 21, 13), 1)));
        assert_eq!(count(&buffer, 50, 2), Ok((frame(7, 0, 13), 1)));
        assert_eq!(refusals(&buffer)[3], (24, 0));
        let reading = Reading::Variable {
            tracepoint: 9,
            number: 3,
            value: 7,
        };
        assert_eq!(read(&buffer, 50, 1, 0), Ok(reading));
        assert_eq!(read(&buffer, 50, 1, u64::MAX), refuse(25, 21));
        assert_eq!(read(&buffer, 50, 0, 0), refuse(25, 42));
        assert_eq!(read(&buffer, 50, u64::MAX, 0), refuse(24, 0));
    }

    #[test]
    fn refused_with_15() {
        let buffer = bytes(&[EMPTY]);
        for used in [9, 1 << 32, u64::MAX] {
            assert_eq!(read(&buffer, used, 9, 9), refuse(15, 0));
            assert_eq!(step(&buffer, used), refuse(15, 0));
        }
        let mut buffer = buffer.repeat(8_192);
        assert_eq!(buffer.len(), 65_536);
        assert_eq!(locate(&buffer, 65_536, 8_191), Ok(frame(1, 0, 0)));
        assert_eq!(locate(&buffer, 65_536, 8_192), refuse(24, 0));
        buffer.push(0);
        assert_eq!(count(&buffer, 65_536, 0), refuse(15, 0));
        assert_eq!(step(&buffer, 0), refuse(15, 0));
    }

    /// Each way of 22, at the end of its frame, for that frame and all older
    /// ones; the newer are read.
    #[test]
    fn refused_with_22() {
        let second = |place, byte| refusals(&changed(&[(place, byte)]));
        let at_42 = [(0, 0), (22, 42), (22, 42), (22, 42)];
        assert_eq!(second(34, 0x47), at_42);
        assert_eq!(second(35, 0x01), at_42);
        assert_eq!(second(38, 35), at_42);
        assert_eq!(second(41, 0x80), at_42);
        // 34 bytes lie before: that length is not beyond them.
        assert_eq!(second(38, 34), [(0, 0), (23, 13), (24, 0), (24, 0)]);
        let buffer = changed(&[]);
        for used in 1..8 {
            assert_eq!(step(&buffer, used), refuse(22, used as usize));
        }
        // A frame that begins 1 byte too far forward leaves that byte over.
        assert_eq!(second(38, 12), [(0, 0), (23, 22), (22, 22), (22, 22)]);
    }

    /// Each way of 23, at the first bad record; the frames around it are read.
    #[test]
    fn refused_with_23() {
        let second = |place, byte| refusals(&changed(&[(place, byte)]));
        let at_21 = [(0, 0), (23, 21), (0, 0), (24, 0)];
        assert_eq!(second(21, 0x55), at_21);
        assert_eq!(second(22, 64), at_21);
        assert_eq!(second(25, 1), at_21);
        let oldest = |place, byte| refusals(&changed(&[(place, byte)]))[2];
        for length in [0, 1, 3] {
            let offset = if length == 1 { 12 } else { 0 };
            assert_eq!(oldest(9, length), (23, offset));
        }
        assert_eq!(oldest(10, 1), (23, 0));
        assert_eq!(oldest(17, 12), (23, 1));
    }

    /// A bad record hides a good one before it and comes before 25; an address
    /// is never bad (readings ).
    #[test]
    fn the_whole_frame_divides_first() {
        let trailer = "46 00 00 00 1a 00 00 00";
        let records = [&WORKED[..38], &SECOND[..38]];
        let mut buffer = bytes(&[records[0], records[1], trailer]);
        assert_eq!(count(&buffer, 34, 0).map(|(_, count)| count), Ok(2));
        buffer[14] = 64;
        for index in [0, 1, 2, u64::MAX] {
            assert_eq!(read(&buffer, 34, 0, index), refuse(23, 13));
        }
        assert_eq!(step(&buffer, 34), Ok(frame(0, 0, 26)));
        buffer[14] = 63;
        buffer[1..9].fill(0xff);
        assert!(read(&buffer, 34, 0, 0).is_ok());
    }
    /// Over the two records of a frame and to its end; inside a record, past
    /// the buffer, and with any numbers.
    #[test]
    fn steps_over_records() {
        let trailer = "46 00 00 00 1a 00 00 00";
        let mut buffer = bytes(&[&WORKED[..38], &SECOND[..38], trailer]);
        let first = Record::Memory {
            address: 4096,
            bytes: vec![0x41, 0x00],
        };
        let number = 3;
        let value = 7;
        let second = Record::Variable { number, value };
        assert_eq!(next_record(&buffer, 26, 0), Ok((first.clone(), 13)));
        assert_eq!(next_record(&buffer, 26, 13), Ok((second, 26)));
        assert_eq!(next_record(&buffer, 26, 26), refuse(25, 26));
        assert_eq!(next_record(&buffer, 26, u64::MAX), refuse(25, usize::MAX));
        assert_eq!(next_record(&buffer, 13, 0), Ok((first, 13)));
        assert_eq!(next_record(&buffer, 12, 0), refuse(23, 0));
        assert_eq!(next_record(&buffer, 26, 1), refuse(23, 1));
        assert_eq!(next_record(&buffer, 34, 26), refuse(23, 26));
        for end in [35, 1 << 32, u64::MAX] {
            assert_eq!(next_record(&buffer, end, 0), refuse(15, 0));
        }
        buffer[14] = 64;
        assert_eq!(next_record(&buffer, 26, 13), refuse(23, 13));
    }
}
