//! lilivrez_read, lilivrez_count, lilivrez_locate and lilivrez_walk, each asked of one buffer: a record of a frame, the number
//! of its records, where it is, and the frame that ends at the used length. A case's line is `BYTES LENGTH USED FRAME RECORD`:
//! the buffer has LENGTH bytes, which are BYTES over and over.

use crate::compare::{Answer, Case, Entry, Size, UNSTORED};
use crate::fields;
use crate::shrink::{self, each};
use crate::{long_read, long_run};
use evaluator::generate::reader::{self as generate, Frames};
use evaluator::hex;
use evaluator::random::Random;
use evaluator::reader::{self, Frame, Reading};
use evaluator::reads::{Asked, Buffer};
use evaluator::verify::Refused;
use lilivrez::library;
use std::iter;
use std::ops::Range;

#[derive(Clone, PartialEq)]
pub struct Read {
    pub buffer: Buffer,
    pub used: u64,
    pub frame: u64,
    record: u64,
}

/// The numbers of a record's kinds.
pub const MEMORY: u64 = 1;
pub const VARIABLE: u64 = 2;

/// Frames that are asked for some times before others are made.
#[derive(Default)]
pub struct Maker {
    frames: Frames,
}

const TIMES: usize = 8;

fn refused<const N: usize>(refused: Refused) -> (u32, [u64; N]) {
    let mut out = [0; N];
    out[0] = refused.offset as u64;
    (refused.number.into(), out)
}

fn record(reading: Result<Reading, Refused>) -> (u32, [u64; 6]) {
    match reading {
        Ok(Reading::Memory {
            tracepoint,
            address,
            length,
            place,
        }) => {
            let bytes = [address, length as u64, place as u64];
            let [address, length, place] = bytes;
            (0, [0, tracepoint.into(), MEMORY, address, length, place])
        }
        Ok(Reading::Variable {
            tracepoint,
            number,
            value,
        }) => (0, [0, tracepoint.into(), VARIABLE, number.into(), value, 0]),
        Err(why) => refused(why),
    }
}

fn place(found: Result<Frame, Refused>) -> (u32, [u64; 4]) {
    match found {
        Ok(frame) => {
            let [start, length] = [frame.start, frame.length].map(|number| number as u64);
            (0, [0, frame.tracepoint.into(), start, length])
        }
        Err(why) => refused(why),
    }
}

impl Read {
    fn records(&self, buffer: &[u8]) -> (u32, [u64; 5]) {
        match reader::count(buffer, self.used, self.frame) {
            Ok((frame, count)) => {
                let numbers = [frame.start, frame.length, count];
                let [start, length, count] = numbers.map(|number| number as u64);
                (0, [0, frame.tracepoint.into(), start, length, count])
            }
            Err(why) => refused(why),
        }
    }

    /// The step of a walker whose place is the used length; a refusal keeps it.
    fn step(&self, buffer: &[u8]) -> (u32, [u64; 5]) {
        let found = reader::step(buffer, self.used);
        let next = match &found {
            Ok(frame) => frame.start as u64,
            Err(_) => self.used,
        };
        let (number, [offset, tracepoint, start, length]) = place(found);
        (number, [offset, tracepoint, start, length, next])
    }
}

/// By the length of the records, which stands in the same place for a frame located and for one walked to.
fn with_or_without(out: &[u64]) -> &'static str {
    match out[3] {
        0 => "a frame without records",
        _ => "a frame with records",
    }
}

fn answers(
    (read, record): (u32, [u64; 6]),
    (count, records): (u32, [u64; 5]),
    (locate, frame): (u32, [u64; 4]),
    (walk, step): (u32, [u64; 5]),
) -> Vec<Answer> {
    vec![
        Answer::numbers(read, &record),
        Answer::numbers(count, &records),
        Answer::numbers(locate, &frame),
        Answer::numbers(walk, &step),
    ]
}

impl Case for Read {
    const KIND: &'static str = "read";
    const ENTRIES: &'static [Entry] = &[
        Entry {
            name: "read",
            places: &[
                "offset",
                "tracepoint",
                "kind",
                "address or number",
                "length or value",
                "place",
            ],
            refusals: &[15, 22, 23, 24, 25],
            sort: |out| match out[2] {
                MEMORY => "a memory record",
                _ => "a variable record",
            },
        },
        Entry {
            name: "count",
            places: &["offset", "tracepoint", "start", "length", "records"],
            refusals: &[15, 22, 23, 24],
            sort: |out| match out[4] {
                0 => "a frame without records",
                _ => "a frame with records",
            },
        },
        Entry {
            name: "locate",
            places: &["offset", "tracepoint", "start", "length"],
            refusals: &[15, 22, 24],
            sort: with_or_without,
        },
        Entry {
            name: "walk",
            places: &["offset", "tracepoint", "start", "length", "place"],
            refusals: &[15, 22, 24],
            sort: with_or_without,
        },
    ];
    const SIZES: &'static [Size] = &[
        Size {
            name: "record bytes read",
            least: 10_000,
        },
        Size {
            name: "records in a frame",
            least: 100,
        },
        Size {
            name: "frame number found",
            least: 100,
        },
    ];
    type Maker = Maker;

    fn any(maker: &mut Maker, random: &mut Random, number: usize) -> Read {
        if long_run::is_long(number) {
            let (buffer, [used, frame, record]) = long_read::any(random);
            return Read {
                buffer,
                used,
                frame,
                record,
            };
        }
        if number.is_multiple_of(TIMES) {
            maker.frames = generate::any_frames(random);
        }
        let case = generate::any(random, &maker.frames);
        let (used, frame, record) = match case.asked {
            Asked::Read {
                used,
                frame,
                record,
            } => (used, frame, record),
            Asked::Count { used, frame } | Asked::Locate { used, frame } => (used, frame, 0),
            Asked::Step { place } => (place, 0, 0),
        };
        let buffer = case.buffer;
        Read {
            buffer,
            used,
            frame,
            record,
        }
    }

    fn line(&self) -> String {
        let Buffer { bytes, length } = &self.buffer;
        let (used, frame, record) = (self.used, self.frame, self.record);
        let bytes = hex::field(bytes);
        format!("{bytes} {length:x} {used:x} {frame:x} {record:x}")
    }

    fn read(line: &str) -> Result<Read, String> {
        let [bytes, length, used, frame, record] = fields::divided(line)?;
        let buffer = Buffer {
            bytes: fields::bytes(bytes)?,
            length: fields::number(length)? as usize,
        };
        Ok(Read {
            buffer,
            used: fields::number(used)?,
            frame: fields::number(frame)?,
            record: fields::number(record)?,
        })
    }

    fn expected(&self) -> Vec<Answer> {
        let buffer = self.buffer.values();
        let reading = reader::read(&buffer, self.used, self.frame, self.record);
        let frame = place(reader::locate(&buffer, self.used, self.frame));
        let step = self.step(&buffer);
        answers(record(reading), self.records(&buffer), frame, step)
    }

    fn found(&self) -> Vec<Answer> {
        let buffer = self.buffer.values();
        let used = self.used as usize;
        let mut record = [UNSTORED; 6];
        let read = library::read(&buffer, used, self.frame, self.record, &mut record);
        let mut records = [UNSTORED; 5];
        let count = library::count(&buffer, used, self.frame, &mut records);
        let mut frame = [UNSTORED; 4];
        let locate = library::locate(&buffer, used, self.frame, &mut frame);
        let mut step = [UNSTORED; 5];
        let walk = library::walk(&buffer, used, &mut step);
        answers(
            (read, record),
            (count, records),
            (locate, frame),
            (walk, step),
        )
    }

    fn smaller(&self) -> impl Iterator<Item = Read> {
        let parts = || shrink::parts(self.buffer.length);
        let numbers = shrink::numbers;
        each(self, numbers(self.used), |case, used| case.used = used)
            .chain(each(self, numbers(self.frame), |case, frame| {
                case.frame = frame
            }))
            .chain(each(self, numbers(self.record), |case, record| {
                case.record = record
            }))
            .chain(each(self, iter::once(Vec::new()), |case, bytes| {
                case.buffer.bytes = bytes
            }))
            .chain(each(self, parts(), |case, part| {
                case.used = case.used.saturating_sub(part.len() as u64);
                case.buffer = cut(&case.buffer, part);
            }))
            .chain(each(self, parts(), |case, part| {
                case.buffer = cut(&case.buffer, part)
            }))
            .chain(each(
                self,
                shrink::bytes(&self.buffer.bytes),
                |case, bytes| case.buffer.bytes = bytes,
            ))
    }

    fn sizes(&self, answers: &[Answer]) -> Vec<u64> {
        let [read, count, ..] = answers else {
            panic!("four entries");
        };
        let memory = read.number == 0 && read.out[2] == MEMORY;
        let found = count.number == 0;
        let sizes = [
            (memory, read.out[4]),
            (found, count.out[4]),
            (found, self.frame),
        ];
        sizes
            .map(|(counts, size)| if counts { size } else { 0 })
            .to_vec()
    }
}

pub fn cut(buffer: &Buffer, part: Range<usize>) -> Buffer {
    Buffer::of(&shrink::without(&buffer.values(), &part))
}

#[cfg(test)]
mod tests {
    use evaluator::hex;
    use lilivrez::{Counted, Frame, Record, Records};

    /// The safe wrappers tell all that is stored: of the newer frame, tracepoint 9, in which variable 3 is 7, and of no third.
    #[test]
    fn wrappers() {
        let newer = "56 03 00 00 00 07 00 00 00 00 00 00 00 46 00 09 00 0d 00 00 00";
        let buffer = hex::read(&format!("46 00 01 00 00 00 00 00 {newer}")).expect("this is hex");
        let frame = Frame {
            tracepoint: 9,
            start: 8,
            length: 13,
        };
        assert_eq!(lilivrez::locate(&buffer, 29, 0), Ok(frame));
        let records = 1;
        assert_eq!(
            lilivrez::count(&buffer, 29, 0),
            Ok(Counted { frame, records })
        );
        let record = Record::Variable {
            number: 3,
            value: 7,
        };
        let tracepoint = 9;
        assert_eq!(
            lilivrez::read(&buffer, 29, 0, 0),
            Ok(lilivrez::Read { tracepoint, record })
        );
        let mut records = Records::of(&buffer, frame);
        assert_eq!(records.step(), Ok(record));
        for _ in 0..2 {
            let refused = records.step().unwrap_err();
            assert_eq!((refused.refusal.number(), refused.offset), (25, 21));
            assert_eq!(records.place, 21);
        }
        let refused = lilivrez::locate(&buffer, 29, 2).unwrap_err();
        assert_eq!((refused.refusal.number(), refused.offset), (24, 0));
    }
}
