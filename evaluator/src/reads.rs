//! The cases of the frame reader, and what they come to, as lines of text in
//! the form that leaf.rs tells of.
//!
//! | case | outcome |
//! |---|---|
//! | `g BYTES LENGTH USED FRAME RECORD` | `memory TRACEPOINT ADDRESS LENGTH PLACE`, `variable TRACEPOINT NUMBER VALUE`, or `refused NUMBER OFFSET` |
//! | `c BYTES LENGTH USED FRAME` | `records TRACEPOINT START LENGTH COUNT`, or `refused NUMBER OFFSET` |
//! | `l BYTES LENGTH USED FRAME` | `frame TRACEPOINT START LENGTH`, or `refused NUMBER OFFSET` |
//! | `s BYTES LENGTH PLACE` | the same |
//!
//! The buffer has LENGTH bytes, which are BYTES over and over (or 00, where
//! there are none), cut at its end.

use crate::hex;
use crate::reader::{self, Frame, Reading};
use crate::verify::Refused;

/// A buffer, as lines tell of it.
#[derive(Clone, Debug, PartialEq, Eq, PartialOrd, Ord)]
pub struct Buffer {
    pub bytes: Vec<u8>,
    pub length: usize,
}

#[derive(Clone, Debug, PartialEq, Eq, PartialOrd, Ord)]
pub struct Case {
    pub buffer: Buffer,
    pub asked: Asked,
}

#[derive(Clone, Copy, Debug, PartialEq, Eq, PartialOrd, Ord)]
pub enum Asked {
    Read { used: u64, frame: u64, record: u64 },
    Count { used: u64, frame: u64 },
    Locate { used: u64, frame: u64 },
    Step { place: u64 },
}

pub enum Answer {
    Reading(Reading),
    Counted(Frame, usize),
    Frame(Frame),
}

pub type Outcome = Result<Answer, Refused>;

impl Buffer {
    /// Just these bytes.
    pub fn of(bytes: &[u8]) -> Buffer {
        let length = bytes.len();
        let bytes = bytes.to_vec();
        Buffer { bytes, length }
    }

    pub fn values(&self) -> Vec<u8> {
        if self.bytes.is_empty() {
            return vec![0; self.length];
        }
        let over = self.bytes.iter().cycle();
        over.take(self.length).copied().collect()
    }
}

impl Case {
    pub fn line(&self) -> String {
        let Buffer { bytes, length } = &self.buffer;
        let buffer = format!("{} {length:x}", hex::field(bytes));
        match self.asked {
            Asked::Read {
                used,
                frame,
                record,
            } => format!("g {buffer} {used:x} {frame:x} {record:x}"),
            Asked::Count { used, frame } => format!("c {buffer} {used:x} {frame:x}"),
            Asked::Locate { used, frame } => format!("l {buffer} {used:x} {frame:x}"),
            Asked::Step { place } => format!("s {buffer} {place:x}"),
        }
    }

    pub fn evaluate(&self) -> Outcome {
        let buffer = self.buffer.values();
        match self.asked {
            Asked::Read {
                used,
                frame,
                record,
            } => reader::read(&buffer, used, frame, record).map(Answer::Reading),
            Asked::Count { used, frame } => {
                let counted = reader::count(&buffer, used, frame);
                counted.map(|(frame, count)| Answer::Counted(frame, count))
            }
            Asked::Locate { used, frame } => {
                reader::locate(&buffer, used, frame).map(Answer::Frame)
            }
            Asked::Step { place } => reader::step(&buffer, place).map(Answer::Frame),
        }
    }
}

/// An outcome as one line of the vectors.
pub fn line(outcome: &Outcome) -> String {
    match outcome {
        Err(refused) => refusal(refused),
        Ok(Answer::Reading(Reading::Memory {
            tracepoint,
            address,
            length,
            place,
        })) => format!("memory {tracepoint:x} {address:x} {length:x} {place:x}"),
        Ok(Answer::Reading(Reading::Variable {
            tracepoint,
            number,
            value,
        })) => format!("variable {tracepoint:x} {number:x} {value:x}"),
        Ok(Answer::Counted(frame, count)) => format!("records {} {count:x}", fields(frame)),
        Ok(Answer::Frame(frame)) => format!("frame {}", fields(frame)),
    }
}

pub fn refusal(refused: &Refused) -> String {
    format!("refused {:x} {:x}", refused.number, refused.offset)
}

fn fields(frame: &Frame) -> String {
    let Frame {
        tracepoint,
        start,
        length,
    } = frame;
    format!("{tracepoint:x} {start:x} {length:x}")
}

/// The sort of an outcome, for counting; a refusal's number is decimal here.
pub fn sort(outcome: &Outcome) -> String {
    let name = match outcome {
        Err(refused) => return format!("refused {}", refused.number),
        Ok(Answer::Reading(Reading::Memory { .. })) => "memory",
        Ok(Answer::Reading(Reading::Variable { .. })) => "variable",
        Ok(Answer::Counted(_, 0)) => "no records",
        Ok(Answer::Counted(..)) => "records",
        Ok(Answer::Frame(_)) => "frame",
    };
    name.to_string()
}

#[cfg(test)]
mod tests {
    use super::*;

    fn expect(bytes: &str, length: usize, asked: Asked, line: &str, outcome: &str) {
        let bytes = hex::read(bytes).expect("these are hex");
        let buffer = Buffer { bytes, length };
        let case = Case { buffer, asked };
        assert_eq!(case.line(), line);
        assert_eq!(super::line(&case.evaluate()), outcome);
    }

    #[test]
    fn lines_of_the_reader() {
        let worked = "4d001000000000000002004100460007000d000000";
        let read = |used, frame, record| Asked::Read {
            used,
            frame,
            record,
        };
        let one = |asked, line: &str, outcome| {
            let line = line.replace('W', worked);
            expect(worked, 21, asked, &line, outcome);
        };
        one(read(21, 0, 0), "g W 15 15 0 0", "memory 7 1000 2 b");
        one(read(21, 0, 1), "g W 15 15 0 1", "refused 19 0");
        one(
            read(21, u64::MAX, 0),
            "g W 15 15 ffffffffffffffff 0",
            "refused 18 0",
        );
        let count = Asked::Count { used: 21, frame: 0 };
        one(count, "c W 15 15 0", "records 7 0 d 1");
        let locate = Asked::Locate { used: 20, frame: 0 };
        one(locate, "l W 15 14 0", "refused 16 14");
        one(Asked::Step { place: 21 }, "s W 15 15", "frame 7 0 d");
    }

    /// Bytes over and over, and none.
    #[test]
    fn buffers_of_any_length() {
        let frame = "560a00000034120000000000004600ffff0d000000";
        let read = Asked::Read {
            used: 42,
            frame: 0,
            record: 0,
        };
        let line = format!("g {frame} 2b 2a 0 0");
        expect(frame, 43, read, &line, "variable ffff a 1234");
        let locate = Asked::Locate { used: 42, frame: 1 };
        let line = format!("l {frame} 2a 2a 1");
        expect(frame, 42, locate, &line, "frame ffff 0 d");
        let step = Asked::Step { place: 42 };
        let line = format!("s {frame} 29 2a");
        expect(frame, 41, step, &line, "refused f 0");
        let step = Asked::Step { place: 9 };
        expect("", 9, step, "s - 9 9", "refused 16 9");
    }
}
