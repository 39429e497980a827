//! The cases of words, memory, frames and their reader, and what they come to,
//! as lines of text: fields divided by single spaces, numbers in lower-case hex
//! without leading zeros (an opcode has two digits), bytes in hex pairs or `-`
//! for none.
//!
//! | case | outcome |
//! |---|---|
//! | `w OP A B` | the word, or `refused 11` |
//! | `f F1 BYTES1 F2 BYTES2 ADDR SIZE` | the bytes, or `refused` with c, d or 13 |
//! | `r F1 BYTES1 F2 BYTES2 ADDR` | the bytes, or `refused` with c or d |
//! | `z BYTES SIZE` | `zero N`, `size N`, `end N`: N bytes were looked at |
//! | `m ROOM ADDR BYTES` | `N PART`: N bytes were written; or `full PART` |
//! | `v ROOM NUMBER VALUE` | the same |
//! | `t ROOM TRACEPOINT LENGTH` | the same |
//! | `d BYTES` | `m ADDR BYTES` and `v NUMBER VALUE` divided by `;`, or `none`, or `refused 17 OFFSET` |
//!
//! The kinds g, c, l and s are in reads.rs.

use crate::frames::{self, Record, Trailer};
use crate::hex;
use crate::isa;
use crate::memory::{Memory, Search, Span};
use crate::reader;
use crate::reads;
use crate::verify::Refused;
use crate::words;

#[derive(Clone, Debug, PartialEq, Eq, PartialOrd, Ord)]
pub enum Case {
    /// An operator and its cells. `b` is 0 for log_not and bit_not, and the
    /// operand N for ext and zero_ext.
    Word {
        opcode: u8,
        a: u64,
        b: u64,
    },
    Fetch {
        spans: [Span; 2],
        address: u64,
        size: u64,
    },
    /// The bytes from an address to its span's end.
    Rest {
        spans: [Span; 2],
        address: u64,
    },
    /// The search for a zero byte in what there is from an address on.
    Search {
        bytes: Vec<u8>,
        size: u64,
    },
    /// Writing into a free part of `room` bytes.
    Write {
        room: usize,
        item: Item,
    },
    /// The records of a frame that has just these bytes.
    Divide {
        bytes: Vec<u8>,
    },
    Reader(reads::Case),
}

#[derive(Clone, Debug, PartialEq, Eq, PartialOrd, Ord)]
pub enum Item {
    Record(Record),
    Trailer(Trailer),
}

pub enum Answer {
    Word(u64),
    Bytes(Vec<u8>),
    Search(Search),
    /// The free part afterwards, and how many bytes were written.
    Written(Vec<u8>, usize),
    Full(Vec<u8>),
    Records(Vec<Record>),
    Broken(usize),
    Reader(reads::Outcome),
}

/// An answer, or the number of a refusal that has no offset here.
pub type Outcome = Result<Answer, u8>;

/// Every byte of a free part before something is written into it.
const UNWRITTEN: u8 = 0xa5;

impl Case {
    /// The case as a line of the vectors; its first field tells the kind.
    pub fn line(&self) -> String {
        match self {
            Case::Word { opcode, a, b } => format!("w {opcode:02x} {a:x} {b:x}"),
            Case::Fetch {
                spans,
                address,
                size,
            } => format!("f {} {address:x} {size:x}", spans_text(spans)),
            Case::Rest { spans, address } => format!("r {} {address:x}", spans_text(spans)),
            Case::Search { bytes, size } => format!("z {} {size:x}", hex::field(bytes)),
            Case::Write { room, item } => match item {
                Item::Record(Record::Memory { address, bytes }) => {
                    format!("m {room:x} {address:x} {}", hex::field(bytes))
                }
                Item::Record(Record::Variable { number, value }) => {
                    format!("v {room:x} {number:x} {value:x}")
                }
                Item::Trailer(Trailer { tracepoint, length }) => {
                    format!("t {room:x} {tracepoint:x} {length:x}")
                }
            },
            Case::Divide { bytes } => format!("d {}", hex::field(bytes)),
            Case::Reader(case) => case.line(),
        }
    }

    pub fn evaluate(&self) -> Outcome {
        Ok(match self {
            Case::Word { opcode, a, b } => Answer::Word(operator(*opcode, *a, *b)?),
            Case::Fetch {
                spans,
                address,
                size,
            } => Answer::Bytes(Memory::new(spans)?.fetch(*address, *size)?.to_vec()),
            Case::Rest { spans, address } => {
                let memory = Memory::new(spans)?;
                let left = memory.left(*address);
                Answer::Bytes(memory.fetch(*address, left)?.to_vec())
            }
            Case::Search { bytes, size } => Answer::Search(search(bytes, *size)?),
            Case::Write { room, item } => write(*room, item),
            Case::Divide { bytes } => match frames::divide(bytes) {
                Ok(records) => Answer::Records(records),
                Err(offset) => Answer::Broken(offset),
            },
            Case::Reader(case) => Answer::Reader(case.evaluate()),
        })
    }
}

fn spans_text(spans: &[Span; 2]) -> String {
    let text = |span: &Span| format!("{:x} {}", span.first, hex::field(&span.bytes));
    spans.each_ref().map(text).join(" ")
}

fn operator(opcode: u8, a: u64, b: u64) -> Result<u64, u8> {
    match opcode {
        isa::LOG_NOT => Ok(words::log_not(a)),
        isa::BIT_NOT => Ok(words::bit_not(a)),
        isa::EXT => Ok(words::ext(b as u8, a)),
        isa::ZERO_EXT => Ok(words::zero_ext(b as u8, a)),
        _ => words::binary(opcode, a, b),
    }
}

/// The bytes are a span of their own; where it lies is of no meaning.
fn search(bytes: &[u8], size: u64) -> Result<Search, u8> {
    let span = |bytes: &[u8]| Span {
        first: 0,
        bytes: bytes.to_vec(),
    };
    let spans = [span(bytes), span(&[])];
    Ok(Memory::new(&spans)?.search(0, size))
}

fn write(room: usize, item: &Item) -> Answer {
    let encoded = match item {
        Item::Record(record) => frames::encode(record),
        Item::Trailer(trailer) => frames::encode_trailer(*trailer),
    };
    let mut free = vec![UNWRITTEN; room];
    match frames::write(&mut free, &encoded) {
        Some(count) => Answer::Written(free, count),
        None => Answer::Full(free),
    }
}

/// What was written is the item when it is read again.
pub fn reads_back(case: &Case, outcome: &Outcome) -> bool {
    let (Case::Write { item, .. }, Ok(Answer::Written(free, count))) = (case, outcome) else {
        return true;
    };
    match item {
        Item::Record(record) => frames::decode(free) == Some((record.clone(), *count)),
        Item::Trailer(trailer) => frames::decode_trailer(&free[..*count]) == Some(*trailer),
    }
}

/// An outcome as one line of the vectors.
pub fn line(outcome: &Outcome) -> String {
    match outcome {
        Err(number) => format!("refused {number:x}"),
        Ok(Answer::Word(word)) => format!("{word:x}"),
        Ok(Answer::Bytes(bytes)) => hex::field(bytes),
        Ok(Answer::Search(Search::Zero(looked))) => format!("zero {looked:x}"),
        Ok(Answer::Search(Search::Size(looked))) => format!("size {looked:x}"),
        Ok(Answer::Search(Search::End(looked))) => format!("end {looked:x}"),
        Ok(Answer::Written(free, count)) => format!("{count:x} {}", hex::field(free)),
        Ok(Answer::Full(free)) => format!("full {}", hex::field(free)),
        Ok(Answer::Records(records)) if records.is_empty() => "none".to_string(),
        Ok(Answer::Records(records)) => {
            let texts: Vec<String> = records.iter().map(record_text).collect();
            texts.join(";")
        }
        Ok(Answer::Broken(offset)) => reads::refusal(&broken(*offset)),
        Ok(Answer::Reader(outcome)) => reads::line(outcome),
    }
}

/// 23 in a frame that begins at 0.
fn broken(offset: usize) -> Refused {
    let number = reader::BROKEN_RECORD;
    Refused { number, offset }
}

fn record_text(record: &Record) -> String {
    match record {
        Record::Memory { address, bytes } => format!("m {address:x} {}", hex::field(bytes)),
        Record::Variable { number, value } => format!("v {number:x} {value:x}"),
    }
}

/// The sort of an outcome, for counting; a refusal's number is decimal here.
pub fn sort(outcome: &Outcome) -> String {
    let name = match outcome {
        Err(number) => return format!("refused {number}"),
        Ok(Answer::Word(_)) => "word",
        Ok(Answer::Bytes(bytes)) if bytes.is_empty() => "no bytes",
        Ok(Answer::Bytes(_)) => "bytes",
        Ok(Answer::Search(Search::Zero(_))) => "zero",
        Ok(Answer::Search(Search::Size(_))) => "size",
        Ok(Answer::Search(Search::End(_))) => "end",
        Ok(Answer::Written(..)) => "written",
        Ok(Answer::Full(_)) => "full",
        Ok(Answer::Records(_)) => "records",
        Ok(Answer::Broken(offset)) => return reads::sort(&Err(broken(*offset))),
        Ok(Answer::Reader(outcome)) => return reads::sort(outcome),
    };
    name.to_string()
}

#[cfg(test)]
mod tests {
    use super::*;
    use crate::generate;

    fn bytes(text: &str) -> Vec<u8> {
        hex::read(text).expect("these are hex")
    }

    fn span(first: u64, text: &str) -> Span {
        let bytes = bytes(text);
        Span { first, bytes }
    }

    fn word(opcode: u8, a: u64, b: u64) -> Case {
        Case::Word { opcode, a, b }
    }

    fn expect(case: Case, line: &str, outcome: &str) {
        assert_eq!(case.line(), line);
        assert_eq!(super::line(&case.evaluate()), outcome);
    }

    #[test]
    fn lines_of_words() {
        expect(word(isa::ADD, 5, 3), "w 02 5 3", "8");
        expect(word(isa::EXT, 0x80, 8), "w 16 80 8", "ffffffffffffff80");
        expect(word(isa::REM_SIGNED, 1, 0), "w 07 1 0", "refused 11");
        expect(word(isa::LOG_NOT, 0, 0), "w 0e 0 0", "1");
        expect(word(isa::ZERO_EXT, 0x123, 4), "w 2a 123 4", "3");
    }

    #[test]
    fn lines_of_memory() {
        let spans = || [span(0, ""), span(4096, "41 00 42")];
        let fetch = |size| Case::Fetch {
            spans: spans(),
            address: 4096,
            size,
        };
        expect(fetch(2), "f 0 - 1000 410042 1000 2", "4100");
        expect(fetch(4), "f 0 - 1000 410042 1000 4", "refused 13");
        expect(fetch(0), "f 0 - 1000 410042 1000 0", "-");
        let rest = |address| Case::Rest {
            spans: spans(),
            address,
        };
        expect(rest(4097), "r 0 - 1000 410042 1001", "0042");
        expect(rest(4099), "r 0 - 1000 410042 1003", "-");
        let search = |text, size| Case::Search {
            bytes: bytes(text),
            size,
        };
        expect(search("41 00 42", 3), "z 410042 3", "zero 2");
        expect(search("41 00 42", 1), "z 410042 1", "size 1");
        expect(search("", 16), "z - 10", "end 0");
    }

    #[test]
    fn lines_of_frames() {
        let record = Record::Variable {
            number: 10,
            value: 0x1234,
        };
        let write = |room| Case::Write {
            room,
            item: Item::Record(record.clone()),
        };
        let written = "d 560a0000003412000000000000a5";
        expect(write(14), "v e a 1234", written);
        expect(write(2), "v 2 a 1234", "full a5a5");
        expect(write(0), "v 0 a 1234", "full -");
        let divide = |text| Case::Divide { bytes: bytes(text) };
        expect(divide(""), "d -", "none");
        expect(divide("4d00"), "d 4d00", "refused 17 0");
        let two = "4d00100000000000000200410056030000000700000000000000";
        expect(divide(two), &format!("d {two}"), "m 1000 4100;v 3 7");
    }

    /// Each field is what the table above says of it.
    #[test]
    fn fields_are_numbers_or_bytes() {
        for case in generate::leaf_cases() {
            let line = case.line();
            let fields: Vec<&str> = line.split(' ').collect();
            let shapes = match fields[0] {
                "w" => "bnn",
                "f" => "nbnbnn",
                "r" => "nbnbn",
                "z" => "bn",
                "m" => "nnb",
                "v" | "t" => "nnn",
                "d" => "b",
                "g" => "bnnnn",
                "c" | "l" => "bnnn",
                "s" => "bnn",
                kind => panic!("no kind {kind}"),
            };
            assert_eq!(fields.len(), 1 + shapes.len(), "{line}");
            for (field, shape) in fields[1..].iter().zip(shapes.chars()) {
                let written = match (shape, *field) {
                    ('b', "-") => "-".to_string(),
                    ('b', digits) => hex::write(&bytes(digits)),
                    (_, digits) => format!("{:x}", u64::from_str_radix(digits, 16).unwrap()),
                };
                assert_eq!(*field, written, "{line}");
            }
        }
    }
}
