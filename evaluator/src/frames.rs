//! Records and trailers of document 01, "Frames": "numbers are little-endian".
//! This module knows only isa.

use crate::isa;

const MEMORY_MARK: u8 = 0x4d;
const VARIABLE_MARK: u8 = 0x56;
const TRAILER_MARK: u8 = 0x46;
/// The bytes of a trailer.
const TRAILER: usize = 8;

/// "Trace buffer: 0 to 65,536 lent bytes, with the length already used."
const MOST_BUFFER: usize = 65_536;
/// "buffer over 65,536 or used beyond its length".
const UNFIT_BUFFER: u8 = 15;

/// The used length of a buffer, or 15.
pub fn used_within(buffer: &[u8], used: u64) -> Result<usize, u8> {
    let used = usize::try_from(used).map_err(|_| UNFIT_BUFFER)?;
    if buffer.len() > MOST_BUFFER || used > buffer.len() {
        return Err(UNFIT_BUFFER);
    }
    Ok(used)
}

#[derive(Clone, Debug, PartialEq, Eq, PartialOrd, Ord)]
pub enum Record {
    /// "Memory record: 4d, address (8 bytes), length (2), the bytes."
    Memory { address: u64, bytes: Vec<u8> },
    /// "Variable record: 56, number (4), value (8)."
    Variable { number: u32, value: u64 },
}

/// "46, 00, tracepoint number (2), length of the records (4)".
#[derive(Clone, Copy, Debug, PartialEq, Eq, PartialOrd, Ord)]
pub struct Trailer {
    pub tracepoint: u16,
    pub length: u32,
}

/// The number in `count` bytes, the least significant first.
fn little_endian(number: u64, count: usize) -> Vec<u8> {
    let bytes = (0..count).map(|place| (number >> (8 * place)) as u8);
    bytes.collect()
}

/// The number that the bytes hold, at most 8 of them.
fn number(bytes: &[u8]) -> u64 {
    let most_first = bytes.iter().rev();
    most_first.fold(0, |number, byte| number * 256 + u64::from(*byte))
}

/// A memory record has 1 to 65,535 bytes: 0 make no record, more are refused
/// with 20.
pub fn encode(record: &Record) -> Vec<u8> {
    match record {
        Record::Memory { address, bytes } => {
            assert!((1..=65_535).contains(&bytes.len()), "no such record");
            let length = little_endian(bytes.len() as u64, 2);
            [
                vec![MEMORY_MARK],
                little_endian(*address, 8),
                length,
                bytes.clone(),
            ]
            .concat()
        }
        Record::Variable { number, value } => {
            let number = little_endian(u64::from(*number), 4);
            [vec![VARIABLE_MARK], number, little_endian(*value, 8)].concat()
        }
    }
}

pub fn encode_trailer(trailer: Trailer) -> Vec<u8> {
    let tracepoint = little_endian(u64::from(trailer.tracepoint), 2);
    let length = little_endian(u64::from(trailer.length), 4);
    [vec![TRAILER_MARK, 0x00], tracepoint, length].concat()
}

/// The record at the front of the bytes, and how many of them it takes; None
/// if it is broken: an unknown mark, cut short, "memory lengths 1 or more,
/// variables below 64" not so, and nothing else (reading A-26).
pub fn decode(bytes: &[u8]) -> Option<(Record, usize)> {
    match *bytes.first()? {
        MEMORY_MARK => {
            let address = number(bytes.get(1..9)?);
            let end = 11 + number(bytes.get(9..11)?) as usize;
            let bytes = bytes.get(11..end)?.to_vec();
            let broken = bytes.is_empty();
            (!broken).then_some((Record::Memory { address, bytes }, end))
        }
        VARIABLE_MARK => {
            let variable = number(bytes.get(1..5)?);
            let value = number(bytes.get(5..13)?);
            let broken = variable >= isa::VARIABLES;
            let number = variable as u32;
            (!broken).then_some((Record::Variable { number, value }, 13))
        }
        _ => None,
    }
}

/// "the chosen frame must divide into records exactly": the records, or the
/// offset of the first broken one.
pub fn divide(bytes: &[u8]) -> Result<Vec<Record>, usize> {
    let mut records = Vec::new();
    let mut offset = 0;
    while offset < bytes.len() {
        let (record, length) = decode(&bytes[offset..]).ok_or(offset)?;
        records.push(record);
        offset += length;
    }
    Ok(records)
}

/// The trailer that the bytes end with; None for "under 8 bytes, a wrong mark,
/// a second byte other than 00". Whether its length goes "beyond what lies
/// before" is for the reader to say, who knows what does.
pub fn decode_trailer(bytes: &[u8]) -> Option<Trailer> {
    let start = bytes.len().checked_sub(TRAILER)?;
    match &bytes[start..] {
        [TRAILER_MARK, 0x00, others @ ..] => Some(Trailer {
            tracepoint: number(&others[..2]) as u16,
            length: number(&others[2..]) as u32,
        }),
        _ => None,
    }
}

/// Writes a record or a trailer, already encoded, at the front of the free part
/// and gives the number of bytes written. None, and nothing is written, if it
/// is "longer than the free bytes" (21; equal fits, reading A-16).
pub fn write(free: &mut [u8], encoded: &[u8]) -> Option<usize> {
    if encoded.len() > free.len() {
        return None;
    }
    for (place, byte) in encoded.iter().enumerate() {
        free[place] = *byte;
    }
    Some(encoded.len())
}

#[cfg(test)]
mod tests {
    use super::*;
    use crate::hex;
    use crate::random::Random;

    fn record(random: &mut Random) -> Record {
        let most = random.choose(&[1, 2, 20, 300]);
        let count = random.between(1, most);
        let short = random.number() >> random.below(64);
        match random.below(2) {
            0 => Record::Memory {
                address: short,
                bytes: random.bytes(count),
            },
            _ => Record::Variable {
                number: random.below(64) as u32,
                value: short,
            },
        }
    }

    /// The worked frame of "Examples": two bytes at 4096, tracepoint 7.
    #[test]
    fn the_documents_example() {
        let frame = hex::read("4d 00 10 00 00 00 00 00 00 02 00 41 00 46 00 07 00 0d 00 00 00");
        let frame = frame.expect("the example is hex");
        let record = Record::Memory {
            address: 4096,
            bytes: vec![0x41, 0x00],
        };
        let trailer = Trailer {
            tracepoint: 7,
            length: 13,
        };
        let mut buffer = vec![0xa5; 21];
        assert_eq!(write(&mut buffer, &encode(&record)), Some(13));
        assert_eq!(write(&mut buffer[13..], &encode_trailer(trailer)), Some(8));
        assert_eq!(buffer, frame);
        assert_eq!(divide(&frame[..13]), Ok(vec![record]));
        assert_eq!(divide(&frame), Err(13));
        assert_eq!(decode_trailer(&frame), Some(trailer));
    }

    #[test]
    fn what_is_encoded_is_decoded() {
        let mut random = Random::new(7);
        for _ in 0..20_000 {
            let record = record(&mut random);
            let mut bytes = encode(&record);
            let length = bytes.len();
            let behind = random.below(4);
            bytes.extend(random.bytes(behind));
            assert_eq!(decode(&bytes), Some((record, length)));
            let cut = random.below(length);
            assert_eq!(decode(&bytes[..cut]), None);
        }
    }

    #[test]
    fn lists_divide_and_break_where_they_are_cut() {
        let mut random = Random::new(8);
        for _ in 0..2_000 {
            let count = random.below(6);
            let records: Vec<Record> = (0..count).map(|_| record(&mut random)).collect();
            let bytes: Vec<u8> = records.iter().flat_map(encode).collect();
            assert_eq!(divide(&bytes).as_ref(), Ok(&records));
            let Some(last) = records.last() else {
                continue;
            };
            let start = bytes.len() - encode(last).len();
            let cut = random.between(start + 1, bytes.len() - 1);
            assert_eq!(divide(&bytes[..cut]), Err(start));
            assert_eq!(
                divide(&bytes[..start]).as_deref(),
                Ok(&records[..count - 1])
            );
        }
    }

    /// Reading A-26.
    #[test]
    fn broken_records() {
        for (text, broken) in [
            ("4d 00 00 00 00 00 00 00 00 01 00 07", false),
            ("4d ff ff ff ff ff ff ff ff 02 00 07 08", false),
            ("4d 00 00 00 00 00 00 00 00 00 00", true),
            ("4d 00 00 00 00 00 00 00 00 02 00 07", true),
            ("4d 00 00 00 00 00 00 00 00 00 01 07", true),
            ("4d", true),
            ("56 3f 00 00 00 08 07 06 05 04 03 02 01", false),
            ("56 40 00 00 00 08 07 06 05 04 03 02 01", true),
            ("56 00 01 00 00 08 07 06 05 04 03 02 01", true),
            ("56 00 00 00 80 08 07 06 05 04 03 02 01", true),
            ("56 00 00 00 00 08 07 06 05 04 03 02", true),
            ("46 00 07 00 0d 00 00 00", true),
            ("", true),
        ] {
            let bytes = hex::read(text).expect("these are hex");
            assert_eq!(decode(&bytes).is_none(), broken, "{text}");
        }
    }

    #[test]
    fn trailers_are_read_back_from_the_end() {
        let mut random = Random::new(9);
        for _ in 0..5_000 {
            let trailer = Trailer {
                tracepoint: random.number() as u16,
                length: (random.number() >> random.below(64)) as u32,
            };
            let before = random.below(4);
            let before = random.bytes(before);
            let bytes = [before, encode_trailer(trailer)].concat();
            let start = bytes.len() - TRAILER;
            assert_eq!(decode_trailer(&bytes), Some(trailer));
            assert_eq!(decode_trailer(&bytes[start + 1..]), None);
            for place in [0, 1] {
                let mut changed = bytes.clone();
                changed[start + place] ^= 1 << random.below(8);
                assert_eq!(decode_trailer(&changed), None);
            }
        }
    }

    #[test]
    fn writing_changes_only_what_it_writes() {
        let mut random = Random::new(10);
        for _ in 0..5_000 {
            let encoded = encode(&record(&mut random));
            let length = encoded.len();
            let any = random.below(length + 20);
            let room = random.choose(&[0, 1, length - 1, length, length + 1, any]);
            let before = random.bytes(room);
            let mut free = before.clone();
            match write(&mut free, &encoded) {
                None => assert!(room < length && free == before),
                Some(written) => {
                    assert_eq!(written, length);
                    assert_eq!(free[..length], encoded);
                    assert_eq!(free[length..], before[length..]);
                }
            }
        }
    }
}
