//! lilivrez_next_record: the record at a place of a frame, and the next place. A case's line is
//! `BYTES LENGTH END PLACE`, its buffer as that of read.rs.

use crate::compare::{Answer, Case, Entry, Size, UNSTORED};
use crate::fields;
use crate::read::{self, Read, MEMORY, VARIABLE};
use crate::shrink::{self, each};
use evaluator::frames::Record;
use evaluator::hex;
use evaluator::random::Random;
use evaluator::reader;
use evaluator::reads::Buffer;
use lilivrez::library;
use std::iter;

#[derive(Clone, PartialEq)]
pub struct Next {
    buffer: Buffer,
    end: u64,
    place: u64,
}

/// Every place that a walk from the start comes to, the last too.
fn places(buffer: &[u8], end: u64, start: u64) -> Vec<u64> {
    let next = |place: &u64| Some(reader::next_record(buffer, end, *place).ok()?.1 as u64);
    iter::successors(Some(start), next).collect()
}

/// As it is, or in one of 12 cases another: beside it, or any at all.
fn or_other(random: &mut Random, number: u64) -> u64 {
    let beside = number.wrapping_add(random.below(16) as u64).wrapping_sub(8);
    let any = random.number();
    let other = random.choose(&[beside, beside, any, u64::MAX]);
    match random.chance(1, 12) {
        true => other,
        false => number,
    }
}

impl Case for Next {
    const KIND: &'static str = "next";
    const ENTRIES: &'static [Entry] = &[Entry {
        name: "next",
        places: &[
            "offset",
            "kind",
            "address or number",
            "length or value",
            "place of the bytes",
            "next place",
        ],
        refusals: &[15, 23, 25],
        sort: |out| match out[1] {
            MEMORY => "a memory record",
            _ => "a variable record",
        },
    }];
    const SIZES: &'static [Size] = &[Size {
        name: "record bytes stepped over",
        least: 10_000,
    }];
    type Maker = read::Maker;

    /// Of a frame of a buffer to read, mostly one of the places between its records.
    fn any(maker: &mut read::Maker, random: &mut Random, number: usize) -> Next {
        let Read {
            buffer,
            used,
            frame,
            ..
        } = Read::any(maker, random, number);
        let bytes = buffer.values();
        let (start, end) = match reader::locate(&bytes, used, frame) {
            Ok(frame) => (frame.start as u64, (frame.start + frame.length) as u64),
            Err(_) => (0, used),
        };
        let end = or_other(random, end);
        let place = random.choose(&places(&bytes, end, start));
        let place = or_other(random, place);
        Next { buffer, end, place }
    }

    fn line(&self) -> String {
        let Buffer { bytes, length } = &self.buffer;
        let bytes = hex::field(bytes);
        format!("{bytes} {length:x} {:x} {:x}", self.end, self.place)
    }

    fn read(line: &str) -> Result<Next, String> {
        let [bytes, length, end, place] = fields::divided(line)?;
        let buffer = Buffer {
            bytes: fields::bytes(bytes)?,
            length: fields::number(length)? as usize,
        };
        Ok(Next {
            buffer,
            end: fields::number(end)?,
            place: fields::number(place)?,
        })
    }

    fn expected(&self) -> Vec<Answer> {
        let found = reader::next_record(&self.buffer.values(), self.end, self.place);
        vec![match found {
            Ok((Record::Memory { address, bytes }, next)) => {
                let numbers = [bytes.len(), next - bytes.len(), next];
                let [length, place, next] = numbers.map(|number| number as u64);
                Answer::numbers(0, &[0, MEMORY, address, length, place, next])
            }
            Ok((Record::Variable { number, value }, next)) => {
                let next = next as u64;
                Answer::numbers(0, &[0, VARIABLE, number.into(), value, 0, next])
            }
            Err(why) => {
                let offset = why.offset as u64;
                Answer::numbers(why.number.into(), &[offset, 0, 0, 0, 0, self.place])
            }
        }]
    }

    fn found(&self) -> Vec<Answer> {
        let mut out = [UNSTORED; 6];
        let [end, place] = [self.end, self.place].map(|number| number as usize);
        let number = library::next_record(&self.buffer.values(), end, place, &mut out);
        vec![Answer::numbers(number, &out)]
    }

    fn smaller(&self) -> impl Iterator<Item = Next> {
        let numbers = shrink::numbers;
        each(self, numbers(self.end), |case, end| case.end = end)
            .chain(each(self, numbers(self.place), |case, place| {
                case.place = place
            }))
            .chain(each(
                self,
                shrink::parts(self.buffer.length),
                |case, part| case.buffer = read::cut(&case.buffer, part),
            ))
            .chain(each(
                self,
                shrink::bytes(&self.buffer.bytes),
                |case, bytes| case.buffer.bytes = bytes,
            ))
    }

    fn sizes(&self, answers: &[Answer]) -> Vec<u64> {
        let [step] = answers else {
            panic!("one entry");
        };
        let memory = step.number == 0 && step.out[1] == MEMORY;
        vec![if memory { step.out[3] } else { 0 }]
    }
}
