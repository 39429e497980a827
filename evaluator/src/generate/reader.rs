//! Buffers of frames to read: as they should be, damaged, cut short, over and
//! over, and made by sequences of runs.

use super::frames::{memory, record, variable, word, MEMORY_HEADER, TRAILER, VARIABLE};
use super::{many, runs};
use crate::frames::{encode, Record};
use crate::leaf;
use crate::machine;
use crate::random::Random;
use crate::reads::{Asked, Buffer, Case};
use std::ops::{Range, RangeInclusive};

/// Frame numbers, record numbers and used lengths that no buffer comes to.
const HUGE: [u64; 5] = [1 << 16, 1 << 32, (1 << 32) + 1, 1 << 63, u64::MAX];
/// "Trace buffer: 0 to 65,536 lent bytes".
const MOST: usize = 65_536;

/// Every case, from a generator of numbers for each family.
pub fn cases(family: impl Fn(u64) -> Random) -> Vec<leaf::Case> {
    let all = [
        example(),
        flipped_trailers(&mut family(1)),
        flipped_headers(&mut family(2)),
        trailer_lengths(&mut family(3)),
        record_numbers(&mut family(4)),
        cut_short(&mut family(5)),
        one_broken(&mut family(6), 40),
        repeated(&mut family(7)),
        large(&mut family(8)),
        largest(&mut family(11)),
        many(&mut family(9), 300, garbage),
        read_back(&mut family(10)),
    ];
    all.concat().into_iter().map(leaf::Case::Reader).collect()
}

/// Frames laid end to end, the oldest first.
#[derive(Clone, Default)]
pub struct Frames {
    bytes: Vec<u8>,
    /// Where each of them ends.
    ends: Vec<usize>,
}

impl Frames {
    fn of(frames: &[Vec<u8>]) -> Frames {
        let ends = (1..=frames.len()).map(|count| frames[..count].concat().len());
        Frames {
            bytes: frames.concat(),
            ends: ends.collect(),
        }
    }

    /// Without these bytes; the ends behind them move.
    fn leave_out(&mut self, part: Range<usize>) {
        for end in self.ends.iter_mut().filter(|end| **end > part.start) {
            *end -= part.len().min(*end - part.start);
        }
        self.bytes.drain(part);
    }

    /// Its number, counted from the newest.
    fn number(&self, place: usize) -> u64 {
        (self.ends.len() - 1 - place) as u64
    }

    fn read(&self, frame: u64, record: u64) -> Case {
        self.ask(read(self.bytes.len() as u64, frame, record))
    }

    fn count(&self, frame: u64) -> Case {
        self.ask(count(self.bytes.len() as u64, frame))
    }

    fn locate(&self, frame: u64) -> Case {
        self.ask(locate(self.bytes.len() as u64, frame))
    }

    fn step(&self, place: usize) -> Case {
        self.ask(step(place as u64))
    }

    fn ask(&self, asked: Asked) -> Case {
        let buffer = Buffer::of(&self.bytes);
        Case { buffer, asked }
    }
}

fn read(used: u64, frame: u64, record: u64) -> Asked {
    Asked::Read {
        used,
        frame,
        record,
    }
}

fn count(used: u64, frame: u64) -> Asked {
    Asked::Count { used, frame }
}

fn locate(used: u64, frame: u64) -> Asked {
    Asked::Locate { used, frame }
}

fn step(place: u64) -> Asked {
    Asked::Step { place }
}

/// All of these of one buffer.
fn each(buffer: &Buffer, asked: &[Asked]) -> Vec<Case> {
    let case = |asked: &Asked| Case {
        buffer: buffer.clone(),
        asked: *asked,
    };
    asked.iter().map(case).collect()
}

fn trailer(tracepoint: u16, length: usize) -> Vec<u8> {
    let [low, high] = tracepoint.to_le_bytes();
    let length = (length as u32).to_le_bytes();
    [&[0x46, 0x00, low, high], &length[..]].concat()
}

fn closed(random: &mut Random, records: &[Vec<u8>]) -> Vec<u8> {
    let records = records.concat();
    let any = random.number() as u16;
    let tracepoint = random.choose(&[0, 1, 7, 255, 256, 65_535, any]);
    let trailer = trailer(tracepoint, records.len());
    [records, trailer].concat()
}

/// A frame with so many records.
fn frame(random: &mut Random, count: usize) -> Vec<u8> {
    let records: Vec<Vec<u8>> = (0..count).map(|_| record(random, 6)).collect();
    closed(random, &records)
}

/// Three frames, of which the newest has two records, the others one and three.
fn three(random: &mut Random) -> Frames {
    let frames = [1, 3, 2].map(|count| frame(random, count));
    Frames::of(&frames)
}

/// The worked frame of "Examples": every used length, numbers up to the
/// largest, used lengths beyond the buffer.
fn example() -> Vec<Case> {
    let record = memory(4096, 2, &[0x41, 0x00]);
    let worked = Frames::of(&[[record, trailer(7, 13)].concat()]);
    let mut cases = Vec::new();
    let numbers = [&[0, 1, 2, 255, 256][..], &HUGE].concat();
    for frame in &numbers {
        cases.push(worked.count(*frame));
        cases.push(worked.locate(*frame));
        cases.extend(numbers.iter().map(|record| worked.read(*frame, *record)));
    }
    let beyond = [22, 23, 29, 255, (1 << 32) + 21, (1 << 63) + 21];
    for used in (0..=21).chain(beyond).chain(HUGE) {
        let asked = [
            count(used, 0),
            locate(used, 1),
            step(used),
            read(used, 0, 0),
        ];
        cases.extend(each(&Buffer::of(&worked.bytes), &asked));
    }
    cases
}

/// Each byte of each of three trailers changed; that frame is asked for, and
/// those before and behind it.
fn flipped_trailers(random: &mut Random) -> Vec<Case> {
    let mut cases = Vec::new();
    for place in 0..3 {
        for byte in 0..TRAILER {
            for flip in [0x01, 0x80, 0xff] {
                let mut frames = three(random);
                let end = frames.ends[place];
                frames.bytes[end - TRAILER + byte] ^= flip;
                cases.push(frames.step(end));
                cases.extend((0..3).map(|number| frames.count(number)));
                cases.push(frames.read(frames.number(place), 0));
            }
        }
    }
    cases
}

/// Each byte of each header changed, in the first, the middle or the last
/// record of the newest frame or an older one.
fn flipped_headers(random: &mut Random) -> Vec<Case> {
    let mut cases = Vec::new();
    for header in [MEMORY_HEADER, VARIABLE] {
        for byte in 0..header {
            for flip in [0x01, 0xff, 0x4d ^ 0x56] {
                let mut changed = match header {
                    MEMORY_HEADER => memory(word(random), 3, &random.bytes(3)),
                    _ => variable(random.below(64) as u32, word(random)),
                };
                changed[byte] ^= flip;
                let (frames, number, place) = with_record(random, changed);
                cases.push(frames.count(number));
                cases.push(frames.read(number, place));
                let past = random.choose(&[3, 4, 255, 1 << 32, u64::MAX]);
                cases.push(frames.read(number, past));
            }
        }
    }
    cases
}

/// Two frames, one of which has three records with this among them: its frame
/// number and its record number.
fn with_record(random: &mut Random, changed: Vec<u8>) -> (Frames, u64, u64) {
    let mut records = [(); 3].map(|()| record(random, 6));
    let place = random.below(3);
    records[place] = changed;
    let with = closed(random, &records);
    let other = frame(random, 1);
    let number = random.below(2);
    let mut frames = [with, other];
    if number == 0 {
        frames.reverse();
    }
    (Frames::of(&frames), number as u64, place as u64)
}

/// Lengths of records in a trailer: too long and too short by one, just what
/// lies before and one more, and more than 16 or 24 bits.
fn trailer_lengths(random: &mut Random) -> Vec<Case> {
    let mut cases = Vec::new();
    for place in 0..3 {
        let frames = three(random);
        let end = frames.ends[place];
        let before = end - TRAILER;
        let start = if place == 0 {
            0
        } else {
            frames.ends[place - 1]
        };
        let length = before - start;
        for told in [
            0,
            1,
            length - 1,
            length + 1,
            before - 1,
            before,
            before + 1,
            length + 256,
            length + (1 << 16),
            length + (1 << 24),
            1 << 31,
            u32::MAX as usize,
        ] {
            let mut frames = frames.clone();
            frames.bytes[end - 4..end].copy_from_slice(&trailer(0, told)[4..]);
            let number = frames.number(place);
            cases.push(frames.step(end));
            cases.push(frames.count(number));
            cases.push(frames.count(number + 1));
            cases.push(frames.locate(number + 2));
        }
    }
    cases
}

/// Lengths that are not those of a record's bytes, 0 among them, and numbers of
/// variables around 64 in each of the 4 bytes.
fn record_numbers(random: &mut Random) -> Vec<Case> {
    let mut records = vec![memory(word(random), 0, &[])];
    for count in [1, 2, 13] {
        for length in [0, count - 1, count + 1, count + 256, 65_535] {
            records.push(memory(word(random), length, &random.bytes(count.into())));
        }
    }
    for number in [63, 64, 65, 127, 128, 255, 256, 1 << 16, 1 << 24, u32::MAX] {
        records.push(variable(number, word(random)));
    }
    let mut cases = Vec::new();
    for record in records {
        for _ in 0..3 {
            let (frames, number, place) = with_record(random, record.clone());
            cases.push(frames.count(number));
            cases.push(frames.read(number, place));
            cases.push(frames.read(1 - number, 0));
        }
    }
    cases
}

/// Every used length of a buffer, and every length of the buffer itself with
/// all of it used and with a byte more.
fn cut_short(random: &mut Random) -> Vec<Case> {
    let frames = three(random);
    let mut cases = Vec::new();
    for length in 0..=frames.bytes.len() {
        let used = length as u64;
        let whole = Buffer::of(&frames.bytes);
        cases.extend(each(&whole, &[step(used), count(used, 0)]));
        let more = used + 1;
        let beyond = [
            count(more, 0),
            locate(more, 0),
            read(more, 0, 0),
            step(more),
        ];
        let part = Buffer::of(&frames.bytes[..length]);
        cases.extend(each(&part, &[locate(used, 1), beyond[length % 4]]));
    }
    cases
}

/// Frames of which one, most often not the newest, has a broken trailer or a
/// broken record. Every frame is asked for, and one that there is not.
fn one_broken(random: &mut Random, count: usize) -> Vec<Case> {
    let mut cases = Vec::new();
    for _ in 0..count {
        let frames = random.between(3, 6);
        let place = random.below(frames);
        let mut list: Vec<Vec<u8>> = (0..frames)
            .map(|_| {
                let records = random.choose(&[0, 1, 1, 2, 3]);
                frame(random, records)
            })
            .collect();
        list[place] = frame(random, 2);
        let end = list[place].len();
        match random.below(4) {
            0 => list[place][end - TRAILER] ^= 0x01,
            1 => list[place][end - TRAILER + 1] ^= 0x01,
            2 => list[place][end - 1] = 0x7f,
            _ => list[place][0] ^= 0x01,
        }
        let frames = Frames::of(&list);
        for number in 0..=list.len() as u64 {
            cases.push(frames.count(number));
            let record = random.below(2) as u64;
            cases.push(frames.read(number, record));
        }
        cases.push(frames.step(frames.ends[place]));
        cases.push(frames.step(0));
    }
    cases
}

/// Frames over and over, also with no records: the last of them, and one past
/// it. One frame has 4,096 bytes.
fn repeated(random: &mut Random) -> Vec<Case> {
    let long = memory(word(random), 4_077, &random.bytes(4_077));
    let long = closed(random, &[long]);
    assert_eq!(long.len(), 4_096);
    let mut cases = over_and_over(&long, 1, MOST / long.len());
    for records in [0, 0, 1, 2] {
        let unit = frame(random, records);
        for times in [1, 2, 3, 100, MOST / unit.len()] {
            cases.extend(over_and_over(&unit, records, times));
        }
    }
    cases
}

/// A frame with so many records, so many times.
fn over_and_over(frame: &[u8], records: usize, times: usize) -> Vec<Case> {
    let buffer = Buffer {
        bytes: frame.to_vec(),
        length: frame.len() * times,
    };
    let used = buffer.length as u64;
    let times = times as u64;
    let records = records as u64;
    let asked = [0, times - 1, times, u64::MAX].map(|frame| {
        [
            count(used, frame),
            locate(used, frame),
            read(used, frame, records),
        ]
    });
    each(&buffer, &asked.concat())
}

/// Buffers at and over 65,536 bytes.
fn large(random: &mut Random) -> Vec<Case> {
    let mut cases = Vec::new();
    for length in [MOST - 1, MOST, MOST + 1, MOST + 8] {
        for bytes in [frame(random, 0), frame(random, 1), Vec::new()] {
            let whole = length - length % bytes.len().max(1);
            let buffer = Buffer { bytes, length };
            for used in [0, 8, whole, length, MOST, length + 1] {
                let used = used as u64;
                let asked = [step(used), count(used, 1), read(used, 0, 0)];
                cases.extend(each(&buffer, &asked));
            }
        }
    }
    cases
}

/// The frame of one memory record that fills a buffer of 65,536 bytes, and its
/// lengths by one more and one less.
fn largest(random: &mut Random) -> Vec<Case> {
    let mut cases = Vec::new();
    let most = MOST - TRAILER;
    let used = MOST as u64;
    for told in [most - 1, most, most + 1] {
        for count in [most - 12, most - 11, most - 10] {
            let filler = random.bytes(13);
            let header = memory(word(random), count as u16, &filler);
            let buffer = Buffer {
                bytes: [header, trailer(7, told)].concat(),
                length: MOST,
            };
            let asked = [
                self::count(used, 0),
                locate(used, 0),
                read(used, 0, 0),
                read(used, 0, 1),
            ];
            cases.extend(each(&buffer, &asked));
        }
    }
    cases
}

/// Records, trailers and random bytes in any order, and any of the questions.
fn garbage(random: &mut Random) -> Case {
    let mut bytes = Vec::new();
    for _ in 0..random.between(1, 8) {
        let any = random.below(20);
        let back = random.below(bytes.len() + 2);
        let part = match random.below(4) {
            0 => random.bytes(any),
            1 => trailer(random.number() as u16, back),
            2 => frame(random, 1),
            _ => record(random, 9),
        };
        bytes.extend(part);
    }
    if random.chance(1, 2) {
        let any = random.below(bytes.len() + 1);
        let length = random.choose(&[0, bytes.len(), any]);
        bytes.extend(trailer(random.number() as u16, length));
    }
    let length = bytes.len() as u64;
    let any = random.below(bytes.len() + 2) as u64;
    let used = random.choose(&[length, length, length, any]);
    let frame = random.below(3) as u64;
    let record = random.below(3) as u64;
    let asked = random.choose(&[
        read(used, frame, record),
        count(used, frame),
        locate(used, frame),
        step(used),
    ]);
    let buffer = Buffer::of(&bytes);
    Case { buffer, asked }
}

/// A buffer that runs have written, and what the completed ones have recorded.
struct Sequence {
    buffer: Vec<u8>,
    used: u64,
    /// Tracepoint number and records, the oldest first.
    frames: Vec<(u16, Vec<Record>)>,
}

/// Runs on one buffer, one in six of them with a fault, until so many have
/// completed. A run that would write less or more than `sizes` is passed over.
fn sequence(random: &mut Random, count: usize, sizes: RangeInclusive<u64>) -> Sequence {
    let mut made = Sequence {
        buffer: random.bytes(4_096),
        used: 0,
        frames: Vec::new(),
    };
    while made.frames.len() < count {
        let case = match random.below(6) {
            0 => runs::fault(random),
            _ => runs::phrases(random),
        };
        let mut given = case.given();
        given.buffer = made.buffer.clone();
        given.used = made.used;
        let outcome = machine::run(&given);
        let written = outcome.used - made.used;
        if outcome.end.is_ok() && !sizes.contains(&written) {
            continue;
        }
        made.buffer = outcome.buffer;
        made.used = outcome.used;
        if outcome.end.is_ok() {
            made.frames.push((given.tracepoint, outcome.records));
        }
    }
    made.buffer.truncate(made.used as usize + 9);
    made
}

/// The length of a frame with these records.
fn length(records: &[Record]) -> usize {
    let lengths = records.iter().map(|record| encode(record).len());
    lengths.sum::<usize>() + TRAILER
}

/// Every frame and every record of it, how many there are, one past the last of
/// each, and every step of a walk.
fn read_back(random: &mut Random) -> Vec<Case> {
    let mut cases = Vec::new();
    for (runs, sizes) in [(24, 8..=60), (40, 8..=34), (20, 70..=250)] {
        let made = sequence(random, runs, sizes);
        let used = made.used;
        let mut asked = Vec::new();
        let mut place = used;
        for (frame, (_, records)) in made.frames.iter().rev().enumerate() {
            let frame = frame as u64;
            asked.extend([step(place), count(used, frame)]);
            let numbers = 0..=records.len() as u64;
            asked.extend(numbers.map(|record| read(used, frame, record)));
            place -= length(records) as u64;
        }
        let past = made.frames.len() as u64;
        asked.extend([step(place), count(used, past), locate(used, past - 1)]);
        cases.extend(each(&Buffer::of(&made.buffer), &asked));
    }
    cases
}

/// Up to 5 frames, laid out here or written by runs.
pub fn any_frames(random: &mut Random) -> Frames {
    let count = random.choose(&[0, 1, 2, 3, 4, 5, 5, 5]);
    if random.chance(1, 4) {
        let made = sequence(random, count, 8..=300);
        let lengths = made.frames.iter().map(|(_, records)| length(records));
        let ends = lengths.scan(0, |end, length| {
            *end += length;
            Some(*end)
        });
        return Frames {
            ends: ends.collect(),
            bytes: made.buffer,
        };
    }
    let frames = (0..count).map(|_| {
        let records = random.choose(&[0, 1, 2, 3, 3, 8]);
        frame(random, records)
    });
    Frames::of(&frames.collect::<Vec<_>>())
}

/// Any question about these frames or damaged ones.
pub fn any(random: &mut Random, frames: &Frames) -> Case {
    if random.chance(1, 1_000) {
        let all = large(random);
        return all[random.below(all.len())].clone();
    }
    if random.chance(1, 8) {
        return garbage(random);
    }
    let mut frames = frames.clone();
    for _ in 0..random.choose(&[0, 0, 0, 0, 1, 1, 1, 2]) {
        damage(random, &mut frames);
    }
    let count = frames.ends.len();
    let older = random.below(count + 1);
    let last = random.choose(&[count, count, count, older]);
    let end = last.checked_sub(1).map_or(0, |place| frames.ends[place]);
    let about = near_or_huge(random, frames.bytes.len() + 3);
    let used = match random.chance(1, 8) {
        true => about,
        false => end as u64,
    };
    let more = random.choose(&[0, 0, 0, 0, 2]);
    let frame = near_or_huge(random, last.max(1) + more);
    let record = near_or_huge(random, 3);
    frames.ask(read(used, frame, record))
}

/// A number below `bound`, or in one of 16 cases one that no buffer comes to.
fn near_or_huge(random: &mut Random, bound: usize) -> u64 {
    let near = random.below(bound) as u64;
    match random.chance(1, 16) {
        true => random.choose(&HUGE),
        false => near,
    }
}

/// Changes a byte, often by one, or takes one away, or cuts the bytes; mostly in
/// a trailer or in the mark, number or length of a frame's first record.
fn damage(random: &mut Random, frames: &mut Frames) {
    let length = frames.bytes.len();
    if length == 0 {
        return;
    }
    let start = random.choose(&[&[0], &frames.ends[..]].concat());
    let in_trailer = start.saturating_sub(random.between(1, TRAILER));
    let any = random.below(VARIABLE);
    let in_record = start + random.choose(&[0, 1, 1, 9, 9, 10, any]);
    let any = random.below(length);
    let place = random.choose(&[in_trailer, in_record, in_record, any]);
    let place = place.min(length - 1);
    let byte = &mut frames.bytes[place];
    match random.below(10) {
        0 | 1 => *byte = byte.wrapping_add(1),
        2 | 3 => *byte = byte.wrapping_sub(1),
        4 => *byte ^= 1 << random.below(8),
        5..=7 => *byte = random.choose(&[0x00, 0x01, 0x40, 0x40, 0x46, 0x4d, 0x56, 0xff]),
        8 => frames.leave_out(place..place + 1),
        _ => frames.leave_out(place..length),
    }
}

#[cfg(test)]
mod tests {
    use super::*;
    use crate::reader::{self, Reading};

    /// The record that the reader has read in the buffer.
    fn record_of(buffer: &[u8], reading: Reading) -> (u16, Record) {
        match reading {
            Reading::Memory {
                tracepoint,
                address,
                length,
                place,
            } => {
                let bytes = buffer[place..place + length].to_vec();
                (tracepoint, Record::Memory { address, bytes })
            }
            Reading::Variable {
                tracepoint,
                number,
                value,
            } => (tracepoint, Record::Variable { number, value }),
        }
    }

    /// Demand 2: what runs have recorded is what is read, in order, the newest
    /// frame first; a walk finds the same frames.
    #[test]
    fn runs_are_read_back_whole() {
        let mut random = Random::new(31);
        for _ in 0..60 {
            let made = sequence(&mut random, 25, 8..=150);
            let (buffer, used) = (&made.buffer, made.used);
            let mut place = used;
            for (number, (tracepoint, records)) in made.frames.iter().rev().enumerate() {
                let number = number as u64;
                let (frame, count) = reader::count(buffer, used, number).expect("it is there");
                assert_eq!((frame.tracepoint, count), (*tracepoint, records.len()));
                assert_eq!(reader::locate(buffer, used, number), Ok(frame));
                assert_eq!(reader::step(buffer, place), Ok(frame));
                place = frame.start as u64;
                for (index, record) in records.iter().enumerate() {
                    let reading = reader::read(buffer, used, number, index as u64);
                    let read = record_of(buffer, reading.expect("it is there"));
                    assert_eq!(read, (*tracepoint, record.clone()));
                }
                let past = reader::read(buffer, used, number, records.len() as u64);
                let refused = past.expect_err("it is past the last");
                assert_eq!((refused.number, refused.offset), (25, frame.start));
            }
            assert_eq!(place, 0);
        }
    }
}
