//! Records and trailers to write, and bytes to divide into records. The bytes
//! are laid out here on their own, as many of them are to be broken.

use crate::frames::{Record, Trailer};
use crate::isa;
use crate::leaf::{Case, Item};
use crate::random::Random;

pub const MEMORY_HEADER: usize = 11;
pub const VARIABLE: usize = 13;
pub const TRAILER: usize = 8;
/// What the trailer of the largest frame holds: the buffer has 65,536 bytes.
const MOST_RECORDS: usize = 65_536 - TRAILER;

/// Rooms for something of `length` bytes: none, one byte, one too few, just
/// enough, one more, many more.
fn rooms(length: usize) -> [usize; 6] {
    [0, 1, length - 1, length, length + 1, length + 9]
}

/// Memory, variable and trailer, each with rooms around its length.
pub fn writes(random: &mut Random) -> Vec<Case> {
    let mut cases = Vec::new();
    for count in [1, 1, 1, 2, 3, 8, 17, 255, 256, 300] {
        let length = MEMORY_HEADER + count;
        for room in [&rooms(length)[..], &[MEMORY_HEADER, 10]].concat() {
            cases.push(memory_write(random, room, count));
        }
    }
    for number in [0, 1, 31, 62, 63] {
        for room in rooms(VARIABLE) {
            let value = edge(random);
            let record = Record::Variable { number, value };
            cases.push(write(room, Item::Record(record)));
        }
    }
    for tracepoint in [0, 1, 7, 255, 256, 65_535] {
        for room in rooms(TRAILER) {
            let length = random.choose(&[0, 1, 13, 255, 256, 65_527, MOST_RECORDS]) as u32;
            let trailer = Trailer { tracepoint, length };
            cases.push(write(room, Item::Trailer(trailer)));
        }
    }
    cases
}

/// One of the three with random content.
pub fn random_write(random: &mut Random) -> Case {
    let more = random.choose(&[0, 0, 1, 5, 20]);
    let less = random.choose(&[0, 0, 1, 3]);
    match random.below(4) {
        0 => {
            let record = Record::Variable {
                number: random.below(64) as u32,
                value: word(random),
            };
            write(VARIABLE + more - less, Item::Record(record))
        }
        1 => {
            let trailer = Trailer {
                tracepoint: random.number() as u16,
                length: random.between(0, MOST_RECORDS) as u32,
            };
            write(TRAILER + more - less, Item::Trailer(trailer))
        }
        _ => {
            let count = random.between(1, 24);
            let room = MEMORY_HEADER + count + more - less;
            memory_write(random, room, count)
        }
    }
}

fn write(room: usize, item: Item) -> Case {
    Case::Write { room, item }
}

/// The bytes lie below 2^64, as they do in every record that is written.
fn memory_write(random: &mut Random, room: usize, count: usize) -> Case {
    let highest = 0_u64.wrapping_sub(count as u64);
    let any = [word(random), edge(random), highest];
    let record = Record::Memory {
        address: random.choose(&any).min(highest),
        bytes: random.bytes(count),
    };
    write(room, Item::Record(record))
}

pub fn word(random: &mut Random) -> u64 {
    random.number() >> random.below(64)
}

fn edge(random: &mut Random) -> u64 {
    let pattern = 0x0123_4567_89ab_cdef;
    random.choose(&[0, 1, 4096, (1 << 32) - 1, 1 << 63, u64::MAX, pattern])
}

/// A memory record that claims to have `length` bytes.
pub fn memory(address: u64, length: u16, bytes: &[u8]) -> Vec<u8> {
    let numbers = [&address.to_le_bytes()[..], &length.to_le_bytes()].concat();
    [&[0x4d], &numbers[..], bytes].concat()
}

pub fn variable(number: u32, value: u64) -> Vec<u8> {
    let numbers = [&number.to_le_bytes()[..], &value.to_le_bytes()].concat();
    [&[0x56], &numbers[..]].concat()
}

/// A record as it should be, with at most `most` bytes.
pub fn record(random: &mut Random, most: usize) -> Vec<u8> {
    let number = random.below(64) as u32;
    if random.chance(1, 2) {
        return variable(number, word(random));
    }
    let count = random.between(1, most);
    let any = [word(random), edge(random)];
    memory(random.choose(&any), count as u16, &random.bytes(count))
}

fn divide(bytes: Vec<u8>) -> Case {
    Case::Divide { bytes }
}

/// Records as they should be, in lists of up to 6.
pub fn lists(random: &mut Random, count: usize) -> Vec<Case> {
    let mut cases = vec![divide(vec![])];
    for bytes in [1, 255, 256, 300] {
        let long = memory(word(random), bytes, &random.bytes(bytes.into()));
        cases.push(divide(long.clone()));
        cases.push(divide(
            [record(random, 9), long, record(random, 9)].concat(),
        ));
    }
    for _ in 0..count {
        let records = random.between(1, 6);
        let list: Vec<Vec<u8>> = (0..records).map(|_| record(random, 20)).collect();
        cases.push(divide(list.concat()));
    }
    cases
}

/// Each byte of each header changed, in the first, a middle and the last place.
pub fn flips(random: &mut Random) -> Vec<Case> {
    let mut cases = Vec::new();
    for place in 0..3 {
        for header in [MEMORY_HEADER, VARIABLE] {
            for byte in 0..header {
                for flip in [0x01, 0x40, 0xff, 0x4d ^ 0x56] {
                    let mut list = three(random);
                    list[place] = match header {
                        MEMORY_HEADER => memory(word(random), 3, &random.bytes(3)),
                        _ => variable(random.below(64) as u32, word(random)),
                    };
                    list[place][byte] ^= flip;
                    cases.push(divide(list.concat()));
                }
            }
        }
    }
    cases
}

fn three(random: &mut Random) -> [Vec<u8>; 3] {
    [(); 3].map(|()| record(random, 6))
}

/// Lengths that are not those of the bytes, 0 among them, and numbers of
/// variables around 64 in each of the 4 bytes; in each place of a list.
pub fn numbers(random: &mut Random) -> Vec<Case> {
    let mut broken = Vec::new();
    for count in [1, 2, 5, 13, 20] {
        for length in [0, count - 1, count + 1, count * 256, count + 256, 65_535] {
            broken.push(memory(word(random), length, &random.bytes(count.into())));
        }
    }
    broken.push(memory(word(random), 0, &[]));
    for number in [
        63,
        64,
        65,
        127,
        128,
        255,
        256,
        319,
        1 << 16,
        1 << 24,
        1 << 30,
        1 << 31,
        u32::MAX,
    ] {
        broken.push(variable(number, word(random)));
    }
    let mut cases: Vec<Case> = broken.iter().cloned().map(divide).collect();
    for record in broken {
        for place in 0..3 {
            let mut list = three(random);
            list[place] = record.clone();
            cases.push(divide(list.concat()));
        }
    }
    cases
}

/// Every beginning of some lists, and lists with a few bytes more.
pub fn cuts(random: &mut Random) -> Vec<Case> {
    let mut cases = Vec::new();
    let [one, other] = [(); 2].map(|()| {
        let short = memory(word(random), 5, &random.bytes(5));
        [short, variable(random.below(64) as u32, word(random))]
    });
    for list in [one.concat(), [other[1].clone(), other[0].clone()].concat()] {
        for kept in 0..list.len() {
            cases.push(divide(list[..kept].to_vec()));
        }
        for more in [0x00, 0x46, 0x4c, 0x4d, 0x4e, 0x55, 0x56, 0x57, 0xff] {
            cases.push(divide([&list[..], &[more]].concat()));
            let trailer = [more, 0, 7, 0, list.len() as u8, 0, 0, 0];
            cases.push(divide([&list[..], &trailer].concat()));
        }
    }
    cases
}

/// The records of the worked frame in "Examples", and the whole of it.
pub fn examples() -> Vec<Case> {
    let records = memory(4096, 2, &[0x41, 0x00]);
    let trailer = [0x46, 0x00, 0x07, 0x00, 0x0d, 0x00, 0x00, 0x00];
    let whole = [&records[..], &trailer].concat();
    let item = Item::Record(Record::Memory {
        address: 4096,
        bytes: vec![0x41, 0x00],
    });
    let close = Item::Trailer(Trailer {
        tracepoint: 7,
        length: 13,
    });
    vec![
        divide(records),
        divide(whole),
        write(21, item),
        write(8, close),
    ]
}

/// A list in which one to three bytes are changed, or a tail of random bytes
/// follows.
pub fn changed(random: &mut Random) -> Case {
    let mut bytes = three(random).concat();
    if random.chance(1, 3) {
        let count = random.between(1, 14);
        bytes.push(random.choose(&[0x4d, 0x56]));
        bytes.extend(random.bytes(count));
        return divide(bytes);
    }
    for _ in 0..random.between(1, 3) {
        let place = random.below(bytes.len());
        let small = random.below(isa::VARIABLES as usize + 2) as u8;
        bytes[place] = random.choose(&[0x00, 0x4d, 0x56, small]);
    }
    divide(bytes)
}
