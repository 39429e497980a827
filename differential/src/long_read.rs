//! Long buffers to read, which the evaluator's generator seldom makes: hundreds of frames or records, and long records.

use crate::long_run::{self, MOST_BUFFER};
use evaluator::frames::{encode, encode_trailer, Record, Trailer};
use evaluator::machine;
use evaluator::random::Random;
use evaluator::reads::Buffer;

const TRAILER: usize = 8;
/// The bytes of a memory record that fills a buffer with its frame.
const MOST_BYTES: usize = MOST_BUFFER - TRAILER - 11;

/// Frames laid end to end, the oldest first.
#[derive(Default)]
struct Frames {
    bytes: Vec<u8>,
    /// Where each of them ends, and its number of records.
    ends: Vec<(usize, usize)>,
}

impl Frames {
    /// Whether the frame had room.
    fn add(&mut self, frame: &[u8], records: usize, most: usize) -> bool {
        let end = self.bytes.len() + frame.len();
        if end <= most {
            self.bytes.extend(frame);
            self.ends.push((end, records));
        }
        end <= most
    }

    /// One byte is changed: any, one of a trailer, or one of the record behind it, if there is one.
    fn damage(&mut self, random: &mut Random) {
        let (end, _) = random.choose(&self.ends);
        let trailer = end - 1 - random.below(TRAILER);
        let first = end + random.below(11);
        let any = random.below(self.bytes.len());
        let place = random.choose(&[any, trailer, first]);
        let flip = 1 << random.below(8);
        if let Some(byte) = self.bytes.get_mut(place) {
            *byte ^= flip;
        }
    }
}

/// The most frames, records in each and bytes in each of those.
const SHAPES: [[usize; 3]; 6] = [
    [600, 2, 60],
    [8_192, 0, 1],
    [150, 12, 60],
    [20, 200, 300],
    [8, 4, 20_000],
    [1, 1, MOST_BYTES],
];

fn record(random: &mut Random, most: usize) -> Record {
    let value = random.number();
    if random.chance(1, 3) {
        let number = random.below(64) as u32;
        return Record::Variable { number, value };
    }
    let any = random.between(1, most);
    let count = random.choose(&[any, any, any, most]);
    let bytes = random.bytes(count);
    let address = value;
    Record::Memory { address, bytes }
}

fn frame(random: &mut Random, records: usize, most: usize) -> Vec<u8> {
    let records = (0..records).map(|_| encode(&record(random, most)));
    let records = records.collect::<Vec<_>>().concat();
    let trailer = Trailer {
        tracepoint: random.number() as u16,
        length: records.len() as u32,
    };
    [records, encode_trailer(trailer)].concat()
}

fn built(random: &mut Random) -> Frames {
    let [frames, records, bytes] = random.choose(&SHAPES);
    let any = random.between(TRAILER, MOST_BUFFER);
    let most = random.choose(&[any, MOST_BUFFER]);
    let mut built = Frames::default();
    for _ in 0..random.between(1, frames) {
        let any = random.below(records + 1);
        let records = random.choose(&[any, records]);
        let frame = frame(random, records, bytes);
        if !built.add(&frame, records, most) {
            break;
        }
    }
    built
}

/// By long runs, those that are completed.
fn written(random: &mut Random) -> Frames {
    let mut frames = Frames::default();
    for _ in 0..random.between(2, 5) {
        let given = long_run::any(random).given();
        let outcome = machine::run(&given);
        let frame = &outcome.buffer[given.used as usize..outcome.used as usize];
        if outcome.end.is_ok() {
            frames.add(frame, outcome.records.len(), MOST_BUFFER);
        }
    }
    frames
}

/// A buffer, its used length, and the numbers of a frame and of a record.
pub fn any(random: &mut Random) -> (Buffer, [u64; 3]) {
    let mut frames = match random.below(12) {
        0 => written(random),
        _ => built(random),
    };
    if frames.ends.is_empty() {
        frames.add(&frame(random, 1, 9), 1, MOST_BUFFER);
    }
    let asked = asked(random, &frames.ends);
    if random.chance(1, 4) {
        frames.damage(random);
    }
    let Frames { bytes, .. } = frames;
    let any = random.between(bytes.len(), MOST_BUFFER);
    let length = random.choose(&[bytes.len(), any, MOST_BUFFER]);
    (Buffer { bytes, length }, asked)
}

/// Mostly of all frames; one more frame or record than there are is asked for too.
fn asked(random: &mut Random, ends: &[(usize, usize)]) -> [u64; 3] {
    let last = ends.len() - 1;
    let any = random.below(ends.len());
    let newest = random.choose(&[last, last, last, any]);
    let frame = random.between(0, newest + 1);
    let records = match newest.checked_sub(frame) {
        Some(place) => ends[place].1,
        None => 0,
    };
    let used = ends[newest].0;
    let record = random.between(0, records);
    [used, frame, record].map(|number| number as u64)
}
