//! tracenz with a zero in every place, and spans of about 65,535 bytes.

use super::scene;
use super::writer::Writer;
use crate::isa;
use crate::random::Random;
use crate::runs::{Bytes, Case};

/// Two spans that touch: behind the bytes at `base` the other span goes on,
/// with a zero first.
fn touching(random: &mut Random, base: u64, bytes: Bytes) -> Case {
    let after = base.wrapping_add(bytes.count() as u64);
    let mut spans = [(base, bytes), (after, Bytes::Listed(vec![0, 1]))];
    if random.chance(1, 2) {
        spans.reverse();
    }
    scene::on(random, spans)
}

/// Bytes without a zero but perhaps one at `zero`.
fn few_bytes(random: &mut Random, count: usize, zero: usize) -> Bytes {
    let bytes = (0..count).map(|_| random.between(1, 255) as u8);
    let mut bytes: Vec<u8> = bytes.collect();
    if random.chance(2, 3) {
        bytes[zero] = 0;
    }
    Bytes::Listed(bytes)
}

/// Short spans, and tracenz from an address in the first with sizes around the
/// zero, the span's end and 65,535.
pub fn short(random: &mut Random) -> Case {
    let count = random.between(1, 14);
    let zero = random.below(count);
    let bytes = few_bytes(random, count, zero);
    let base = random.choose(&[0, 0x20, 0x1000, 0_u64.wrapping_sub(count as u64)]);
    let mut case = touching(random, base, bytes);
    let place = random.choose(&[0, 0, zero, zero / 2]);
    let rest = (count - place) as u64;
    let about = (zero + 1 - place) as u64;
    let near = random.choose(&[about - 1, about, about + 1, rest, rest + 1]);
    let limit = random.choose(&[0, 65_535, 65_536, u64::MAX]);
    let size = random.choose(&[near, near, near, limit]);
    let mut writer = Writer::new(random, &case);
    if writer.random.chance(1, 3) {
        writer.variable();
    }
    writer.trace(isa::TRACENZ, base.wrapping_add(place as u64), size);
    case.expression = writer.finish();
    case
}

/// Where a zero may be in a large span; `None` is nowhere.
const ZEROS: [Option<usize>; 10] = [
    None,
    None,
    Some(300),
    Some(65_516),
    Some(65_524),
    Some(65_533),
    Some(65_534),
    Some(65_534),
    Some(65_535),
    Some(65_536),
];

/// A frame can hold 65,517 bytes of memory, a record that fits the buffer
/// 65,525, a record 65,535.
const SIZES: [u64; 13] = [
    65_516,
    65_517,
    65_518,
    65_525,
    65_526,
    65_534,
    65_535,
    65_535,
    65_536,
    65_536,
    65_537,
    1 << 32,
    u64::MAX,
];

/// tracenz on spans that end around 65,535 bytes, with a zero around there or
/// nowhere, for about as many bytes: 19, 20 and 21 meet here (reading A-14).
pub fn edges(random: &mut Random) -> Vec<Case> {
    let mut cases = Vec::new();
    for count in [65_534, 65_535, 65_536, 65_537] {
        for zero in [None, Some(65_533), Some(65_534), Some(65_535)] {
            if zero.is_some_and(|zero| zero >= count) {
                continue;
            }
            for size in [65_534, 65_535, 65_536, 65_537, u64::MAX] {
                let base = random.choose(&[0x1000, 0_u64.wrapping_sub(count as u64)]);
                let mut case = touching(random, base, Bytes::Pattern { count, zero });
                case.variables.clear();
                let mut writer = Writer::new(random, &case);
                writer.trace(isa::TRACENZ, base, size);
                case.expression = writer.finish();
                cases.push(case);
            }
        }
    }
    cases
}

/// A span of about 65,535 bytes and a trace instruction for about as many.
pub fn large(random: &mut Random) -> Case {
    let count = random.choose(&[65_525, 65_534, 65_535, 65_536, 65_537, 66_000]);
    let zero = random.choose(&ZEROS).filter(|zero| *zero < count);
    let base = random.choose(&[0, 0x1000, 0x2_0000, 0_u64.wrapping_sub(count as u64)]);
    let mut case = touching(random, base, Bytes::Pattern { count, zero });
    let place = random.choose(&[0, 0, 0, 1, 2]);
    let all = count as u64 - place;
    let size = random.choose(&SIZES);
    let size = random.choose(&[size, size, size, size, all, all + 1]);
    let opcodes = [isa::TRACE, isa::TRACE16, isa::TRACENZ, isa::TRACENZ];
    let opcode = random.choose(&opcodes);
    let mut writer = Writer::new(random, &case);
    if writer.random.chance(1, 8) {
        writer.variable();
    }
    writer.trace(opcode, base + place, size);
    case.expression = writer.finish();
    case
}
