//! Runs in which a step is refused with 17 to 20, with records made and
//! variables set before it; and others that only just are not refused.

use super::scene;
use super::writer::{Writer, DIVIDERS};
use crate::isa;
use crate::random::Random;
use crate::runs::Case;

/// Sizes above 65,535.
const TOO_LONG: [u64; 8] = [
    65_536,
    65_536,
    65_537,
    65_536 + 255,
    1 << 32,
    (1 << 32) + 1,
    1 << 63,
    u64::MAX,
];

/// So many kinds there are.
pub const KINDS: usize = 16;

/// One of the faults, going round with `number`, between phrases.
pub fn faulty(random: &mut Random, number: usize) -> Case {
    let mut case = scene::scene(random);
    let before = random.choose(&[0, 1, 1, 2, 3]);
    let after = random.below(2);
    let mut writer = Writer::new(random, &case);
    writer.phrases(before);
    if writer.height > 0 && writer.random.chance(1, 2) {
        let variable = writer.random.below(64) as u8;
        writer.set_variable(variable);
    }
    plant(&mut writer, number % KINDS);
    writer.phrases(after);
    case.expression = writer.finish();
    case
}

fn plant(writer: &mut Writer, kind: usize) {
    match kind {
        0..=3 => divide(writer, DIVIDERS[kind]),
        4..=5 => no_register(writer),
        6..=9 => reference(writer, kind - 6),
        10 => not_readable(writer, isa::TRACE),
        11 => not_readable(writer, isa::TRACE_QUICK),
        12 => not_readable(writer, isa::TRACE16),
        13 => no_zero(writer),
        _ => too_long(writer),
    }
}

/// The divisor is 0: a constant, register 0 of `*N`, a number less itself, the
/// negation of one, or none of its bits.
fn divide(writer: &mut Writer, divider: u8) {
    let any = writer.random.number() >> writer.random.below(64);
    writer.constant(any);
    match writer.random.below(4) {
        0 => {
            writer.constant(any);
            writer.put(&[isa::DUP]);
            writer.put(&[isa::SUB]);
        }
        1 => {
            writer.constant(any.max(1));
            writer.put(&[isa::LOG_NOT]);
        }
        2 => {
            writer.constant(any);
            writer.put(&[isa::ZERO_EXT, 0]);
        }
        _ => writer.number(0),
    }
    writer.put(&[divider]);
}

/// A register just not lent, or one whose number has a second byte.
fn no_register(writer: &mut Writer) {
    let count = writer.scene.registers.values().len();
    let any = writer.random.between(count, 65_535);
    let numbers = [count, count, count + 1, 256, 256 + count / 2, 65_535, any];
    let [high, low] = (writer.random.choose(&numbers) as u16).to_be_bytes();
    writer.put(&[isa::REG, high, low]);
}

fn reference(writer: &mut Writer, place: usize) {
    let address = scene::bad_address(writer.random, writer.scene, 1 << place);
    writer.number(address);
    writer.put(&[isa::REF8 + place as u8]);
}

/// A size up to 65,535, often just longer than a span.
fn not_readable(writer: &mut Writer, opcode: u8) {
    let (_, bytes) = &writer.scene.spans[writer.random.below(2)];
    let longer = bytes.count() as u64 + 1;
    let short = writer.random.between(1, 9) as u64;
    let sizes = [longer, longer, short, short, short, 65_535];
    let size = match (writer.random.choose(&sizes), opcode) {
        (size, isa::TRACE_QUICK) => size.min(255),
        (size, _) => size,
    };
    let address = scene::bad_address(writer.random, writer.scene, size);
    writer.trace(opcode, address, size);
}

/// tracenz for more bytes than there are in the span: it is refused unless a
/// zero comes; or at an address that is not readable.
fn no_zero(writer: &mut Writer) {
    let (first, bytes) = writer.scene.spans[writer.random.below(2)].clone();
    let place = writer.random.below(bytes.count() + 1);
    let left = (bytes.count() - place) as u64;
    let sizes = [left + 1, left + 1, left + 2, 65_535, 65_536, u64::MAX];
    let size = writer.random.choose(&sizes);
    let address = first.wrapping_add(place as u64);
    writer.trace(isa::TRACENZ, address, size);
}

/// trace for more than 65,535 bytes: 20, at any address.
fn too_long(writer: &mut Writer) {
    let size = writer.random.choose(&TOO_LONG);
    let near = scene::good_address(writer.random, writer.scene, 1).unwrap_or(0);
    let far = scene::bad_address(writer.random, writer.scene, 1);
    let address = writer.random.choose(&[near, far]);
    writer.trace(isa::TRACE, address, size);
}
