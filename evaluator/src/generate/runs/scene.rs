//! What a run is given besides its expression, and addresses in it.

use crate::random::Random;
use crate::runs::{Bytes, Case, Registers};
use std::collections::BTreeMap;

/// First address and length of each of two spans.
pub type Layout = [(u64, usize); 2];

/// 2^64 less so many.
const fn below_top(count: u64) -> u64 {
    0_u64.wrapping_sub(count)
}

const HALF: u64 = 1 << 63;

/// Where spans begin. The last two are registers 2 and 7 of `*N`.
const BASES: [u64; 14] = [
    0,
    1,
    0x10,
    0x80,
    0xf8,
    0x1000,
    0x4000,
    0x2_0000,
    0x7fff_fff8,
    0xffff_fffc,
    1 << 32,
    HALF - 4,
    0x0202_0202_0202_0202,
    0x0707_0707_0707_0707,
];

/// Sound spans, registers, variables, a tracepoint number and a buffer in which
/// nothing is used. The expression is empty and the allowance the default.
pub fn scene(random: &mut Random) -> Case {
    let layout = sound(random);
    let spans = filled(random, layout);
    on(random, spans)
}

/// The same on these spans.
pub fn on(random: &mut Random, spans: [(u64, Bytes); 2]) -> Case {
    let registers = registers(random, &spans);
    let variables = variables(random, &spans);
    let any = random.number() as u16;
    Case {
        expression: Vec::new(),
        registers,
        variables,
        spans,
        tracepoint: random.choose(&[0, 1, 7, 255, 256, 65_535, any]),
        length: 65_536,
        used: 0,
        allowance: None,
    }
}

/// Spans that are given neither 12 nor 13: apart, touching, at the top, one or
/// both empty.
fn sound(random: &mut Random) -> Layout {
    let base = random.choose(&BASES);
    let [one, other] = [(); 2].map(|()| length(random));
    let after = |count: usize| base + count as u64;
    let mut layout = match random.below(12) {
        0..=3 => [
            (base, one),
            (after(one + random.choose(&[1, 2, 9, 700])), other),
        ],
        4..=6 => [(base, one), (after(one), other)],
        7 => [(below_top(one as u64), one), (0, other)],
        8 => [
            (below_top(one as u64), one),
            (below_top((one + other) as u64), other),
        ],
        9 => [(below_top(one as u64 + 1), one), (base.min(HALF), other)],
        10 => [(base, one), (after(random.below(one + 1)), 0)],
        _ => [(base, one), (random.number(), 0)],
    };
    if random.chance(1, 2) {
        layout.reverse();
    }
    layout
}

fn length(random: &mut Random) -> usize {
    let any = random.between(1, 20);
    random.choose(&[1, 2, 4, 7, 8, 9, 12, any, any, 40, 300])
}

pub fn filled(random: &mut Random, layout: Layout) -> [(u64, Bytes); 2] {
    layout.map(|(first, count)| (first, bytes(random, count)))
}

/// Short ones are mostly listed, with a few zeros; the others are a pattern, in
/// half of the cases with one zero.
fn bytes(random: &mut Random, count: usize) -> Bytes {
    if count == 0 || count <= 20 && random.chance(2, 3) {
        let mut bytes = random.bytes(count);
        for byte in &mut bytes {
            if random.chance(1, 6) {
                *byte = 0;
            }
        }
        return Bytes::Listed(bytes);
    }
    let zero = random.below(count);
    let zero = random.choose(&[None, Some(zero)]);
    Bytes::Pattern { count, zero }
}

/// Some are addresses in the spans, for an expression to find.
fn registers(random: &mut Random, spans: &[(u64, Bytes); 2]) -> Registers {
    match random.below(10) {
        0 => Registers::Listed(Vec::new()),
        1..=5 => {
            let any = random.between(1, 256);
            Registers::Counted(random.choose(&[1, 3, 8, 17, 64, 255, 256, any]))
        }
        _ => {
            let count = random.between(1, 4);
            Registers::Listed((0..count).map(|_| value(random, spans)).collect())
        }
    }
}

fn variables(random: &mut Random, spans: &[(u64, Bytes); 2]) -> BTreeMap<usize, u64> {
    let count = random.choose(&[0, 0, 0, 1, 1, 2, 3]);
    let mut variables = BTreeMap::new();
    for _ in 0..count {
        let any = random.below(64);
        let number = random.choose(&[0, 1, 9, 62, 63, any, any, any]);
        variables.insert(number, value(random, spans).max(1));
    }
    variables
}

/// An address in a span, a small number, or any, also a negative one.
fn value(random: &mut Random, spans: &[(u64, Bytes); 2]) -> u64 {
    let place = random.below(2);
    let (first, bytes) = &spans[place];
    let inside = first.wrapping_add(random.below(bytes.count().max(1)) as u64);
    let small = random.below(40) as u64;
    let any = random.number() >> random.below(64);
    random.choose(&[
        *first,
        inside,
        inside,
        small,
        small,
        any,
        small.wrapping_neg(),
    ])
}

/// All of the range lies in one of the spans.
fn readable(case: &Case, address: u64, size: u64) -> bool {
    let (start, end) = range(address, size);
    case.spans.iter().any(|(first, bytes)| {
        let held = range(*first, bytes.count() as u64);
        held.0 <= start && end <= held.1
    })
}

fn range(first: u64, size: u64) -> (u128, u128) {
    let first = u128::from(first);
    (first, first + u128::from(size))
}

/// An address from which so many bytes are readable, often at a span's edge.
pub fn good_address(random: &mut Random, case: &Case, size: usize) -> Option<u64> {
    let fits = |(_, bytes): &&(u64, Bytes)| bytes.count() >= size;
    let spans: Vec<&(u64, Bytes)> = case.spans.iter().filter(fits).collect();
    let (first, bytes) = match spans.is_empty() {
        true => return None,
        false => random.choose(&spans),
    };
    let last = bytes.count() - size;
    let any = random.below(last + 1);
    let place = random.choose(&[0, last, any, any]);
    Some(first.wrapping_add(place as u64))
}

/// An address from which so many bytes, 1 or more, are not readable: a byte too
/// far on, a byte too early, on into the other span, around 2^64, anywhere.
pub fn bad_address(random: &mut Random, case: &Case, size: u64) -> u64 {
    loop {
        let (first, bytes) = &case.spans[random.below(2)];
        let end = first.wrapping_add(bytes.count() as u64);
        let too_far = end.wrapping_sub(size).wrapping_add(1);
        let address = match random.below(8) {
            0..=3 => too_far,
            4 => first.wrapping_sub(1),
            5 => end,
            6 => random.choose(&[u64::MAX, below_top(size), 0, HALF]),
            _ => random.number() >> random.below(64),
        };
        if !readable(case, address, size) {
            return address;
        }
    }
}
