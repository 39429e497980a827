//! Operators and the words they work on.

use crate::isa::{self, Row};
use crate::leaf::Case;
use crate::random::Random;

const EDGES: [u64; 10] = [
    0,
    1,
    2,
    1 << 31,
    (1 << 32) - 1,
    (1 << 32) + 1,
    (1 << 63) - 1,
    1 << 63,
    (1 << 63) + 1,
    u64::MAX,
];

/// Words in which every digit tells its place.
const PATTERNS: [u64; 2] = [0x0123_4567_89ab_cdef, 0xfedc_ba98_7654_3210];

/// The operands of ext and zero_ext; ext has no 0.
const LENGTHS: [u8; 10] = [0, 1, 7, 8, 31, 32, 63, 64, 65, 255];

pub fn cases() -> Vec<Case> {
    [pairs(), shifts(), negations(), extensions()].concat()
}

fn case(opcode: u8, a: u64, b: u64) -> Case {
    Case::Word { opcode, a, b }
}

fn binary() -> impl Iterator<Item = &'static Row> {
    isa::TABLE.iter().filter(|row| row.is_binary())
}

/// Every operator of two cells on all pairs of edges.
fn pairs() -> Vec<Case> {
    let mut cases = Vec::new();
    for row in binary() {
        for a in EDGES {
            cases.extend(EDGES.map(|b| case(row.opcode, a, b)));
        }
    }
    cases
}

pub const SHIFTS: [u8; 3] = [isa::LSH, isa::RSH_SIGNED, isa::RSH_UNSIGNED];

/// Around a word's 64 bits, and counts whose low bits alone would be small.
pub const COUNTS: [u64; 14] = [
    0,
    1,
    2,
    62,
    63,
    64,
    65,
    127,
    128,
    1 << 32,
    (1 << 32) + 1,
    1 << 63,
    (1 << 63) + 1,
    u64::MAX,
];

/// Each shift of words with the top bit 0 and 1 by each count.
fn shifts() -> Vec<Case> {
    let mut cases = Vec::new();
    for opcode in SHIFTS {
        for a in EDGES.into_iter().chain(PATTERNS) {
            cases.extend(COUNTS.map(|count| case(opcode, a, count)));
        }
    }
    cases
}

fn negations() -> Vec<Case> {
    let words = EDGES.into_iter().chain(PATTERNS);
    let both = words.flat_map(|a| [case(isa::LOG_NOT, a, 0), case(isa::BIT_NOT, a, 0)]);
    both.collect()
}

/// Every length, on the edges and on words that end or begin at bit N.
fn extensions() -> Vec<Case> {
    let mut cases = Vec::new();
    for n in LENGTHS {
        let mut words = [&EDGES[..], &PATTERNS].concat();
        for place in [n.wrapping_sub(1), n] {
            let bit = 1_u64.checked_shl(u32::from(place)).unwrap_or(0);
            words.extend([bit, bit.wrapping_sub(1), !bit, bit.wrapping_neg()]);
        }
        for a in words {
            if n > 0 {
                cases.push(case(isa::EXT, a, u64::from(n)));
            }
            cases.push(case(isa::ZERO_EXT, a, u64::from(n)));
        }
    }
    cases
}

/// `each` random cases for every operator of two cells, half as many for the
/// others.
pub fn random(random: &mut Random, each: usize) -> Vec<Case> {
    let mut cases = Vec::new();
    for row in binary() {
        for _ in 0..each {
            let a = word(random);
            let b = beside(random, a);
            cases.push(case(row.opcode, a, b));
        }
    }
    for _ in 0..each / 2 {
        for opcode in [isa::LOG_NOT, isa::BIT_NOT] {
            cases.push(case(opcode, word(random), 0));
        }
        for opcode in [isa::EXT, isa::ZERO_EXT] {
            let most = random.choose(&[64, 64, 64, 255]);
            let n = random.between(1, most) as u64;
            cases.push(case(opcode, word(random), n));
        }
    }
    cases
}

/// A word of any number of bits, often one that is negative and near 0.
fn word(random: &mut Random) -> u64 {
    let any = random.number();
    let short = any >> random.below(64);
    random.choose(&[
        any,
        short,
        short,
        short.wrapping_neg(),
        short.wrapping_neg(),
    ])
}

/// The second cell: any word, the same as the first, near it, or small.
fn beside(random: &mut Random, a: u64) -> u64 {
    let any = word(random);
    let small = random.below(130) as u64;
    let near = random.choose(&[a, a.wrapping_add(1), a.wrapping_sub(1), !a]);
    random.choose(&[any, any, any, near, small, small, small.wrapping_neg()])
}
