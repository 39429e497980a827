//! Cases for the vectors. The outcomes are found elsewhere; only the buffers and
//! allowances of runs are fitted to what a trial run does. Each family has its own generator of numbers, so a change
//! in one leaves the others as they are.

mod edges;
pub mod examples;
mod faults;
mod frames;
mod memory;
mod mutate;
mod noise;
mod operands;
mod program;
pub mod reader;
pub mod runs;
mod shapes;
mod structured;
mod words;

use crate::isa;
use crate::leaf::Case;
use crate::memory::Span;
use crate::random::Random;
use std::collections::BTreeSet;

/// The one seed of all vectors.
const SEED: u64 = 0x6167_656e_7431_3031;

fn family(number: u64) -> Random {
    Random::new(SEED + number)
}

/// The expressions of the verifier's vectors, each once.
pub fn verifier_cases() -> Vec<Vec<u8>> {
    let all = [
        examples::cases(),
        noise::single_bytes(),
        noise::cut_short(&mut family(1)),
        edges::cases(),
        edges::too_long(&mut family(2), 142),
        edges::full_stacks(&mut family(11), 120),
        shapes::cases(),
        many(&mut family(3), 1_900, small_structured),
        many(&mut family(4), 50, long_structured),
        many(&mut family(5), 1_300, mutated),
        many(&mut family(6), 250, noise::random_bytes),
        many(&mut family(7), 650, noise::random_opcodes),
        faults::single(&mut family(8), 60),
        faults::unreached(&mut family(9), 20),
        faults::pairs(&mut family(10), 4),
    ];
    without_repeats(all.concat())
}

/// The cases of the vectors for words, memory, frames and their reader, each once.
pub fn leaf_cases() -> Vec<Case> {
    let all = [
        words::cases(),
        words::random(&mut family(21), 32),
        memory::cases(&mut family(22)),
        many(&mut family(23), 350, memory::near_fetch),
        many(&mut family(24), 100, memory::near_rest),
        memory::searches(&mut family(25)),
        many(&mut family(26), 100, memory::random_search),
        frames::examples(),
        frames::writes(&mut family(27)),
        many(&mut family(28), 200, frames::random_write),
        frames::lists(&mut family(29), 120),
        frames::flips(&mut family(30)),
        frames::numbers(&mut family(31)),
        frames::cuts(&mut family(32)),
        many(&mut family(33), 150, frames::changed),
        reader::cases(|number| family(60 + number)),
    ];
    without_repeats(all.concat())
}

/// The cases of the vectors for runs, each once.
pub fn run_cases() -> Vec<runs::Case> {
    let number = |number| family(40 + number);
    without_repeats(runs::cases(number))
}

fn many<T>(random: &mut Random, count: usize, make: fn(&mut Random) -> T) -> Vec<T> {
    (0..count).map(|_| make(random)).collect()
}

fn without_repeats<T: Clone + Ord>(cases: Vec<T>) -> Vec<T> {
    let mut seen = BTreeSet::new();
    let first = |case: &T| seen.insert(case.clone());
    cases.into_iter().filter(first).collect()
}

/// Most are short, so that all their walks can be made.
fn small_structured(random: &mut Random) -> Vec<u8> {
    let most = random.choose(&[12, 25, 25, 50, 50, 100, 200]);
    let size = random.between(2, most);
    structured::program(random, size).bytes()
}

/// At the limit of length or a little below it.
fn long_structured(random: &mut Random) -> Vec<u8> {
    let below = random.between(isa::MOST_BYTES - 60, isa::MOST_BYTES);
    let length = random.choose(&[isa::MOST_BYTES, isa::MOST_BYTES - 1, below]);
    structured::exact(random, length).bytes()
}

/// A long one with a byte or two changed.
fn long_damaged(random: &mut Random) -> Vec<u8> {
    let mut bytes = long_structured(random);
    for _ in 0..random.between(1, 2) {
        let at = random.below(bytes.len());
        bytes[at] = random.byte();
    }
    bytes
}

fn mutated(random: &mut Random) -> Vec<u8> {
    let most = random.choose(&[12, 25, 50, 100]);
    let size = random.between(2, most);
    let program = structured::program(random, size);
    mutate::mutate(random, &program)
}

/// A small expression of a kind that goes round with `number`.
pub fn small(random: &mut Random, number: usize) -> Vec<u8> {
    let size = random.between(1, 30);
    let program = structured::program(random, size);
    match number % 5 {
        0 => program.bytes(),
        1 => mutate::mutate(random, &program),
        2 => faults::one(random, number / 5),
        3 => noise::random_bytes(random),
        _ => noise::random_opcodes(random),
    }
}

/// An expression of a kind that goes round with `number`: one in 20 is long.
pub fn any_expression(random: &mut Random, number: usize) -> Vec<u8> {
    match number % 64 {
        0 => long_structured(random),
        1 => long_damaged(random),
        2 => edges::too_long(random, 1).concat(),
        3 => Vec::new(),
        4 | 5 => edges::full_stacks(random, 1).concat(),
        6..=12 => small_structured(random),
        13..=16 => mutated(random),
        _ => small(random, number),
    }
}

/// Spans, an address and a size, in or near them.
pub fn any_fetch(random: &mut Random) -> ([Span; 2], u64, u64) {
    memory::any_range(random)
}

#[cfg(test)]
mod tests {
    use super::*;
    use crate::verify::verify;

    #[test]
    fn structured_expressions_are_accepted() {
        let mut random = Random::new(1);
        for _ in 0..5_000 {
            let bytes = small_structured(&mut random);
            assert!(verify(&bytes).is_ok(), "{bytes:02x?}");
        }
        for _ in 0..50 {
            let bytes = long_structured(&mut random);
            assert!(bytes.len() > 960 && verify(&bytes).is_ok(), "{bytes:02x?}");
        }
    }
}
