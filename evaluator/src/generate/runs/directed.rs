//! Runs with one thing to show: an operator on words at the edges, a full
//! stack, a long walk, conditions of every kind.

use super::{limits, scene};
use crate::generate::words::{COUNTS, SHIFTS};
use crate::generate::{operands, shapes};
use crate::isa::{self, Row};
use crate::random::Random;
use crate::runs::{Bytes, Case, Registers};

const EDGES: [u64; 12] = [
    0,
    1,
    2,
    63,
    64,
    65,
    1 << 32,
    (1 << 63) - 1,
    1 << 63,
    (1 << 63) + 1,
    u64::MAX - 1,
    u64::MAX,
];

fn edge(random: &mut Random) -> u64 {
    let any = random.number() >> random.below(64);
    let edge = random.choose(&EDGES);
    random.choose(&[edge, edge, edge, any])
}

/// A scene with nothing readable and a short buffer.
fn bare(random: &mut Random, expression: Vec<u8>) -> Case {
    let empty = [0, 4096].map(|first| (first, Bytes::Listed(Vec::new())));
    let mut case = scene::on(random, empty);
    case.registers = Registers::Listed(Vec::new());
    case.variables.clear();
    case.expression = expression;
    limits::roomy(random, &mut case);
    case
}

/// An operator on registers 0 and 1, which hold these words.
fn operator(random: &mut Random, operator: Vec<u8>, words: [u64; 2]) -> Case {
    let reads = [[isa::REG, 0, 0], [isa::REG, 0, 1]].concat();
    let expression = [reads, operator, vec![isa::END]].concat();
    let mut case = bare(random, expression);
    case.registers = Registers::Listed(words.to_vec());
    case
}

/// Every operator of one or two cells, `each` times.
pub fn operators(random: &mut Random, each: usize) -> Vec<Case> {
    let unary = [isa::LOG_NOT, isa::BIT_NOT, isa::EXT, isa::ZERO_EXT];
    let wanted = |row: &&Row| row.is_binary() || unary.contains(&row.opcode);
    let mut cases = Vec::new();
    for row in isa::TABLE.iter().filter(wanted) {
        for _ in 0..each {
            let bytes = operands::instruction(random, row, Some(2));
            let words = [(); 2].map(|()| edge(random));
            cases.push(operator(random, bytes, words));
        }
    }
    cases
}

/// A shift by a count around 64, or a great one.
pub fn shift(random: &mut Random) -> Case {
    let opcode = random.choose(&SHIFTS);
    let words = [random.number(), random.choose(&COUNTS)];
    operator(random, vec![opcode], words)
}

/// 62 to 64 cells, each another number, then something that needs few or many
/// of them, then as many pops as show one of the lower cells.
pub fn full_stack(random: &mut Random) -> Case {
    let height = random.between(62, 64);
    let numbers = 0..height as u8;
    let mut bytes: Vec<u8> = numbers.flat_map(|n| [isa::CONST8, 3 * n + 1]).collect();
    let any = random.below(height);
    let deep = random.choose(&[any, any, 0, height - 1]) as u8;
    let raises: [&[u8]; 4] = [
        &[isa::PICK, deep],
        &[isa::PICK, deep],
        &[isa::DUP],
        &[isa::TRACEV, 0, 9],
    ];
    let keeps: [&[u8]; 5] = [
        &[isa::ROT],
        &[isa::SWAP],
        &[isa::SETV, 0, 9],
        &[isa::TRACE_QUICK, 0],
        &[isa::POP, isa::PICK, deep.min(height as u8 - 2)],
    ];
    bytes.extend(match height < isa::CELLS && random.chance(2, 3) {
        true => random.choose(&raises),
        false => random.choose(&keeps),
    });
    let pops = random.choose(&[0, 0, 1, 2, 30]);
    bytes.extend(vec![isa::POP; pops]);
    bytes.push(isa::END);
    bare(random, bytes)
}

/// Walks of about 1,023 steps, and allowances around them; `default` is never
/// spent.
pub fn long_walks(random: &mut Random) -> Vec<Case> {
    let straight = |count| [vec![isa::CONST8, 5], vec![isa::BIT_NOT; count]].concat();
    let mut cases = Vec::new();
    for allowance in [None, Some(1_021), Some(1_022), Some(1_023), Some(1_024)] {
        let expression = [straight(1_021), vec![isa::END]].concat();
        let mut case = bare(random, expression);
        case.allowance = allowance;
        cases.push(case);
    }
    let gotos = (1..=341_u16).flat_map(|number| {
        let [high, low] = (3 * number).to_be_bytes();
        [isa::GOTO, high, low]
    });
    let gotos: Vec<u8> = gotos.chain([isa::END]).collect();
    for allowance in [None, Some(300), Some(341), Some(342)] {
        let mut case = bare(random, gotos.clone());
        case.allowance = allowance;
        cases.push(case);
    }
    cases
}

/// if_goto on each single bit, on 0 and on all bits: taken, no value; not
/// taken, 7.
pub fn conditions(random: &mut Random) -> Vec<Case> {
    let bits = (0..64).map(|place| 1 << place);
    let values: Vec<u64> = bits.chain([0, u64::MAX]).collect();
    let case = |value| {
        let arms = [isa::CONST8, 7, isa::END, isa::END];
        let front = [isa::REG, 0, 0, isa::IF_GOTO, 0, 9];
        let mut case = bare(random, [&front[..], &arms].concat());
        case.registers = Registers::Listed(vec![value]);
        case
    };
    values.into_iter().map(case).collect()
}

/// The shorter of the verifier's shapes.
pub fn shaped(random: &mut Random) -> Vec<Case> {
    let mut cases = Vec::new();
    for bytes in shapes::cases() {
        if bytes.len() <= 40 {
            cases.push(bare(random, bytes));
        }
    }
    cases
}
