//! Long runs, which the evaluator's generator seldom makes: a chain of harmless instructions, with records in most of them.

use evaluator::isa::{self, Opcode, Row};
use evaluator::machine;
use evaluator::random::Random;
use evaluator::runs::{Bytes, Case, Registers};
use evaluator::verify;
use std::collections::BTreeMap;

/// One case in so many is long.
const EVERY: usize = 64;

pub fn is_long(number: usize) -> bool {
    number % EVERY == EVERY - 1
}

/// "Trace buffer: 0 to 65,536 lent bytes".
pub const MOST_BUFFER: usize = 65_536;

/// Without operands.
const NARROW: [u8; 17] = [
    isa::DUP,
    isa::ADD,
    isa::SUB,
    isa::MUL,
    isa::LSH,
    isa::RSH_SIGNED,
    isa::RSH_UNSIGNED,
    isa::LOG_NOT,
    isa::BIT_AND,
    isa::BIT_OR,
    isa::BIT_XOR,
    isa::BIT_NOT,
    isa::EQUAL,
    isa::LESS_SIGNED,
    isa::POP,
    isa::SWAP,
    isa::ROT,
];

/// With operands; the jumps are to the next instruction.
const WIDE: [u8; 11] = [
    isa::CONST8,
    isa::CONST16,
    isa::CONST32,
    isa::CONST64,
    isa::GETV,
    isa::SETV,
    isa::EXT,
    isa::ZERO_EXT,
    isa::PICK,
    isa::GOTO,
    isa::IF_GOTO,
];

/// The stack is kept within this, once it has a cell.
const HEIGHTS: std::ops::RangeInclusive<usize> = 1..=60;

fn row(opcode: u8) -> &'static Row {
    match isa::opcode(opcode) {
        Opcode::Supported(row) => row,
        _ => panic!("{opcode:02x} is not supported"),
    }
}

/// The bytes that are recorded, and the most of them at once.
struct Traced {
    first: u64,
    count: usize,
    most: usize,
}

/// An expression in which each instruction leads to the next.
struct Chain<'a> {
    random: &'a mut Random,
    bytes: Vec<u8>,
    height: usize,
}

impl Chain<'_> {
    fn put(&mut self, opcode: u8, operand: u64) {
        let row = row(opcode);
        self.bytes.push(opcode);
        let operands = &operand.to_be_bytes()[8 - row.operands..];
        self.bytes.extend(operands);
        self.height = self.height - row.needs + row.leaves;
    }

    fn operand(&mut self, opcode: u8) -> u64 {
        let number = match opcode {
            isa::GETV | isa::SETV | isa::TRACEV => self.random.below(64),
            isa::EXT | isa::ZERO_EXT => self.random.between(1, 64),
            isa::PICK => self.random.below(self.height),
            isa::GOTO | isa::IF_GOTO => self.bytes.len() + 3,
            _ => return self.random.number(),
        };
        number as u64
    }

    fn fits(&self, row: &Row) -> bool {
        let kept = self.height.checked_sub(row.needs);
        kept.is_some_and(|kept| HEIGHTS.contains(&(kept + row.leaves)))
    }

    /// One of them, or none if that one does not fit.
    fn any_of(&mut self, opcodes: &[u8]) {
        let opcode = self.random.choose(opcodes);
        if self.fits(row(opcode)) {
            let operand = self.operand(opcode);
            self.put(opcode, operand);
        }
    }

    /// From 1 up; where so many are asked for, mostly around those that fill a buffer.
    fn size(&mut self, most: usize) -> usize {
        let any = self.random.between(1, most);
        let full = self.random.between(65_000, 65_517);
        match most {
            65_536.. => self.random.choose(&[any, full, full, 65_535, 65_536]),
            _ => any,
        }
    }

    /// Of some bytes, or of a variable.
    fn trace(&mut self, traced: &Traced) {
        let size = self.size(traced.most);
        let place = self.random.between(0, traced.count - size) as u64;
        let size = size as u64;
        self.put(isa::CONST32, traced.first + place);
        match self.random.below(5) {
            0 if size < 256 => self.put(isa::TRACE_QUICK, size),
            1 if size <= 65_535 => self.put(isa::TRACE16, size),
            2 => {
                let number = self.operand(isa::TRACEV);
                self.put(isa::TRACEV, number);
            }
            number => {
                self.put(isa::CONST32, size);
                self.put([isa::TRACE, isa::TRACENZ][number % 2], 0);
            }
        }
    }
}

/// It has about 500 bytes to 1,024.
fn expression(random: &mut Random, traced: &Traced) -> Vec<u8> {
    let any = random.between(500, isa::MOST_BYTES);
    let length = random.choose(&[any, any, isa::MOST_BYTES]);
    let wide = random.choose(&[0, 1, 2, 3]);
    let rising = random.choose(&[1, 3, 5]);
    let traces = random.choose(&[0, 1, 4, 15]);
    let mut chain = Chain {
        random,
        bytes: Vec::new(),
        height: 0,
    };
    chain.put(isa::CONST8, 7);
    while chain.bytes.len() < length - 1 {
        let room = length - 1 - chain.bytes.len();
        if room > 16 && chain.height < 58 && chain.random.chance(traces, 100) {
            chain.trace(traced);
        } else if room > 16 && chain.random.chance(wide, 10) {
            chain.any_of(&WIDE);
        } else if chain.random.chance(rising, 10) {
            chain.any_of(&[isa::DUP]);
        } else {
            chain.any_of(&NARROW);
        }
    }
    chain.put(isa::END, 0);
    chain.bytes
}

pub fn any(random: &mut Random) -> Case {
    let count = random.choose(&[2_000, 2_000, 20_000, 66_000]);
    let most = random.choose(&[20, 255, 2_000, count.min(65_536)]);
    let first = random.number() >> 33;
    let traced = Traced { first, count, most };
    let zero = random.chance(1, 4).then(|| random.below(count));
    let mut spans = [
        (first, Bytes::Pattern { count, zero }),
        (0, Bytes::Listed(Vec::new())),
    ];
    if random.chance(1, 2) {
        spans.reverse();
    }
    let mut case = Case {
        expression: expression(random, &traced),
        registers: Registers::Listed(Vec::new()),
        variables: BTreeMap::from([(random.below(64), 7), (random.below(64), u64::MAX)]),
        spans,
        tracepoint: random.number() as u16,
        length: MOST_BUFFER,
        used: 0,
        allowance: None,
    };
    fit(random, &mut case);
    case.allowance = allowance(random, &case.expression);
    case
}

/// Often just the room that the run takes, a byte less, or less.
fn fit(random: &mut Random, case: &mut Case) {
    let outcome = machine::run(&case.given());
    let taken = outcome.used as usize;
    if outcome.end.is_err() || random.chance(1, 4) {
        return;
    }
    let any = random.below(MOST_BUFFER - taken + 1);
    let used = random.choose(&[0, any, MOST_BUFFER - taken]);
    let less = random.below(taken);
    let room = random.choose(&[taken, taken, taken - 1, less]);
    case.used = used as u64;
    case.length = used + room;
}

fn allowance(random: &mut Random, expression: &[u8]) -> Option<u64> {
    let accepted = verify::verify(expression).expect("it is accepted");
    let walk = accepted.walk as u64;
    let any = random.below(accepted.walk) as u64;
    random.choose(&[
        None,
        None,
        Some(walk - 1),
        Some(walk),
        Some(u64::MAX),
        Some(any),
    ])
}

#[cfg(test)]
mod tests {
    use super::*;

    #[test]
    fn they_are_long() {
        let mut random = Random::new(5);
        let mut longest = 0;
        for _ in 0..500 {
            let case = any(&mut random);
            let accepted = verify::verify(&case.expression).expect("it is accepted");
            let length = case.expression.len();
            assert!((500..=isa::MOST_BYTES).contains(&length), "{length}");
            assert!(accepted.walk >= 200, "{}", accepted.walk);
            longest = longest.max(accepted.walk);
        }
        assert!(longest >= 1_000, "{longest}");
    }
}
