//! Expressions of a fixed plan: diamonds, chains of if_goto, many jumps to one
//! place, long walks.

use super::program::{Item, Program};
use crate::isa;

const BIT_NOT: u8 = 0x12;

pub fn cases() -> Vec<Vec<u8>> {
    let mut cases = Vec::new();
    for count in (1..=20).chain([31, 32, 63, 64, 83, 84]) {
        cases.push(diamonds(count, None));
        cases.push(diamonds(count, Some(count - 1)));
        cases.push(diamonds(count, Some(count / 2)));
    }
    for count in (1..=30).chain([50, 100, 150, 203, 204]) {
        cases.push(chain_to_end(count));
        cases.push(chain_to_next(count));
        cases.push(ladder(count));
    }
    for count in (1..=12).chain([100, 340, 341, 342]) {
        cases.push(gotos(count));
    }
    for count in (1..=12).chain([62, 63, 64, 65, 100]) {
        cases.push(conditions_first(count));
        cases.push(early_ends(count));
    }
    for count in [
        1, 2, 10, 100, 253, 254, 255, 509, 510, 511, 600, 765, 766, 767, 900, 1_020,
    ] {
        cases.push(straight(count));
    }
    for one in [0, 1, 2, 50, 300, 480] {
        for other in [0, 1, 2, 49, 300, 520] {
            cases.push(two_arms(one, other));
        }
    }
    cases
}

fn const8(program: &mut Program, number: usize, height: usize) {
    program.push(vec![isa::CONST8, number as u8], Some(height));
}

fn jump(program: &mut Program, opcode: u8, items_on: usize, height: usize) {
    let target = program.items.len() + items_on;
    program.items.push(Item::jump(opcode, target, Some(height)));
}

/// Diamonds one behind the other: both arms push a cell, which is popped where
/// they join. The arm of number `uneven` pushes two.
fn diamonds(count: usize, uneven: Option<usize>) -> Vec<u8> {
    let mut program = Program::default();
    for number in 0..count {
        let more = usize::from(uneven == Some(number));
        const8(&mut program, number, 0);
        jump(&mut program, isa::IF_GOTO, 3 + more, 1);
        (0..=more).for_each(|cell| const8(&mut program, 1, cell));
        jump(&mut program, isa::GOTO, 2, 1 + more);
        const8(&mut program, 2, 0);
        program.push(vec![isa::POP], Some(1));
    }
    program.end(Some(0));
    program.bytes()
}

/// Every if_goto aims at the one end.
fn chain_to_end(count: usize) -> Vec<u8> {
    let mut program = Program::default();
    for number in 0..count {
        const8(&mut program, number, 0);
        jump(&mut program, isa::IF_GOTO, 2 * (count - number) - 1, 1);
    }
    program.end(Some(0));
    program.bytes()
}

/// Every if_goto aims at its own next start (reading A-7).
fn chain_to_next(count: usize) -> Vec<u8> {
    let mut program = Program::default();
    for number in 0..count {
        const8(&mut program, number, 0);
        jump(&mut program, isa::IF_GOTO, 1, 1);
    }
    program.end(Some(0));
    program.bytes()
}

/// Every if_goto passes over the next one, so the walks grow in number as the
/// Fibonacci numbers do.
fn ladder(count: usize) -> Vec<u8> {
    let mut program = Program::default();
    for number in 0..count {
        let last = number + 1 == count;
        const8(&mut program, number, 0);
        jump(&mut program, isa::IF_GOTO, if last { 1 } else { 3 }, 1);
    }
    program.end(Some(0));
    program.bytes()
}

/// Gotos to the next start; with 341 of them the expression has 1,024 bytes.
fn gotos(count: usize) -> Vec<u8> {
    let mut program = Program::default();
    (0..count).for_each(|_| jump(&mut program, isa::GOTO, 1, 0));
    program.end(Some(0));
    program.bytes()
}

/// All conditions are pushed first, then every if_goto takes one of them and
/// aims at its own end: the ends are at different heights.
fn conditions_first(count: usize) -> Vec<u8> {
    let mut program = Program::default();
    (0..count).for_each(|number| const8(&mut program, number, number));
    for number in 0..count {
        jump(&mut program, isa::IF_GOTO, count + 1, count - number);
    }
    program.end(Some(0));
    (0..count).for_each(|number| program.end(Some(count - 1 - number)));
    program.bytes()
}

/// An if_goto passes over a longer part that ends by itself; repeated.
fn early_ends(count: usize) -> Vec<u8> {
    let mut program = Program::default();
    for number in 0..count {
        let inner = number % 5;
        const8(&mut program, number, 0);
        jump(&mut program, isa::IF_GOTO, inner + 3, 1);
        const8(&mut program, number, 0);
        (0..inner).for_each(|_| program.push(vec![BIT_NOT], Some(1)));
        program.end(Some(1));
    }
    program.end(Some(0));
    program.bytes()
}

/// No jump: the walk is the whole expression.
fn straight(count: usize) -> Vec<u8> {
    let mut program = Program::default();
    const8(&mut program, count, 0);
    (0..count).for_each(|_| program.push(vec![BIT_NOT], Some(1)));
    program.end(Some(1));
    program.bytes()
}

/// One diamond whose arms are so many instructions long; the longer of them
/// gives the longest walk.
fn two_arms(one: usize, other: usize) -> Vec<u8> {
    let mut program = Program::default();
    (0..2).for_each(|number| const8(&mut program, number, number));
    jump(&mut program, isa::IF_GOTO, one + 2, 2);
    (0..one).for_each(|_| program.push(vec![BIT_NOT], Some(1)));
    jump(&mut program, isa::GOTO, other + 1, 1);
    (0..other).for_each(|_| program.push(vec![BIT_NOT], Some(1)));
    program.end(Some(1));
    program.bytes()
}
