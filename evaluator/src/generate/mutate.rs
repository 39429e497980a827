//! Small changes to a program that was meant to be accepted.

use super::program::Program;
use crate::isa;
use crate::random::Random;

pub fn mutate(random: &mut Random, program: &Program) -> Vec<u8> {
    match random.below(11) {
        0 => change_byte(random, program.bytes()),
        1 => insert_byte(random, program.bytes()),
        2 => delete_byte(random, program.bytes()),
        3 => truncate(random, program.bytes()),
        4 => append(random, program.bytes()),
        5..=7 => retarget(random, program.clone()),
        8 => exchange(random, program.clone()),
        9 => remove_instruction(random, program.clone()),
        _ => change_opcode(random, program.clone()),
    }
}

fn change_byte(random: &mut Random, mut bytes: Vec<u8>) -> Vec<u8> {
    let at = random.below(bytes.len());
    if random.chance(1, 2) {
        bytes[at] ^= 1 << random.below(8);
    } else {
        bytes[at] = random.byte();
    }
    bytes
}

fn insert_byte(random: &mut Random, mut bytes: Vec<u8>) -> Vec<u8> {
    let at = random.between(0, bytes.len());
    bytes.insert(at, random_start(random));
    bytes
}

fn delete_byte(random: &mut Random, mut bytes: Vec<u8>) -> Vec<u8> {
    let at = random.below(bytes.len());
    bytes.remove(at);
    bytes
}

fn truncate(random: &mut Random, mut bytes: Vec<u8>) -> Vec<u8> {
    bytes.truncate(random.below(bytes.len()));
    bytes
}

fn append(random: &mut Random, mut bytes: Vec<u8>) -> Vec<u8> {
    for _ in 0..random.between(1, 3) {
        bytes.push(random_start(random));
    }
    bytes
}

/// A byte, three times in four one that begins an instruction of the table.
fn random_start(random: &mut Random) -> u8 {
    match random.below(4) {
        0 => random.byte(),
        _ => isa::TABLE[random.below(isa::TABLE.len())].opcode,
    }
}

/// Moves a jump's target by 1 or 2 bytes, or to another instruction.
fn retarget(random: &mut Random, mut program: Program) -> Vec<u8> {
    let count = program.items.len();
    let jumps = program.items.iter().filter(|i| i.target.is_some()).count();
    if jumps == 0 {
        return exchange(random, program);
    }
    let chosen = random.below(jumps);
    let mut targets = program.items.iter_mut().filter_map(|i| i.target.as_mut());
    let target = targets.nth(chosen).expect("a jump was counted");
    match random.below(3) {
        0 => target.item = random.below(count),
        _ => target.away = random.choose(&[-2, -1, 1, 2]),
    }
    program.bytes()
}

/// Exchanges two instructions. Jumps keep the place in the list they aim at.
fn exchange(random: &mut Random, mut program: Program) -> Vec<u8> {
    let one = random.below(program.items.len());
    let other = random.below(program.items.len());
    program.items.swap(one, other);
    program.bytes()
}

fn remove_instruction(random: &mut Random, mut program: Program) -> Vec<u8> {
    let at = random.below(program.items.len());
    program.items.remove(at);
    let targets = program.items.iter_mut().filter_map(|i| i.target.as_mut());
    for target in targets.filter(|target| target.item > at) {
        target.item -= 1;
    }
    program.bytes()
}

/// Gives an instruction another opcode with the same number of operand bytes.
fn change_opcode(random: &mut Random, mut program: Program) -> Vec<u8> {
    let at = random.below(program.items.len());
    let item = &mut program.items[at];
    let operands = item.bytes.len() - 1;
    let alike = isa::TABLE.iter().filter(|row| row.operands == operands);
    let alike: Vec<u8> = alike.map(|row| row.opcode).collect();
    item.bytes[0] = random.choose(&alike);
    program.bytes()
}
