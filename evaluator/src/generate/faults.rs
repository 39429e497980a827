//! Programs meant to be accepted in which one or two faults are planted.

use super::operands;
use super::program::{Item, Program, Target};
use super::structured;
use crate::isa;
use crate::random::Random;

/// The faults of refusals 2 to 11, in that order.
#[derive(Clone, Copy)]
enum Fault {
    Unknown,
    Unsupported,
    Cut,
    Operand,
    NotAStart,
    NotForward,
    Differ,
    TooFew,
    TooMany,
    RunsOff,
}

const FAULTS: [Fault; 10] = [
    Fault::Unknown,
    Fault::Unsupported,
    Fault::Cut,
    Fault::Operand,
    Fault::NotAStart,
    Fault::NotForward,
    Fault::Differ,
    Fault::TooFew,
    Fault::TooMany,
    Fault::RunsOff,
];

fn small(random: &mut Random) -> Program {
    let size = random.between(3, 40);
    structured::program(random, size)
}

/// One fault where a walk comes; the faults go round with `number`.
pub fn one(random: &mut Random, number: usize) -> Vec<u8> {
    let fault = FAULTS[number % FAULTS.len()];
    let mut program = small(random);
    let at = reached_item(random, &program);
    plant(random, &mut program, fault, at);
    program.bytes()
}

/// Each fault alone, where a walk comes.
pub fn single(random: &mut Random, each: usize) -> Vec<Vec<u8>> {
    let numbers = 0..each * FAULTS.len();
    numbers.map(|number| one(random, number)).collect()
}

/// Each fault alone, where no walk comes.
pub fn unreached(random: &mut Random, each: usize) -> Vec<Vec<u8>> {
    let mut cases = Vec::new();
    for fault in FAULTS {
        for _ in 0..each {
            let mut program = small(random);
            let at = passed_over(random, &mut program);
            plant(random, &mut program, fault, at);
            cases.push(program.bytes());
        }
    }
    cases
}

/// Every two faults, also the same twice, at places that may lie in any order.
pub fn pairs(random: &mut Random, each: usize) -> Vec<Vec<u8>> {
    let mut cases = Vec::new();
    for one in FAULTS {
        for other in FAULTS {
            for _ in 0..each {
                let mut program = small(random);
                for fault in [one, other] {
                    let at = reached_item(random, &program);
                    plant(random, &mut program, fault, at);
                }
                cases.push(program.bytes());
            }
        }
    }
    cases
}

/// An item that its maker meant to be reached; the first one always is.
fn reached_item(random: &mut Random, program: &Program) -> usize {
    let items = 0..program.items.len();
    let reached: Vec<usize> = items
        .filter(|item| program.items[*item].height.is_some())
        .collect();
    random.choose(&reached)
}

/// Inserts a goto over a few unreached instructions; gives one of their places.
fn passed_over(random: &mut Random, program: &mut Program) -> usize {
    let at = reached_item(random, program);
    let height = program.items[at].height;
    let count = random.between(1, 4);
    let mut new = vec![Item::jump(isa::GOTO, at + 1 + count, height)];
    for _ in 0..count {
        new.push(Item::plain(vec![random.choose(&[0x02, 0x28, 0x33])], None));
    }
    program.insert(at, new);
    at + random.between(1, count)
}

/// Plants the fault in front of item `at`, or at the end of the expression if
/// it can only be there.
fn plant(random: &mut Random, program: &mut Program, fault: Fault, at: usize) {
    let height = program.items[at].height;
    let alone = |bytes| vec![Item::plain(bytes, height)];
    let new = match fault {
        Fault::Unknown => alone(vec![unknown(random)]),
        Fault::Unsupported => alone(vec![random.choose(&isa::UNSUPPORTED)]),
        Fault::Operand => alone(bad_operand(random)),
        Fault::NotAStart => not_a_start(random, program, at),
        Fault::NotForward => {
            let back = random.between(0, at);
            vec![Item::jump(isa::GOTO, back, height)]
        }
        Fault::Differ => differ(random, at, height),
        Fault::TooFew => alone(too_few(random, height.unwrap_or(0))),
        Fault::TooMany => too_many(random, height),
        Fault::Cut => return cut(random, program),
        Fault::RunsOff => return runs_off(random, program, height),
    };
    program.insert(at, new);
}

fn unknown(random: &mut Random) -> u8 {
    let any = random.between(0x35, 0xff) as u8;
    random.choose(&[0x00, 0x31, 0x35, 0xff, any])
}

fn bad_operand(random: &mut Random) -> Vec<u8> {
    let [high, low] = (random.between(64, 65_535) as u16).to_be_bytes();
    let opcode = random.choose(&[isa::GETV, isa::SETV, isa::TRACEV]);
    match random.below(4) {
        0 => vec![isa::EXT, 0],
        1 => vec![opcode, 0, 64],
        2 => vec![opcode, 1, 0],
        _ => vec![opcode, high, low],
    }
}

/// A jump into operands, to the length, past it, or to 65,535.
fn not_a_start(random: &mut Random, program: &Program, at: usize) -> Vec<Item> {
    let height = program.items[at].height;
    let opcode = random.choose(&[isa::GOTO, isa::IF_GOTO]);
    // One item is inserted, so items from `at` on move by one.
    let length = program.items.len() + 1;
    let items = 0..program.items.len();
    let long = items.filter(|item| program.items[*item].bytes.len() > 1);
    let long: Vec<usize> = long.map(|item| item + usize::from(item >= at)).collect();
    let (item, away) = match random.below(6) {
        0 => (length, 0),
        1 => (length, random.between(1, 300) as isize),
        2 => return vec![Item::plain(vec![opcode, 0xff, 0xff], height)],
        _ if long.is_empty() => (at, 1),
        _ => (random.choose(&long), 1),
    };
    let mut jump = Item::jump(opcode, item, height);
    jump.target = Some(Target { item, away });
    vec![jump]
}

/// An if_goto over an instruction that pushes or pops: two heights where they
/// meet.
fn differ(random: &mut Random, at: usize, height: Option<usize>) -> Vec<Item> {
    let condition = Item::plain(vec![isa::CONST8, random.byte()], height);
    let jump = Item::jump(isa::IF_GOTO, at + 3, height);
    let pops = height.is_some_and(|height| height > 0) && random.chance(1, 2);
    let changes = match pops {
        true => vec![isa::POP],
        false => random
            .choose(&[&[isa::CONST8, 0][..], &[0x26, 0, 0], &[isa::GETV, 0, 63]])
            .to_vec(),
    };
    vec![condition, jump, Item::plain(changes, height)]
}

/// An instruction that needs more than `height` cells.
fn too_few(random: &mut Random, height: usize) -> Vec<u8> {
    let rows = isa::TABLE.iter();
    let rows: Vec<_> = rows
        .filter(|row| row.needs > height && !row.is_jump())
        .collect();
    if rows.is_empty() || random.chance(1, 3) {
        let any = random.between(height, 255);
        return vec![isa::PICK, random.choose(&[height, height + 1, any]) as u8];
    }
    let row = random.choose(&rows);
    match row.opcode {
        isa::PICK => vec![isa::PICK, random.byte()],
        _ => operands::plain(row),
    }
}

/// As many pushes as bring the height to 65.
fn too_many(random: &mut Random, height: Option<usize>) -> Vec<Item> {
    let count = isa::CELLS + 1 - height.unwrap_or(0);
    let mut items = vec![Item::plain(vec![isa::CONST8, 1], height)];
    let again = random.choose(&[
        &[isa::CONST8, 2][..],
        &[0x28],
        &[isa::PICK, 0],
        &[0x26, 0, 1],
    ]);
    items.resize(count, Item::plain(again.to_vec(), height));
    items
}

/// An instruction cut short, behind the last.
fn cut(random: &mut Random, program: &mut Program) {
    let rows = isa::TABLE.iter().filter(|row| row.operands > 0);
    let rows: Vec<_> = rows.collect();
    let row = random.choose(&rows);
    let kept = random.below(row.operands);
    let mut bytes = vec![row.opcode];
    bytes.extend(random.bytes(kept));
    program.push(bytes, None);
}

/// Where a walk comes, the last end is made another instruction; where none
/// comes, an instruction that runs on is put behind the last.
fn runs_off(random: &mut Random, program: &mut Program, height: Option<usize>) {
    let bytes = random.choose(&[&[isa::CONST8, 3][..], &[0x26, 0, 9], &[0x12], &[0x29]]);
    if height.is_some() {
        program.items.pop();
    }
    program.push(bytes.to_vec(), None);
}
