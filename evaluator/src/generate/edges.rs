//! Cases at the edge of every limit that document 01 names.

use super::operands;
use super::structured;
use crate::isa::{self, Row};
use crate::random::Random;

pub fn cases() -> Vec<Vec<u8>> {
    [
        lengths(),
        pushes(),
        opcodes_at_heights(),
        picks(),
        extensions(),
        numbers(),
        jumps(),
        two_jumps(),
        far_jumps(),
        near_the_last_byte(),
    ]
    .concat()
}

/// So many const8, then the other bytes.
fn at_height(height: usize, behind: &[u8]) -> Vec<u8> {
    [[isa::CONST8, 0].repeat(height), behind.to_vec()].concat()
}

/// "An expression has 1 to 1,024 bytes."
fn lengths() -> Vec<Vec<u8>> {
    let mut cases = Vec::new();
    for length in [0, 1, 1_023, 1_024, 1_025, 1_100] {
        for byte in [isa::END, 0x00, 0x12, 0x34] {
            cases.push(vec![byte; length]);
        }
        if length > 4 {
            let middle = [vec![isa::CONST8, 0], vec![0x12; length - 3]];
            cases.push([middle.concat(), vec![isa::END]].concat());
            cases.push([middle.concat(), vec![isa::CONST8]].concat());
            cases.push([middle.concat(), vec![0x0e]].concat());
            cases.push([vec![isa::END; length - 2], vec![0x16, 0]].concat());
        }
    }
    cases
}

/// Longer than 1,024 bytes: accepted but for the length, or with other faults.
pub fn too_long(random: &mut Random, count: usize) -> Vec<Vec<u8>> {
    let mut cases = Vec::new();
    for number in 0..count {
        let any = random.between(1_025, 1_100);
        let length = random.choose(&[1_025, 1_025, 1_025, 1_026, any]);
        cases.push(match number % 4 {
            0 => random.bytes(length),
            1 => vec![number as u8; length],
            _ => structured::exact(random, length).bytes(),
        });
    }
    cases
}

/// Every instruction that pushes, so often that heights 63, 64 and 65 come.
fn pushes() -> Vec<Vec<u8>> {
    let mut cases = Vec::new();
    for row in isa::TABLE.iter().filter(|row| row.leaves > row.needs) {
        for height in [1, 2, 63, 64, 65] {
            let times = height - row.needs;
            let pushes = operands::plain(row).repeat(times);
            let end = vec![isa::END];
            cases.push(at_height(row.needs, &[pushes, end].concat()));
        }
    }
    cases
}

/// Instructions that push, up to 62 to 64 cells, then some of any kind: many of
/// these leave more than 64 cells, others just do not.
pub fn full_stacks(random: &mut Random, count: usize) -> Vec<Vec<u8>> {
    let mut cases = Vec::new();
    for _ in 0..count {
        let mut bytes = Vec::new();
        let full = random.between(62, 64);
        for height in 0..full {
            let fits = |row: &&Row| row.leaves > row.needs && row.needs <= height;
            let rows: Vec<&Row> = isa::TABLE.iter().filter(fits).collect();
            let row = random.choose(&rows);
            bytes.extend(operands::instruction(random, row, Some(height)));
        }
        for _ in 0..random.between(1, 6) {
            let pushes = random.chance(1, 2);
            let fits = |row: &&Row| !row.is_jump() && (!pushes || row.leaves > row.needs);
            let rows: Vec<&Row> = isa::TABLE.iter().filter(fits).collect();
            let row = random.choose(&rows);
            bytes.extend(operands::instruction(random, row, Some(60)));
        }
        bytes.push(isa::END);
        cases.push(bytes);
    }
    cases
}

/// Every instruction with one cell too few, just enough, one more, and with
/// 62 to 64 cells on the stack. A jump aims at the end behind it.
fn opcodes_at_heights() -> Vec<Vec<u8>> {
    let mut cases = Vec::new();
    for row in &isa::TABLE {
        let mut heights = vec![row.needs, row.needs + 1, 62, 63, 64];
        heights.extend(row.needs.checked_sub(1));
        for height in heights {
            let bytes = at_height(height, &[aimed(row, 2 * height), vec![isa::END]].concat());
            cases.push(bytes);
        }
    }
    cases
}

/// The plainest instruction of the row; a jump at `offset` aims at its next start.
fn aimed(row: &Row, offset: usize) -> Vec<u8> {
    let mut bytes = operands::plain(row);
    if row.is_jump() {
        let next = (offset + bytes.len()) as u16;
        bytes[1..].copy_from_slice(&next.to_be_bytes());
    }
    bytes
}

/// "pick N: 1, N+1, N+2", around the height and around the cells there are.
fn picks() -> Vec<Vec<u8>> {
    let mut cases = Vec::new();
    for height in [0_usize, 1, 2, 3, 4, 8, 31, 32, 62, 63, 64] {
        let mut numbers = vec![0, 1, 62, 63, 64, 65, 127, 128, 255, height, height + 1];
        numbers.extend(height.checked_sub(1));
        for number in numbers {
            let pick = [isa::PICK, number as u8, isa::END];
            cases.push(at_height(height, &pick));
        }
    }
    cases
}

/// ext 0 is refused; every other N of ext, and every N of zero_ext, passes.
fn extensions() -> Vec<Vec<u8>> {
    let mut cases = Vec::new();
    for opcode in [isa::EXT, 0x2a] {
        for number in [0, 1, 2, 7, 8, 31, 32, 33, 62, 63, 64, 65, 128, 255] {
            for height in [0, 1, 64] {
                cases.push(at_height(height, &[opcode, number, isa::END]));
            }
            cases.push(vec![isa::END, opcode, number]);
        }
    }
    cases
}

/// Numbers of variables, registers and sizes, around 64 and 256.
fn numbers() -> Vec<Vec<u8>> {
    let mut cases = Vec::new();
    for opcode in [isa::GETV, isa::SETV, isa::TRACEV, 0x26, 0x30] {
        for number in [
            0, 1, 62, 63, 64, 65, 127, 128, 255, 256, 257, 319, 320, 16_128, 16_384, 32_768, 65_535,
        ] {
            let [high, low] = u16::to_be_bytes(number);
            for height in [0, 1] {
                cases.push(at_height(height, &[opcode, high, low, isa::END]));
            }
            cases.push(vec![isa::END, opcode, high, low]);
        }
    }
    cases
}

/// A jump in the first, a middle or the last place, reached or not, to every
/// offset of the expression and to some behind it.
fn jumps() -> Vec<Vec<u8>> {
    let plans: [(&[u8], &[u8]); 6] = [
        (&[], &[0x23, 0x27, 0x27, 0x29, 0x27]),
        (&[0x22, 0x27], &[0x24, 0x27, 0x27, 0x27, 0x27, 0x27]),
        (&[0x22, 0x00, 0x22, 0x01], &[0x28, 0x27, 0x02]),
        (&[0x22, 0x00, 0x27], &[0x22, 0x01, 0x27]),
        (&[0x22, 0x00, 0x23, 0x27, 0x27], &[]),
        (&[0x27, 0x22, 0x00], &[]),
    ];
    let mut cases = Vec::new();
    for (front, behind) in plans {
        let length = front.len() + 3 + behind.len();
        let near = (0..length + 3).map(|target| target as u16);
        for target in near.chain([255, 256, 1_023, 1_024, 32_768, 65_535]) {
            for opcode in [isa::IF_GOTO, isa::GOTO] {
                let jump = [&[opcode], &target.to_be_bytes()[..]].concat();
                cases.push([front, &jump, behind].concat());
            }
        }
    }
    cases
}

/// Two jumps one behind the other, each right, backward, to itself, into an
/// operand or to the length: the first fault in rising offset is the answer.
fn two_jumps() -> Vec<Vec<u8>> {
    let front = [isa::CONST8, 0, isa::CONST8, 1];
    let behind = [0x23, 0x27, 0x27, isa::END];
    let mut cases = Vec::new();
    for one in [0, 4, 5, 7, 10, 12, 13, 14] {
        for other in [0, 7, 8, 10, 13, 14] {
            let first = [isa::IF_GOTO, 0, one, isa::GOTO, 0, other];
            let second = [isa::GOTO, 0, one, isa::IF_GOTO, 0, other];
            cases.push([&front[..], &first, &behind].concat());
            cases.push([&front[..], &second, &behind].concat());
        }
    }
    cases
}

/// Jumps in an expression of 1,024 bytes, to its last bytes and behind them.
fn far_jumps() -> Vec<Vec<u8>> {
    let mut cases = Vec::new();
    for target in [
        1_020,
        1_021,
        1_022,
        1_023,
        1_024,
        1_025,
        0x03ff_u16.swap_bytes(),
    ] {
        for (opcode, before) in [(isa::GOTO, 0), (isa::IF_GOTO, 1)] {
            let [high, low] = target.to_be_bytes();
            let mut bytes = at_height(before, &[opcode, high, low]);
            bytes.resize(1_021, isa::END);
            bytes.extend([0x23, 0x27, 0x27]);
            cases.push(bytes.clone());
            bytes.truncate(1_021);
            bytes.extend([isa::END; 3]);
            cases.push(bytes);
        }
    }
    cases
}

/// Every opcode in the last place, reached with 0 to 3 cells or not reached: it
/// runs on, stops, or is not looked at by pass 3.
fn near_the_last_byte() -> Vec<Vec<u8>> {
    let mut cases = Vec::new();
    for row in &isa::TABLE {
        for height in 0..=3 {
            cases.push(at_height(height, &aimed(row, 2 * height)));
        }
        cases.push([vec![isa::END], aimed(row, 1)].concat());
        cases.push([vec![isa::GOTO, 0, 4, isa::END], aimed(row, 4)].concat());
    }
    cases
}
