//! Bytes and instructions without a plan.

use crate::isa;
use crate::random::Random;

/// Every byte alone, and every byte followed by end.
pub fn single_bytes() -> Vec<Vec<u8>> {
    let alone = (0..=255).map(|byte| vec![byte]);
    let with_end = (0..=255).map(|byte| vec![byte, isa::END]);
    alone.chain(with_end).collect()
}

/// Every opcode with its operands cut short by every amount, first in the
/// expression, after a const8 and after an end.
pub fn cut_short(random: &mut Random) -> Vec<Vec<u8>> {
    let before: [&[u8]; 3] = [&[], &[isa::CONST8, 0], &[isa::END]];
    let mut cases = Vec::new();
    for row in &isa::TABLE {
        for kept in 0..row.operands {
            for front in before {
                for filler in [0x00, 0xff, random.byte()] {
                    let mut bytes = front.to_vec();
                    bytes.push(row.opcode);
                    bytes.extend(vec![filler; kept]);
                    cases.push(bytes);
                }
            }
        }
    }
    cases
}

pub fn random_bytes(random: &mut Random) -> Vec<u8> {
    let count = random.between(2, 24);
    // Half of the cases hold only small bytes, most of which are opcodes.
    let mask = random.choose(&[0xff, 0x3f]);
    let bytes = random.bytes(count);
    bytes.iter().map(|byte| byte & mask).collect()
}

/// Instructions of the table in any order, with small operands, and mostly an
/// end behind them. Three in four begin with cells for the others to take.
pub fn random_opcodes(random: &mut Random) -> Vec<u8> {
    let mut bytes = Vec::new();
    for _ in 0..random.choose(&[0, 2, 5, 10]) {
        bytes.extend([isa::CONST8, random.byte()]);
    }
    for _ in 0..random.between(1, 12) {
        let row = &isa::TABLE[random.below(isa::TABLE.len())];
        bytes.push(row.opcode);
        let most = random.choose(&[8, 32, 64, 70, 256]);
        for left in (0..row.operands).rev() {
            let low = random.below(most) as u8;
            bytes.push(if left == 0 { low } else { 0 });
        }
    }
    if random.chance(3, 4) {
        bytes.push(isa::END);
    }
    bytes
}
