//! Single instructions with operands that pass 1 lets through.

use crate::isa::{self, Row};
use crate::random::Random;

/// An instruction of this row. `height` is the height before it, or None where
/// no walk comes; pick takes an N that the height allows. A jump's operand is
/// left 0.
pub fn instruction(random: &mut Random, row: &Row, height: Option<usize>) -> Vec<u8> {
    let mut bytes = vec![row.opcode];
    match row.opcode {
        isa::EXT => {
            let any = random.between(1, 255) as u8;
            bytes.push(random.choose(&[1, 8, 16, 32, 63, 64, 255, any]));
        }
        isa::GETV | isa::SETV | isa::TRACEV => {
            let any = random.below(64) as u8;
            bytes.extend([0, random.choose(&[0, 1, 62, 63, any])]);
        }
        isa::PICK => bytes.push(match height {
            Some(height) => {
                let any = random.below(height);
                random.choose(&[0, height - 1, any]) as u8
            }
            None => random.byte(),
        }),
        isa::IF_GOTO | isa::GOTO => bytes.extend([0, 0]),
        _ => bytes.extend((0..row.operands).map(|_| operand_byte(random))),
    }
    bytes
}

/// A byte, more often than by chance one whose bits are all alike.
fn operand_byte(random: &mut Random) -> u8 {
    let any = random.byte();
    random.choose(&[0x00, 0xff, any, any])
}

/// An instruction of this row with the simplest operands that pass 1 lets through.
pub fn plain(row: &Row) -> Vec<u8> {
    let mut bytes = vec![0; 1 + row.operands];
    bytes[0] = row.opcode;
    if row.opcode == isa::EXT {
        bytes[1] = 1;
    }
    bytes
}
