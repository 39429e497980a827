//! The instruction table of document 01 ("The instruction table") and the
//! sizes it needs ("Sizes"). This module knows no other.

/// "An expression has 1 to 1,024 bytes."
pub const MOST_BYTES: usize = 1_024;
/// "The stack has 64 cells of 64 bits."
pub const CELLS: usize = 64;
/// "There are 64 trace state variables, 0 to 63."
pub const VARIABLES: u64 = 64;

pub const ADD: u8 = 0x02;
pub const SUB: u8 = 0x03;
pub const MUL: u8 = 0x04;
pub const DIV_SIGNED: u8 = 0x05;
pub const DIV_UNSIGNED: u8 = 0x06;
pub const REM_SIGNED: u8 = 0x07;
pub const REM_UNSIGNED: u8 = 0x08;
pub const LSH: u8 = 0x09;
pub const RSH_SIGNED: u8 = 0x0a;
pub const RSH_UNSIGNED: u8 = 0x0b;
pub const TRACE: u8 = 0x0c;
pub const TRACE_QUICK: u8 = 0x0d;
pub const LOG_NOT: u8 = 0x0e;
pub const BIT_AND: u8 = 0x0f;
pub const BIT_OR: u8 = 0x10;
pub const BIT_XOR: u8 = 0x11;
pub const BIT_NOT: u8 = 0x12;
pub const EQUAL: u8 = 0x13;
pub const LESS_SIGNED: u8 = 0x14;
pub const LESS_UNSIGNED: u8 = 0x15;
pub const EXT: u8 = 0x16;
pub const REF8: u8 = 0x17;
pub const REF16: u8 = 0x18;
pub const REF32: u8 = 0x19;
pub const REF64: u8 = 0x1a;
pub const IF_GOTO: u8 = 0x20;
pub const GOTO: u8 = 0x21;
pub const CONST8: u8 = 0x22;
pub const CONST16: u8 = 0x23;
pub const CONST32: u8 = 0x24;
pub const CONST64: u8 = 0x25;
pub const REG: u8 = 0x26;
pub const END: u8 = 0x27;
pub const DUP: u8 = 0x28;
pub const POP: u8 = 0x29;
pub const ZERO_EXT: u8 = 0x2a;
pub const SWAP: u8 = 0x2b;
pub const GETV: u8 = 0x2c;
pub const SETV: u8 = 0x2d;
pub const TRACEV: u8 = 0x2e;
pub const TRACENZ: u8 = 0x2f;
pub const TRACE16: u8 = 0x30;
pub const PICK: u8 = 0x32;
pub const ROT: u8 = 0x33;

/// "01, 1b–1f and 34 are known but unsupported."
pub const UNSUPPORTED: [u8; 7] = [0x01, 0x1b, 0x1c, 0x1d, 0x1e, 0x1f, 0x34];

/// One row: operand bytes, cells needed, cells left in their place.
/// In the row of pick the two numbers of cells are those for N = 0.
pub struct Row {
    pub opcode: u8,
    pub name: &'static str,
    pub operands: usize,
    pub needs: usize,
    pub leaves: usize,
}

const fn row(opcode: u8, name: &'static str, numbers: [usize; 3]) -> Row {
    let [operands, needs, leaves] = numbers;
    Row {
        opcode,
        name,
        operands,
        needs,
        leaves,
    }
}

pub static TABLE: [Row; 44] = [
    row(ADD, "add", [0, 2, 1]),
    row(SUB, "sub", [0, 2, 1]),
    row(MUL, "mul", [0, 2, 1]),
    row(DIV_SIGNED, "div_signed", [0, 2, 1]),
    row(DIV_UNSIGNED, "div_unsigned", [0, 2, 1]),
    row(REM_SIGNED, "rem_signed", [0, 2, 1]),
    row(REM_UNSIGNED, "rem_unsigned", [0, 2, 1]),
    row(LSH, "lsh", [0, 2, 1]),
    row(RSH_SIGNED, "rsh_signed", [0, 2, 1]),
    row(RSH_UNSIGNED, "rsh_unsigned", [0, 2, 1]),
    row(TRACE, "trace", [0, 2, 0]),
    row(TRACE_QUICK, "trace_quick", [1, 1, 1]),
    row(LOG_NOT, "log_not", [0, 1, 1]),
    row(BIT_AND, "bit_and", [0, 2, 1]),
    row(BIT_OR, "bit_or", [0, 2, 1]),
    row(BIT_XOR, "bit_xor", [0, 2, 1]),
    row(BIT_NOT, "bit_not", [0, 1, 1]),
    row(EQUAL, "equal", [0, 2, 1]),
    row(LESS_SIGNED, "less_signed", [0, 2, 1]),
    row(LESS_UNSIGNED, "less_unsigned", [0, 2, 1]),
    row(EXT, "ext", [1, 1, 1]),
    row(REF8, "ref8", [0, 1, 1]),
    row(REF16, "ref16", [0, 1, 1]),
    row(REF32, "ref32", [0, 1, 1]),
    row(REF64, "ref64", [0, 1, 1]),
    row(IF_GOTO, "if_goto", [2, 1, 0]),
    row(GOTO, "goto", [2, 0, 0]),
    row(CONST8, "const8", [1, 0, 1]),
    row(CONST16, "const16", [2, 0, 1]),
    row(CONST32, "const32", [4, 0, 1]),
    row(CONST64, "const64", [8, 0, 1]),
    row(REG, "reg", [2, 0, 1]),
    row(END, "end", [0, 0, 0]),
    row(DUP, "dup", [0, 1, 2]),
    row(POP, "pop", [0, 1, 0]),
    row(ZERO_EXT, "zero_ext", [1, 1, 1]),
    row(SWAP, "swap", [0, 2, 2]),
    row(GETV, "getv", [2, 0, 1]),
    row(SETV, "setv", [2, 1, 1]),
    row(TRACEV, "tracev", [2, 0, 1]),
    row(TRACENZ, "tracenz", [0, 2, 0]),
    row(TRACE16, "trace16", [2, 1, 1]),
    row(PICK, "pick", [1, 1, 2]),
    row(ROT, "rot", [0, 3, 3]),
];

impl Row {
    pub fn is_jump(&self) -> bool {
        self.opcode == IF_GOTO || self.opcode == GOTO
    }

    /// One of the table's first line, "0,2,1": it leaves one cell for two.
    pub fn is_binary(&self) -> bool {
        (self.operands, self.needs, self.leaves) == (0, 2, 1)
    }
}

pub enum Opcode {
    Supported(&'static Row),
    Unsupported,
    Unknown,
}

/// "Every other byte, 00 and 31 included, is unknown."
pub fn opcode(byte: u8) -> Opcode {
    match TABLE.iter().find(|row| row.opcode == byte) {
        Some(row) => Opcode::Supported(row),
        None if UNSUPPORTED.contains(&byte) => Opcode::Unsupported,
        None => Opcode::Unknown,
    }
}

pub struct Instruction {
    pub offset: usize,
    pub row: &'static Row,
    /// The operand bytes, most significant first; 0 if there are none.
    pub operand: u64,
}

/// The instruction with this row at `offset`; None if its operands are cut short.
pub fn instruction(bytes: &[u8], offset: usize, row: &'static Row) -> Option<Instruction> {
    let operands = bytes.get(offset + 1..offset + 1 + row.operands)?;
    let operand = operands
        .iter()
        .fold(0, |number, byte| number << 8 | u64::from(*byte));
    Some(Instruction {
        offset,
        row,
        operand,
    })
}

/// The instruction at a start of an expression for which pass 1 holds.
pub fn at_start(bytes: &[u8], offset: usize) -> Instruction {
    match opcode(bytes[offset]) {
        Opcode::Supported(row) => instruction(bytes, offset, row).expect("operands are there"),
        _ => panic!("not an instruction start"),
    }
}

impl Instruction {
    pub fn next(&self) -> usize {
        self.offset + 1 + self.row.operands
    }

    /// Where a jump aims; of no meaning for other instructions.
    pub fn target(&self) -> usize {
        self.operand as usize
    }

    /// Cells needed and cells left in their place: N + 1 and N + 2 for pick N.
    pub fn cells(&self) -> (usize, usize) {
        let more = match self.row.opcode {
            PICK => self.operand as usize,
            _ => 0,
        };
        (self.row.needs + more, self.row.leaves + more)
    }
}

#[cfg(test)]
mod tests {
    use super::*;
    use std::collections::BTreeMap;

    /// The document's table again, group by group as it is printed there.
    const GROUPS: [(&[u8], [usize; 3]); 17] = [
        (
            &[
                0x02, 0x03, 0x04, 0x05, 0x06, 0x07, 0x08, 0x09, 0x0a, 0x0b, 0x0f, 0x10, 0x11, 0x13,
                0x14, 0x15,
            ],
            [0, 2, 1],
        ),
        (&[0x0c, 0x2f], [0, 2, 0]),
        (&[0x0e, 0x12, 0x17, 0x18, 0x19, 0x1a], [0, 1, 1]),
        (&[0x0d, 0x16, 0x2a], [1, 1, 1]),
        (&[0x30, 0x2d], [2, 1, 1]),
        (&[0x20], [2, 1, 0]),
        (&[0x21], [2, 0, 0]),
        (&[0x22], [1, 0, 1]),
        (&[0x23], [2, 0, 1]),
        (&[0x24], [4, 0, 1]),
        (&[0x25], [8, 0, 1]),
        (&[0x26, 0x2c, 0x2e], [2, 0, 1]),
        (&[0x27], [0, 0, 0]),
        (&[0x28], [0, 1, 2]),
        (&[0x29], [0, 1, 0]),
        (&[0x2b], [0, 2, 2]),
        (&[0x33], [0, 3, 3]),
    ];

    #[test]
    fn the_rows_are_the_documents() {
        let mut expected = BTreeMap::new();
        for (opcodes, numbers) in GROUPS {
            expected.extend(opcodes.iter().map(|opcode| (*opcode, numbers)));
        }
        expected.insert(PICK, [1, 1, 2]);
        assert_eq!(expected.len(), 44);
        let rows = TABLE
            .iter()
            .map(|row| (row.opcode, [row.operands, row.needs, row.leaves]));
        assert_eq!(rows.collect::<BTreeMap<_, _>>(), expected);
    }

    #[test]
    fn the_256_bytes_divide_into_44_supported_7_unsupported_205_unknown() {
        let mut found = [0; 3];
        for byte in 0..=255 {
            found[match opcode(byte) {
                Opcode::Supported(_) => 0,
                Opcode::Unsupported => 1,
                Opcode::Unknown => 2,
            }] += 1;
        }
        assert_eq!(found, [44, 7, 205]);
        assert!(matches!(opcode(0x00), Opcode::Unknown));
        assert!(matches!(opcode(0x31), Opcode::Unknown));
        assert!(matches!(opcode(0x34), Opcode::Unsupported));
    }

    #[test]
    fn pick_needs_and_leaves_more_as_n_grows() {
        let Opcode::Supported(row) = opcode(PICK) else {
            panic!("pick is supported");
        };
        for n in [0, 1, 63, 255] {
            let pick = instruction(&[PICK, n], 0, row).unwrap();
            let n = usize::from(n);
            assert_eq!(pick.cells(), (n + 1, n + 2));
        }
    }
}
