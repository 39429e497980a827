//! Expressions that are accepted and that mostly complete on their scene: short
//! phrases one behind the other, each with the cells, the addresses and the
//! sizes it needs.

use super::scene;
use crate::generate::operands;
use crate::generate::program::{Item, Program, Target};
use crate::isa::{self, Row};
use crate::random::Random;
use crate::runs::Case;

pub struct Writer<'a> {
    pub random: &'a mut Random,
    pub scene: &'a Case,
    program: Program,
    pub height: usize,
    /// Variables that were set so far.
    set: Vec<u8>,
    /// No phrase is begun at a height above this.
    most: usize,
}

/// Dividers refuse 0.
pub const DIVIDERS: [u8; 4] = [
    isa::DIV_SIGNED,
    isa::DIV_UNSIGNED,
    isa::REM_SIGNED,
    isa::REM_UNSIGNED,
];

impl Writer<'_> {
    pub fn new<'a>(random: &'a mut Random, scene: &'a Case) -> Writer<'a> {
        let most = random.choose(&[3, 4, 6, 10]);
        Writer {
            random,
            scene,
            program: Program::default(),
            height: 0,
            set: Vec::new(),
            most,
        }
    }

    /// Writes one instruction that is no jump.
    pub fn put(&mut self, bytes: &[u8]) {
        let (needs, leaves) = isa::at_start(bytes, 0).cells();
        self.program.push(bytes.to_vec(), Some(self.height));
        self.height = self.height - needs + leaves;
    }

    fn here(&self) -> usize {
        self.program.items.len()
    }

    /// Writes a jump and gives its place, for `aim`.
    fn jump(&mut self, opcode: u8) -> usize {
        let unknown = 0;
        let jump = Item::jump(opcode, unknown, Some(self.height));
        self.program.items.push(jump);
        if opcode == isa::IF_GOTO {
            self.height -= 1;
        }
        self.here() - 1
    }

    /// Lets a jump aim at what is written next.
    fn aim(&mut self, jump: usize) {
        let target = Target {
            item: self.here(),
            away: 0,
        };
        self.program.items[jump].target = Some(target);
    }

    pub fn finish(self) -> Vec<u8> {
        self.program().bytes()
    }

    /// The expression; the answer has 0, 1 or more cells, one about as often as
    /// another.
    pub fn program(mut self) -> Program {
        match self.random.below(3) {
            0 => self.level(0),
            1 => self.level(1),
            _ => self.level(self.height.max(2)),
        }
        self.put(&[isa::END]);
        self.program
    }

    /// Brings the height to this.
    fn level(&mut self, height: usize) {
        while self.height > height {
            self.put(&[isa::POP]);
        }
        while self.height < height {
            self.small();
        }
    }

    /// Pushes a small constant.
    fn small(&mut self) {
        let byte = self.random.byte();
        self.put(&[isa::CONST8, byte]);
    }

    /// Pushes this number: by a register or a variable that holds it, or as a
    /// constant, mostly of the least number of bytes.
    pub fn number(&mut self, value: u64) {
        let registers = self.scene.registers.values();
        let register = registers.iter().position(|held| *held == value);
        let variables = &mut self.scene.variables.iter();
        let variable = variables.find(|(_, held)| **held == value);
        let by = self.random.below(3);
        match (register, variable) {
            (Some(number), _) if by == 0 => self.put(&[isa::REG, 0, number as u8]),
            (_, Some((number, _))) if by == 1 && !self.set.contains(&(*number as u8)) => {
                self.put(&[isa::GETV, 0, *number as u8])
            }
            _ => self.constant(value),
        }
    }

    pub fn constant(&mut self, value: u64) {
        let wider = self.random.choose(&[0, 0, 0, 0, 0, 1, 2]);
        let least = [8, 16, 32]
            .iter()
            .filter(|bits| value >> **bits > 0)
            .count();
        let bytes = value.to_be_bytes();
        match (least + wider).min(3) {
            0 => self.put(&[&[isa::CONST8], &bytes[7..]].concat()),
            1 => self.put(&[&[isa::CONST16], &bytes[6..]].concat()),
            2 => self.put(&[&[isa::CONST32], &bytes[4..]].concat()),
            _ => self.put(&[&[isa::CONST64], &bytes[..]].concat()),
        }
    }

    pub fn phrases(&mut self, count: usize) {
        (0..count).for_each(|_| self.phrase(1));
    }

    /// One phrase; `depth` is how many branches may lie in each other.
    fn phrase(&mut self, depth: usize) {
        if self.height > self.most {
            return self.put(&[isa::POP]);
        }
        match self.random.below(32) {
            0..=1 => self.anything(),
            2 => self.lent(),
            3..=5 => self.variable(),
            6..=7 => self.unary(),
            8..=12 => self.binary(),
            13..=15 => self.divided(),
            16..=19 => self.shuffle(),
            20..=22 => self.reference(),
            23..=27 => self.recorded(),
            28 => self.nothing_recorded(),
            29 => self.over(),
            30 if depth > 0 => self.diamond(depth - 1),
            31 if depth > 0 => self.early_end(),
            _ => self.anything(),
        }
    }

    /// A constant of any length.
    fn anything(&mut self) {
        let opcodes = [isa::CONST8, isa::CONST16, isa::CONST32, isa::CONST64];
        let opcode = self.random.choose(&opcodes);
        let row = row(opcode);
        let bytes = operands::instruction(self.random, row, Some(self.height));
        self.put(&bytes);
    }

    /// A register that is lent, if any is.
    fn lent(&mut self) {
        let count = self.scene.registers.values().len();
        if count == 0 || count > 256 {
            return self.small();
        }
        let any = self.random.below(count);
        let number = self.random.choose(&[0, count - 1, any]);
        self.put(&[isa::REG, 0, number as u8]);
    }

    /// getv, setv or tracev, often of a variable that was set or is given.
    pub fn variable(&mut self) {
        let mut numbers: Vec<u8> = self.scene.variables.keys().map(|n| *n as u8).collect();
        numbers.extend(&self.set);
        numbers.extend([0, 63, self.random.below(64) as u8]);
        let number = self.random.choose(&numbers);
        match self.random.below(3) {
            0 if self.height > 0 => self.set_variable(number),
            0 | 1 => self.put(&[isa::TRACEV, 0, number]),
            _ => self.put(&[isa::GETV, 0, number]),
        }
    }

    pub fn set_variable(&mut self, number: u8) {
        self.put(&[isa::SETV, 0, number]);
        self.set.push(number);
    }

    fn unary(&mut self) {
        self.level(self.height.max(1));
        let opcodes = [isa::LOG_NOT, isa::BIT_NOT, isa::EXT, isa::ZERO_EXT];
        let opcode = self.random.choose(&opcodes);
        let bytes = operands::instruction(self.random, row(opcode), Some(self.height));
        self.put(&bytes);
    }

    /// An operator of two cells that refuses nothing.
    fn binary(&mut self) {
        self.level(self.height.max(2));
        let plain = |row: &&Row| row.is_binary() && !DIVIDERS.contains(&row.opcode);
        let rows: Vec<&Row> = isa::TABLE.iter().filter(plain).collect();
        let opcode = self.random.choose(&rows).opcode;
        self.put(&[opcode]);
    }

    /// A divider whose divisor is not 0.
    fn divided(&mut self) {
        self.level(self.height.max(1));
        let any = self.random.number() >> self.random.below(64);
        let divisor = self.random.choose(&[1, 2, 3, 7, any.max(1), u64::MAX]);
        self.number(divisor);
        let divider = self.random.choose(&DIVIDERS);
        self.put(&[divider]);
    }

    fn shuffle(&mut self) {
        let opcodes = [isa::DUP, isa::POP, isa::SWAP, isa::ROT, isa::ROT, isa::PICK];
        let row = row(self.random.choose(&opcodes));
        self.level(self.height.max(row.needs));
        let bytes = operands::instruction(self.random, row, Some(self.height));
        self.put(&bytes);
    }

    fn reference(&mut self) {
        let place = self.random.below(4);
        match scene::good_address(self.random, self.scene, 1 << place) {
            None => self.small(),
            Some(address) => {
                self.number(address);
                self.put(&[isa::REF8 + place as u8]);
            }
        }
    }

    /// One of the four that record memory, of a size that is readable.
    pub fn recorded(&mut self) {
        let any = self.random.between(1, 20);
        let size = self.random.choose(&[1, 2, 3, any, any, 255, 256]);
        let opcodes = [isa::TRACE, isa::TRACE_QUICK, isa::TRACE16, isa::TRACENZ];
        let opcode = self.random.choose(&opcodes);
        match scene::good_address(self.random, self.scene, size) {
            None => self.variable(),
            Some(address) => self.trace(opcode, address, size as u64),
        }
    }

    /// A trace instruction with its address and size; trace_quick and trace16
    /// are used only where the size fits them.
    pub fn trace(&mut self, opcode: u8, address: u64, size: u64) {
        self.number(address);
        let [high, low] = (size as u16).to_be_bytes();
        match opcode {
            isa::TRACE_QUICK if size < 256 => self.put(&[isa::TRACE_QUICK, low]),
            isa::TRACE_QUICK | isa::TRACE16 if size < 65_536 => {
                self.put(&[isa::TRACE16, high, low])
            }
            isa::TRACENZ => {
                self.number(size);
                self.put(&[isa::TRACENZ]);
            }
            _ => {
                self.number(size);
                self.put(&[isa::TRACE]);
            }
        }
    }

    /// A size of 0, mostly at an address that is not readable.
    fn nothing_recorded(&mut self) {
        let opcodes = [isa::TRACE, isa::TRACE_QUICK, isa::TRACE16, isa::TRACENZ];
        let opcode = self.random.choose(&opcodes);
        let address = scene::bad_address(self.random, self.scene, 1);
        self.trace(opcode, address, 0);
    }

    /// A goto over instructions that no walk reaches.
    fn over(&mut self) {
        let jump = self.jump(isa::GOTO);
        let rows: Vec<&Row> = isa::TABLE.iter().filter(|row| !row.is_jump()).collect();
        for _ in 0..self.random.below(3) {
            let row = self.random.choose(&rows);
            let bytes = operands::instruction(self.random, row, None);
            self.program.push(bytes, None);
        }
        self.aim(jump);
    }

    /// Pushes what an if_goto takes; it is not 0 so often in four.
    fn condition(&mut self, part: usize) {
        let any = self.random.number() >> self.random.below(64);
        let high = 1 << self.random.between(8, 63);
        let holds = self.random.chance(part, 4);
        let value = match holds {
            true => self.random.choose(&[1, u64::MAX, high, high, any.max(1)]),
            false => 0,
        };
        if self.random.chance(1, 4) {
            self.number(u64::from(!holds));
            return self.put(&[isa::LOG_NOT]);
        }
        self.number(value);
    }

    /// An if_goto with an arm for either way; the arms end at one height.
    fn diamond(&mut self, depth: usize) {
        self.condition(2);
        let over = self.jump(isa::IF_GOTO);
        let before = self.height;
        (0..self.random.below(3)).for_each(|_| self.phrase(depth));
        let after = self.height;
        let out = self.jump(isa::GOTO);
        self.aim(over);
        self.height = before;
        (0..self.random.below(3)).for_each(|_| self.phrase(depth));
        self.level(after);
        self.aim(out);
    }

    /// An end that an if_goto mostly passes over.
    fn early_end(&mut self) {
        self.condition(3);
        let over = self.jump(isa::IF_GOTO);
        let before = self.height;
        (0..self.random.below(2)).for_each(|_| self.phrase(0));
        self.put(&[isa::END]);
        self.height = before;
        self.aim(over);
    }
}

fn row(opcode: u8) -> &'static Row {
    let mut rows = isa::TABLE.iter();
    rows.find(|row| row.opcode == opcode)
        .expect("the opcode is in the table")
}
