//! The three passes of document 01, "Verifying". This module knows only isa.

use crate::isa::{self, Instruction, Opcode};

#[derive(Clone, Copy, Debug, PartialEq, Eq)]
pub struct Accepted {
    /// Instructions found by pass 1, the unreached too.
    pub count: usize,
    /// Greatest height before or after a reached instruction.
    pub height: usize,
    /// Length of the longest walk to an end.
    pub walk: usize,
}

#[derive(Clone, Copy, Debug, PartialEq, Eq)]
pub struct Refused {
    pub number: u8,
    pub offset: usize,
}

pub type Outcome = Result<Accepted, Refused>;

/// An outcome as one line of the vectors.
pub fn line(outcome: &Outcome) -> String {
    match outcome {
        Ok(a) => format!("accepted {} {} {}", a.count, a.height, a.walk),
        Err(r) => format!("refused {} {}", r.number, r.offset),
    }
}

pub fn verify(bytes: &[u8]) -> Outcome {
    let instructions = first_pass(bytes)?;
    second_pass(&instructions)?;
    let found = third_pass(&instructions, bytes.len())?;
    Ok(Accepted {
        count: instructions.len(),
        height: found.height,
        walk: found.walk,
    })
}

/// The instructions of an accepted expression that some walk reaches.
pub fn reached(bytes: &[u8]) -> Result<Vec<Instruction>, Refused> {
    let mut instructions = first_pass(bytes)?;
    second_pass(&instructions)?;
    let found = third_pass(&instructions, bytes.len())?;
    instructions.retain(|instruction| found.places[instruction.offset].height.is_some());
    Ok(instructions)
}

fn refuse<T>(number: u8, offset: usize) -> Result<T, Refused> {
    Err(Refused { number, offset })
}

/// Pass 1: from offset 0, instructions follow each other to exactly the end.
/// Refusal 1 comes before it, as the size of an expression is the first thing
/// the document asks of it; its offset is 0.
fn first_pass(bytes: &[u8]) -> Result<Vec<Instruction>, Refused> {
    if bytes.is_empty() || bytes.len() > isa::MOST_BYTES {
        return refuse(1, 0);
    }
    let mut instructions = Vec::new();
    let mut offset = 0;
    while offset < bytes.len() {
        let row = match isa::opcode(bytes[offset]) {
            Opcode::Unknown => return refuse(2, offset),
            Opcode::Unsupported => return refuse(3, offset),
            Opcode::Supported(row) => row,
        };
        let Some(instruction) = isa::instruction(bytes, offset, row) else {
            return refuse(4, offset);
        };
        if operand_is_bad(&instruction) {
            return refuse(5, offset);
        }
        offset = instruction.next();
        instructions.push(instruction);
    }
    Ok(instructions)
}

/// "ext 0 or variable above 63"; zero_ext 0, reg and pick pass (reading A-9).
fn operand_is_bad(instruction: &Instruction) -> bool {
    match instruction.row.opcode {
        isa::EXT => instruction.operand == 0,
        isa::GETV | isa::SETV | isa::TRACEV => instruction.operand >= isa::VARIABLES,
        _ => false,
    }
}

/// Pass 2: every jump, reached or not, must aim at an instruction start greater
/// than its own offset. 6 is tried before 7 at each jump (reading A-1).
fn second_pass(instructions: &[Instruction]) -> Result<(), Refused> {
    for jump in instructions.iter().filter(|i| i.row.is_jump()) {
        let target = jump.target();
        if !instructions.iter().any(|i| i.offset == target) {
            return refuse(6, jump.offset);
        }
        if target <= jump.offset {
            return refuse(7, jump.offset);
        }
    }
    Ok(())
}

/// What pass 3 knows of one offset before it comes to it.
#[derive(Clone, Default)]
struct Place {
    /// The first height brought here; None if no reached instruction leads here.
    height: Option<usize>,
    /// Another height was brought here too.
    differs: bool,
    /// Most starts in a walk that stops just before this one.
    before: usize,
}

impl Place {
    fn arrive(&mut self, height: usize, before: usize) {
        self.differs |= self.height.is_some_and(|first| first != height);
        self.height.get_or_insert(height);
        self.before = self.before.max(before);
    }
}

struct Found {
    places: Vec<Place>,
    height: usize,
    walk: usize,
}

/// Pass 3: heights at each reached start, in rising offset. All jumps are
/// forward here, so every arrival at a start is known when it is looked at.
fn third_pass(instructions: &[Instruction], length: usize) -> Result<Found, Refused> {
    let mut found = Found {
        places: vec![Place::default(); length + 1],
        height: 0,
        walk: 0,
    };
    found.places[0].arrive(0, 0);
    for instruction in instructions {
        let place = found.places[instruction.offset].clone();
        let Some(height) = place.height else {
            continue;
        };
        if place.differs {
            return refuse(8, instruction.offset);
        }
        let after = height_after(instruction, height)?;
        let followers = followers(instruction);
        if followers.contains(&length) {
            return refuse(11, instruction.offset);
        }
        let walk = place.before + 1;
        found.height = found.height.max(height).max(after);
        if followers.is_empty() {
            found.walk = found.walk.max(walk);
        }
        for next in followers {
            found.places[next].arrive(after, walk);
        }
    }
    Ok(found)
}

fn height_after(instruction: &Instruction, height: usize) -> Result<usize, Refused> {
    let (needs, leaves) = instruction.cells();
    if height < needs {
        return refuse(9, instruction.offset);
    }
    let after = height - needs + leaves;
    if after > isa::CELLS {
        return refuse(10, instruction.offset);
    }
    Ok(after)
}

/// What may come after an instruction; the expression's length stands for
/// leaving the bytes.
fn followers(instruction: &Instruction) -> Vec<usize> {
    match instruction.row.opcode {
        isa::END => vec![],
        isa::GOTO => vec![instruction.target()],
        isa::IF_GOTO => vec![instruction.target(), instruction.next()],
        _ => vec![instruction.next()],
    }
}
