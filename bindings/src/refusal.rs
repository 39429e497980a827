//! The refusals of all functions: lilivrez.h.
use core::error::Error;
use core::fmt;

/// Why something was refused, in the order of the numbers of document 01, which begin at 1.
#[derive(Clone, Copy, Debug, PartialEq, Eq)]
pub enum Refusal {
    ExpressionSize,
    OpcodeUnknown,
    OpcodeUnsupported,
    OperandsCut,
    OperandBad,
    JumpNoStart,
    JumpNotForward,
    HeightsDiffer,
    CellsTooFew,
    CellsTooMany,
    RunsOff,
    SpanPastEnd,
    SpansShare,
    RegistersMany,
    BufferBad,
    AllowanceSpent,
    DivisorZero,
    RegisterNotLent,
    RangeNotReadable,
    RecordSize,
    BufferFull,
    TrailerBroken,
    RecordBroken,
    NoSuchFrame,
    NoSuchRecord,
    /// A number that has no name here: the archive is newer than these wrappers. It is a refusal all the same.
    Unknown(u32),
}

use Refusal::*;

/// Each refusal, in the order of its number.
const REFUSALS: [Refusal; 25] = [
    ExpressionSize,
    OpcodeUnknown,
    OpcodeUnsupported,
    OperandsCut,
    OperandBad,
    JumpNoStart,
    JumpNotForward,
    HeightsDiffer,
    CellsTooFew,
    CellsTooMany,
    RunsOff,
    SpanPastEnd,
    SpansShare,
    RegistersMany,
    BufferBad,
    AllowanceSpent,
    DivisorZero,
    RegisterNotLent,
    RangeNotReadable,
    RecordSize,
    BufferFull,
    TrailerBroken,
    RecordBroken,
    NoSuchFrame,
    NoSuchRecord,
];

/// Words for a person, in the same order.
const WORDS: [&str; 25] = [
    "the expression has no bytes, or more than 1024",
    "unknown instruction",
    "this instruction is not supported",
    "the expression ends inside this instruction",
    "ext 0, or a variable number above 63",
    "the jump is not to the start of an instruction",
    "the jump is not forward",
    "paths meet here with unequal stack heights",
    "too few cells on the stack for this instruction",
    "more than 64 cells on the stack",
    "the bytes end before an end instruction",
    "a memory span reaches past the last address",
    "the two memory spans overlap",
    "more than 256 registers",
    "trace buffer too large, or used past its end",
    "the allowed number of steps is used up",
    "division by zero",
    "no register with this number",
    "the memory range cannot be read as a whole",
    "more than 65535 bytes to record at once",
    "too little room left in the trace buffer",
    "the trailer before this offset is broken",
    "a record of the frame is broken",
    "there is no such frame",
    "there is no such record in the frame",
];

impl Refusal {
    /// The number of document 01.
    pub fn number(self) -> u32 {
        match self {
            Unknown(number) => number,
            _ => 1 + self.place().unwrap_or(0) as u32,
        }
    }

    /// The refusal that a function returned, or none where it returned 0.
    ///
    /// ```
    /// use lilivrez::Refusal;
    ///
    /// assert_eq!(Refusal::of(0), None);
    /// assert_eq!(Refusal::of(17), Some(Refusal::DivisorZero));
    /// assert_eq!(Refusal::of(26), Some(Refusal::Unknown(26)));
    /// ```
    pub fn of(number: u32) -> Option<Refusal> {
        let place = (number as usize).checked_sub(1)?;
        Some(REFUSALS.get(place).copied().unwrap_or(Unknown(number)))
    }

    fn place(self) -> Option<usize> {
        REFUSALS.iter().position(|&refusal| refusal == self)
    }
}

impl fmt::Display for Refusal {
    fn fmt(&self, f: &mut fmt::Formatter) -> fmt::Result {
        let words = self
            .place()
            .map_or("unknown refusal number", |at| WORDS[at]);
        f.write_str(words)
    }
}

impl Error for Refusal {}

/// A refusal, and the offset that it tells.
#[derive(Clone, Copy, Debug, PartialEq, Eq)]
pub struct Refused {
    pub refusal: Refusal,
    pub offset: u64,
}

impl fmt::Display for Refused {
    fn fmt(&self, f: &mut fmt::Formatter) -> fmt::Result {
        let Refused { refusal, offset } = self;
        let number = refusal.number();
        write!(f, "refused {number} at offset {offset}: {refusal}")
    }
}

impl Error for Refused {}
