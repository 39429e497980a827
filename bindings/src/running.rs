//! liblilivrez_agent.a: runs of expressions.
use core::error::Error;
use core::fmt;

use crate::library;
use crate::{Refusal, Span};

/// What a run reads.
#[derive(Clone, Copy, Debug)]
pub struct Target<'a> {
    pub registers: &'a [u64],
    pub image: Span<'a>,
    pub work: Span<'a>,
}

/// The trace buffer: a completed run appends its frame and moves `used` on.
#[derive(Debug)]
pub struct TraceBuffer<'a> {
    pub bytes: &'a mut [u8],
    pub used: usize,
}

/// What is on top of the stack at the end.
#[derive(Clone, Copy, Debug, PartialEq, Eq)]
pub enum Value {
    Nothing,
    Top(u64),
    TopAndBeneath(u64, u64),
}

/// A run that completed.
#[derive(Clone, Copy, Debug, PartialEq, Eq)]
pub struct Completed {
    pub value: Value,
    pub steps: u64,
}

/// A run that was refused: the offset of the instruction at fault, and the instructions completed before it.
#[derive(Clone, Copy, Debug, PartialEq, Eq)]
pub struct Stopped {
    pub refusal: Refusal,
    pub offset: u64,
    pub steps: u64,
}

impl fmt::Display for Stopped {
    fn fmt(&self, f: &mut fmt::Formatter) -> fmt::Result {
        let Stopped {
            refusal,
            offset,
            steps,
        } = self;
        let number = refusal.number();
        let plural = if *steps == 1 { "" } else { "s" };
        write!(
            f,
            "refused {number} at offset {offset} after {steps} step{plural}: {refusal}"
        )
    }
}

impl Error for Stopped {}

/// The allowance of document 01 where none is given: enough for every accepted expression.
pub const ALLOWANCE: u64 = 1024;

/// Verifies the expression and runs it: at most `allowance` instructions.
pub fn run(
    expression: &[u8],
    target: &Target,
    variables: &mut [u64; 64],
    buffer: &mut TraceBuffer,
    tracepoint: u16,
    allowance: u64,
) -> Result<Completed, Stopped> {
    let mut out = [0; 6];
    let allowance = Some(allowance);
    let number = library::run(
        expression, target, variables, buffer, tracepoint, allowance, &mut out,
    );
    let [offset, steps, used, cells, top, beneath] = out;
    buffer.used = used as usize;
    match Refusal::of(number) {
        Some(refusal) => Err(Stopped {
            refusal,
            offset,
            steps,
        }),
        None => Ok(Completed {
            value: value_of(cells, top, beneath),
            steps,
        }),
    }
}

/// A condition, or any expression that records nothing: it is run with `ALLOWANCE` on 8 bytes of scratch, room for the
/// trailer of its frame, so that no frame is left and a full trace buffer does not matter. One that records is refused
/// with `BufferFull`; one that sets variables leaves them set.
///
/// ```
/// use lilivrez::{Span, Target, Value};
///
/// let empty = Span { first: 0, bytes: &[] };
/// let target = Target { registers: &[42], image: empty, work: empty };
/// // reg 0, const8 42, equal, end
/// let condition = [0x26, 0x00, 0x00, 0x22, 42, 0x13, 0x27];
/// let completed = lilivrez::evaluate(&condition, &target, &mut [0; 64])?;
/// assert_eq!(completed.value, Value::Top(1));
/// # Ok::<(), lilivrez::Stopped>(())
/// ```
pub fn evaluate(
    expression: &[u8],
    target: &Target,
    variables: &mut [u64; 64],
) -> Result<Completed, Stopped> {
    let mut scratch = [0; 8];
    let mut buffer = TraceBuffer {
        bytes: &mut scratch,
        used: 0,
    };
    run(expression, target, variables, &mut buffer, 0, ALLOWANCE)
}

fn value_of(cells: u64, top: u64, beneath: u64) -> Value {
    match cells {
        0 => Value::Nothing,
        1 => Value::Top(top),
        _ => Value::TopAndBeneath(top, beneath),
    }
}
