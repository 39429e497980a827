//! The machine of document 01, "Running", step by step: what it is fed, what
//! it holds, what one move does, and what a run returns. Meanings come from the
//! GDB manual's "Bytecode Descriptions" and from "Meanings the manual leaves
//! open".

use crate::frames::{self, Record, Trailer};
use crate::isa::{self, Instruction};
use crate::memory::{Memory, Search, Span};
use crate::verify::{self, Refused};
use crate::words;

/// "Registers: 0 to 256 lent numbers."
const MOST_REGISTERS: usize = 256;
/// "An entry without an allowance uses 1,024."
const ALLOWANCE: u64 = 1_024;
/// "record size above 65,535".
const MOST_RECORDED: u64 = 65_535;

const TOO_MANY_REGISTERS: u8 = 14;
const ALLOWANCE_SPENT: u8 = 16;
const NO_REGISTER: u8 = 18;
const NOT_READABLE: u8 = 19;
const TOO_LONG: u8 = 20;
pub const NO_ROOM: u8 = 21;

pub type Variables = [u64; isa::VARIABLES as usize];

/// "Demand 3's machine is fed what the run is given".
#[derive(Clone, Debug)]
pub struct Given {
    pub expression: Vec<u8>,
    pub registers: Vec<u64>,
    pub variables: Variables,
    pub spans: [Span; 2],
    pub tracepoint: u16,
    pub buffer: Vec<u8>,
    pub used: u64,
    /// None is the entry without an allowance.
    pub allowance: Option<u64>,
}

/// "At end, the answer is: no value (empty stack), the top (one cell), or the
/// top and the cell beneath (two or more)."
#[derive(Clone, Copy, Debug, PartialEq, Eq)]
pub enum Answer {
    None,
    Top(u64),
    Two { top: u64, beneath: u64 },
}

#[derive(Clone, Debug, PartialEq, Eq)]
pub struct Outcome {
    /// Completed, or refused.
    pub end: Result<Answer, Refused>,
    pub steps: u64,
    /// The records made; of a refused run, those completed before the fault.
    pub records: Vec<Record>,
    /// The offset of the instruction of each step.
    pub walk: Vec<usize>,
    /// What the run returns and leaves behind.
    pub variables: Variables,
    pub buffer: Vec<u8>,
    pub used: u64,
}

/// "The runner verifies first, then checks 12 to 15, then steps."
pub fn run(given: &Given) -> Outcome {
    let memory = match before_stepping(given) {
        Ok(memory) => memory,
        Err(refused) => return never_stepped(given, refused),
    };
    let mut machine = Machine {
        given,
        memory,
        offset: 0,
        stack: Vec::new(),
        variables: given.variables,
        records: Vec::new(),
        steps: 0,
        walk: Vec::new(),
    };
    loop {
        let offset = machine.offset;
        match machine.step() {
            Ok(Goes::Stop) => return machine.completed(),
            Ok(Goes::To(_)) => (),
            Err(number) => return machine.refused(Refused { number, offset }),
        }
    }
}

/// "A refusal tried before stepping (here 1 to 15)", in rising number (reading
/// A-12); the offset is 0 for 12 to 15.
fn before_stepping(given: &Given) -> Result<Memory<'_>, Refused> {
    verify::verify(&given.expression)?;
    let refuse = |number| Refused { number, offset: 0 };
    let memory = Memory::new(&given.spans).map_err(refuse)?;
    if given.registers.len() > MOST_REGISTERS {
        return Err(refuse(TOO_MANY_REGISTERS));
    }
    frames::used_within(&given.buffer, given.used).map_err(refuse)?;
    Ok(memory)
}

/// It "ends it, with 0 steps and no records".
fn never_stepped(given: &Given, refused: Refused) -> Outcome {
    Outcome {
        end: Err(refused),
        steps: 0,
        records: Vec::new(),
        walk: Vec::new(),
        variables: given.variables,
        buffer: given.buffer.clone(),
        used: given.used,
    }
}

/// Where a move leads.
#[derive(Clone, Copy)]
enum Goes {
    To(usize),
    Stop,
}

/// What an instruction does when nothing refuses it.
struct Effect {
    /// The cells left in the place of the cells needed.
    left: Vec<u64>,
    /// A variable and its new value.
    set: Option<(usize, u64)>,
    record: Option<Record>,
    goes: Goes,
}

/// "it holds an offset, a stack, the variables, the records made and the steps
/// done"; the walk is kept beside them.
struct Machine<'a> {
    given: &'a Given,
    memory: Memory<'a>,
    offset: usize,
    stack: Vec<u64>,
    variables: Variables,
    records: Vec<Record>,
    steps: u64,
    walk: Vec<usize>,
}

impl Machine<'_> {
    /// One move, or the number of the refusal that stops the machine; then
    /// "nothing it holds changes".
    fn step(&mut self) -> Result<Goes, u8> {
        if self.steps == self.given.allowance.unwrap_or(ALLOWANCE) {
            return Err(ALLOWANCE_SPENT);
        }
        let instruction = isa::at_start(&self.given.expression, self.offset);
        let (needs, _) = instruction.cells();
        let kept = self.stack.len() - needs;
        let effect = self.effect(&instruction, &self.stack[kept..])?;
        if let Some(record) = &effect.record {
            self.room_for(frames::encode(record).len())?;
        }
        self.stack.truncate(kept);
        self.stack.extend(effect.left);
        if let Some((number, value)) = effect.set {
            self.variables[number] = value;
        }
        self.records.extend(effect.record);
        self.steps += 1;
        self.walk.push(self.offset);
        if let Goes::To(offset) = effect.goes {
            self.offset = offset;
        }
        Ok(effect.goes)
    }

    /// "Free are the buffer's bytes past the used length and the records made."
    fn free(&self) -> usize {
        let past_used = self.given.buffer.len() - self.given.used as usize;
        past_used - self.records_length()
    }

    fn records_length(&self) -> usize {
        let lengths = self.records.iter().map(|r| frames::encode(r).len());
        lengths.sum()
    }

    /// "record, or trailer at end, longer than the free bytes": equal fits
    /// (reading A-16).
    fn room_for(&self, length: usize) -> Result<(), u8> {
        if length > self.free() {
            return Err(NO_ROOM);
        }
        Ok(())
    }

    /// What the instruction does with the cells it needs, the top last.
    fn effect(&self, instruction: &Instruction, cells: &[u64]) -> Result<Effect, u8> {
        let mut effect = Effect {
            left: Vec::new(),
            set: None,
            record: None,
            goes: Goes::To(instruction.next()),
        };
        let number = instruction.operand as usize;
        match (instruction.row.opcode, cells) {
            (isa::GOTO, _) => effect.goes = Goes::To(instruction.target()),
            (isa::IF_GOTO, [0]) => (),
            (isa::IF_GOTO, _) => effect.goes = Goes::To(instruction.target()),
            (isa::END, _) => {
                self.room_for(self.trailer().len())?;
                effect.goes = Goes::Stop;
            }
            // "The stack is unchanged", so that the cell is left.
            (isa::SETV, [value]) => {
                effect.set = Some((number, *value));
                effect.left = vec![*value];
            }
            // "tracev records and pushes the value".
            (isa::TRACEV, _) => {
                let value = self.variables[number];
                let number = number as u32;
                effect.record = Some(Record::Variable { number, value });
                effect.left = vec![value];
            }
            (isa::TRACE, [address, size]) => effect.record = self.trace(*address, *size)?,
            (isa::TRACENZ, [address, size]) => effect.record = self.tracenz(*address, *size)?,
            (isa::TRACE_QUICK | isa::TRACE16, [address]) => {
                effect.record = self.trace(*address, instruction.operand)?;
                effect.left = vec![*address];
            }
            _ => effect.left = self.left(instruction, cells)?,
        }
        Ok(effect)
    }

    /// The cells that an instruction leaves which does nothing else.
    fn left(&self, instruction: &Instruction, cells: &[u64]) -> Result<Vec<u64>, u8> {
        let opcode = instruction.row.opcode;
        let operand = instruction.operand;
        Ok(match (opcode, cells) {
            (_, [a, b]) if instruction.row.is_binary() => vec![words::binary(opcode, *a, *b)?],
            (isa::LOG_NOT, [a]) => vec![words::log_not(*a)],
            (isa::BIT_NOT, [a]) => vec![words::bit_not(*a)],
            (isa::EXT, [a]) => vec![words::ext(operand as u8, *a)],
            (isa::ZERO_EXT, [a]) => vec![words::zero_ext(operand as u8, *a)],
            (isa::REF8, [address]) => vec![self.reference(*address, 1)?],
            (isa::REF16, [address]) => vec![self.reference(*address, 2)?],
            (isa::REF32, [address]) => vec![self.reference(*address, 4)?],
            (isa::REF64, [address]) => vec![self.reference(*address, 8)?],
            // "without sign extension".
            (isa::CONST8 | isa::CONST16 | isa::CONST32 | isa::CONST64, _) => vec![operand],
            (isa::REG, _) => vec![self.register(operand as usize)?],
            (isa::GETV, _) => vec![self.variables[operand as usize]],
            (isa::DUP, [a]) => vec![*a, *a],
            (isa::POP, _) => vec![],
            (isa::SWAP, [a, b]) => vec![*b, *a],
            // "rot takes a b c to c a b, with b on top."
            (isa::ROT, [a, b, c]) => vec![*c, *a, *b],
            // The cell it copies is the lowest of those it needs.
            (isa::PICK, [item, ..]) => [cells, &[*item]].concat(),
            _ => panic!("{opcode:02x} has other cells or does more"),
        })
    }

    /// "ref reads little-endian."
    fn reference(&self, address: u64, count: u64) -> Result<u64, u8> {
        let bytes = self.memory.fetch(address, count)?;
        let most_first = bytes.iter().rev();
        Ok(most_first.fold(0, |number, byte| number << 8 | u64::from(*byte)))
    }

    fn register(&self, number: usize) -> Result<u64, u8> {
        self.given.registers.get(number).copied().ok_or(NO_REGISTER)
    }

    /// trace, trace_quick and trace16: "A size of 0 makes no record, at any
    /// address"; "the order is 20, 19, 21".
    fn trace(&self, address: u64, size: u64) -> Result<Option<Record>, u8> {
        if size == 0 {
            return Ok(None);
        }
        if size > MOST_RECORDED {
            return Err(TOO_LONG);
        }
        let bytes = self.memory.fetch(address, size)?.to_vec();
        Ok(Some(Record::Memory { address, bytes }))
    }

    /// "up to and with the first zero byte, or SIZE bytes if none comes sooner.
    /// Only those bytes need be readable"; "20 is given exactly if SIZE exceeds
    /// 65,535 and the first 65,535 bytes are readable and none is zero."
    fn tracenz(&self, address: u64, size: u64) -> Result<Option<Record>, u8> {
        let looked = match self.memory.search(address, size.min(MOST_RECORDED)) {
            Search::Size(_) if size > MOST_RECORDED => return Err(TOO_LONG),
            Search::End(_) => return Err(NOT_READABLE),
            Search::Zero(looked) | Search::Size(looked) => looked,
        };
        self.trace(address, looked)
    }

    fn trailer(&self) -> Vec<u8> {
        frames::encode_trailer(Trailer {
            tracepoint: self.given.tracepoint,
            length: self.records_length() as u32,
        })
    }

    /// "At end, the answer is".
    fn answer(&self) -> Answer {
        match self.stack[..] {
            [] => Answer::None,
            [top] => Answer::Top(top),
            [.., beneath, top] => Answer::Two { top, beneath },
        }
    }

    /// "from the old used length on the buffer holds its records and then the
    /// trailer, every other byte is unchanged, and the used length grows by
    /// exactly what was written."
    fn completed(self) -> Outcome {
        let records = self.records.iter().map(frames::encode);
        let written = records.chain([self.trailer()]).collect::<Vec<_>>().concat();
        Outcome {
            end: Ok(self.answer()),
            variables: self.variables,
            buffer: self.written(&written),
            used: self.given.used + written.len() as u64,
            steps: self.steps,
            records: self.records,
            walk: self.walk,
        }
    }

    /// "Variables and used length are as given"; the buffer "holds, from the
    /// old used length on, the records completed before the fault, and every
    /// other byte is unchanged."
    fn refused(self, refused: Refused) -> Outcome {
        let records = self.records.iter().map(frames::encode);
        let written = records.collect::<Vec<_>>().concat();
        Outcome {
            end: Err(refused),
            variables: self.given.variables,
            buffer: self.written(&written),
            used: self.given.used,
            steps: self.steps,
            records: self.records,
            walk: self.walk,
        }
    }

    /// The buffer with these bytes from the old used length on.
    fn written(&self, bytes: &[u8]) -> Vec<u8> {
        let mut buffer = self.given.buffer.clone();
        let free = &mut buffer[self.given.used as usize..];
        frames::write(free, bytes).expect("room was found for each record and the trailer");
        buffer
    }
}

#[cfg(test)]
mod tests {
    use super::*;
    use crate::generate;
    use crate::generate::runs::any;
    use crate::random::Random;
    use crate::runs::{Bytes, Case};

    fn number(outcome: &Outcome) -> Option<u8> {
        outcome.end.err().map(|refused| refused.number)
    }

    /// What was written divides into the records made, and a trailer closes it
    /// if the run completed; every other byte is unchanged.
    fn check_buffer(given: &Given, outcome: &Outcome) {
        let trailer = if outcome.end.is_ok() { 8 } else { 0 };
        let lengths = outcome.records.iter().map(|r| frames::encode(r).len());
        let length: usize = lengths.sum();
        if length + trailer == 0 {
            assert_eq!(outcome.buffer, given.buffer);
            return;
        }
        let start = given.used as usize;
        let end = start + length + trailer;
        assert_eq!(outcome.buffer.len(), given.buffer.len());
        assert_eq!(outcome.buffer[..start], given.buffer[..start]);
        assert_eq!(outcome.buffer[end..], given.buffer[end..]);
        let divided = frames::divide(&outcome.buffer[start..end - trailer]);
        assert_eq!(divided.as_ref(), Ok(&outcome.records));
        if outcome.end.is_ok() {
            assert_eq!(outcome.used, end as u64);
            let closed = frames::decode_trailer(&outcome.buffer[..end]);
            let wanted = Trailer {
                tracepoint: given.tracepoint,
                length: length as u32,
            };
            assert_eq!(closed, Some(wanted));
        }
    }

    /// Each memory record holds what one span holds at its address.
    fn check_records(given: &Given, outcome: &Outcome) {
        for record in &outcome.records {
            let Record::Memory { address, bytes } = record else {
                continue;
            };
            let found = given.spans.iter().any(|span| {
                let place = address.wrapping_sub(span.first) as usize;
                let rest = span.bytes.get(place..).unwrap_or(&[]);
                *address >= span.first && rest.starts_with(bytes)
            });
            assert!(found && !bytes.is_empty());
        }
        let traced = |opcode| {
            let executed = outcome.walk.iter().map(|at| given.expression[*at]);
            executed.filter(|executed| *executed == opcode).count()
        };
        let is_variable = |record: &&Record| matches!(record, Record::Variable { .. });
        let variables = outcome.records.iter().filter(is_variable).count();
        assert_eq!(variables, traced(isa::TRACEV));
        let opcodes = [isa::TRACE, isa::TRACE_QUICK, isa::TRACE16, isa::TRACENZ];
        let most: usize = opcodes.into_iter().map(traced).sum();
        assert!(outcome.records.len() - variables <= most);
    }

    /// "steps ≤ longest walk", and the steps are a walk that begins at 0.
    fn check_walk(given: &Given, outcome: &Outcome) {
        assert_eq!(outcome.steps, outcome.walk.len() as u64);
        let Ok(accepted) = verify::verify(&given.expression) else {
            assert_eq!(outcome.steps, 0);
            return;
        };
        assert!(outcome.steps <= accepted.walk as u64);
        assert!(outcome.walk.first().is_none_or(|first| *first == 0));
        for pair in outcome.walk.windows(2) {
            let from = isa::at_start(&given.expression, pair[0]);
            let jumps = from.row.is_jump() && pair[1] == from.target();
            let goes_on = from.row.opcode != isa::GOTO && pair[1] == from.next();
            assert!((jumps || goes_on) && from.row.opcode != isa::END);
        }
        if given.allowance.unwrap_or(1_024) >= accepted.walk as u64 {
            assert_ne!(number(outcome), Some(16));
        }
    }

    /// Without the limits of allowance and room the run does the same and goes
    /// on.
    fn check_limits(given: &Given, outcome: &Outcome) {
        let unlimited = run(&Given {
            allowance: Some(u64::MAX),
            ..given.clone()
        });
        match outcome.end {
            Err(Refused { number: 16, .. }) => {
                assert_eq!(outcome.steps, given.allowance.unwrap_or(1_024));
                assert!(unlimited.walk.starts_with(&outcome.walk));
                assert!(unlimited.records.starts_with(&outcome.records));
            }
            _ => assert_eq!(*outcome, unlimited),
        }
        if let Err(Refused { number: 21, .. }) = outcome.end {
            let roomy = run(&Given {
                buffer: vec![0; 65_536],
                used: 0,
                ..given.clone()
            });
            assert!(roomy.walk.starts_with(&outcome.walk));
            assert!(roomy.records.starts_with(&outcome.records));
        }
    }

    fn check(case: &Case) -> Option<u8> {
        let given = case.given();
        let outcome = run(&given);
        if let Err(refused) = outcome.end {
            assert_eq!(outcome.used, given.used, "{}", case.line());
            assert_eq!(outcome.variables, given.variables, "{}", case.line());
            if refused.number <= 15 {
                assert!(outcome.records.is_empty() && outcome.steps == 0);
                assert!(outcome.buffer == given.buffer);
                assert!((2..12).contains(&refused.number) || refused.offset == 0);
            }
        }
        check_buffer(&given, &outcome);
        check_records(&given, &outcome);
        check_walk(&given, &outcome);
        check_limits(&given, &outcome);
        number(&outcome)
    }

    #[test]
    fn what_holds_of_every_run_holds_of_30_000() {
        let mut random = Random::new(11);
        let mut refused = [0; 22];
        for number in 0..30_000 {
            let case = any(&mut random, number);
            refused[usize::from(check(&case).unwrap_or(0))] += 1;
        }
        let seldom = |number: &usize| *number != 1 && refused[*number] < 100;
        assert!(!(0..22).any(|number| seldom(&number)), "{refused:?}");
    }

    #[test]
    fn what_holds_of_every_run_holds_of_the_vectors() {
        for case in generate::run_cases() {
            check(&case);
        }
    }

    /// A run on the scene of the first example, changed by `change`.
    fn changed(expression: &str, change: impl Fn(&mut Given)) -> Outcome {
        let (case, _) = generate::runs::examples::examples().remove(0);
        let mut given = case.given();
        given.expression = crate::hex::read(expression).expect("this is hex");
        change(&mut given);
        run(&given)
    }

    /// Reading A-12: each of the refusals before the first step hides those
    /// with higher numbers, and 16 comes behind all of them.
    #[test]
    fn the_order_before_stepping() {
        type Change = fn(&mut Given);
        let changes: [(u8, Change); 6] = [
            (11, |given| given.expression = vec![isa::CONST8, 1]),
            (12, |given| given.spans[1].first = u64::MAX),
            (13, |given| given.spans[0] = given.spans[1].clone()),
            (14, |given| given.registers = vec![0; 257]),
            (15, |given| given.used = given.buffer.len() as u64 + 1),
            (16, |given| given.allowance = Some(0)),
        ];
        for from in 0..changes.len() {
            let outcome = changed("27", |given| {
                for (_, change) in changes[from..].iter().rev() {
                    change(given);
                }
            });
            assert_eq!(number(&outcome), Some(changes[from].0));
        }
        let limits = |given: &mut Given| {
            given.registers = vec![0; 256];
            given.buffer = vec![0; 65_536];
            given.used = 65_528;
        };
        assert_eq!(changed("27", limits).used, 65_536);
        let long = |given: &mut Given| given.buffer = vec![0; 65_537];
        assert_eq!(number(&changed("27", long)), Some(15));
    }

    /// A span of `count` bytes at 0 with a zero at `zero`; tracenz for `size`.
    fn tracenz(count: usize, zero: Option<usize>, size: u64) -> Option<u8> {
        let bytes = Bytes::Pattern { count, zero }.values();
        let expression = [
            vec![isa::CONST8, 0, isa::CONST64],
            size.to_be_bytes().to_vec(),
        ];
        let expression = [expression.concat(), vec![isa::TRACENZ, isa::END]].concat();
        number(&changed("27", |given| {
            given.expression = expression.clone();
            given.spans[0].bytes = bytes.clone();
            given.spans[1].first = count as u64;
            given.buffer = vec![0; 65_536];
        }))
    }

    /// Reading A-14. A record of 65,535 bytes is longer than any buffer, so it
    /// is 21 that tells of it.
    #[test]
    fn tracenz_around_65_535_bytes() {
        for (count, zero, size, refused) in [
            (65_535, None, 65_536, Some(20)),
            (65_534, None, 65_536, Some(19)),
            (65_535, None, 65_535, Some(21)),
            (65_534, None, 65_535, Some(19)),
            (65_536, Some(65_534), 65_536, Some(21)),
            (65_536, Some(65_535), 65_536, Some(20)),
            (65_536, Some(65_535), 65_535, Some(21)),
            (65_536, Some(65_516), u64::MAX, None),
            (65_536, Some(65_517), u64::MAX, Some(21)),
            (65_517, None, 65_517, None),
            (65_534, Some(0), u64::MAX, None),
            (65_534, None, 0, None),
        ] {
            let found = tracenz(count, zero, size);
            assert_eq!(found, refused, "{count} {zero:?} {size}");
        }
    }

    /// Within a trace instruction the order is 20, 19, 21.
    #[test]
    fn the_order_in_a_trace_instruction() {
        let full = |given: &mut Given| given.used = given.buffer.len() as u64;
        for (expression, refused) in [
            ("22 01 24 00 01 00 00 0c 27", Some(20)),
            ("22 01 23 ff ff 0c 27", Some(19)),
            ("22 01 0d 01 27", Some(19)),
            ("23 10 00 0d 03 27", Some(21)),
            ("23 10 00 0d 00 27", Some(21)),
        ] {
            let outcome = changed(expression, full);
            assert_eq!(number(&outcome), refused, "{expression}");
        }
    }

    /// A range across two touching spans is not readable.
    #[test]
    fn touching_spans_are_two() {
        let touch = |given: &mut Given| {
            given.spans[0] = Span {
                first: 4094,
                bytes: vec![1, 2],
            };
        };
        let outcome = changed("23 0f ff 18 27", touch);
        assert_eq!(number(&outcome), Some(19));
        let outcome = changed("23 0f fe 18 27", touch);
        assert_eq!(outcome.end, Ok(Answer::Top(0x0201)));
        let outcome = changed("23 0f ff 22 03 2f 27", touch);
        assert_eq!(number(&outcome), Some(19));
    }
}
