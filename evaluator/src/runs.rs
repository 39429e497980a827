//! The cases of runs, and what they come to, as lines of text: fields divided
//! by single spaces, numbers in lower-case hex without leading zeros, bytes in
//! hex pairs or `-` for none.
//!
//! A case: `EXPR REGS VARS F1 BYTES1 F2 BYTES2 TRACEPOINT LENGTH USED ALLOWANCE`
//!
//! | field | form |
//! |---|---|
//! | REGS | `-`; values divided by `,`; or `*N`: register i is i * 0x0101010101010101 |
//! | VARS | `-` if all are 0; else `I=VALUE` divided by `,`, those not 0 in rising I |
//! | BYTES1, BYTES2 | also `+N`: byte i is (i * 13 + 1) mod 251 + 1, for N bytes; or `+N,I`: the same but byte I is 0 |
//! | LENGTH | of the buffer; byte i is (i * 7 + 3) mod 256 before the run |
//! | ALLOWANCE | a number, or `default` for the entry without one |
//!
//! An outcome: `completed STEPS ANSWER USED VARS SUM HEAD` or `refused NUMBER
//! OFFSET STEPS USED VARS SUM HEAD`. ANSWER is `none`, `TOP` or `TOP,BENEATH`;
//! USED and VARS are those after the run; SUM is the 64-bit FNV-1a hash of the
//! whole buffer after it; HEAD is the first up to 32 bytes of the buffer after
//! it, from the given used length on.

use crate::hex;
use crate::isa;
use crate::machine::{Answer, Given, Outcome, Variables};
use crate::memory::Span;
use std::collections::BTreeMap;

/// So many bytes of the buffer are shown.
const HEAD: usize = 32;

/// The registers of a case; neither form is used for none but `Listed`.
#[derive(Clone, Debug, PartialEq, Eq, PartialOrd, Ord)]
pub enum Registers {
    Listed(Vec<u64>),
    Counted(usize),
}

/// The bytes of a span; `Pattern` has one byte or more, and its byte `zero`,
/// if there is one, is 0.
#[derive(Clone, Debug, PartialEq, Eq, PartialOrd, Ord)]
pub enum Bytes {
    Listed(Vec<u8>),
    Pattern { count: usize, zero: Option<usize> },
}

#[derive(Clone, Debug, PartialEq, Eq, PartialOrd, Ord)]
pub struct Case {
    pub expression: Vec<u8>,
    pub registers: Registers,
    /// Those that are not 0, by number.
    pub variables: BTreeMap<usize, u64>,
    /// First address and bytes of each span.
    pub spans: [(u64, Bytes); 2],
    pub tracepoint: u16,
    /// The buffer's length.
    pub length: usize,
    pub used: u64,
    pub allowance: Option<u64>,
}

impl Registers {
    pub fn values(&self) -> Vec<u64> {
        match self {
            Registers::Listed(values) => values.clone(),
            Registers::Counted(count) => {
                let numbers = 0..*count as u64;
                let values = numbers.map(|number| number.wrapping_mul(0x0101_0101_0101_0101));
                values.collect()
            }
        }
    }

    fn field(&self) -> String {
        match self {
            Registers::Listed(values) => joined(values.iter().map(|value| format!("{value:x}"))),
            Registers::Counted(count) => format!("*{count:x}"),
        }
    }
}

impl Bytes {
    pub fn count(&self) -> usize {
        match self {
            Bytes::Listed(bytes) => bytes.len(),
            Bytes::Pattern { count, .. } => *count,
        }
    }

    pub fn values(&self) -> Vec<u8> {
        match self {
            Bytes::Listed(bytes) => bytes.clone(),
            Bytes::Pattern { count, zero } => {
                let byte = |place| match Some(place) == *zero {
                    true => 0,
                    false => ((place * 13 + 1) % 251 + 1) as u8,
                };
                (0..*count).map(byte).collect()
            }
        }
    }

    fn field(&self) -> String {
        match self {
            Bytes::Listed(bytes) => hex::field(bytes),
            Bytes::Pattern { count, zero: None } => format!("+{count:x}"),
            Bytes::Pattern {
                count,
                zero: Some(zero),
            } => format!("+{count:x},{zero:x}"),
        }
    }
}

fn joined(items: impl Iterator<Item = String>) -> String {
    let items: Vec<String> = items.collect();
    if items.is_empty() {
        return "-".to_string();
    }
    items.join(",")
}

fn variables_field(variables: impl Iterator<Item = (usize, u64)>) -> String {
    let set = variables.filter(|(_, value)| *value != 0);
    joined(set.map(|(number, value)| format!("{number:x}={value:x}")))
}

impl Case {
    /// The case as a line of the vectors.
    pub fn line(&self) -> String {
        let variables = self.variables.iter();
        let variables = variables.map(|(number, value)| (*number, *value));
        let span = |(first, bytes): &(u64, Bytes)| format!("{first:x} {}", bytes.field());
        let allowance = self.allowance.map(|number| format!("{number:x}"));
        [
            hex::field(&self.expression),
            self.registers.field(),
            variables_field(variables),
            self.spans.each_ref().map(span).join(" "),
            format!("{:x}", self.tracepoint),
            format!("{:x}", self.length),
            format!("{:x}", self.used),
            allowance.unwrap_or("default".to_string()),
        ]
        .join(" ")
    }

    /// What the machine is fed.
    pub fn given(&self) -> Given {
        let mut variables: Variables = [0; isa::VARIABLES as usize];
        for (number, value) in &self.variables {
            variables[*number] = *value;
        }
        let buffer = (0..self.length).map(|place| (place * 7 + 3) as u8);
        Given {
            expression: self.expression.clone(),
            registers: self.registers.values(),
            variables,
            spans: self.spans.each_ref().map(|(first, bytes)| Span {
                first: *first,
                bytes: bytes.values(),
            }),
            tracepoint: self.tracepoint,
            buffer: buffer.collect(),
            used: self.used,
            allowance: self.allowance,
        }
    }

    /// The case that a line tells of.
    pub fn read(line: &str) -> Result<Case, String> {
        let fields: Vec<&str> = line.split(' ').collect();
        let [expression, registers, variables, first1, bytes1, first2, bytes2, tracepoint, length, used, allowance] =
            fields[..]
        else {
            return Err(format!("a case has 11 fields, this has {}", fields.len()));
        };
        let expression = match read_bytes(expression)? {
            Bytes::Listed(bytes) => bytes,
            Bytes::Pattern { .. } => return Err("an expression is in hex or `-`".to_string()),
        };
        Ok(Case {
            expression,
            registers: read_registers(registers)?,
            variables: read_variables(variables)?,
            spans: [
                (read_number(first1)?, read_bytes(bytes1)?),
                (read_number(first2)?, read_bytes(bytes2)?),
            ],
            tracepoint: read_up_to(tracepoint, 65_535)? as u16,
            length: read_up_to(length, 65_537)?,
            used: read_number(used)?,
            allowance: match allowance {
                "default" => None,
                number => Some(read_number(number)?),
            },
        })
    }
}

/// A number as it is written: `from_str_radix` would take a sign, capitals and
/// leading zeros too.
pub fn read_number(text: &str) -> Result<u64, String> {
    match u64::from_str_radix(text, 16) {
        Ok(number) if format!("{number:x}") == text => Ok(number),
        _ => Err(format!("`{text}` is no number in hex")),
    }
}

fn read_up_to(text: &str, most: usize) -> Result<usize, String> {
    match usize::try_from(read_number(text)?) {
        Ok(number) if number <= most => Ok(number),
        _ => Err(format!("{text} is more than {most:x}")),
    }
}

fn read_registers(text: &str) -> Result<Registers, String> {
    if text == "-" {
        return Ok(Registers::Listed(Vec::new()));
    }
    if let Some(count) = text.strip_prefix('*') {
        return Ok(Registers::Counted(read_up_to(count, 257)?));
    }
    let values: Result<_, _> = text.split(',').map(read_number).collect();
    Ok(Registers::Listed(values?))
}

fn read_variables(text: &str) -> Result<BTreeMap<usize, u64>, String> {
    let mut variables = BTreeMap::new();
    if text == "-" {
        return Ok(variables);
    }
    for item in text.split(',') {
        let (number, value) = item
            .split_once('=')
            .ok_or(format!("`{item}` is not I=VALUE"))?;
        variables.insert(read_up_to(number, 63)?, read_number(value)?);
    }
    Ok(variables)
}

/// A pattern has at most 131,072 bytes; document 01 sets spans no limit.
pub fn read_bytes(text: &str) -> Result<Bytes, String> {
    if text == "-" {
        return Ok(Bytes::Listed(Vec::new()));
    }
    let Some(pattern) = text.strip_prefix('+') else {
        return Ok(Bytes::Listed(hex::read(text)?));
    };
    let (count, zero) = match pattern.split_once(',') {
        None => (pattern, None),
        Some((count, zero)) => (count, Some(read_up_to(zero, 131_071)?)),
    };
    let count = read_up_to(count, 131_072)?;
    Ok(Bytes::Pattern { count, zero })
}

/// The 64-bit FNV-1a hash.
fn fnv1a(bytes: &[u8]) -> u64 {
    bytes.iter().fold(0xcbf2_9ce4_8422_2325, |hash, byte| {
        (hash ^ u64::from(*byte)).wrapping_mul(0x0000_0100_0000_01b3)
    })
}

/// An outcome as one line of the vectors; `used` is the used length given.
pub fn line(outcome: &Outcome, used: u64) -> String {
    let steps = outcome.steps;
    let end = match &outcome.end {
        Ok(answer) => format!("completed {steps:x} {}", answer_field(answer)),
        Err(refused) => format!(
            "refused {:x} {:x} {steps:x}",
            refused.number, refused.offset
        ),
    };
    let free = usize::try_from(used)
        .ok()
        .and_then(|used| outcome.buffer.get(used..));
    let free = free.unwrap_or(&[]);
    format!(
        "{end} {:x} {} {:x} {}",
        outcome.used,
        variables_field(outcome.variables.iter().copied().enumerate()),
        fnv1a(&outcome.buffer),
        hex::field(&free[..free.len().min(HEAD)])
    )
}

fn answer_field(answer: &Answer) -> String {
    match answer {
        Answer::None => "none".to_string(),
        Answer::Top(top) => format!("{top:x}"),
        Answer::Two { top, beneath } => format!("{top:x},{beneath:x}"),
    }
}

/// The sort of an outcome, for counting; a refusal's number is decimal here.
pub fn sort(outcome: &Outcome) -> String {
    match &outcome.end {
        Ok(Answer::None) => "completed none".to_string(),
        Ok(Answer::Top(_)) => "completed top".to_string(),
        Ok(Answer::Two { .. }) => "completed two".to_string(),
        Err(refused) => format!("refused {}", refused.number),
    }
}

#[cfg(test)]
mod tests {
    use super::*;
    use crate::generate;
    use crate::machine::run;

    /// The values published with FNV for no bytes, "a" and "foobar".
    #[test]
    fn hashes() {
        assert_eq!(fnv1a(b""), 0xcbf2_9ce4_8422_2325);
        assert_eq!(fnv1a(b"a"), 0xaf63_dc4c_8601_ec8c);
        assert_eq!(fnv1a(b"foobar"), 0x8594_4171_f739_67e8);
    }

    #[test]
    fn lines_are_read_as_they_are_written() {
        for case in generate::run_cases() {
            assert_eq!(Case::read(&case.line()).as_ref(), Ok(&case));
        }
    }

    #[test]
    fn lines_that_are_no_case() {
        let good = "27 - - 0 - 1000 410042 7 40 0 default";
        assert!(Case::read(good).is_ok());
        for (from, to) in [
            ("27 ", ""),
            ("27", "2"),
            ("27", "+3"),
            ("27 -", "27  -"),
            ("27 - -", "27 *102 -"),
            ("27 - -", "27 1,,2 -"),
            ("27 - -", "27 - 40=1"),
            ("27 - -", "27 - 1"),
            ("1000", "01000"),
            ("1000", "+1000"),
            ("410042", "+20001"),
            (" 7 ", " 10000 "),
            (" 40 ", " 10002 "),
            ("default", "none"),
            ("default", "10000000000000000"),
        ] {
            let bad = good.replacen(from, to, 1);
            assert!(Case::read(&bad).is_err(), "{bad}");
        }
    }

    #[test]
    fn forms_of_fields() {
        let line = "2600ff2c000527 *100 5=6,3f=1 ffff +3 0 +3,1 ffff 3 4 ffffffffffffffff";
        let case = Case::read(line).expect("this is a case");
        assert_eq!(case.line(), line);
        let given = case.given();
        assert_eq!(given.registers[2], 0x0202_0202_0202_0202);
        assert_eq!(given.registers[255], u64::MAX);
        assert_eq!((given.variables[5], given.variables[63]), (6, 1));
        assert_eq!(given.spans[0].bytes, [2, 15, 28]);
        assert_eq!(given.spans[1].bytes, [2, 0, 28]);
        assert_eq!(given.buffer, [3, 10, 17]);
        let told = super::line(&run(&given), case.used);
        let sum = fnv1a(&[3, 10, 17]);
        assert_eq!(told, format!("refused f 0 0 4 5=6,3f=1 {sum:x} -"));
        let sound = line.replace(" 3 4 ", " b 2 ");
        let case = Case::read(&sound).expect("this is a case");
        let outcome = run(&case.given());
        let told = super::line(&outcome, case.used);
        let sum = fnv1a(&outcome.buffer);
        let head = "4600ffff0000000049";
        let wanted = format!("completed 3 6,ffffffffffffffff a 5=6,3f=1 {sum:x} {head}");
        assert_eq!(told, wanted);
    }
}
