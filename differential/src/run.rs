//! lilivrez_run and, where a case has no allowance, lilivrez_run_default. A case's line is one of crates/run_vectors/stdin.

use crate::compare::{Answer, Case, Entry, Size, UNSTORED};
use crate::long_run;
use crate::shrink::{self, each};
use evaluator::generate::runs::any;
use evaluator::machine;
use evaluator::random::Random;
use evaluator::runs::{self, Bytes, Registers};
use lilivrez::{library, Span, Target, TraceBuffer};
use std::collections::BTreeMap;

#[derive(Clone, PartialEq)]
pub struct Run {
    case: runs::Case,
}

/// The numbers of the cells told.
const ONE: u64 = 1;
const TWO: u64 = 2;

/// So many bytes on each side of the buffer must stay as they are.
const BESIDE: usize = 16;
const UNTOUCHED: u8 = 0xa5;

impl Case for Run {
    const KIND: &'static str = "run";
    const ENTRIES: &'static [Entry] = &[Entry {
        name: "run",
        places: &["offset", "steps", "used", "cells", "top", "beneath"],
        refusals: &[
            1, 2, 3, 4, 5, 6, 7, 8, 9, 10, 11, 12, 13, 14, 15, 16, 17, 18, 19, 20, 21,
        ],
        sort: |out| match out[3] {
            ONE => "completed with the top",
            TWO => "completed with two cells",
            _ => "completed without a value",
        },
    }];
    const SIZES: &'static [Size] = &[
        Size {
            name: "expression bytes run",
            least: 900,
        },
        Size {
            name: "steps",
            least: 800,
        },
    ];
    type Maker = ();

    fn any(_: &mut (), random: &mut Random, number: usize) -> Run {
        let case = match long_run::is_long(number) {
            true => long_run::any(random),
            false => any(random, number),
        };
        Run { case }
    }

    fn line(&self) -> String {
        self.case.line()
    }

    fn read(line: &str) -> Result<Run, String> {
        let case = runs::Case::read(line)?;
        Ok(Run { case })
    }

    fn expected(&self) -> Vec<Answer> {
        let outcome = machine::run(&self.case.given());
        let (number, offset, [cells, top, beneath]) = match outcome.end {
            Err(refused) => (refused.number, refused.offset, [0; 3]),
            Ok(machine::Answer::None) => (0, 0, [0; 3]),
            Ok(machine::Answer::Top(top)) => (0, 0, [ONE, top, 0]),
            Ok(machine::Answer::Two { top, beneath }) => (0, 0, [TWO, top, beneath]),
        };
        let (steps, used) = (outcome.steps, outcome.used);
        let out = [offset as u64, steps, used, cells, top, beneath];
        vec![Answer {
            number: number.into(),
            out: out.to_vec(),
            variables: outcome.variables.to_vec(),
            buffer: outcome.buffer,
            beside: vec![UNTOUCHED; 2 * BESIDE],
        }]
    }

    fn found(&self) -> Vec<Answer> {
        let given = self.case.given();
        let [image, work] = given.spans.each_ref().map(|span| Span {
            first: span.first,
            bytes: &span.bytes,
        });
        let target = Target {
            registers: &given.registers,
            image,
            work,
        };
        let mut variables = given.variables;
        let beside = [UNTOUCHED; BESIDE];
        let mut bytes = [&beside, &given.buffer[..], &beside].concat();
        let mut buffer = TraceBuffer {
            bytes: &mut bytes[BESIDE..BESIDE + given.buffer.len()],
            used: given.used as usize,
        };
        let mut out = [UNSTORED; 6];
        let number = library::run(
            &given.expression,
            &target,
            &mut variables,
            &mut buffer,
            given.tracepoint,
            given.allowance,
            &mut out,
        );
        let behind = bytes.split_off(BESIDE + given.buffer.len());
        let buffer = bytes.split_off(BESIDE);
        vec![Answer {
            number,
            out: out.to_vec(),
            variables: variables.to_vec(),
            buffer,
            beside: [bytes, behind].concat(),
        }]
    }

    fn smaller(&self) -> impl Iterator<Item = Run> {
        let case = &self.case;
        let numbers = shrink::numbers;
        let all = each(
            case,
            shrink::expressions(&case.expression),
            |case, bytes| case.expression = bytes,
        )
        .chain(each(case, registers(&case.registers), |case, registers| {
            case.registers = registers
        }))
        .chain(each(case, spans(&case.spans[0]), |case, span| {
            case.spans[0] = span
        }))
        .chain(each(case, spans(&case.spans[1]), |case, span| {
            case.spans[1] = span
        }))
        .chain(each(case, variables(&case.variables), |case, variables| {
            case.variables = variables
        }))
        .chain(each(case, numbers(case.used), |case, used| {
            let less = (case.used - used) as usize;
            case.used = used;
            case.length = case.length.saturating_sub(less);
        }))
        .chain(each(case, numbers(case.used), |case, used| {
            case.used = used
        }))
        .chain(each(case, numbers(case.length as u64), |case, length| {
            case.length = length as usize
        }))
        .chain(each(
            case,
            numbers(case.tracepoint.into()),
            |case, number| case.tracepoint = number as u16,
        ))
        .chain(each(case, allowances(case.allowance), |case, allowance| {
            case.allowance = allowance
        }));
        all.map(|case| Run { case })
    }

    /// Of completed runs.
    fn sizes(&self, answers: &[Answer]) -> Vec<u64> {
        match &answers[0] {
            answer if answer.number == 0 => vec![self.case.expression.len() as u64, answer.out[1]],
            _ => vec![0, 0],
        }
    }
}

/// None, the entry without one, is the smallest.
fn allowances(allowance: Option<u64>) -> impl Iterator<Item = Option<u64>> {
    let smaller = allowance.into_iter().flat_map(shrink::numbers);
    let without = allowance.map(|_| None);
    without.into_iter().chain(smaller.map(Some))
}

fn variables(all: &BTreeMap<usize, u64>) -> impl Iterator<Item = BTreeMap<usize, u64>> + '_ {
    let fewer = shrink::parts(all.len()).map(|part| {
        let kept = all.iter().enumerate();
        let kept = kept.filter(|(place, _)| !part.contains(place));
        kept.map(|(_, (number, value))| (*number, *value)).collect()
    });
    let lower = all.iter().flat_map(|(number, value)| {
        let values = shrink::numbers(*value).filter(|value| *value > 0);
        values.map(|value| {
            let mut lower = all.clone();
            lower.insert(*number, value);
            lower
        })
    });
    fewer.chain(lower)
}

type Lazy<'a, T> = Box<dyn Iterator<Item = T> + 'a>;

fn registers(registers: &Registers) -> Lazy<'_, Registers> {
    match registers {
        Registers::Listed(values) => {
            let smaller = shrink::lists(values, |value| shrink::numbers(*value));
            Box::new(smaller.map(Registers::Listed))
        }
        Registers::Counted(count) => {
            let fewer = shrink::numbers(*count as u64);
            let counted = fewer.map(|count| Registers::Counted(count as usize));
            let listed = (*count <= 4).then(|| Registers::Listed(registers.values()));
            Box::new(listed.into_iter().chain(counted))
        }
    }
}

fn spans((first, bytes): &(u64, Bytes)) -> impl Iterator<Item = (u64, Bytes)> + '_ {
    let lower = shrink::numbers(*first).map(|first| (first, bytes.clone()));
    fewer(bytes).map(|bytes| (*first, bytes)).chain(lower)
}

fn fewer(bytes: &Bytes) -> Lazy<'_, Bytes> {
    match bytes {
        Bytes::Listed(listed) => Box::new(shrink::bytes(listed).map(Bytes::Listed)),
        Bytes::Pattern { count, zero } => {
            let fewer = shrink::numbers(*count as u64);
            let pattern = fewer.map(|count| Bytes::Pattern {
                count: count as usize,
                zero: zero.filter(|zero| *zero < count as usize),
            });
            let listed = (*count <= 32).then(|| Bytes::Listed(bytes.values()));
            Box::new(listed.into_iter().chain(pattern))
        }
    }
}
