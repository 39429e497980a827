//! How many of the vectors have each outcome; how many expressions of the
//! accepted ones reach each opcode; how many words each operator is tried on;
//! how many completed runs execute each opcode.

use crate::generate;
use crate::isa::{self, Instruction};
use crate::leaf::{self, Case};
use crate::machine;
use crate::runs;
use crate::verify;
use std::collections::{BTreeMap, BTreeSet};
use std::fmt::Write;

/// A table for each kind of vectors.
pub fn tables() -> String {
    [verifier().table(), leaf().table(), runs().table()].join("\n")
}

fn line(text: &mut String, name: &str, count: usize) {
    writeln!(text, "{name:<18}{count:>6}").expect("a string takes every text");
}

struct Verifier {
    accepted: usize,
    /// By number; the place 0 is not used.
    refused: [usize; 12],
    /// Accepted expressions that reach the opcode, by opcode.
    reaching: [usize; 256],
}

fn verifier() -> Verifier {
    let mut counts = Verifier {
        accepted: 0,
        refused: [0; 12],
        reaching: [0; 256],
    };
    for bytes in generate::verifier_cases() {
        match verify::reached(&bytes) {
            Ok(reached) => {
                counts.accepted += 1;
                let opcodes: BTreeSet<u8> = reached.iter().map(opcode).collect();
                for opcode in opcodes {
                    counts.reaching[usize::from(opcode)] += 1;
                }
            }
            Err(refused) => counts.refused[usize::from(refused.number)] += 1,
        }
    }
    counts
}

fn opcode(instruction: &Instruction) -> u8 {
    instruction.row.opcode
}

impl Verifier {
    fn table(&self) -> String {
        let mut text = String::new();
        let mut line = |name: &str, count| line(&mut text, name, count);
        line("accepted", self.accepted);
        for (number, count) in self.refused.iter().enumerate().skip(1) {
            line(&format!("refused {number}"), *count);
        }
        let refused: usize = self.refused.iter().sum();
        line("all", self.accepted + refused);
        for row in &isa::TABLE {
            let name = format!("{:02x} {}", row.opcode, row.name);
            line(&name, self.reaching[usize::from(row.opcode)]);
        }
        text
    }
}

struct Leaf {
    /// By kind of line and sort of outcome.
    outcomes: BTreeMap<String, usize>,
    /// Lines with the operator, by opcode.
    operators: BTreeMap<u8, usize>,
}

fn leaf() -> Leaf {
    let mut counts = Leaf {
        outcomes: BTreeMap::new(),
        operators: BTreeMap::new(),
    };
    for case in generate::leaf_cases() {
        let kind = &case.line()[..1];
        let outcome = format!("{kind} {}", leaf::sort(&case.evaluate()));
        *counts.outcomes.entry(outcome).or_default() += 1;
        if let Case::Word { opcode, .. } = case {
            *counts.operators.entry(opcode).or_default() += 1;
        }
    }
    counts
}

impl Leaf {
    fn table(&self) -> String {
        let mut text = String::new();
        let mut line = |name: &str, count| line(&mut text, name, count);
        for (outcome, count) in &self.outcomes {
            line(outcome, *count);
        }
        line("all", self.outcomes.values().sum());
        for row in &isa::TABLE {
            if let Some(count) = self.operators.get(&row.opcode) {
                line(&format!("{:02x} {}", row.opcode, row.name), *count);
            }
        }
        text
    }
}

struct Runs {
    /// By sort of outcome.
    outcomes: BTreeMap<String, usize>,
    /// Completed runs that execute the opcode, by opcode.
    executing: BTreeMap<u8, usize>,
}

fn runs() -> Runs {
    let mut counts = Runs {
        outcomes: BTreeMap::new(),
        executing: BTreeMap::new(),
    };
    for case in generate::run_cases() {
        let outcome = machine::run(&case.given());
        *counts.outcomes.entry(runs::sort(&outcome)).or_default() += 1;
        if outcome.end.is_ok() {
            let executed = outcome.walk.iter().map(|offset| case.expression[*offset]);
            for opcode in executed.collect::<BTreeSet<u8>>() {
                *counts.executing.entry(opcode).or_default() += 1;
            }
        }
    }
    counts
}

impl Runs {
    fn table(&self) -> String {
        let mut text = String::new();
        let mut line = |name: &str, count| line(&mut text, name, count);
        for (outcome, count) in &self.outcomes {
            line(outcome, *count);
        }
        line("all", self.outcomes.values().sum());
        for row in &isa::TABLE {
            let count = self.executing.get(&row.opcode).copied().unwrap_or(0);
            line(&format!("{:02x} {}", row.opcode, row.name), count);
        }
        text
    }
}

#[cfg(test)]
mod tests {
    use super::*;

    #[test]
    fn every_run_outcome_and_opcode_comes_often_enough() {
        let counts = runs();
        let count = |sort: &str| counts.outcomes.get(sort).copied().unwrap_or(0);
        let completed = ["completed none", "completed top", "completed two"].map(count);
        assert!(completed.iter().sum::<usize>() >= 1_500);
        assert!(completed.iter().all(|count| *count >= 400));
        for number in 1..=21 {
            let least = if number <= 11 { 20 } else { 60 };
            let count = count(&format!("refused {number}"));
            assert!(count >= least, "{}", counts.table());
        }
        assert_eq!(counts.outcomes.len(), 3 + 21);
        for row in &isa::TABLE {
            let count = counts.executing.get(&row.opcode).copied().unwrap_or(0);
            assert!(count >= 100, "{} {count}", row.name);
        }
    }

    #[test]
    fn every_leaf_outcome_and_operator_comes_often_enough() {
        let counts = leaf();
        let least = [
            ("w word", 2_000),
            ("w refused 17", 40),
            ("f bytes", 200),
            ("f no bytes", 50),
            ("f refused 12", 50),
            ("f refused 13", 50),
            ("f refused 19", 200),
            ("r bytes", 100),
            ("r no bytes", 50),
            ("r refused 12", 20),
            ("r refused 13", 20),
            ("z zero", 50),
            ("z size", 50),
            ("z end", 50),
            ("m written", 50),
            ("m full", 50),
            ("v written", 25),
            ("v full", 25),
            ("t written", 25),
            ("t full", 25),
            ("d records", 200),
            ("d refused 23", 200),
            ("g memory", 100),
            ("g variable", 100),
            ("g refused 15", 50),
            ("g refused 22", 100),
            ("g refused 23", 100),
            ("g refused 24", 100),
            ("g refused 25", 100),
            ("c records", 100),
            ("c no records", 50),
            ("c refused 15", 50),
            ("c refused 22", 100),
            ("c refused 23", 100),
            ("c refused 24", 50),
            ("l frame", 50),
            ("l refused 15", 30),
            ("l refused 22", 100),
            ("l refused 24", 50),
            ("s frame", 100),
            ("s refused 15", 50),
            ("s refused 22", 100),
            ("s refused 24", 30),
        ];
        assert_eq!(counts.outcomes.len(), least.len(), "{}", counts.table());
        for (outcome, least) in least {
            let count = counts.outcomes.get(outcome).copied().unwrap_or(0);
            assert!(count >= least, "{}", counts.table());
        }
        assert_eq!(counts.operators.len(), 20);
        assert!(counts.operators.values().all(|count| *count >= 25));
    }

    #[test]
    fn every_outcome_and_opcode_comes_often_enough() {
        let counts = verifier();
        assert!(counts.accepted >= 1_500, "{}", counts.table());
        assert!(
            counts.refused[1..].iter().all(|count| *count >= 150),
            "{}",
            counts.table()
        );
        for row in &isa::TABLE {
            let count = counts.reaching[usize::from(row.opcode)];
            assert!(count >= 100, "{} {count}", row.name);
        }
    }
}
