//! lilivrez_verify.

use crate::compare::{Answer, Case, Entry, UNSTORED};
use crate::shrink;
use evaluator::random::Random;
use evaluator::{generate, hex, verify};
use lilivrez::library;

#[derive(Clone, PartialEq)]
pub struct Verify {
    expression: Vec<u8>,
}

fn answer(number: u32, out: [u64; 4]) -> Vec<Answer> {
    vec![Answer::numbers(number, &out)]
}

impl Case for Verify {
    const KIND: &'static str = "verify";
    const ENTRIES: &'static [Entry] = &[Entry {
        name: "verify",
        places: &["offset", "count", "height", "walk"],
        refusals: &[1, 2, 3, 4, 5, 6, 7, 8, 9, 10, 11],
        sort: |_| "accepted",
    }];
    type Maker = ();

    fn any(_: &mut (), random: &mut Random, number: usize) -> Verify {
        Verify {
            expression: generate::any_expression(random, number),
        }
    }

    fn line(&self) -> String {
        hex::field(&self.expression)
    }

    fn read(line: &str) -> Result<Verify, String> {
        Ok(Verify {
            expression: crate::fields::bytes(line)?,
        })
    }

    fn expected(&self) -> Vec<Answer> {
        match verify::verify(&self.expression) {
            Ok(accepted) => {
                let numbers = [0, accepted.count, accepted.height, accepted.walk];
                answer(0, numbers.map(|number| number as u64))
            }
            Err(refused) => answer(refused.number.into(), [refused.offset as u64, 0, 0, 0]),
        }
    }

    fn found(&self) -> Vec<Answer> {
        let mut out = [UNSTORED; 4];
        let number = library::verify(&self.expression, &mut out);
        answer(number, out)
    }

    fn smaller(&self) -> impl Iterator<Item = Verify> {
        let smaller = shrink::expressions(&self.expression);
        smaller.map(|expression| Verify { expression })
    }
}
