//! Comparing the answers for cases of one kind, whichever it is.

use crate::shrink;
use evaluator::hex;
use evaluator::random::Random;
use std::collections::BTreeMap;
use std::fmt::Write;
use std::thread;

/// One entry of the libraries, and how its answers are told.
pub struct Entry {
    pub name: &'static str,
    /// The places of `out`.
    pub places: &'static [&'static str],
    /// The refusals that it can give.
    pub refusals: &'static [u32],
    /// What an answer without a refusal is, for the table.
    pub sort: fn(&[u64]) -> &'static str,
}

/// All that an entry answers and leaves behind.
#[derive(PartialEq, Eq)]
pub struct Answer {
    pub number: u32,
    pub out: Vec<u64>,
    pub variables: Vec<u64>,
    pub buffer: Vec<u8>,
    /// Bytes beside the buffer, which no entry may change.
    pub beside: Vec<u8>,
}

impl Answer {
    /// Of an entry that changes nothing else.
    pub fn numbers(number: u32, out: &[u64]) -> Answer {
        Answer {
            number,
            out: out.to_vec(),
            variables: Vec::new(),
            buffer: Vec::new(),
            beside: Vec::new(),
        }
    }
}

/// Stored in `out` before each call: every place must be stored by every call.
pub const UNSTORED: u64 = 0xdead_beef_0bad_f00d;

/// A case of one kind, which may be put to several entries.
pub trait Case: Clone + PartialEq {
    const KIND: &'static str;
    const ENTRIES: &'static [Entry];
    const SIZES: &'static [Size] = &[];
    /// Makes cases; it may keep something from one to the next.
    type Maker: Default;

    fn any(maker: &mut Self::Maker, random: &mut Random, number: usize) -> Self;
    /// The case as fields divided by spaces, and back.
    fn line(&self) -> String;
    fn read(line: &str) -> Result<Self, String>;
    /// The evaluator's answer for each entry.
    fn expected(&self) -> Vec<Answer>;
    /// The library's.
    fn found(&self) -> Vec<Answer>;
    /// Cases that are smaller by a step, the smallest first; each is made when it is asked for.
    fn smaller(&self) -> impl Iterator<Item = Self>;
    /// The sizes of this case, whose answers these are.
    fn sizes(&self, _answers: &[Answer]) -> Vec<u64> {
        Vec::new()
    }
}

/// A size of cases; the largest seen is to be this or more.
pub struct Size {
    pub name: &'static str,
    pub least: u64,
}

/// What came of the cases of one kind.
pub struct Found {
    pub entries: &'static [Entry],
    pub cases: usize,
    /// For each entry, how often each refusal, or 0 and its sort, was the answer.
    pub outcomes: Vec<BTreeMap<(u32, &'static str), usize>>,
    pub sizes: &'static [Size],
    /// The largest seen of each.
    pub largest: Vec<u64>,
    pub differing: usize,
    /// The smallest differing case found, with both answers.
    pub smallest: Option<String>,
}

/// So many differing cases are kept, and of them the shortest are made smaller.
const MOST_KEPT: usize = 24;
const MOST_SHRUNK: usize = 3;

pub fn compare<C: Case>(cases: usize, seed: u64) -> Found {
    let mut random = Random::new(seed);
    let mut maker = C::Maker::default();
    let mut differing: Vec<C> = Vec::new();
    let mut found = Found {
        entries: C::ENTRIES,
        cases,
        outcomes: C::ENTRIES.iter().map(|_| BTreeMap::new()).collect(),
        sizes: C::SIZES,
        largest: vec![0; C::SIZES.len()],
        differing: 0,
        smallest: None,
    };
    for number in 0..cases {
        let case = C::any(&mut maker, &mut random, number);
        let expected = expected(&case);
        for ((entry, answer), outcomes) in C::ENTRIES.iter().zip(&expected).zip(&mut found.outcomes)
        {
            *outcomes.entry(outcome(entry, answer)).or_insert(0) += 1;
        }
        for (largest, size) in found.largest.iter_mut().zip(case.sizes(&expected)) {
            *largest = size.max(*largest);
        }
        if expected != case.found() {
            found.differing += 1;
            if differing.len() < MOST_KEPT {
                differing.push(case);
            }
        }
    }
    found.smallest = smallest(differing).map(|case| difference(&case));
    found
}

/// The shortest are told as they are before they are made smaller.
fn smallest<C: Case>(mut differing: Vec<C>) -> Option<C> {
    differing.sort_by_cached_key(|case| case.line().len());
    differing.truncate(MOST_SHRUNK);
    for case in &differing {
        eprintln!("these answers differ: {} {}", C::KIND, case.line());
    }
    let shrunk = differing.into_iter().map(shrink::shrink);
    shrunk.min_by_key(|case| case.line().len())
}

/// Tells of the case at hand where the evaluator panics on it.
struct ToldOnPanic<'a, C: Case>(&'a C);

impl<C: Case> Drop for ToldOnPanic<'_, C> {
    fn drop(&mut self) {
        if thread::panicking() {
            eprintln!("this was on {} {}", C::KIND, self.0.line());
        }
    }
}

fn expected<C: Case>(case: &C) -> Vec<Answer> {
    let _told = ToldOnPanic(case);
    case.expected()
}

/// Both answers for the line's case, if they differ.
pub fn compare_line<C: Case>(fields: &str) -> Result<Option<String>, String> {
    let case = C::read(fields)?;
    Ok(differs(&case).then(|| difference(&case)))
}

pub fn differs<C: Case>(case: &C) -> bool {
    expected(case) != case.found()
}

fn outcome(entry: &Entry, answer: &Answer) -> (u32, &'static str) {
    match answer.number {
        0 => (0, (entry.sort)(&answer.out)),
        number => (number, ""),
    }
}

/// The case as a line for differential/kept, and both answers.
fn difference<C: Case>(case: &C) -> String {
    let mut text = format!("{} {}", C::KIND, case.line());
    let answers = expected(case).into_iter().zip(case.found());
    for (entry, (expected, found)) in C::ENTRIES.iter().zip(answers) {
        if expected != found {
            let name = entry.name;
            write!(
                text,
                "\n  {name} by the evaluator: {}",
                told(entry, &expected)
            )
            .unwrap();
            write!(text, "\n  {name} by the library:   {}", told(entry, &found)).unwrap();
            text += &first_byte("the buffer", &expected.buffer, &found.buffer);
            text += &first_byte("those beside it", &expected.beside, &found.beside);
        }
    }
    text
}

/// An answer for a person; variables that are 0 are left out, long buffers too.
fn told(entry: &Entry, answer: &Answer) -> String {
    let mut text = match answer.number {
        0 => "not refused".to_string(),
        number => format!("refused {number}"),
    };
    for (place, value) in entry.places.iter().zip(&answer.out) {
        write!(text, ", {place} {value:x}").unwrap();
    }
    for (number, value) in answer.variables.iter().enumerate() {
        if *value != 0 {
            write!(text, ", variable {number} {value:x}").unwrap();
        }
    }
    if (1..=80).contains(&answer.buffer.len()) {
        write!(text, ", buffer {}", hex::field(&answer.buffer)).unwrap();
    }
    text
}

fn first_byte(of: &str, expected: &[u8], found: &[u8]) -> String {
    let mut pairs = expected.iter().zip(found);
    match pairs.position(|(expected, found)| expected != found) {
        None => String::new(),
        Some(place) => format!(
            "\n  byte {place:x} of {of}: {:02x} and {:02x}",
            expected[place], found[place]
        ),
    }
}

#[cfg(test)]
mod tests {
    use super::*;
    use crate::fetch::Fetch;
    use crate::read::Read;
    use crate::run::Run;
    use crate::verify::Verify;

    /// The verifier, and a library that does not know rot.
    #[derive(Clone, PartialEq)]
    struct WithoutRot(Verify);

    impl Case for WithoutRot {
        const KIND: &'static str = Verify::KIND;
        const ENTRIES: &'static [Entry] = Verify::ENTRIES;
        type Maker = ();

        fn any(_: &mut (), random: &mut Random, number: usize) -> WithoutRot {
            WithoutRot(Verify::any(&mut (), random, number))
        }

        fn line(&self) -> String {
            self.0.line()
        }

        fn read(line: &str) -> Result<WithoutRot, String> {
            Verify::read(line).map(WithoutRot)
        }

        fn expected(&self) -> Vec<Answer> {
            self.0.expected()
        }

        fn found(&self) -> Vec<Answer> {
            let mut found = self.0.found();
            if self.line().contains("33") && found[0].number == 0 {
                found[0] = Answer::numbers(2, &[0; 4]);
            }
            found
        }

        fn smaller(&self) -> impl Iterator<Item = WithoutRot> {
            self.0.smaller().map(WithoutRot)
        }
    }

    #[test]
    fn a_wrong_answer_is_found_and_made_small() {
        let found = compare::<WithoutRot>(4_000, 1);
        assert!(found.differing > 10, "{}", found.differing);
        let told = found.smallest.expect("some differ");
        let expected = "verify 2733\n  \
                        verify by the evaluator: not refused, offset 0, count 2, height 0, walk 1\n  \
                        verify by the library:   refused 2, offset 0, count 0, height 0, walk 0";
        assert_eq!(told, expected);
    }

    fn lines_are_read_as_they_are_written<C: Case>() {
        let mut random = Random::new(3);
        let mut maker = C::Maker::default();
        for number in 0..2_000 {
            let case = C::any(&mut maker, &mut random, number);
            let again = C::read(&case.line());
            assert!(again == Ok(case.clone()), "{}", case.line());
        }
        assert!(C::read("zz").is_err());
    }

    #[test]
    fn lines() {
        lines_are_read_as_they_are_written::<Verify>();
        lines_are_read_as_they_are_written::<Fetch>();
        lines_are_read_as_they_are_written::<Run>();
        lines_are_read_as_they_are_written::<Read>();
    }
}
