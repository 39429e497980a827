//! Making a differing case smaller, step by step, as long as the answers differ.

use crate::compare::{differs, Case};
use evaluator::isa::{self, Opcode};
use std::iter;
use std::ops::Range;
use std::time::{Duration, Instant};

/// What is spent on one case at most.
const MOST_TRIES: usize = 20_000;
const MOST_TIME: Duration = Duration::from_secs(2);

/// A case of which no smaller one differs, as far as single steps tell, or the smallest until the budget is spent.
pub fn shrink<C: Case>(mut case: C) -> C {
    let begun = Instant::now();
    let mut tries = 0;
    let mut allowed = || {
        tries += 1;
        tries <= MOST_TRIES && begun.elapsed() < MOST_TIME
    };
    loop {
        let mut smaller = case.smaller().take_while(|_| allowed());
        let found = smaller.find(|smaller| *smaller != case && differs(smaller));
        drop(smaller);
        match found {
            Some(smaller) => case = smaller,
            None => return case,
        }
    }
}

/// The case with each of these in turn, made when it is asked for.
pub fn each<'a, C: Clone, T: 'a>(
    case: &'a C,
    items: impl Iterator<Item = T> + 'a,
    put: impl Fn(&mut C, T) + 'a,
) -> impl Iterator<Item = C> + 'a {
    items.map(move |item| {
        let mut case = case.clone();
        put(&mut case, item);
        case
    })
}

/// Parts of `length` places to leave out, the long ones first.
pub fn parts(length: usize) -> impl Iterator<Item = Range<usize>> {
    let sizes = iter::successors(Some(length), |size| Some(size / 2));
    let sizes = sizes.take_while(|size| *size > 0);
    sizes.flat_map(move |size| {
        let starts = (0..length).step_by(size);
        starts.map(move |start| start..length.min(start + size))
    })
}

pub fn without<T: Clone>(items: &[T], part: &Range<usize>) -> Vec<T> {
    [&items[..part.start], &items[part.end..]].concat()
}

/// Lists that are shorter, or have one item that is smaller.
pub fn lists<'a, T: Clone, S: Iterator<Item = T> + 'a>(
    items: &'a [T],
    smaller: impl Fn(&T) -> S + 'a,
) -> impl Iterator<Item = Vec<T>> + 'a {
    let shorter = parts(items.len()).map(|part| without(items, &part));
    let lower = (0..items.len()).flat_map(move |place| {
        smaller(&items[place]).map(move |item| {
            let mut items = items.to_vec();
            items[place] = item;
            items
        })
    });
    shorter.chain(lower)
}

pub fn bytes(bytes: &[u8]) -> impl Iterator<Item = Vec<u8>> + '_ {
    lists(bytes, |byte| {
        let smaller = numbers(u64::from(*byte));
        smaller.map(|byte| byte as u8)
    })
}

/// Smaller numbers: 0, 1, without the high bits, then from the half on nearer by halves, up to one less.
pub fn numbers(number: u64) -> impl Iterator<Item = u64> {
    let fewer = [8, 16, 32].map(|bits| number & ((1 << bits) - 1));
    let steps = (1..64).map(move |bits| number >> bits);
    let nearer = steps.take_while(|step| *step > 0);
    let nearer = nearer.map(move |step| number - step);
    let all = [0, 1].into_iter().chain(fewer).chain(nearer);
    all.filter(move |smaller| *smaller < number)
}

/// Expressions without some of their instructions or bytes, or with a smaller
/// byte. Where instructions go, jumps over them still aim where they did.
pub fn expressions(expression: &[u8]) -> impl Iterator<Item = Vec<u8>> + '_ {
    let starts = starts(expression);
    let ends = starts.iter().skip(1).copied().chain([expression.len()]);
    let places: Vec<(usize, usize)> = starts.iter().copied().zip(ends).collect();
    let cut = parts(places.len()).map(move |part| {
        let bytes = places[part.start].0..places[part.end - 1].1;
        aimed_again(expression, &starts, bytes)
    });
    cut.chain(bytes(expression))
}

/// The instruction starts from offset 0 on; the last may not be an instruction.
fn starts(expression: &[u8]) -> Vec<usize> {
    let mut starts = Vec::new();
    let mut offset = 0;
    while offset < expression.len() {
        starts.push(offset);
        offset += match isa::opcode(expression[offset]) {
            Opcode::Supported(row) => 1 + row.operands,
            _ => expression.len(),
        };
    }
    starts
}

/// Without these bytes; jumps to places behind them are moved with those.
fn aimed_again(expression: &[u8], starts: &[usize], bytes: Range<usize>) -> Vec<u8> {
    let mut aimed = expression.to_vec();
    for start in starts {
        let jump = matches!(expression[*start], isa::GOTO | isa::IF_GOTO);
        let Some([high, low]) = aimed.get_mut(start + 1..start + 3).filter(|_| jump) else {
            continue;
        };
        let target = usize::from(u16::from_be_bytes([*high, *low]));
        if target >= bytes.end {
            let moved = (target - bytes.len()) as u16;
            [*high, *low] = moved.to_be_bytes();
        }
    }
    without(&aimed, &bytes)
}

#[cfg(test)]
mod tests {
    use super::*;
    use crate::compare::{Answer, Entry};
    use evaluator::random::Random;

    #[test]
    fn parts_are_long_first_and_within() {
        assert_eq!(parts(0).count(), 0);
        assert!(parts(3).eq([0..3, 0..1, 1..2, 2..3]));
        assert_eq!(without(&[1, 2, 3, 4], &(1..3)), [1, 4]);
    }

    #[test]
    fn numbers_are_smaller() {
        assert_eq!(numbers(0).count(), 0);
        for number in [1, 2, 255, 256, 1 << 40, u64::MAX] {
            let smaller: Vec<u64> = numbers(number).collect();
            assert!(smaller.contains(&0) && smaller.contains(&(number - 1)));
            assert!(smaller.iter().all(|smaller| *smaller < number));
        }
    }

    #[test]
    fn numbers_come_down_in_few_tries() {
        let wanted = (1 << 40) + 12_345;
        let (mut number, mut tries) = (u64::MAX, 0);
        let fits = |smaller: &u64| *smaller >= wanted;
        while let Some(smaller) = numbers(number).inspect(|_| tries += 1).find(fits) {
            number = smaller;
        }
        assert_eq!(number, wanted);
        assert!(tries < 3_000, "{tries}");
    }

    /// Only the first differs, and others without end are smaller.
    #[derive(Clone, PartialEq)]
    struct Endless(u32);

    impl Case for Endless {
        const KIND: &'static str = "endless";
        const ENTRIES: &'static [Entry] = &[];
        type Maker = ();

        fn any(_: &mut (), _: &mut Random, _: usize) -> Endless {
            Endless(0)
        }

        fn line(&self) -> String {
            String::new()
        }

        fn read(_: &str) -> Result<Endless, String> {
            Ok(Endless(0))
        }

        fn expected(&self) -> Vec<Answer> {
            vec![Answer::numbers(0, &[])]
        }

        fn found(&self) -> Vec<Answer> {
            let number = u32::from(self.0 == 0);
            vec![Answer::numbers(number, &[])]
        }

        fn smaller(&self) -> impl Iterator<Item = Endless> {
            (1..).map(Endless)
        }
    }

    #[test]
    fn the_budget_ends_it() {
        assert!(shrink(Endless(0)) == Endless(0));
    }

    /// A jump over what is left out aims at the same instruction; one before it stays.
    #[test]
    fn jumps_aim_where_they_did() {
        let expression = [0x22, 1, 0x20, 0, 8, 0x22, 7, 0x27, 0x27];
        let smaller: Vec<Vec<u8>> = expressions(&expression).collect();
        let without_const: &[u8] = &[0x22, 1, 0x20, 0, 6, 0x27, 0x27];
        assert!(smaller.iter().any(|smaller| smaller == without_const));
        let without_end: &[u8] = &[0x22, 1, 0x20, 0, 8, 0x22, 7, 0x27];
        assert!(smaller.iter().any(|smaller| smaller == without_end));
    }
}
