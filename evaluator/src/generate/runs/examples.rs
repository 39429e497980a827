//! The examples of document 01 that a run decides, those of document 02's M-100,
//! and those of the readings, with the beginnings of their lines of
//! outcome. What an entry leaves unsaid (steps, a top) was reckoned by hand.

use crate::hex;
use crate::isa;
use crate::runs::{Bytes, Case, Registers};
use std::collections::BTreeMap;

/// "Working memory at 4096 holds `41 00 42`; tracepoint 7". The image is empty,
/// no register is lent, and 64 bytes of the buffer are free.
fn scene() -> Case {
    Case {
        expression: Vec::new(),
        registers: Registers::Listed(Vec::new()),
        variables: BTreeMap::new(),
        spans: [
            (0, Bytes::Listed(Vec::new())),
            (4096, Bytes::Listed(vec![0x41, 0x00, 0x42])),
        ],
        tracepoint: 7,
        length: 64,
        used: 0,
        allowance: None,
    }
}

/// Expression, beginning of the outcome.
const SHORT: [(&str, &str); 44] = [
    // Document 01, "Examples".
    ("", "refused 1 0 0"),
    ("27", "completed 1 none 8 -"),
    ("22 05 22 03 02 27", "completed 4 8 8 -"),
    ("22 01 20 00 08 22 07 27 27", "completed 3 none"),
    ("22 01 20 00 07 22 07 27", "refused 8 7 0"),
    ("21 00 00", "refused 7 0 0"),
    ("21 00 03", "refused 6 0 0"),
    ("22 01", "refused b 0 0"),
    ("22 09 32 01 27", "refused 9 2 0"),
    ("22 09 32 00 27", "completed 3 9,9"),
    ("23 01", "refused 4 0 0"),
    ("16 00 27", "refused 5 0 0"),
    ("27 02", "completed 1 none"),
    ("27 31", "refused 2 1 0"),
    ("22 80 16 08 27", "completed 3 ffffffffffffff80"),
    (
        "25 80 00 00 00 00 00 00 00 22 01 16 01 05 27",
        "completed 5 8000000000000000",
    ),
    ("22 01 22 00 05 27", "refused 11 4 2"),
    ("23 10 00 0d 02 27", "completed 3 1000 15 -"),
    ("23 10 00 0d 04 27", "refused 13 3 1 0 -"),
    ("23 10 00 22 03 2f 27", "completed 4 none 15 -"),
    // The third of them with other conditions: 0 goes on, 2 jumps.
    ("22 00 20 00 08 22 07 27 27", "completed 4 7"),
    ("22 02 20 00 08 22 07 27 27", "completed 3 none"),
    // "rot takes a b c to c a b, with b on top."
    ("22 01 22 02 22 03 33 27", "completed 5 2,1"),
    ("22 01 22 02 22 03 33 29 29 27", "completed 7 3"),
    ("22 01 22 02 2b 27", "completed 4 1,2"),
    ("22 01 22 02 22 03 32 02 27", "completed 5 1,3"),
    // Operands are most significant byte first; ref reads little-endian.
    ("23 10 00 18 27", "completed 3 41"),
    ("23 10 01 18 27", "completed 3 4200"),
    ("23 10 01 19 27", "refused 13 3 1"),
    ("23 10 02 17 27", "completed 3 42"),
    ("23 10 03 17 27", "refused 13 3 1"),
    // tracenz needs only the bytes up to the zero; 20 is seldom its own.
    ("23 10 00 24 00 01 00 00 2f 27", "completed 4 none 15 -"),
    ("23 10 02 24 00 01 00 00 2f 27", "refused 13 8 2"),
    ("23 10 02 22 01 2f 27", "completed 4 none 14 -"),
    ("23 10 02 22 02 2f 27", "refused 13 5 2"),
    ("23 20 00 24 00 01 00 00 0c 27", "refused 14 8 2"),
    // a size of 0 at an address that is not readable.
    ("22 05 0d 00 27", "completed 3 5 8 -"),
    ("22 05 30 00 00 27", "completed 3 5 8 -"),
    ("22 05 22 00 0c 27", "completed 4 none 8 -"),
    ("22 05 22 00 2f 27", "completed 4 none 8 -"),
    // A-21, with no register lent.
    ("26 00 00 27", "refused 12 0 0"),
    ("26 ff ff 27", "refused 12 0 0"),
    // a variable set, recorded and kept; set before a fault, and not kept.
    ("22 09 2d 00 05 2e 00 05 27", "completed 4 9,9 15 5=9"),
    ("22 09 2d 00 05 22 00 06 27", "refused 11 7 3 0 -"),
];

/// Bytes in front, how often the byte or bytes in the middle, outcome.
const LONG: [(&str, &str, usize, &str); 4] = [
    ("", "22 00", 64, "completed 41 0,0"),
    ("", "22 00", 65, "refused a 80 0"),
    ("22 00", "12", 1_021, "completed 3ff ffffffffffffffff"),
    ("22 00", "12", 1_022, "refused 1 0 0"),
];

/// M-100, "Add 63, 64, 65 and 2^64 − 1 to the examples": a shift, the word that
/// is shifted, the outcome by 63 and that by the others.
const SHIFTS: [(u8, i64, &str, &str); 6] = [
    (isa::LSH, 3, TOP_BIT, NOTHING),
    (isa::LSH, -3, TOP_BIT, NOTHING),
    (isa::RSH_SIGNED, 3, NOTHING, NOTHING),
    (isa::RSH_SIGNED, -3, ALL_ONES, ALL_ONES),
    (isa::RSH_UNSIGNED, 3, NOTHING, NOTHING),
    (isa::RSH_UNSIGNED, -3, "completed 4 1", NOTHING),
];
const TOP_BIT: &str = "completed 4 8000000000000000";
const NOTHING: &str = "completed 4 0";
const ALL_ONES: &str = "completed 4 ffffffffffffffff";

fn shifts() -> Vec<(Vec<u8>, &'static str)> {
    let push = |word: u64| [vec![isa::CONST64], word.to_be_bytes().to_vec()].concat();
    let mut all = Vec::new();
    for (shift, word, by_63, by_more) in SHIFTS {
        let by = |count| [push(word as u64), push(count), vec![shift, isa::END]].concat();
        all.push((by(63), by_63));
        all.extend([64, 65, u64::MAX].map(|count| (by(count), by_more)));
    }
    all
}

fn read(text: &str) -> Vec<u8> {
    hex::read(text).expect("the examples are hex")
}

/// The worked frame with less room, and 16 before everything.
fn limited() -> Vec<(Case, &'static str)> {
    let expression = read("23 10 00 0d 02 27");
    let case = |length, allowance| Case {
        expression: expression.clone(),
        length,
        allowance,
        ..scene()
    };
    vec![
        (case(21, None), "completed 3 1000 15 -"),
        (case(20, None), "refused 15 5 2 0 -"),
        (case(13, None), "refused 15 5 2 0 -"),
        (case(12, None), "refused 15 3 1 0 -"),
        (case(0, None), "refused 15 3 1 0 -"),
        (case(64, Some(0)), "refused 10 0 0 0 -"),
        (case(64, Some(1)), "refused 10 3 1 0 -"),
        (case(64, Some(2)), "refused 10 5 2 0 -"),
        (case(64, Some(3)), "completed 3 1000 15 -"),
        (case(0, Some(1)), "refused 10 3 1 0 -"),
    ]
}

/// Every example with the beginning of its outcome.
pub fn examples() -> Vec<(Case, &'static str)> {
    let on = |expression| Case {
        expression,
        ..scene()
    };
    let short = SHORT.iter().map(|(bytes, line)| (on(read(bytes)), *line));
    let long = LONG.iter().map(|(front, middle, times, line)| {
        let middle = read(middle).repeat(*times);
        let bytes = [read(front), middle, read("27")].concat();
        (on(bytes), *line)
    });
    let shifts = shifts();
    let shifts = shifts.into_iter().map(|(bytes, line)| (on(bytes), line));
    let mut all: Vec<_> = short.chain(long).chain(shifts).collect();
    all.extend(limited());
    all
}

pub fn cases() -> Vec<Case> {
    examples().into_iter().map(|(case, _)| case).collect()
}

#[cfg(test)]
mod tests {
    use super::*;
    use crate::machine::run;
    use crate::runs::line;

    #[test]
    fn the_documents_examples() {
        for (case, expected) in examples() {
            let told = line(&run(&case.given()), case.used);
            let rest = told.strip_prefix(expected);
            let rest = rest.unwrap_or_else(|| panic!("{}: {told}", case.line()));
            assert!(rest.starts_with(' '), "{}: {told}", case.line());
        }
    }

    /// The frame bytes that "Examples" gives.
    #[test]
    fn the_documents_frame() {
        let frame = read("4d 00 10 00 00 00 00 00 00 02 00 41 00 46 00 07 00 0d 00 00 00");
        for expression in ["23 10 00 0d 02 27", "23 10 00 22 03 2f 27"] {
            let case = Case {
                expression: read(expression),
                ..scene()
            };
            let buffer = run(&case.given()).buffer;
            assert_eq!(buffer[..21], frame);
            assert_eq!(buffer[21..], case.given().buffer[21..]);
        }
    }
}
