//! The examples of document 01 that the verifier decides, and those of the
//! readings, with the outcomes written there. What an entry leaves
//! unsaid of an accepted one (a count, a height, a walk) was counted by hand.

use crate::hex;

/// Expression, line of outcome.
const SHORT: [(&str, &str); 41] = [
    // Document 01, "Examples".
    ("", "refused 1 0"),
    ("27", "accepted 1 0 1"),
    ("22 05 22 03 02 27", "accepted 4 2 4"),
    ("22 01 20 00 08 22 07 27 27", "accepted 5 1 4"),
    ("22 01 20 00 07 22 07 27", "refused 8 7"),
    ("21 00 00", "refused 7 0"),
    ("21 00 03", "refused 6 0"),
    ("22 01", "refused 11 0"),
    ("22 09 32 01 27", "refused 9 2"),
    ("22 09 32 00 27", "accepted 3 2 3"),
    ("23 01", "refused 4 0"),
    ("16 00 27", "refused 5 0"),
    ("27 02", "accepted 2 0 1"),
    ("27 31", "refused 2 1"),
    ("22 80 16 08 27", "accepted 3 1 3"),
    (
        "25 80 00 00 00 00 00 00 00 22 01 16 01 05 27",
        "accepted 5 2 5",
    ),
    ("22 01 22 00 05 27", "accepted 4 2 4"),
    ("23 10 00 0d 02 27", "accepted 3 1 3"),
    ("23 10 00 0d 04 27", "accepted 3 1 3"),
    ("23 10 00 22 03 2f 27", "accepted 4 2 4"),
    // 6 before 7 at each jump, not over all jumps.
    ("27 21 00 00 21 00 09", "refused 7 1"),
    // a jump to itself; to the length and beyond.
    ("27 21 00 01", "refused 7 1"),
    ("21 00 04", "refused 6 0"),
    ("27 21 00 05", "refused 6 1"),
    ("27 21 ff ff", "refused 6 1"),
    // an if_goto in the last place.
    ("22 00 20 00 00", "refused 7 2"),
    // a jump in unreached code brings no height, but 6 and 7 are tried.
    ("21 00 08 22 01 21 00 08 27", "accepted 4 0 2"),
    ("21 00 08 22 01 21 00 07 27", "refused 6 5"),
    ("21 00 08 22 01 21 00 03 27", "refused 7 5"),
    // A-6 is `27 02` above. A-7: an if_goto to its next start.
    ("22 00 20 00 05 27", "accepted 3 1 3"),
    // the order of 2 to 5.
    ("34", "refused 3 0"),
    ("2c 00", "refused 4 0"),
    ("16", "refused 4 0"),
    // what refusal 5 covers.
    ("22 01 2a 00 27", "accepted 3 1 3"),
    ("26 ff ff 27", "accepted 2 1 2"),
    ("2c 00 3f 27", "accepted 2 1 2"),
    ("2c 00 40 27", "refused 5 0"),
    ("22 00 2d 00 40 27", "refused 5 2"),
    ("2e 01 00 27", "refused 5 0"),
    ("32 ff 27", "refused 9 0"),
    ("22 00 16 00 27", "refused 5 2"),
];

/// Bytes in front, bytes in the middle, how often these, bytes behind, outcome.
const LONG: [(&str, &str, usize, &str, &str); 12] = [
    // Document 01, "Examples": heights 64 and 65, lengths 1,024 and 1,025.
    ("", "22 00", 64, "27", "accepted 65 64 65"),
    ("", "22 00", 65, "27", "refused 10 128"),
    ("22 00", "12", 1_021, "27", "accepted 1023 1 1023"),
    ("22 00", "12", 1_022, "27", "refused 1 0"),
    // trace_quick on a full stack, where dup and const8 would not fit.
    ("", "22 00", 64, "0d 01 27", "accepted 66 64 66"),
    ("", "22 00", 63, "0d 01 27", "accepted 65 63 65"),
    // pick 63 on 64 cells, and pick 64.
    ("", "22 00", 64, "32 3f 27", "refused 10 128"),
    ("", "22 00", 64, "32 40 27", "refused 9 128"),
    ("", "22 00", 63, "32 3e 27", "accepted 65 64 65"),
    // "in that order": 10 before 11, where the last instruction leaves 65 cells.
    ("", "22 00", 65, "", "refused 10 128"),
    ("22 00", "28", 64, "", "refused 10 65"),
    ("", "22 00", 64, "32 00", "refused 10 128"),
];

/// Every example with its outcome.
pub fn examples() -> Vec<(Vec<u8>, &'static str)> {
    let read = |text| hex::read(text).expect("the examples are hex");
    let short = SHORT.iter().map(|(bytes, line)| (read(bytes), *line));
    let long = LONG.iter().map(|(front, middle, times, behind, line)| {
        (
            [read(front), read(middle).repeat(*times), read(behind)].concat(),
            *line,
        )
    });
    short.chain(long).collect()
}

pub fn cases() -> Vec<Vec<u8>> {
    examples().into_iter().map(|(bytes, _)| bytes).collect()
}

#[cfg(test)]
mod tests {
    use super::*;
    use crate::verify::{line, verify};
    use crate::walks::decide;

    #[test]
    fn the_documents_examples() {
        for (bytes, expected) in examples() {
            assert_eq!(line(&verify(&bytes)), expected, "{bytes:02x?}");
            let decided = decide(&bytes).expect("the examples have few walks");
            assert_eq!(line(&decided), expected, "{bytes:02x?}");
        }
    }
}
