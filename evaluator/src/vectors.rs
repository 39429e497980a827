//! The files of test vectors: one function for each kind. A kind is a folder
//! with a file `stdin`, a case in each line, and a file `stdout`, its outcome.

use crate::{frames, generate, hex, leaf, machine, runs, verify, walks};
use std::fs;
use std::path::{Path, PathBuf};

pub struct Vectors {
    pub folder: &'static str,
    pub stdin: String,
    pub stdout: String,
    /// What is told of them on standard error.
    pub note: String,
}

/// Every kind.
pub fn all() -> Vec<Vectors> {
    vec![verifier(), leaf(), runs()]
}

/// Expressions and what the verifier answers. Where an expression has few
/// enough walks, the three passes and the walks must agree.
pub fn verifier() -> Vectors {
    let mut vectors = Vectors {
        folder: "verifier_vectors",
        stdin: String::new(),
        stdout: String::new(),
        note: String::new(),
    };
    let [mut by_walks, mut before_walks, mut by_passes] = [0; 3];
    for bytes in generate::verifier_cases() {
        let outcome = verify::verify(&bytes);
        match walks::decide(&bytes) {
            None => by_passes += 1,
            Some(decided) => {
                assert_eq!(outcome, decided, "passes and walks: {}", hex::write(&bytes));
                match outcome {
                    Err(refused) if refused.number <= 7 => before_walks += 1,
                    _ => by_walks += 1,
                }
            }
        }
        vectors.stdin += &(hex::write(&bytes) + "\n");
        vectors.stdout += &(verify::line(&outcome) + "\n");
    }
    vectors.note = format!(
        "verifier_vectors: {} expressions, of which\n  \
         {by_walks} accepted or refused with 8 to 11 and confirmed by all their walks,\n  \
         {before_walks} refused with 1 to 7 and confirmed by a second reading of passes 1 and 2,\n  \
         {by_passes} with more than {} walks and decided by the three passes alone",
        by_walks + before_walks + by_passes,
        walks::MOST_WALKS,
    );
    vectors
}

/// Single operators, fetches, searches, records and frames to read, and what
/// they come to. What is written must read back as what it was.
pub fn leaf() -> Vectors {
    let mut vectors = Vectors {
        folder: "leaf_vectors",
        stdin: String::new(),
        stdout: String::new(),
        note: String::new(),
    };
    let cases = generate::leaf_cases();
    for case in &cases {
        let outcome = case.evaluate();
        let line = case.line();
        assert!(leaf::reads_back(case, &outcome), "not read back: {line}");
        vectors.stdin += &(line + "\n");
        vectors.stdout += &(leaf::line(&outcome) + "\n");
    }
    vectors.note = format!("leaf_vectors: {} cases", cases.len());
    vectors
}

/// Expressions and all that their runs are given, and what they come to. What
/// was written must divide into the records made.
pub fn runs() -> Vectors {
    let mut vectors = Vectors {
        folder: "run_vectors",
        stdin: String::new(),
        stdout: String::new(),
        note: String::new(),
    };
    let cases = generate::run_cases();
    for case in &cases {
        let outcome = machine::run(&case.given());
        let line = case.line();
        assert!(divides(&outcome, case.used), "not divided: {line}");
        vectors.stdin += &(line + "\n");
        vectors.stdout += &(runs::line(&outcome, case.used) + "\n");
    }
    vectors.note = format!("run_vectors: {} cases", cases.len());
    vectors
}

/// The buffer holds the records from the given used length on.
fn divides(outcome: &machine::Outcome, used: u64) -> bool {
    let lengths = outcome.records.iter().map(|r| frames::encode(r).len());
    let length: usize = lengths.sum();
    if length == 0 {
        return outcome.records.is_empty();
    }
    let used = used as usize;
    let divided = frames::divide(&outcome.buffer[used..used + length]);
    divided.as_ref() == Ok(&outcome.records)
}

impl Vectors {
    fn files(&self, dir: &Path) -> [(PathBuf, &str); 2] {
        let folder = dir.join(self.folder);
        [
            (folder.join("stdin"), &self.stdin),
            (folder.join("stdout"), &self.stdout),
        ]
    }

    /// Writes both files; their folder must exist.
    pub fn write(&self, dir: &Path) -> Result<(), String> {
        for (path, text) in self.files(dir) {
            fs::write(&path, text)
                .map_err(|error| format!("{} cannot be written: {error}", path.display()))?;
        }
        Ok(())
    }

    /// The first difference of each file from what would be written.
    pub fn differences(&self, dir: &Path) -> Vec<String> {
        let files = self.files(dir).into_iter();
        let differences = files.filter_map(|(path, text)| {
            let told = match fs::read(&path) {
                Ok(found) => difference(&found, text.as_bytes())?,
                Err(error) => format!("cannot be read: {error}"),
            };
            Some(format!("{}: {told}", path.display()))
        });
        differences.collect()
    }
}

/// Where `found` first differs from `wanted`, if it does.
fn difference(found: &[u8], wanted: &[u8]) -> Option<String> {
    if found == wanted {
        return None;
    }
    let mut found = found.split_inclusive(|byte| *byte == b'\n');
    let mut wanted = wanted.split_inclusive(|byte| *byte == b'\n');
    let mut number = 0;
    loop {
        number += 1;
        let (here, there) = (found.next(), wanted.next());
        if here != there {
            return Some(format!(
                "line {number} differs: it is {}, it should be {}",
                shown(here),
                shown(there)
            ));
        }
    }
}

/// The beginning of a line, for a message.
fn shown(line: Option<&[u8]>) -> String {
    const MOST: usize = 60;
    match line {
        None => "missing".to_string(),
        Some(line) if line.len() > MOST => {
            format!("{:?}...", String::from_utf8_lossy(&line[..MOST]))
        }
        Some(line) => format!("{:?}", String::from_utf8_lossy(line)),
    }
}

#[cfg(test)]
mod tests {
    use super::*;

    #[test]
    fn two_runs_are_equal() {
        let both = [(verifier(), verifier()), (leaf(), leaf()), (runs(), runs())];
        for (one, other) in both {
            assert!(one.stdin == other.stdin && one.stdout == other.stdout);
        }
    }

    #[test]
    fn sizes_are_as_asked() {
        for (vectors, most_lines, most_bytes) in [
            (verifier(), 6_000..=8_000, 1_500_000),
            (leaf(), 8_000..=10_000, 3_000_000),
            (runs(), 4_000..=6_000, 1_500_000),
        ] {
            let lines = vectors.stdin.lines().count();
            assert!(most_lines.contains(&lines), "{lines} lines");
            assert_eq!(lines, vectors.stdout.lines().count());
            assert!(vectors.stdin.len() + vectors.stdout.len() < most_bytes);
            let mut cases: Vec<&str> = vectors.stdin.lines().collect();
            cases.sort();
            cases.dedup();
            assert_eq!(cases.len(), lines, "a line is repeated");
        }
    }

    #[test]
    fn differences_name_the_line() {
        assert_eq!(difference(b"a\nb\n", b"a\nb\n"), None);
        let cases: [(&[u8], &[u8], &str); 4] = [
            (b"a\nc\n", b"a\nb\n", "line 2"),
            (b"a\n", b"a\nb\n", "line 2"),
            (b"a\nb\nc\n", b"a\nb\n", "line 3"),
            (b"a\nb", b"a\nb\n", "line 2"),
        ];
        for (found, wanted, start) in cases {
            let told = difference(found, wanted).unwrap();
            assert!(told.starts_with(start), "{told}");
        }
    }
}
