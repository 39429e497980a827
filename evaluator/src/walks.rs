//! The same outcome decided a second way, from document 01's statements on
//! walks ("Verifying") and not from pass 3: every walk is made, and the
//! conditions are looked up in all of them.

use crate::isa::{self, Opcode};
use crate::verify::{Accepted, Outcome, Refused};
use std::collections::{BTreeMap, BTreeSet};

/// An expression with more walks than this is not decided here.
pub const MOST_WALKS: usize = 4_096;

/// A walk that cannot be made longer. Every other walk is the beginning of one
/// of these, so what holds on all of these holds on all walks.
struct Walk {
    starts: Vec<usize>,
    /// The walk leaves the bytes after its last start.
    leaves: bool,
}

/// The outcome; None if there are more than `MOST_WALKS` walks.
pub fn decide(bytes: &[u8]) -> Option<Outcome> {
    if bytes.is_empty() || bytes.len() > isa::MOST_BYTES {
        let refused = Refused {
            number: 1,
            offset: 0,
        };
        return Some(Err(refused));
    }
    let starts = chain(bytes);
    let in_bytes = starts.iter().find_map(|at| byte_fault(bytes, *at));
    let fault = in_bytes.or_else(|| starts.iter().find_map(|at| jump_fault(bytes, &starts, *at)));
    if let Some(refused) = fault {
        return Some(Err(refused));
    }
    let walks = walks(bytes)?;
    Some(judge(bytes, starts.len(), &walks))
}

/// The offsets got from 0 by going on behind the operands, as far as the bytes
/// and the table allow.
fn chain(bytes: &[u8]) -> Vec<usize> {
    let next = |at: &usize| match isa::opcode(bytes[*at]) {
        Opcode::Supported(row) => Some(at + 1 + row.operands).filter(|next| *next < bytes.len()),
        _ => None,
    };
    std::iter::successors(Some(0), next).collect()
}

/// The lowest of the refusals 2 to 5 that fits the offset.
fn byte_fault(bytes: &[u8], at: usize) -> Option<Refused> {
    let number = match isa::opcode(bytes[at]) {
        Opcode::Unknown => 2,
        Opcode::Unsupported => 3,
        Opcode::Supported(row) => {
            let behind = bytes.len() - at - 1;
            let operands = &bytes[at + 1..at + 1 + behind.min(row.operands)];
            match (row.name, operands) {
                _ if behind < row.operands => 4,
                ("ext", [0]) => 5,
                ("getv" | "setv" | "tracev", [high, low]) if *high > 0 || *low > 63 => 5,
                _ => return None,
            }
        }
    };
    Some(Refused { number, offset: at })
}

/// Refusal 6 or 7, if it fits a jump at the offset.
fn jump_fault(bytes: &[u8], starts: &[usize], at: usize) -> Option<Refused> {
    let jump = isa::at_start(bytes, at);
    let number = match jump.target() {
        _ if !jump.row.is_jump() => return None,
        target if !starts.contains(&target) => 6,
        target if target <= at => 7,
        _ => return None,
    };
    Some(Refused { number, offset: at })
}

/// All walks that cannot be made longer; None if there are too many. Jumps are
/// forward here, so each walk comes to its last start.
fn walks(bytes: &[u8]) -> Option<Vec<Walk>> {
    let mut unfinished = vec![vec![0]];
    let mut finished = Vec::new();
    while let Some(mut starts) = unfinished.pop() {
        let leaves = loop {
            let here = isa::at_start(bytes, starts[starts.len() - 1]);
            let next = match here.row.name {
                "end" => break false,
                "goto" => here.target(),
                _ => here.next(),
            };
            if here.row.name == "if_goto" && here.target() != next {
                let mut other = starts.clone();
                other.push(here.target());
                unfinished.push(other);
            }
            if next == bytes.len() {
                break true;
            }
            starts.push(next);
        };
        finished.push(Walk { starts, leaves });
        if finished.len() + unfinished.len() > MOST_WALKS {
            return None;
        }
    }
    Some(finished)
}

/// What all the walks together show at one start.
#[derive(Default)]
struct Seen {
    arriving: BTreeSet<i64>,
    remaining: BTreeSet<i64>,
    needs: i64,
    leaves: bool,
}

impl Seen {
    /// The refusal shown here, in the order of "Verifying", pass 3.
    fn fault(&self) -> Option<u8> {
        if self.arriving.len() > 1 {
            Some(8)
        } else if self.arriving.iter().any(|height| *height < self.needs) {
            Some(9)
        } else if self.remaining.iter().any(|h| *h > isa::CELLS as i64) {
            Some(10)
        } else if self.leaves {
            Some(11)
        } else {
            None
        }
    }
}

/// Looks at every start of every walk. Heights are signed, and a walk goes on
/// behind a fault: what it shows there is at a higher offset and the lowest
/// offset with a fault is the answer.
fn look(bytes: &[u8], walks: &[Walk]) -> BTreeMap<usize, Seen> {
    let mut all: BTreeMap<usize, Seen> = BTreeMap::new();
    for walk in walks {
        let mut height = 0;
        for (place, start) in walk.starts.iter().enumerate() {
            let (needs, leaves) = isa::at_start(bytes, *start).cells();
            let seen = all.entry(*start).or_default();
            seen.arriving.insert(height);
            height = height - needs as i64 + leaves as i64;
            seen.remaining.insert(height);
            seen.needs = needs as i64;
            seen.leaves |= walk.leaves && place + 1 == walk.starts.len();
        }
    }
    all
}

/// "Accepted means", given that passes 1 and 2 hold.
fn judge(bytes: &[u8], count: usize, walks: &[Walk]) -> Outcome {
    let all = look(bytes, walks);
    for (offset, seen) in &all {
        if let Some(number) = seen.fault() {
            return Err(Refused {
                number,
                offset: *offset,
            });
        }
    }
    let heights = all
        .values()
        .flat_map(|seen| seen.arriving.iter().chain(&seen.remaining));
    let lengths = walks.iter().map(|walk| walk.starts.len());
    Ok(Accepted {
        count,
        height: *heights.max().expect("offset 0 is reached") as usize,
        walk: lengths.max().expect("there is a walk"),
    })
}

#[cfg(test)]
mod tests {
    use super::*;
    use crate::generate::small;
    use crate::random::Random;
    use crate::verify::verify;

    #[test]
    fn passes_and_walks_agree_on_100_000_small_expressions() {
        let mut random = Random::new(2);
        let mut outcomes = [0; 12];
        let mut compared = 0;
        let mut number = 0;
        while compared < 100_000 {
            let bytes = small(&mut random, number);
            number += 1;
            let Some(decided) = decide(&bytes) else {
                continue;
            };
            let outcome = verify(&bytes);
            assert_eq!(outcome, decided, "{bytes:02x?}");
            compared += 1;
            outcomes[outcome.map_or_else(|refused| usize::from(refused.number), |_| 0)] += 1;
        }
        // Refusal 1 needs no walk and is seldom here.
        let often = |number: &usize| outcomes[*number] > 300;
        assert!(
            (0..12).filter(|number| *number != 1).all(|n| often(&n)),
            "{outcomes:?}"
        );
    }
}
