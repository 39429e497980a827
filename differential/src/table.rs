//! How often each outcome came, for a person.

use crate::compare::{Entry, Found, Size};
use lilivrez::Refusal;
use std::collections::{BTreeMap, BTreeSet};
use std::fmt::Write;

type Outcomes = BTreeMap<(u32, &'static str), usize>;

/// Every entry with what came of it.
fn entries(all: &[Found]) -> impl Iterator<Item = (&Entry, &Outcomes)> {
    all.iter()
        .flat_map(|found| found.entries.iter().zip(&found.outcomes))
}

/// A column for each entry, a row for each outcome.
pub fn table(all: &[Found]) -> String {
    let mut text = format!("{:52}", "");
    for (entry, _) in entries(all) {
        write!(text, "{:>9}", entry.name).unwrap();
    }
    write!(text, "\n{:52}", "cases").unwrap();
    for found in all {
        for _ in found.entries {
            write!(text, "{:>9}", found.cases).unwrap();
        }
    }
    let rows: BTreeSet<_> = entries(all)
        .flat_map(|(_, outcomes)| outcomes.keys())
        .collect();
    for row in rows {
        write!(text, "\n{:52}", words(row)).unwrap();
        for (_, outcomes) in entries(all) {
            match outcomes.get(row) {
                Some(count) => write!(text, "{count:>9}").unwrap(),
                None => write!(text, "{:>9}", "-").unwrap(),
            }
        }
    }
    text
}

fn words((number, sort): &(u32, &'static str)) -> String {
    match Refusal::of(*number) {
        None => sort.to_string(),
        Some(refusal) => format!("{number:>2} {refusal}"),
    }
}

/// Every size with the largest seen.
fn sizes(all: &[Found]) -> impl Iterator<Item = (&Size, &u64)> {
    all.iter()
        .flat_map(|found| found.sizes.iter().zip(&found.largest))
}

pub fn largest(all: &[Found]) -> String {
    let each = sizes(all).map(|(size, largest)| format!("{} {largest}", size.name));
    each.collect::<Vec<_>>().join(", ")
}

/// The sizes of which no case was large enough.
pub fn too_small(all: &[Found]) -> Vec<String> {
    let small = sizes(all).filter(|(size, largest)| **largest < size.least);
    let told = small.map(|(size, largest)| format!("{} {largest} of {}", size.name, size.least));
    told.collect()
}

/// The refusals that an entry can give and did not.
pub fn never_seen(all: &[Found]) -> Vec<String> {
    let each = entries(all).flat_map(|(entry, outcomes)| {
        let seen = |number: &&u32| !outcomes.contains_key(&(**number, ""));
        let never = entry.refusals.iter().filter(seen);
        never.map(|number| format!("{number} of {}", entry.name))
    });
    each.collect()
}
