//! Differential tests: whole answers of the static libraries beside those of the independent evaluator, on random cases.

mod compare;
mod fetch;
mod fields;
mod long_read;
mod long_run;
mod next;
mod read;
mod run;
mod shrink;
mod table;
mod verify;

use compare::{compare, compare_line, Found};
use fetch::Fetch;
use next::Next;
use read::Read;
use run::Run;
use std::process::ExitCode;
use std::thread;
use verify::Verify;

const HELP: &str = "\
differential: compares the static libraries with the independent evaluator

  differential [--cases N] [--seed S]
      N random cases of each kind (200000), from a generator of numbers that
      begins with S (1). Prints how often each outcome came. Of a difference it
      prints the smallest case found, as a line for differential/kept; those
      lines are compared first. On stderr come up to 3 cases of each kind as
      they were before they were made smaller. One case in 64 is long.
  differential --line LINE
      one case, as such a line
  differential --help
      this text

Exit status: 0 all answers are the same, each refusal was seen and long cases
too, 1 not so, 2 misuse.
";

/// Cases compared every time, a line each; lines that begin with # are notes.
const KEPT: &str = include_str!("../kept");

enum Command {
    Help,
    Line(String),
    Random { cases: usize, seed: u64 },
}

fn main() -> ExitCode {
    let arguments: Vec<String> = std::env::args().skip(1).collect();
    let done = match command(&arguments) {
        Ok(Command::Help) => {
            print!("{HELP}");
            Ok(true)
        }
        Ok(Command::Line(line)) => one(&line),
        Ok(Command::Random { cases, seed }) => kept().map(|same| same & random(cases, seed)),
        Err(text) => Err(text),
    };
    match done {
        Ok(true) => ExitCode::SUCCESS,
        Ok(false) => ExitCode::from(1),
        Err(text) => {
            eprintln!("differential: {text}\ndifferential: `differential --help` tells the use");
            ExitCode::from(2)
        }
    }
}

fn command(arguments: &[String]) -> Result<Command, String> {
    let arguments: Vec<&str> = arguments.iter().map(String::as_str).collect();
    match arguments[..] {
        ["--help" | "-h"] => return Ok(Command::Help),
        ["--line", line] => return Ok(Command::Line(line.to_string())),
        _ => (),
    }
    let (mut cases, mut seed) = (200_000, 1);
    for option in arguments.chunks(2) {
        let number = |text: &str| text.parse().map_err(|_| format!("`{text}` is no number"));
        match option {
            ["--cases", text] => cases = number(text)? as usize,
            ["--seed", text] => seed = number(text)?,
            _ => return Err(format!("`{}` is not understood", option.join(" "))),
        }
    }
    Ok(Command::Random { cases, seed })
}

/// Whether the answers for the line's case are the same; prints both if not.
fn line(line: &str) -> Result<bool, String> {
    let (kind, fields) = line.split_once(' ').unwrap_or((line, ""));
    let difference = match kind {
        "verify" => compare_line::<Verify>(fields),
        "fetch" => compare_line::<Fetch>(fields),
        "run" => compare_line::<Run>(fields),
        "read" => compare_line::<Read>(fields),
        "next" => compare_line::<Next>(fields),
        _ => Err("a line begins with verify, fetch, run, read or next".to_string()),
    };
    let difference = difference.map_err(|text| format!("`{line}`: {text}"))?;
    if let Some(text) = &difference {
        println!("{text}");
    }
    Ok(difference.is_none())
}

fn one(text: &str) -> Result<bool, String> {
    let same = line(text)?;
    if same {
        println!("the answers are the same");
    }
    Ok(same)
}

fn kept() -> Result<bool, String> {
    let mut same = true;
    for case in KEPT.lines().filter(|text| !text.starts_with('#')) {
        same &= line(case)?;
    }
    Ok(same)
}

/// Whether all answers are the same, each refusal was seen and long cases too; prints the table and each kind's smallest difference.
fn random(cases: usize, seed: u64) -> bool {
    let kinds: [fn(usize, u64) -> Found; 5] = [
        compare::<Verify>,
        compare::<Fetch>,
        compare::<Run>,
        compare::<Read>,
        compare::<Next>,
    ];
    let all = kinds.map(|kind| thread::spawn(move || kind(cases, seed)));
    let all = all.map(|found| found.join().expect("a comparison ends"));
    println!("seed {seed}\n{}", table::table(&all));
    for found in &all {
        if let Some(smallest) = &found.smallest {
            println!("{} differ\n{smallest}", found.differing);
        }
    }
    let never = table::never_seen(&all);
    if !never.is_empty() {
        println!("never seen: {}", never.join(", "));
    }
    println!("largest: {}", table::largest(&all));
    let small = table::too_small(&all);
    if !small.is_empty() {
        println!("too small: {}", small.join(", "));
    }
    let seen = never.is_empty() && small.is_empty();
    let same = seen && all.iter().all(|found| found.differing == 0);
    if same {
        println!(
            "the answers for all random cases are the same; each refusal and long cases were seen"
        );
    }
    same
}
