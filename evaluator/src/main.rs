//! The command: evaluates single cases and writes the test vectors.

use evaluator::vectors::{self, Vectors};
use evaluator::{counts, hex, machine, runs, verify};
use std::io::Write;
use std::path::Path;
use std::process::ExitCode;

const HELP: &str = "\
evaluator: evaluates agent expressions as document 01, as amended, says

  evaluator verify HEX           prints what the verifier answers for the
                                 expression: `accepted COUNT HEIGHT WALK` or
                                 `refused NUMBER OFFSET`; HEX may have spaces
                                 between bytes, \"\" is the empty expression
  evaluator run LINE             prints what a run comes to; LINE is one line
                                 of DIR/run_vectors/stdin, as one argument
  evaluator vectors DIR          writes stdin and stdout in the folders
                                 DIR/verifier_vectors, DIR/leaf_vectors and
                                 DIR/run_vectors, which must exist; DIR is
                                 normally crates
  evaluator vectors --check DIR  writes nothing; tells which file and line is
                                 not as it would be written
  evaluator counts               tells how many vectors have each outcome, how
                                 many accepted expressions reach each opcode,
                                 how many words each operator is tried on, and
                                 how many completed runs execute each opcode
  evaluator help                 prints this text

Exit status: 0 done, 1 files differ or cannot be written, 2 misuse.
";

/// Why the program stops without success.
enum Failure {
    /// The command is not understood or its folder is missing: status 2.
    Misuse(String),
    /// The command did not do what it is for: status 1.
    Failed(String),
}

fn main() -> ExitCode {
    match run() {
        Ok(()) => ExitCode::SUCCESS,
        Err(Failure::Misuse(text)) => {
            eprintln!("evaluator: {text}\nevaluator: `evaluator help` lists the commands");
            ExitCode::from(2)
        }
        Err(Failure::Failed(text)) => {
            eprintln!("evaluator: {text}");
            ExitCode::from(1)
        }
    }
}

fn run() -> Result<(), Failure> {
    let mut arguments = Vec::new();
    for argument in std::env::args_os().skip(1) {
        let text = argument.into_string();
        arguments.push(text.map_err(|_| Failure::Misuse("an argument is not UTF-8".into()))?);
    }
    let arguments: Vec<&str> = arguments.iter().map(String::as_str).collect();
    match arguments[..] {
        ["help" | "--help" | "-h"] => print(HELP),
        ["verify", first, ref others @ ..] => run_verify(first, others),
        ["verify"] => misuse("verify needs HEX"),
        ["run", line] => run_one(line),
        ["run", ..] => misuse("run needs LINE as one argument, and nothing else"),
        ["vectors", "--check"] => misuse("vectors --check needs DIR"),
        ["vectors", "--check", dir] => run_check(Path::new(dir)),
        ["vectors", option] if option.starts_with('-') => {
            misuse(&format!("vectors has no option `{option}`"))
        }
        ["vectors", dir] => run_vectors(Path::new(dir)),
        ["vectors", ..] => misuse("vectors needs DIR, or --check DIR, and nothing else"),
        ["counts"] => print(&counts::tables()),
        ["counts", ..] => misuse("counts takes no arguments"),
        [] => misuse("a command is needed"),
        [command, ..] => misuse(&format!("there is no command `{command}`")),
    }
}

fn misuse(text: &str) -> Result<(), Failure> {
    Err(Failure::Misuse(text.into()))
}

/// Prints without the panic of print! on a closed pipe.
fn print(text: &str) -> Result<(), Failure> {
    let written = std::io::stdout().write_all(text.as_bytes());
    written.map_err(|error| Failure::Failed(format!("standard output: {error}")))
}

fn run_verify(first: &str, others: &[&str]) -> Result<(), Failure> {
    let text = [&[first], others].concat().join(" ");
    let bytes = hex::read(&text).map_err(Failure::Misuse)?;
    print(&(verify::line(&verify::verify(&bytes)) + "\n"))
}

fn run_one(line: &str) -> Result<(), Failure> {
    let case = runs::Case::read(line).map_err(Failure::Misuse)?;
    let outcome = machine::run(&case.given());
    print(&(runs::line(&outcome, case.used) + "\n"))
}

/// Every kind of vectors, if each has its folder in `dir`.
fn with_folders(dir: &Path) -> Result<Vec<Vectors>, Failure> {
    let all = vectors::all();
    for vectors in &all {
        let folder = dir.join(vectors.folder);
        if !folder.is_dir() {
            let text = format!("the folder {} does not exist", folder.display());
            return Err(Failure::Misuse(text));
        }
    }
    Ok(all)
}

fn run_vectors(dir: &Path) -> Result<(), Failure> {
    for vectors in with_folders(dir)? {
        vectors.write(dir).map_err(Failure::Failed)?;
        eprintln!("{}", vectors.note);
    }
    Ok(())
}

fn run_check(dir: &Path) -> Result<(), Failure> {
    let mut differences = Vec::new();
    for vectors in with_folders(dir)? {
        differences.extend(vectors.differences(dir));
        eprintln!("{}", vectors.note);
    }
    if differences.is_empty() {
        return Ok(());
    }
    Err(Failure::Failed(differences.join("\nevaluator: ")))
}
