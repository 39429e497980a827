//! The command line: outputs and exit statuses.

use std::path::PathBuf;
use std::process::{Command, Output};

fn evaluator(arguments: &[&str]) -> Output {
    let mut command = Command::new(env!("CARGO_BIN_EXE_evaluator"));
    command.args(arguments).output().expect("it starts")
}

fn text(bytes: &[u8]) -> String {
    String::from_utf8_lossy(bytes).into_owned()
}

#[test]
fn verify_prints_one_line() {
    for (arguments, line) in [
        (&["verify", ""][..], "refused 1 0\n"),
        (&["verify", "27"], "accepted 1 0 1\n"),
        (&["verify", "22 05 22 03 02 27"], "accepted 4 2 4\n"),
        (&["verify", "22", "01"], "refused 11 0\n"),
    ] {
        let output = evaluator(arguments);
        assert_eq!(output.status.code(), Some(0));
        assert_eq!(text(&output.stdout), line);
    }
}

#[test]
fn run_prints_one_line() {
    let case = "2310000d0227 - - 0 - 1000 410042 7 15 0 default";
    let frame = "4d001000000000000002004100460007000d000000";
    let output = evaluator(&["run", case]);
    assert_eq!(output.status.code(), Some(0));
    let line = text(&output.stdout);
    assert!(line.starts_with("completed 3 1000 15 - "), "{line}");
    assert!(line.ends_with(&format!(" {frame}\n")), "{line}");
}

#[test]
fn misuse_has_status_2_and_a_message() {
    for arguments in [
        &[][..],
        &["verifies"],
        &["verify"],
        &["verify", "2"],
        &["verify", "zz"],
        &["run"],
        &["run", "27"],
        &[
            "run", "27", "-", "-", "0", "-", "0", "-", "0", "8", "0", "default",
        ],
        &["vectors"],
        &["vectors", "--check"],
        &["vectors", "--other"],
        &["vectors", "a", "b"],
        &["vectors", "/nowhere"],
        &["vectors", "--check", "/nowhere"],
        &["counts", "all"],
    ] {
        let output = evaluator(arguments);
        assert_eq!(output.status.code(), Some(2), "{arguments:?}");
        assert!(output.stdout.is_empty());
        assert!(text(&output.stderr).starts_with("evaluator: "));
    }
    assert_eq!(evaluator(&["help"]).status.code(), Some(0));
}

const KINDS: [&str; 3] = ["verifier_vectors", "leaf_vectors", "run_vectors"];

fn empty_folder(name: &str) -> PathBuf {
    let dir = PathBuf::from(env!("CARGO_TARGET_TMPDIR")).join(name);
    if dir.exists() {
        std::fs::remove_dir_all(&dir).unwrap();
    }
    std::fs::create_dir_all(&dir).unwrap();
    dir
}

#[test]
fn vectors_are_written_and_checked() {
    let folder = empty_folder("vectors");
    for kind in KINDS {
        std::fs::create_dir(folder.join(kind)).unwrap();
    }
    let dir = folder.to_str().unwrap();
    assert_eq!(evaluator(&["vectors", dir]).status.code(), Some(0));
    let check = || evaluator(&["vectors", "--check", dir]);
    assert_eq!(check().status.code(), Some(0));

    for (kind, good_line, bad_line) in [
        (KINDS[0], "accepted 4 2 4\n", "accepted 4 3 4\n"),
        (KINDS[1], "0\n1\n2\n", "0\n1\n3\n"),
        (KINDS[2], "completed 4 8 8 -", "completed 4 9 8 -"),
    ] {
        let stdout = folder.join(kind).join("stdout");
        let good = std::fs::read_to_string(&stdout).unwrap();
        let bad = good.replacen(good_line, bad_line, 1);
        std::fs::write(&stdout, &bad).unwrap();
        let output = check();
        assert_eq!(output.status.code(), Some(1));
        let told = format!("{kind}/stdout: line 3 differs");
        assert!(text(&output.stderr).contains(&told));
        assert_eq!(std::fs::read_to_string(&stdout).unwrap(), bad);
        std::fs::write(&stdout, &good).unwrap();
    }
}

#[test]
fn a_missing_folder_is_named_and_nothing_is_written() {
    let folder = empty_folder("without_leaf");
    let there = folder.join(KINDS[0]);
    std::fs::create_dir(&there).unwrap();
    let dir = folder.to_str().unwrap();
    for arguments in [&["vectors", dir][..], &["vectors", "--check", dir]] {
        let output = evaluator(arguments);
        assert_eq!(output.status.code(), Some(2));
        let missing = folder.join(KINDS[1]);
        let told = format!("the folder {} does not exist", missing.display());
        assert!(text(&output.stderr).contains(&told));
        assert_eq!(std::fs::read_dir(&there).unwrap().count(), 0);
    }
}
