//! The commands on pairs of captures and on logs, as they are run.

use peer::make;
use std::fs;
use std::path::{Path, PathBuf};
use std::process::{Command, Output};

fn peer(words: &[&str]) -> Output {
    let mut command = Command::new(env!("CARGO_BIN_EXE_peer"));
    command.args(words).output().unwrap()
}

/// What a command that succeeds prints.
fn printed(words: &[&str]) -> String {
    let output = peer(words);
    assert!(output.status.success(), "{words:?}");
    String::from_utf8(output.stdout).unwrap()
}

/// A file of the repository, in a folder named from this package's own on.
fn stored(folder: &str, name: &str) -> String {
    let path = Path::new(env!("CARGO_MANIFEST_DIR"))
        .join(folder)
        .join(name);
    path.to_str().unwrap().to_string()
}

fn own(name: &str) -> PathBuf {
    Path::new(env!("CARGO_TARGET_TMPDIR")).join(name)
}

#[test]
fn two_captures_compared() {
    let first = stored("tests/compares", "in_order.first");
    let second = stored("tests/compares", "in_order.second");
    let words = ["compare", &first, &second];
    assert_eq!(printed(&words), "0 11 12 29\nrest 8\n");
    let with_room = |room| printed(&["compare", &first, &second, room]);
    assert_eq!(with_room("3"), "0 11 12 29\nrest 8\n");
    assert_eq!(with_room("2"), "13\nrest 8\n");
    let lines = fs::read_to_string(stored("tests/compares", "in_order.lines")).unwrap();
    assert_eq!(printed(&["compare", "--lines", &first, &second]), lines);
}

/// The usage of the program that `--lines` answers for.
#[test]
fn words_that_name_no_two_captures() {
    let output = peer(&["compare", "--lines", "one"]);
    assert_eq!(output.stdout, b"usage: compare FIRST SECOND\n");
    assert_eq!(output.status.code(), Some(2));
    let output = peer(&["compare", "no such file", "nor this"]);
    assert_eq!(output.status.code(), Some(2));
    assert!(String::from_utf8_lossy(&output.stderr).contains("no such file"));
}

#[test]
fn logs_indexed_and_asked() {
    let log = stored("../crates/logs/data", "kept.log");
    let index = fs::read_to_string(stored("../crates/logs/data", "kept.index")).unwrap();
    let built = printed(&["index", &log, "100"]);
    assert_eq!(format!("100 => {built}"), index);
    assert_eq!(printed(&["index", &log, "100", "2"]), "13\n");
    let asked = |reading| printed(&["ask", &log, "100", reading]);
    assert_eq!(asked("4000011"), "0 1 0 1 1 0 0 0 2\n");
    assert_eq!(asked("9223372036854775808"), "1\n");
    let capture = stored("tests/compares", "equal.first");
    assert_eq!(printed(&["ask", &capture, "100", "5"]), "19\n");
}

#[test]
fn folders_of_logs_are_played() {
    let folder = stored("../crates/logs/data", "");
    assert!(printed(&["asks", &folder]).ends_with("\n0 of them otherwise\n"));
    // A folder without a log shows nothing.
    assert!(!peer(&["asks", &stored("tests/compares", "")])
        .status
        .success());
}

#[test]
fn made_pairs_and_logs() {
    let (first, second) = (own("made.first"), own("made.second"));
    let paths = [&first, &second].map(|path| path.to_str().unwrap());
    let words = ["make", "--compare", "7", paths[0], paths[1]];
    assert_eq!(printed(&words), "");
    let pair = [fs::read(&first).unwrap(), fs::read(&second).unwrap()];
    assert_eq!(pair, make::compared(7));
    assert_eq!(peer(&["make", "--log", "7"]).stdout, make::logged(7));
}

#[test]
fn a_capture_becomes_a_log_if_it_is_whole() {
    let capture = stored("tests/compares", "equal.first");
    let log = peer(&["log", &capture]).stdout;
    assert_eq!(log.len(), fs::read(&capture).unwrap().len() + 2 * 2);
    let cut = stored("tests/compares", "first_cut.first");
    let output = peer(&["log", &cut]);
    assert_eq!(output.status.code(), Some(2));
    let said = String::from_utf8_lossy(&output.stderr).into_owned();
    assert!(
        said.ends_with("first_cut.first: the capture is cut\n"),
        "{said}"
    );
}

#[test]
fn what_is_no_command() {
    for words in [
        &["wach"][..],
        &["ask", "LOG"],
        &["check-ask", "1", "--program", "x"],
        &[],
    ] {
        let output = peer(words);
        assert_eq!(output.status.code(), Some(2), "{words:?}");
        assert!(output.stderr.starts_with(b"usage: peer watch"), "{words:?}");
    }
}
