//! `desk events` as it is run: its words, what it prints, how it ends, and what it says of programs
//! that do not answer as they should.

use std::os::unix::fs::PermissionsExt;
use std::path::{Path, PathBuf};
use std::process::{Command, Output, Stdio};
use std::sync::{Mutex, MutexGuard};

const HERE: &str = env!("CARGO_MANIFEST_DIR");

fn programs() -> PathBuf {
    let named = std::env::var_os("KORVEZUL_BIN");
    named.map_or_else(|| Path::new(HERE).join("../target/bin"), PathBuf::from)
}

/// Held while a program is started or written: one that is started while another is written would
/// keep the file open, and a file that is open for writing cannot be run.
fn alone() -> MutexGuard<'static, ()> {
    static ALONE: Mutex<()> = Mutex::new(());
    ALONE
        .lock()
        .unwrap_or_else(|poisoned| poisoned.into_inner())
}

fn run_with(programs: &Path, words: &[&str]) -> Output {
    let mut desk = Command::new(env!("CARGO_BIN_EXE_desk"));
    let desk = desk.arg("events").args(words).env("KORVEZUL_BIN", programs);
    let desk = desk.stdout(Stdio::piped()).stderr(Stdio::piped());
    let held = alone();
    let child = desk.spawn().unwrap();
    drop(held);
    child.wait_with_output().unwrap()
}

fn run(words: &[&str]) -> Output {
    run_with(&programs(), words)
}

fn stored(name: &str) -> String {
    format!("{HERE}/../crates/captures/data/{name}.capture")
}

fn printed(output: &Output) -> String {
    assert_eq!(String::from_utf8_lossy(&output.stderr), "");
    assert!(output.status.success());
    String::from_utf8(output.stdout.clone()).unwrap()
}

/// The exit and what was said on standard error, its first line.
fn refused(output: &Output) -> (Option<i32>, String) {
    let said = String::from_utf8_lossy(&output.stderr);
    (
        output.status.code(),
        said.lines().next().unwrap_or_default().to_string(),
    )
}

const LOSS: &str = "which: record 1 at 0, opening; how old: 3.000001 s; \
     ends: at the next CC or CV heard, a lock or a close; stood from 3000001";

#[test]
fn lines_of_text() {
    let expected = format!(
        "0 label 100, record 1: opened\n\
         0 label 100, record 1: state DOWN\n\
         3000001 label 100, record 5: loss begins; {LOSS}\n\
         3000001 label 100, record 5: alarm begins; {LOSS}\n"
    );
    assert_eq!(printed(&run(&[&stored("example")])), expected);
    let plain: Vec<&str> = expected
        .lines()
        .map(|line| line.split(';').next().unwrap())
        .collect();
    let without = printed(&run(&[&stored("example"), "--no-causes"]));
    assert_eq!(without.lines().collect::<Vec<_>>(), plain);
}

#[test]
fn lines_of_json_with_the_wall_clock() {
    let words = ["--json", "--epoch", "1700000000.25", "--from", "3,000,001"];
    let text = printed(&run(&[&[stored("example").as_str()], &words[..]].concat()));
    let first =
        "{\"reading\":3000001,\"time\":\"2023-11-14T22:13:23.250001Z\",\"label\":100,\"record\":5,\
        \"what\":\"loss begins\",\"which\":{\"record\":1,\"reading\":0,\"words\":\"opening\"},\
        \"how old\":\"3.000001 s\",\
        \"ends\":\"at the next CC or CV heard, a lock or a close; stood from 3000001\"}";
    assert_eq!(text.lines().next(), Some(first));
    assert_eq!(text.lines().count(), 2);
}

#[test]
fn a_damaged_capture_is_told_of_behind_its_events() {
    let path = stored("cut_body");
    let (code, said) = refused(&run(&[&path]));
    assert_eq!(code, Some(1));
    assert_eq!(
        said,
        format!("desk events: {path}: offset 24: no whole record behind record 1")
    );
    let path = stored("bad_header");
    let (code, said) = refused(&run(&[&path]));
    assert_eq!(code, Some(1));
    assert_eq!(
        said,
        format!("desk events: {path}: offset 0: not the header of a capture")
    );
    let (code, said) = refused(&run(&["/no/such/capture"]));
    assert_eq!(code, Some(1));
    assert!(
        said.starts_with("desk events: /no/such/capture: "),
        "{said}"
    );
}

#[test]
fn wrong_words_are_refused() {
    let path = stored("example");
    let wrong: [&[&str]; 9] = [
        &[],
        &["a", "b"],
        &["a", "--label", "x"],
        &["a", "--label", "4294967296"],
        &["a", "--from", "-1"],
        &["a", "--to"],
        &["a", "--epoch", "noon"],
        &["a", "--causes", "some"],
        &["a", "--causes", "all", "--no-causes"],
    ];
    for words in wrong {
        let words: Vec<&str> = words
            .iter()
            .map(|w| if *w == "a" { &path } else { *w })
            .collect();
        assert_eq!(refused(&run(&words)).0, Some(2), "{words:?}");
    }
    assert!(printed(&run(&["--help"])).starts_with("usage: desk events CAPTURE"));
}

/// A folder in which `watch` and `why` are the given lines of a shell.
fn fakes(name: &str, watch: &str, why: &str) -> PathBuf {
    let folder = std::env::temp_dir().join(format!("desk-events-{}-{name}", std::process::id()));
    std::fs::create_dir_all(&folder).unwrap();
    let _held = alone();
    for (program, lines) in [("watch", watch), ("why", why)] {
        let path = folder.join(program);
        std::fs::write(&path, format!("#!/bin/sh\n{lines}\n")).unwrap();
        std::fs::set_permissions(&path, PermissionsExt::from_mode(0o755)).unwrap();
    }
    folder
}

#[test]
fn programs_that_do_not_answer_are_told_of() {
    let real = format!(
        "exec {}/watch",
        std::fs::canonicalize(programs()).unwrap().display()
    );
    let cases = [
        (
            "silent",
            "cat >/dev/null",
            "",
            "watch ends before the capture",
        ),
        (
            "odd",
            "cat >/dev/null; echo what",
            "",
            "watch answers `what` where no such record stands",
        ),
        (
            "failing",
            "echo no memory >&2; exit 3",
            "",
            "watch failed: exit status: 3 no memory",
        ),
        (
            "refusing",
            &real,
            "cat >/dev/null; echo refused 15: no loss stands",
            "label 100 at 3000001: watch shows loss, and why answers `refused 15: no loss stands`",
        ),
        (
            "empty",
            &real,
            "cat >/dev/null",
            "label 100 at 3000001: watch shows loss, and why answers ``",
        ),
    ];
    for (name, watch, why, expected) in cases {
        let folder = fakes(name, watch, why);
        let (code, said) = refused(&run_with(&folder, &[&stored("example")]));
        std::fs::remove_dir_all(&folder).unwrap();
        assert_eq!(
            (code, said),
            (Some(1), format!("desk events: {expected}")),
            "{name}"
        );
    }
    let (code, said) = refused(&run_with(
        Path::new("/no/such/folder"),
        &[&stored("example")],
    ));
    assert_eq!(code, Some(1));
    assert!(
        said.starts_with("desk events: cannot run /no/such/folder/watch: "),
        "{said}"
    );
}
