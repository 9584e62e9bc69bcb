//! Logs: in words and back, from captures and back, and held to `watch`.

mod common;

use common::{desk, file, package, printed, refused};
use peer::capture::HEADER;
use peer::log::records::{self, HEADER as LOG_HEADER};
use peer::log::turn::log_of;
use peer::make;
use std::path::PathBuf;
use std::sync::atomic::{AtomicUsize, Ordering};

/// The worked logs, with their paths.
fn worked() -> Vec<(PathBuf, Vec<u8>)> {
    let folder = package().join("../crates/logs/data");
    let entries = std::fs::read_dir(folder).expect("a folder");
    let paths = entries.map(|entry| entry.expect("an entry").path());
    let logs = paths.filter(|path| path.extension().is_some_and(|end| end == "log"));
    let logs = logs.map(|path| (path.clone(), std::fs::read(path).expect("a log")));
    let logs: Vec<(PathBuf, Vec<u8>)> = logs.collect();
    assert!(logs.len() > 6);
    logs
}

fn path_of(name: &str) -> String {
    let path = package().join("../crates/logs/data").join(name);
    path.to_str().expect("UTF-8").to_string()
}

/// A file of a test's own: tests run side by side.
fn own_file(octets: &[u8]) -> String {
    static FILES: AtomicUsize = AtomicUsize::new(0);
    let number = FILES.fetch_add(1, Ordering::Relaxed);
    file(&format!("log-{number}"), octets)
}

/// The text of a log, and whether it was whole.
fn text(log: &[u8]) -> (String, bool) {
    let output = desk(&["text", &own_file(log)]);
    let text = String::from_utf8(output.stdout).expect("UTF-8");
    (text, output.status.success())
}

fn assembled(text: &str) -> Vec<u8> {
    printed(&["assemble", &own_file(text.as_bytes())])
}

#[test]
fn a_log_in_words() {
    let shown = printed(&["text", &path_of("refused_later.log")]);
    let expected = "\
#         time    label  call (docs/COMPARISON.md has the words)        # record, session: answer of the log
log
             0      100  open my=17 period=1,000,000 own=1/10/1/1 expected=1/20/1/1 => 0 # 1: accepted
     3,000,005      101  lock => 2                                      # 2: refused 2: no open session has this label
             2      100  receive cc init my=5 your=17 => 0              # 3: accepted
             1        -  tick => 1                                      # 4: refused 1: the time is below the clock or above the greatest reading
             1      100  lock => 1                                      # 5: refused 1: the time is below the clock or above the greatest reading
";
    assert_eq!(String::from_utf8(shown).expect("UTF-8"), expected);
}

#[test]
fn there_and_back_in_words() {
    let made = (1..=40).map(|seed| (PathBuf::from(format!("seed {seed}")), make::logged(seed)));
    for (path, log) in worked().into_iter().chain(made) {
        let (text, whole) = text(&log);
        assert!(whole, "{}", path.display());
        assert_eq!(assembled(&text), log, "{}", path.display());
    }
}

/// Cut at each octet, and with any answer: nothing is lost.
#[test]
fn cut_logs_come_back_too() {
    let log = std::fs::read(path_of("defects.log")).expect("a log");
    for length in LOG_HEADER.len()..log.len() {
        let (text, whole) = text(&log[..length]);
        assert_eq!(whole, records::all(&log[..length]).is_some(), "{length}");
        assert_eq!(assembled(&text), log[..length], "{length}");
    }
    let mut other = log.clone();
    other[LOG_HEADER.len() + 16..LOG_HEADER.len() + 18].copy_from_slice(&[0xff, 0xfe]);
    let (text, whole) = text(&other);
    assert!(
        whole && text.contains(" => 65534 # 1: refused 65534\n"),
        "{text}"
    );
    assert_eq!(assembled(&text), other);
}

#[test]
fn mistakes_are_named_with_their_lines() {
    let mistake = |text: &str| refused(&["assemble", &own_file(text.as_bytes())]);
    for (text, line, expected) in [
        ("log\n0 - tick", 2, "no answer"),
        ("log\n0 - tick => none", 2, "no answer of a log: none"),
        ("log\n0 - tick => 65536", 2, "no answer of a log: 65536"),
        (
            "0 - tick => 0\nlog",
            2,
            "a header stands before the first record",
        ),
        ("log\nlog", 2, "a header stands before the first record"),
        (
            "log\nheader 00",
            2,
            "a header stands before the first record",
        ),
    ] {
        let said = mistake(text);
        assert!(
            said.contains(&format!("line {line}: {expected}\n")),
            "{said}"
        );
    }
}

#[test]
fn logs_of_captures_and_back() {
    for seed in 1..=20 {
        let capture = make::tied(seed);
        let path = own_file(&capture);
        match log_of(&capture) {
            Ok(log) => {
                assert_eq!(printed(&["log", &path]), log, "seed {seed}");
                let path = own_file(&log);
                assert_eq!(printed(&["log", "--back", &path]), capture, "seed {seed}");
            }
            Err(_) => {
                let said = refused(&["log", &path]);
                assert!(said.contains(": offset "), "{said}");
            }
        }
    }
}

#[test]
fn answers_are_held_to_watch() {
    for (path, log) in worked() {
        let calls = records::all(&log).expect("whole").len();
        let said = printed(&["log", "--check", path.to_str().expect("UTF-8")]);
        let expected = format!("{calls} records, answered as by watch\n");
        assert_eq!(String::from_utf8(said).expect("UTF-8"), expected);
    }
    let mut log = std::fs::read(path_of("refused_later.log")).expect("a log");
    // The second record stands behind the open of 53 octets.
    log[8 + 53 + 17] = 0;
    let said = printed(&["log", "--check", &own_file(&log)]);
    let expected = "\
record 2: the log has 0, watch answers 2
     3,000,005      101  lock
1 of 5 records are answered otherwise by watch
";
    assert_eq!(String::from_utf8(said).expect("UTF-8"), expected);
}

#[test]
fn what_is_no_log_and_what_is_no_capture() {
    let capture = own_file(&HEADER);
    let log = own_file(&LOG_HEADER);
    let said = refused(&["log", &log]);
    assert!(
        said.contains("offset 0: not the header of a capture"),
        "{said}"
    );
    for option in ["--back", "--check"] {
        let said = refused(&["log", option, &capture]);
        assert!(said.contains("offset 0: not the header of a log"), "{said}");
    }
    let mut cut = LOG_HEADER.to_vec();
    cut.extend([0; 17]);
    let said = refused(&["log", "--back", &own_file(&cut)]);
    assert!(
        said.contains("offset 8: no whole record behind record 0"),
        "{said}"
    );
    let said = refused(&["log", "--back", "--check", &log]);
    assert!(said.contains("do not go together"), "{said}");
    assert!(desk(&["log", "--help"]).status.success());
}

#[test]
fn a_log_has_65_535_records_at_most() {
    let mut capture = HEADER.to_vec();
    capture.resize(HEADER.len() + 16 * 65_535, 0);
    assert_eq!(
        printed(&["log", &own_file(&capture)]).len(),
        8 + 18 * 65_535
    );
    capture.extend([0; 16]);
    let said = refused(&["log", &own_file(&capture)]);
    assert!(said.contains("more than 65,535 records"), "{said}");
}
