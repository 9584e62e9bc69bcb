//! The captures that stand in the repository, and the texts they are made of.

use peer::assemble::{answers, assemble};
use peer::{own, watch};
use std::fs;
use std::path::PathBuf;

fn folder() -> PathBuf {
    PathBuf::from(env!("CARGO_MANIFEST_DIR")).join("../crates/captures")
}

/// The names of the files in `data/` that end in `.ending`, in order.
fn names(ending: &str) -> Vec<String> {
    let files = fs::read_dir(folder().join("data")).unwrap();
    let paths = files.map(|file| file.unwrap().path());
    let of_that_kind = paths.filter(|path| path.extension().is_some_and(|e| e == ending));
    let mut names: Vec<String> = of_that_kind
        .map(|path| path.file_stem().unwrap().to_str().unwrap().to_string())
        .collect();
    names.sort();
    names
}

fn octets(name: &str, ending: &str) -> Vec<u8> {
    fs::read(folder().join("data").join(format!("{name}.{ending}"))).unwrap()
}

fn source(name: &str) -> String {
    String::from_utf8(octets(name, "txt")).unwrap()
}

#[test]
fn every_text_has_its_capture_and_its_lines_and_is_run() {
    let texts = names("txt");
    assert_eq!(texts, names("capture"));
    assert_eq!(texts, names("lines"));
    let run = fs::read_to_string(folder().join("args")).unwrap();
    let mut run: Vec<&str> = run.lines().collect();
    run.sort();
    assert_eq!(texts, run);
}

#[test]
fn the_captures_are_what_their_texts_say() {
    for name in names("txt") {
        assert_eq!(
            assemble(&source(&name)).unwrap(),
            octets(&name, "capture"),
            "{name}"
        );
    }
}

#[test]
fn the_lines_are_what_this_program_prints() {
    for name in names("capture") {
        let (capture, lines) = (octets(&name, "capture"), octets(&name, "lines"));
        assert_eq!(watch::text(&capture), lines, "{name}");
        assert_eq!(own::text(&capture), lines, "{name}, own table");
    }
}

#[test]
fn the_lines_are_what_was_worked_out_by_hand() {
    for name in names("txt") {
        let lines = String::from_utf8(octets(&name, "lines")).unwrap();
        assert_eq!(answers(&source(&name)), lines, "{name}");
    }
}

#[test]
fn no_two_captures_are_alike() {
    let mut captures: Vec<Vec<u8>> = names("capture")
        .iter()
        .map(|n| octets(n, "capture"))
        .collect();
    let count = captures.len();
    captures.sort();
    captures.dedup();
    assert_eq!(captures.len(), count);
}
