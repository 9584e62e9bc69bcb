//! The captures with questions that stand in the repository, and the texts they
//! are made of.

mod folder;

use folder::Folder;
use peer::assemble::{answers, assemble};
use peer::{morning, watch, why};
use std::collections::BTreeSet;

const WORKED: Folder = Folder("../crates/questions/data");

#[test]
fn every_text_has_its_capture_its_questions_and_their_answers() {
    for ending in ["capture", "questions", "answers"] {
        assert_eq!(WORKED.names("txt"), WORKED.names(ending), "{ending}");
    }
}

#[test]
fn the_captures_are_what_their_texts_say() {
    for name in WORKED.names("txt") {
        let capture = assemble(&WORKED.source(&name, "txt")).unwrap();
        assert_eq!(capture, WORKED.octets(&name, "capture"), "{name}");
    }
}

#[test]
fn the_records_are_answered_as_was_worked_out_by_hand() {
    for name in WORKED.names("txt") {
        let printed = String::from_utf8(watch::text(&WORKED.octets(&name, "capture"))).unwrap();
        assert_eq!(answers(&WORKED.source(&name, "txt")), printed, "{name}");
    }
}

#[test]
fn the_questions_are_answered_as_was_worked_out_by_hand() {
    for name in WORKED.names("questions") {
        let capture = WORKED.octets(&name, "capture");
        let mut printed = String::new();
        for line in WORKED.source(&name, "questions").lines() {
            let words: Vec<&str> = line.split(' ').collect();
            printed += &why::answer_to(&words, &capture);
        }
        assert_eq!(printed, WORKED.source(&name, "answers"), "{name}");
    }
}

#[test]
fn no_two_captures_and_no_two_questions_of_one_are_alike() {
    let captures: BTreeSet<Vec<u8>> = WORKED
        .names("txt")
        .iter()
        .map(|n| WORKED.octets(n, "capture"))
        .collect();
    assert_eq!(captures.len(), WORKED.names("txt").len());
    for name in WORKED.names("questions") {
        let questions = WORKED.source(&name, "questions");
        let apart: BTreeSet<&str> = questions.lines().collect();
        assert_eq!(apart.len(), questions.lines().count(), "{name}");
    }
}

#[test]
fn the_morning_is_the_one_that_is_printed() {
    assert_eq!(WORKED.source("morning", "txt"), morning::text());
}
