//! The captures with spacings that stand in the repository, and the texts they
//! are made of.

mod folder;

use folder::Folder;
use peer::assemble::{answers, assemble};
use peer::capture::{record_octets, HEADER};
use peer::{spacing, watch};
use std::collections::BTreeSet;

const WORKED: Folder = Folder("../crates/spacings/data");

/// The lines of a file: what is asked, and the line that answers it.
fn asked(name: &str, ending: &str) -> Vec<(String, String)> {
    let lines = WORKED.source(name, ending);
    let split = |line: &str| line.split_once(" => ").map(|(a, b)| (a.into(), b.into()));
    lines.lines().map(|line| split(line).unwrap()).collect()
}

#[test]
fn every_text_has_its_capture_and_its_spacings() {
    assert!(WORKED.names("txt").len() > 20);
    for ending in ["capture", "spacings"] {
        assert_eq!(WORKED.names("txt"), WORKED.names(ending), "{ending}");
    }
    assert!(!WORKED.names("fronts").is_empty());
    assert!(WORKED.names("txt").is_superset(&WORKED.names("fronts")));
}

#[test]
fn the_captures_are_what_their_texts_say() {
    for name in WORKED.names("txt") {
        let capture = assemble(&WORKED.source(&name, "txt")).unwrap();
        assert_eq!(capture, WORKED.octets(&name, "capture"), "{name}");
    }
}

#[test]
fn the_records_are_answered_as_was_worked_out_by_hand() {
    for name in WORKED.names("txt") {
        let printed = String::from_utf8(watch::text(&WORKED.octets(&name, "capture"))).unwrap();
        assert_eq!(answers(&WORKED.source(&name, "txt")), printed, "{name}");
    }
}

#[test]
fn the_spacings_are_those_that_were_worked_out_by_hand() {
    for name in WORKED.names("spacings") {
        let capture = WORKED.octets(&name, "capture");
        for (label, line) in asked(&name, "spacings") {
            let printed = spacing::answer_to(&[&label], &capture);
            assert_eq!(printed, format!("{line}\n"), "{name}, {label}");
        }
    }
}

/// The first records of a capture.
fn front(capture: &[u8], records: usize) -> Vec<u8> {
    let mut front = HEADER.to_vec();
    for number in 1..=records {
        front.extend(record_octets(capture, number).unwrap());
    }
    front
}

#[test]
fn so_are_those_of_the_first_records() {
    for name in WORKED.names("fronts") {
        let capture = WORKED.octets(&name, "capture");
        let lines = asked(&name, "fronts");
        let mut fronts = BTreeSet::new();
        for (what, line) in lines {
            let (records, label) = what.split_once(' ').unwrap();
            let records = records.parse().unwrap();
            let printed = spacing::answer_to(&[label], &front(&capture, records));
            assert_eq!(printed, format!("{line}\n"), "{name}, {what}");
            fronts.insert(records);
        }
        // Behind every record, from none to all.
        let last = fronts.len() - 1;
        assert_eq!(fronts, (0..=last).collect(), "{name}");
        assert_eq!(front(&capture, last), capture, "{name}");
    }
}

#[test]
fn no_two_captures_and_no_two_labels_of_one_are_alike() {
    let captures: BTreeSet<Vec<u8>> = WORKED
        .names("txt")
        .iter()
        .map(|n| WORKED.octets(n, "capture"))
        .collect();
    assert_eq!(captures.len(), WORKED.names("txt").len());
    for name in WORKED.names("spacings") {
        let lines = asked(&name, "spacings");
        let apart: BTreeSet<&String> = lines.iter().map(|(label, _)| label).collect();
        assert_eq!(apart.len(), lines.len(), "{name}");
    }
}
