//! The logs that stand in the repository, and the texts they are made of; then
//! what holds of every log.

mod common;
mod folder;

use common::Capture;
use folder::Folder;
use peer::assemble::{answers, assemble};
use peer::log::index::{build, MOST_ENTRIES};
use peer::log::records::{self, MOST_RECORDS};
use peer::log::turn::{log_of, NoLog};
use peer::log::{answer_text, ask, check, play, Refusal};
use peer::watch;
use std::collections::BTreeSet;

const WORKED: Folder = Folder("../crates/logs/data");

/// The names of the texts that make logs, and of their files.
fn names(ending: &str) -> BTreeSet<String> {
    let lists = ["build", "damaged"].map(String::from);
    let names = WORKED.names(ending);
    names.difference(&BTreeSet::from(lists)).cloned().collect()
}

/// A text, with the line behind each `repeat N` as often as that says.
fn text(name: &str) -> String {
    let source = WORKED.source(name, "txt");
    let mut text = String::new();
    let mut times = 1;
    for line in source.lines() {
        match line.strip_prefix("repeat ") {
            Some(number) => times = number.parse().unwrap(),
            None => {
                text += &format!("{line}\n").repeat(times);
                times = 1;
            }
        }
    }
    text
}

#[test]
fn every_text_has_its_log_and_its_questions() {
    assert!(names("txt").len() > 6);
    assert_eq!(names("txt"), names("log"));
    assert_eq!(names("txt"), names("asks"));
    assert!(names("txt").is_superset(&names("index")));
}

#[test]
fn the_logs_are_what_their_texts_say() {
    for name in names("txt") {
        let capture = assemble(&text(&name)).unwrap();
        let stored = WORKED.octets(&name, "log");
        assert_eq!(log_of(&capture), Ok(stored), "{name}");
    }
}

#[test]
fn the_records_are_answered_as_was_worked_out_by_hand() {
    for name in names("txt") {
        let capture = assemble(&text(&name)).unwrap();
        let printed = String::from_utf8(watch::text(&capture)).unwrap();
        assert_eq!(answers(&text(&name)), printed, "{name}");
    }
}

#[test]
fn what_is_asked_is_answered_as_was_worked_out_by_hand() {
    let played = play::folder(&WORKED.path()).unwrap();
    assert_eq!(played.wrong, Vec::<String>::new());
    let counts: Vec<u64> = played.counts.into_values().collect();
    assert_eq!(counts.len(), 5);
    assert!(counts.iter().all(|count| *count > 10), "{counts:?}");
}

/// The log of as many ticks, each one later.
fn ticks(count: u64) -> Vec<u8> {
    let ticks = (0..count).fold(Capture::new(), |capture, time| capture.tick(time));
    log_of(&ticks.octets).unwrap()
}

#[test]
fn a_log_has_65_535_records_at_most() {
    let most = ticks(MOST_RECORDS as u64);
    let index = build(&most, 100, MOST_ENTRIES).unwrap();
    assert_eq!(index.count, 256);
    assert_eq!(index.clocks[255], 255 * 256 - 1);
    assert_eq!(build(&most, 100, 255), Err(Refusal::Room));
    let mut more = most.clone();
    more.extend([0; 18]);
    assert_eq!(build(&more, 100, MOST_ENTRIES), Err(Refusal::Log));
    let capture = (0..=MOST_RECORDS as u64).fold(Capture::new(), Capture::tick);
    assert_eq!(log_of(&capture.octets), Err(NoLog::TooMany));
}

/// Of 256 entries 8 are looked at, whatever the reading.
#[test]
fn looks_are_at_most_eight() {
    let mut capture = Capture::new().open(0, 0);
    for time in 1..MOST_RECORDS as u64 {
        capture = capture.tick(time);
    }
    let log = log_of(&capture.octets).unwrap();
    for reading in [0, 254, 255, 256, 32_767, 65_279, 65_534, 3_000_000] {
        let answer = answer_text(&ask(&log, 100, reading));
        assert_eq!(answer, "0 1 0 0 0 0 0 0 8", "{reading}");
    }
}

#[test]
fn what_is_no_log_has_none() {
    assert_eq!(log_of(b"TPO"), Err(NoLog::BadHeader));
    let log = ticks(3);
    assert_eq!(log_of(&log), Err(NoLog::BadHeader));
    let mut capture = Capture::new().tick(5).octets;
    capture.pop();
    assert_eq!(log_of(&capture), Err(NoLog::Cut));
    assert_eq!(records::all(&capture), None);
}

/// A body of 2,048 octets is the longest, also in a log.
#[test]
fn the_longest_body_is_whole_and_one_octet_more_is_not() {
    let mut log = records::HEADER.to_vec();
    log.extend([0; 13]);
    log.extend([5, 8, 0, 0, 2]);
    log.extend([0; 2_048]);
    assert_eq!(records::all(&log).map(|all| all.len()), Some(1));
    log.push(0);
    log[8 + 15] = 1;
    assert_eq!(records::all(&log), None);
}

/// By an index and by reading all the answers are the same, and the clocks of an
/// index never fall.
#[test]
fn an_index_answers_as_reading_all_does() {
    let mut questions = 0;
    for seed in 1..=60 {
        for case in check::cases(seed).unwrap() {
            assert!(case.index.clocks.is_sorted(), "seed {seed}");
            assert!(case.index.places.is_sorted(), "seed {seed}");
            questions += case.questions.len();
        }
    }
    assert!(questions > 10_000, "{questions}");
}
