//! The long captures: what they contain.

use peer::load::{label, load, Load};
use peer::watch;

fn capture(kind: Load, count: u64) -> Vec<u8> {
    let mut octets = Vec::new();
    load(kind, count, &mut octets).unwrap();
    octets
}

/// The text of a load, with reports of all its sessions behind it.
fn lines(kind: Load, count: u64, sessions: u64) -> (Vec<String>, Vec<String>) {
    let mut octets = capture(kind, count);
    for session in 0..sessions {
        peer::capture::append_head(&mut octets, 0, label(session) as u32, 6, 0);
    }
    let text = String::from_utf8(watch::text(&octets)).unwrap();
    let answers = text
        .lines()
        .map(|line| line.split_once(' ').unwrap().1.to_string());
    let mut all: Vec<String> = answers.collect();
    let reports = all.split_off(count as usize);
    (all, reports)
}

#[test]
fn one_session_stays_up() {
    let (answers, reports) = lines(Load::One, 2_000, 1);
    assert!(answers.iter().all(|answer| answer == "0"));
    assert_eq!(reports, ["0 3 0 0 0 0 0 0"]);
}

#[test]
fn many_sessions_stay_up() {
    let (answers, reports) = lines(Load::Many, 6_000, 64);
    assert!(answers.iter().all(|answer| answer == "0"));
    assert!(reports.iter().all(|report| report == "0 3 0 0 0 0 0 0"));
}

#[test]
fn a_mixed_load_has_conditions_that_come_and_lapse_and_every_refusal_named() {
    let (answers, reports) = lines(Load::Mixed, 300_000, 64);
    for answer in ["0", "1", "2", "6", "7", "8", "9", "10"] {
        let is_it = |line: &&String| line.split(' ').next() == Some(answer);
        let count = answers.iter().filter(is_it).count();
        assert_eq!(count > 100, answer != "10", "{answer}: {count}");
    }
    for report in [
        "0 3 0 0 0 0 0 0",
        "0 3 0 0 0 0 0 1",
        "0 3 0 0 0 0 0 2",
        "0 3 0 0 0 0 0 4",
        "0 1 0 1 1 0 0 0",
        "0 1 0 1 0 0 0 1",
    ] {
        assert!(answers.iter().any(|answer| answer == report), "{report}");
    }
    let up = reports
        .iter()
        .filter(|report| report.starts_with("0 3 0 0 0 0 0"));
    assert_eq!(up.count(), 60);
}

#[test]
fn a_full_load_has_four_conditions_everywhere() {
    let (answers, reports) = lines(Load::Full, 40_000, 64);
    assert!(answers.iter().all(|answer| answer == "0"));
    assert!(reports.iter().all(|report| report == "0 3 0 0 0 0 0 4"));
}
