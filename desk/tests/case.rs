//! `desk case`: the regulator's page, against docs/WHY.md and against `why` itself.

mod common;
mod pages;

use common::{file, package, printed, programs, refused, stored_captures};
use pages::{behind, check, rows, unescape};
use peer::capture::HEADER;
use peer::make;
use std::collections::BTreeSet;
use std::io::Write;
use std::process::{Command, Stdio};

const ALL: [&str; 4] = ["--from", "0", "--to", "18446744073709551615"];

fn morning() -> String {
    let path = package().join("../crates/questions/data/morning.capture");
    path.to_str().expect("UTF-8").to_string()
}

fn page(words: &[&str]) -> String {
    let mut all = vec!["case"];
    all.extend(words);
    String::from_utf8(printed(&all)).expect("UTF-8")
}

/// What `why` itself prints.
fn why(words: &str, capture: &[u8]) -> Vec<String> {
    let mut why = Command::new(programs().join("why"));
    let why = why
        .args(words.split(' '))
        .stdin(Stdio::piped())
        .stdout(Stdio::piped());
    let mut child = why.spawn().expect("why runs");
    // It may not want all of the capture.
    let _ = child.stdin.take().expect("piped").write_all(capture);
    let output = child.wait_with_output().expect("why ends");
    let text = String::from_utf8(output.stdout).expect("UTF-8");
    text.lines()
        .filter(|line| !line.starts_with("capture:"))
        .map(str::to_string)
        .collect()
}

/// The answers of a part of the page, without the times that the page puts beside readings.
fn answers(part: &str) -> Vec<String> {
    let rows = rows(part)
        .into_iter()
        .filter(|row| row.len() == 3 && row[0] != "Question");
    rows.map(|row| without_times(&row[1])).collect()
}

fn without_times(line: &str) -> String {
    let mut plain = String::new();
    let mut rest = line;
    while let Some((before, behind)) = rest.split_once(" (") {
        plain.push_str(before);
        rest = behind.split_once(')').expect("a bracket closes").1;
    }
    plain + rest
}

/// Asked at a quarter to six, with times of day.
fn held_back() -> String {
    let at = "20,700,000,000";
    let page = page(&[&morning(), "100", "--from", at, "--to", at, "--epoch", "0"]);
    assert_eq!(check(&page), Ok(()));
    assert!(page.contains("1. An alarm was held back from 05:40:00.000001 to 09:10:00.000000"));
    page
}

/// The cells of a row.
fn cells<const N: usize>(cells: [&str; N]) -> Vec<String> {
    cells.map(str::to_string).to_vec()
}

#[test]
fn an_alarm_held_back_begins() {
    let page = held_back();
    let which =
        "which: record 11 at 20390000000 (05:39:50.000000), AIS, refresh 20 s, interface 1/7";
    let ends = "ends: at 20460000000 (05:41:00.000000), or when the loss ends";
    let begin = [
        cells(["Which message?", which, "held-back-cause"]),
        cells(["How old was it?", "how old: 10.000001 s", "held-back-cause"]),
        cells(["What would have ended it?", ends, "stands-until"]),
    ];
    assert_eq!(rows(behind(&page, "At its begin")[0])[1..], begin);
    let loss = [
        "which: record 10 at 20370000000, CC",
        "how old: 30.000001 s",
        "ends: at the next CC or CV heard, a lock or a close; stood from 20400000001",
    ];
    assert_eq!(answers(behind(&page, "The loss under it")[0]), loss);
}

#[test]
fn an_alarm_held_back_ends() {
    let page = held_back();
    let last = behind(&page, "At the last reading at which it stood")[0];
    assert!(last.contains("why 100 held-back upto=528 &lt; morning.capture"));
    let said = [
        "which: record 526 at 32930000000, AIS, refresh 20 s, interface 1/7",
        "how old: 69.999999 s",
        "ends: at 33000000000, or when the loss ends",
    ];
    assert_eq!(answers(last), said);
    let end = answers(behind(&page, "At its end")[0]);
    assert_eq!(end, ["refused 15: no alarm is held back"]);
}

/// "210 did, each for at most 70 seconds."
#[test]
fn an_alarm_held_back_is_renewed() {
    let page = held_back();
    let messages = rows(behind(&page, "The messages by which it lasted")[0]);
    assert_eq!(messages.len() - 1, 210);
    let words = "AIS, refresh 20 s, interface 1/7";
    let ends = "at 20760000000 (05:46:00.000000), or when the loss ends";
    let sixteen = cells(["16", "05:44:50.000000", words, "60.000000 s", ends]);
    assert!(messages.contains(&sixteen));
}

fn blocked() -> String {
    let (from, to) = ("25,500,000,000", "25,501,000,000");
    let page = page(&[&morning(), "200", "--from", from, "--to", to]);
    assert!(page.contains("1. Traffic was blocked from 25200.000000 s to 25803.500000 s"));
    page
}

#[test]
fn a_port_that_threw_away_good_traffic() {
    let page = blocked();
    let begin = [
        "which: record 111 at 25200000000, CV, Your 44, from LSP 1/30/4/2",
        "how old: 0.000000 s",
        "ends: at 25203500000, unless another crossed message comes",
    ];
    assert_eq!(answers(behind(&page, "At its begin")[0]), begin);
    let last = [
        "which: record 383 at 25800000000, CV, Your 44, from LSP 1/30/4/2",
        "how old: 3.499999 s",
        "ends: at 25803500000, unless another crossed message comes",
    ];
    assert_eq!(
        answers(behind(&page, "At the last reading at which it stood")[0]),
        last
    );
    let end = answers(behind(&page, "At its end")[0]);
    assert_eq!(end, ["refused 15: no crossing stands"]);
}

/// One each three seconds from 07:00:00 to 07:10:00; those of the right far end are not among them.
#[test]
fn the_messages_that_blocked_it() {
    let page = blocked();
    let messages = rows(behind(&page, "The messages by which it lasted")[0]);
    assert_eq!(messages.len() - 1, 201);
    assert_eq!(
        (messages[1][0].as_str(), messages[201][0].as_str()),
        ("111", "383")
    );
    let at_246 = messages
        .iter()
        .find(|row| row[0] == "246")
        .expect("record 246");
    let ends = "at 25503500000 (25503.500000 s), unless another crossed message comes";
    assert_eq!(at_246[4], ends);
}

/// The page of a circuit by its name, up to one microsecond before the alarm is held back.
fn named(sessions: &str) -> String {
    let line = b"<b>&co  label=100 my=17 own=1/10/1/1 expected=1/20/1/1\n";
    let sessions = file(sessions, line);
    let (morning, to) = (morning(), "20,400,000,000");
    let words = [
        &*morning,
        "<b>&co",
        "--from",
        "0",
        "--to",
        to,
        "--sessions",
        &sessions,
    ];
    page(&words)
}

#[test]
fn what_was_asked_and_of_what() {
    let page = named("case-asked.sessions");
    assert_eq!(check(&page), Ok(()));
    let facts = rows(&page);
    let fact = |name: &str| {
        facts
            .iter()
            .find(|row| row[0] == name)
            .map(|row| row[1].clone())
    };
    assert_eq!(fact("Circuit").as_deref(), Some("<b>&co"));
    assert_eq!(fact("Label").as_deref(), Some("100"));
    let capture = std::fs::read(morning()).expect("the morning");
    assert_eq!(
        fact("SHA-256 of the capture"),
        Some(desk::sha256::hex(&capture))
    );
    let length = format!(
        "{} octets, 530 records, last reading 33000.000000 s",
        capture.len()
    );
    assert_eq!(fact("Length of the capture"), Some(length));
    let octets = std::fs::read(programs().join("why")).expect("why");
    let digest = desk::sha256::hex(&octets);
    assert_eq!(
        fact("the program why"),
        Some(format!("SHA-256 {digest}, {} octets", octets.len()))
    );
}

#[test]
fn nothing_stood_and_what_is_proved() {
    let page = named("case-nothing.sessions");
    assert!(
        page.contains("In this time no alarm was held back on this label and no traffic blocked.")
    );
    let rows = rows(&page);
    for theorem in [
        "held-back-cause",
        "crossing-cause",
        "stands-until",
        "refused-15",
        "past-right",
    ] {
        assert!(rows.iter().any(|row| row[0] == theorem), "{theorem}");
    }
}

/// Every label of a capture that was open.
fn labels(capture: &[u8]) -> BTreeSet<u32> {
    let mut labels = BTreeSet::new();
    let mut reader = peer::capture::Reader::start(capture)
        .expect("read")
        .expect("a header");
    while let peer::capture::Next::Record(record) = reader.next_record().expect("read") {
        if record.kind == peer::capture::Kind::Open {
            labels.insert(record.label);
        }
    }
    labels
}

/// Each answer of a page that names its whole question is what `why` says.
fn says_what_why_says(name: &str, capture: &[u8], page: &str) {
    for part in page.split("<caption>").skip(1) {
        let caption = unescape(part.split('<').next().unwrap_or_default());
        let words = caption
            .strip_prefix("why ")
            .and_then(|words| words.split_once(" < "));
        if let Some((words, _)) = words {
            let table = part.split("</table>").next().unwrap_or_default();
            assert_eq!(answers(table), why(words, capture), "{name}: {caption}");
        }
    }
}

/// Each stretch stands at its begin and at its last moment, and not at its end. Gives their number.
fn holds(name: &str, capture: &[u8], page: &str) -> usize {
    assert_eq!(check(page), Ok(()), "{name}");
    says_what_why_says(name, capture, page);
    let starts = |heading: &str, start: &str| {
        let parts = behind(page, heading);
        for part in &parts {
            let lines = answers(part);
            let first = lines.first().map_or("", String::as_str);
            assert!(first.starts_with(start), "{name}, {heading}: {first}");
        }
        parts.len()
    };
    let stretches = starts("At its begin", "which: ");
    let ended = starts("At its end", "refused ");
    let last = starts("At the last reading at which it stood", "which: ");
    assert_eq!(last, ended, "{name}");
    let standing = starts("At the end of the capture", "which: ");
    assert_eq!(standing + ended, stretches, "{name}");
    stretches
}

#[test]
fn every_stretch_of_stored_and_tied_captures() {
    let mut captures: Vec<(String, Vec<u8>)> = Vec::new();
    for (path, capture) in stored_captures() {
        captures.push((path.display().to_string(), capture));
    }
    captures.extend((1..=12).map(|seed| (format!("seed {seed}"), make::tied(seed))));
    let mut stretches = 0;
    for (place, (name, capture)) in captures.iter().enumerate() {
        if !capture.starts_with(&HEADER) || name.contains("morning") {
            continue;
        }
        let path = file(&format!("case-{place}.capture"), capture);
        for label in labels(capture).into_iter().take(8) {
            let label = label.to_string();
            let mut words = vec!["case", &path, &label];
            words.extend(ALL);
            let output = common::desk(&words);
            let said = String::from_utf8_lossy(&output.stderr).into_owned();
            let page = String::from_utf8(output.stdout).expect("UTF-8");
            match page.is_empty() {
                true => assert!(said.contains("no session ever had label"), "{name}: {said}"),
                false => stretches += holds(name, capture, &page),
            }
            assert_eq!(output.status.success(), said.is_empty(), "{name}: {said}");
        }
    }
    assert!(stretches > 60, "{stretches}");
}

#[test]
fn wrong_words_and_files() {
    let morning = morning();
    assert!(refused(&["case", &morning]).contains("wants CAPTURE LABEL"));
    assert!(refused(&["case", &morning, "100", "--from", "1"]).contains("wants --to T"));
    assert!(
        refused(&["case", &morning, "100", "--from", "2", "--to", "1"])
            .contains("--from is behind --to")
    );
    assert!(refused(&["case", &morning, "100", "--from", "x", "--to", "1"]).contains("`x`"));
    assert!(refused(&["case", &morning, "here", "--from", "0", "--to", "1"]).contains("`here`"));
    assert!(
        refused(&["case", &morning, "300", "--from", "0", "--to", "1"])
            .contains("no session ever had label 300")
    );
    let none = file("case-none.capture", b"TPO");
    assert!(refused(&["case", &none, "100", "--from", "0", "--to", "1"])
        .contains("bad header at offset 0"));
    assert!(page(&["--help"]).starts_with("usage: desk case"));
}
