//! `desk compare`: what it shows of each record is what `compare` lists and what stands in the
//! captures.

mod common;

use common::{desk, desk_with, fake, file, folder_of_two, package, printed, refused};
use peer::compare::differences::{Entry, What};
use peer::compare::{compare, parsed};
use peer::{assemble, make};
use std::sync::atomic::{AtomicUsize, Ordering};

/// The path of a worked capture.
fn worked(name: &str) -> String {
    let folder = package().join("../peer/tests/compares");
    folder.join(name).to_str().expect("UTF-8").to_string()
}

fn shown(first: &str, second: &str) -> String {
    String::from_utf8(printed(&["compare", first, second])).expect("UTF-8")
}

/// Two files of a test's own: tests run side by side.
fn files(pair: &[Vec<u8>; 2]) -> [String; 2] {
    static PAIRS: AtomicUsize = AtomicUsize::new(0);
    let number = PAIRS.fetch_add(1, Ordering::Relaxed);
    let name = |whose: &str| format!("compare-{number}.{whose}");
    [
        file(&name("first"), &pair[0]),
        file(&name("second"), &pair[1]),
    ]
}

#[test]
fn worked_pairs_as_they_are_shown() {
    let shown_of = |name: &str| {
        let (first, second) = (format!("{name}.first"), format!("{name}.second"));
        shown(&worked(&first), &worked(&second))
    };
    let in_order = "\
record 1: length and body differ
  first              0      100  receive hex 616263
  second             0      100  receive hex 61626364
record 3: only in the first
  first              -      100  report
1 record differs, 1 only in the first; from record 1 on, at offset 8 of the first
";
    assert_eq!(shown_of("in_order"), in_order);
    let unread = "\
record 1: label, length and body differ
  first              0        -  tick
  second             0        5  tick hex 01
record 2: time differs
  first              -      100  report
  second             7      100  report
2 records differ; from record 1 on, at offset 8 of the first
";
    assert_eq!(shown_of("unread_fields"), unread);
    assert_eq!(shown_of("equal"), "no record differs\n");
    let longer = shown_of("second_longer");
    assert!(
        longer.ends_with(
            "0 records differ, 2 only in the second; the second goes on where the first ends\n"
        ),
        "{longer}"
    );
}

/// The entries that the shown lines say, and the octets of the records that stand below them.
fn read_back(shown: &str) -> (Vec<Entry>, Vec<Vec<u8>>) {
    let (mut entries, mut records) = (Vec::new(), Vec::new());
    for line in shown.lines() {
        if let Some(said) = line.strip_prefix("record ") {
            let (number, words) = said.split_once(": ").expect("a record");
            let record = number.parse().expect("a number");
            entries.extend(whats(words).map(|what| Entry { record, what }));
        } else if let Some(words) = line
            .strip_prefix("  first ")
            .or(line.strip_prefix("  second"))
        {
            let mut octets = Vec::new();
            assemble::append_line(&mut octets, words).expect("a record in words");
            records.push(octets);
        }
    }
    (entries, records)
}

fn whats(words: &str) -> impl Iterator<Item = What> + '_ {
    let fields = words
        .trim_end_matches(" differs")
        .trim_end_matches(" differ");
    let named = move |what: &What| {
        let mut parts = fields.split(", ").flat_map(|part| part.split(" and "));
        parts.any(|part| part == what.words())
    };
    What::ALL.into_iter().filter(named)
}

/// The octets of the records that entries name, in the order in which they are shown.
fn named(entries: &[Entry], pair: &[Vec<u8>; 2]) -> Vec<Vec<u8>> {
    let parsed = pair
        .each_ref()
        .map(|capture| parsed::records(capture).expect("whole"));
    let mut numbers: Vec<usize> = entries.iter().map(|entry| entry.record as usize).collect();
    numbers.dedup();
    let mut octets = Vec::new();
    for number in numbers {
        for (records, capture) in parsed.iter().zip(pair) {
            if let Some(record) = records.get(number - 1) {
                let end = record.place + 16 + record.body.len();
                octets.push(capture[record.place..end].to_vec());
            }
        }
    }
    octets
}

#[test]
fn all_that_differs_is_shown_with_the_records_themselves() {
    let (mut differing, mut bad) = (0, 0);
    for seed in 1..=150 {
        let pair = make::compared(seed);
        let [first, second] = files(&pair);
        match compare(&pair[0], &pair[1]).entries {
            Ok(entries) => {
                let (said, records) = read_back(&shown(&first, &second));
                assert_eq!(said, entries, "seed {seed}");
                assert_eq!(records, named(&entries, &pair), "seed {seed}");
                differing += usize::from(!entries.is_empty());
            }
            Err(refusal) => {
                let number = refusal as u8;
                let said = refused(&["compare", &first, &second]);
                assert!(
                    said.contains(&format!(": refused {number}, offset ")),
                    "{said}"
                );
                bad += 1;
            }
        }
    }
    assert!(differing > 80 && bad > 20, "{differing}, {bad}");
}

#[test]
fn bad_captures_are_named_with_their_place() {
    let whole = worked("equal.first");
    let cut = worked("first_cut.first");
    let log = worked("first_a_log.first");
    let said = refused(&["compare", &cut, &whole]);
    let expected = "refused 22, offset 24: no whole record behind record 1\n";
    assert_eq!(said, format!("desk compare: {cut}: {expected}"));
    let said = refused(&["compare", &whole, &log]);
    let expected = "refused 23, offset 0: not the header of a capture\n";
    assert_eq!(said, format!("desk compare: {log}: {expected}"));
    let none = refused(&["compare", &whole, "no such file"]);
    assert!(none.contains("cannot read no such file"), "{none}");
    let folder = refused(&["compare", "/", &whole]);
    assert!(folder.contains("/ is no regular file"), "{folder}");
    let words = refused(&["compare", &whole]);
    assert!(words.contains("wants FIRST SECOND"), "{words}");
}

#[test]
fn what_is_no_answer_of_the_program_is_no_answer_here() {
    let (first, second) = (worked("equal.first"), worked("equal.second"));
    let told = |name: &str, text: &str| {
        let folder = fake(name, "compare", &format!("printf '{text}'"));
        let output = desk_with(&folder, &["compare", &first, &second]);
        assert_eq!(output.status.code(), Some(1), "{text}");
        String::from_utf8_lossy(&output.stderr).into_owned()
    };
    let nothing = told("compare-nothing", "");
    assert!(nothing.contains("compare answers ``"), "{nothing}");
    let other = told("compare-other", "1 colour\\nrest 8\\n");
    assert!(other.contains("compare answers `1 colour`"), "{other}");
    let behind = told("compare-behind", "9 time\\nrest 8\\n");
    assert!(behind.contains("compare names record 9, which"), "{behind}");
}

#[test]
fn a_program_that_is_not_there_is_named() {
    let folder = folder_of_two("without-compare");
    let (first, second) = (worked("equal.first"), worked("equal.second"));
    let output = desk_with(&folder, &["compare", &first, &second]);
    let said = String::from_utf8_lossy(&output.stderr).into_owned();
    assert!(said.contains("cannot run"), "{said}");
    assert!(said.contains("KORVEZUL_BIN"), "{said}");
    assert!(desk(&["compare", "--help"]).status.success());
}
