//! The pairs of captures that stand in the repository, compared, and the texts
//! they are made of; then the rules of `compare` over made pairs.

mod folder;

use folder::Folder;
use peer::assemble::assemble;
use peer::compare::differences::{Entry, What};
use peer::compare::{compare, parsed, Compared};
use peer::make;

const WORKED: Folder = Folder("tests/compares");

/// What stands behind the line `first`, and behind the line `second`.
fn texts(name: &str) -> (String, String) {
    let text = WORKED.source(name, "txt");
    let (_, behind) = text.split_once("\nfirst\n").unwrap();
    // An empty first part has nothing before the line.
    let behind = format!("\n{behind}");
    let (first, second) = behind.split_once("\nsecond\n").unwrap();
    (first.to_string(), second.to_string())
}

fn compared(name: &str) -> Compared {
    compare(
        &WORKED.octets(name, "first"),
        &WORKED.octets(name, "second"),
    )
}

/// The worked lines: what room there is, and the numbers; the rest's place.
fn worked(name: &str) -> (Vec<(usize, String)>, String) {
    let text = WORKED.source(name, "compare");
    let mut rest = String::new();
    let mut lists = Vec::new();
    for line in text.lines() {
        match line.split_once(" => ").unwrap() {
            ("rest", place) => rest = place.to_string(),
            (room, numbers) => lists.push((room.parse().unwrap(), numbers.to_string())),
        }
    }
    (lists, rest)
}

#[test]
fn every_text_has_its_captures_and_its_answers() {
    assert!(WORKED.names("txt").len() > 25);
    for ending in ["first", "second", "compare", "lines"] {
        assert_eq!(WORKED.names("txt"), WORKED.names(ending), "{ending}");
    }
}

#[test]
fn the_captures_are_what_their_texts_say() {
    for name in WORKED.names("txt") {
        let (first, second) = texts(&name);
        assert_eq!(
            assemble(&first).unwrap(),
            WORKED.octets(&name, "first"),
            "{name}"
        );
        assert_eq!(
            assemble(&second).unwrap(),
            WORKED.octets(&name, "second"),
            "{name}"
        );
    }
}

#[test]
fn the_numbers_are_those_that_were_worked_out_by_hand() {
    for name in WORKED.names("compare") {
        let (lists, rest) = worked(&name);
        for (room, numbers) in lists {
            let printed = compared(&name).within(room).numbers();
            assert_eq!(
                printed,
                format!("{numbers}\nrest {rest}\n"),
                "{name}, {room}"
            );
        }
    }
}

#[test]
fn so_are_the_lines() {
    for name in WORKED.names("lines") {
        assert_eq!(
            compared(&name).lines(),
            WORKED.source(&name, "lines"),
            "{name}"
        );
    }
}

/// Room for all entries is enough, room for one less is not.
#[test]
fn every_pair_that_differs_is_worked_with_just_enough_room_and_one_less() {
    for name in WORKED.names("compare") {
        let Ok(entries) = compared(&name).entries else {
            continue;
        };
        let (lists, _) = worked(&name);
        let rooms: Vec<usize> = lists.iter().map(|(room, _)| *room).collect();
        assert!(rooms.contains(&entries.len()), "{name}");
        let one_less = entries.len().checked_sub(1);
        assert!(one_less.is_none_or(|room| rooms.contains(&room)), "{name}");
    }
}

/// The stored pairs, and made ones.
fn pairs() -> Vec<(String, [Vec<u8>; 2])> {
    let stored = WORKED.names("txt").into_iter().map(|name| {
        let pair = [
            WORKED.octets(&name, "first"),
            WORKED.octets(&name, "second"),
        ];
        (name, pair)
    });
    let made = (1..=400).map(|seed| (format!("seed {seed}"), make::compared(seed)));
    stored.chain(made).collect()
}

/// The two exchanged give the same list with their extra records exchanged.
#[test]
fn exchanged_captures_exchange_whose_record_it_is() {
    let other = |what| match what {
        What::OnlyFirst => What::OnlySecond,
        What::OnlySecond => What::OnlyFirst,
        field => field,
    };
    for (name, [first, second]) in pairs() {
        let there = compare(&first, &second).entries;
        let back = compare(&second, &first).entries;
        let (Ok(there), Ok(back)) = (there, back) else {
            continue;
        };
        let exchanged = there.iter().map(|entry| Entry {
            what: other(entry.what),
            ..*entry
        });
        assert_eq!(exchanged.collect::<Vec<_>>(), back, "{name}");
    }
}

/// A capture differs from itself in nothing, and the numbers of a list rise.
#[test]
fn lists_rise_and_a_capture_equals_itself() {
    let mut differing = 0;
    for (name, [first, second]) in pairs() {
        let Ok(entries) = compare(&first, &second).entries else {
            continue;
        };
        assert!(entries
            .windows(2)
            .all(|two| two[0].number() < two[1].number()));
        assert_eq!(entries.is_empty(), first == second, "{name}");
        let same = compare(&first, &first);
        assert_eq!(same.entries, Ok(Vec::new()), "{name}");
        assert_eq!(same.rest, first.len(), "{name}");
        differing += usize::from(first != second);
    }
    assert!(differing > 150, "{differing}");
}

/// Both begin alike up to the rest, and a record of the first stands there that
/// differs, or none.
#[test]
fn the_rest_begins_where_the_captures_part() {
    for (name, [first, second]) in pairs() {
        let compared = compare(&first, &second);
        let Ok(entries) = compared.entries else {
            assert_eq!(compared.rest, first.len(), "{name}");
            continue;
        };
        let rest = compared.rest;
        assert_eq!(first[..rest], second[..rest], "{name}");
        let ours = parsed::records(&first).unwrap();
        let number = ours.iter().position(|record| record.place == rest);
        let listed = entries.first().map(|entry| entry.record as usize - 1);
        assert_eq!(number, listed.filter(|place| *place < ours.len()), "{name}");
    }
}
