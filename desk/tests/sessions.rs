//! The sessions file: what each word becomes, and what is refused.

use desk::sessions::{name_of, open_body, parse, Session};
use peer::capture::{Kind, HEADER};

fn one(line: &str) -> Session {
    let mut sessions = parse(line).expect("a session");
    assert_eq!(sessions.len(), 1, "{line}");
    sessions.remove(0)
}

fn mistake(text: &str) -> String {
    parse(text).expect_err(text).what
}

#[test]
fn every_word_has_its_place() {
    let line = "LON label=100 my=0x11 period=2,000,000 own=LSP:1/10/1/2 expected=1/20/3/4 follow=link-down,lock open=60,000,000";
    let session = one(line);
    assert_eq!(session.name, "LON");
    assert_eq!((session.label, session.discriminator), (100, 17));
    assert_eq!((session.period, session.opened), (2_000_000, 60_000_000));
    assert_eq!(session.mep_kind, 1);
    assert_eq!(session.own, [0, 0, 0, 1, 0, 0, 0, 10, 0, 1, 0, 2]);
    assert_eq!(session.expected, [0, 0, 0, 1, 0, 0, 0, 20, 0, 3, 0, 4]);
    assert!(session.follow_link && session.follow_lock);
}

#[test]
fn what_is_not_named_is_usual() {
    let session = one("a label=16 my=1 own=Section:1/2/3 expected=1/2/4");
    assert_eq!((session.period, session.opened), (1_000_000, 0));
    assert_eq!(session.mep_kind, 0);
    assert!(!session.follow_link && !session.follow_lock);
}

#[test]
fn the_body_is_the_assemblers() {
    for (follow, marks) in [
        ("none", ""),
        ("link-down", "follow-link-down"),
        ("lock", "follow-lock"),
        ("lock,link-down", "follow-lock follow-link-down"),
    ] {
        for meps in [
            "own=7/8/9/65535 expected=4294967295/1/0/2",
            "own=7/8/9 expected=0/1/0xffffffff",
        ] {
            let session = one(&format!(
                "n label=99 my=5 period=3,333 {meps} follow={follow} open=12"
            ));
            let line = format!("12 99 open my=5 period=3,333 {meps} {marks}");
            let capture = peer::assemble::assemble(&line).expect("a capture");
            let mut ours = HEADER.to_vec();
            let body = open_body(&session);
            let (time, label, kind) = (session.opened, session.label, Kind::Open);
            peer::capture::Record {
                time,
                label,
                kind,
                body: &body,
            }
            .append_to(&mut ours);
            assert_eq!(ours, capture, "{line}");
        }
    }
}

#[test]
fn comments_empty_lines_and_names() {
    let text = "\u{feff}# two\r\n\r\n  A#1 label=16 my=1 own=1/1/1 expected=1/1/2 # follow=lock\r\nB label=17 my=2 own=1/1/1 expected=1/1/2";
    let sessions = parse(text).expect("two sessions");
    assert_eq!(sessions.len(), 2);
    assert!(!sessions[0].follow_lock);
    assert_eq!(name_of(&sessions, 16), "A#1");
    assert_eq!(name_of(&sessions, 17), "B");
    assert_eq!(name_of(&sessions, 18), "");
    assert_eq!(parse("").expect("none"), []);
}

#[test]
fn mistakes_are_named_with_their_line() {
    let good = "A label=16 my=1 own=1/1/1/1 expected=1/1/1/2";
    for (line, said) in [
        ("label=16 my=1 own=1/1/1 expected=1/1/2", "session's name"),
        ("B my=2 own=1/1/1 expected=1/1/2", "no `label=`"),
        ("B label=17 own=1/1/1 expected=1/1/2", "no `my=`"),
        ("B label=17 my=2 expected=1/1/2", "no `own=`"),
        ("B label=17 my=2 own=1/1/1", "no `expected=`"),
        (
            "B label=15 my=2 own=1/1/1 expected=1/1/2",
            "label: `15` is not from 16 to 1048575",
        ),
        (
            "B label=1,048,576 my=2 own=1/1/1 expected=1/1/2",
            "is not from",
        ),
        ("B label=17 my=0 own=1/1/1 expected=1/1/2", "my: `0`"),
        (
            "B label=17 my=4294967296 own=1/1/1 expected=1/1/2",
            "my: `4294967296`",
        ),
        (
            "B label=17 my=2 own=1/1/1 expected=1/1/2 period=999",
            "period: `999`",
        ),
        (
            "B label=17 my=2 own=1/1/1 expected=1/1/2 period=10,000,001",
            "period: `10,000,001`",
        ),
        (
            "B label=17 my=2 own=1/1/1 expected=1/1/2 open=9223372036854775808",
            "open: ",
        ),
        (
            "B label=17 my=2 own=1/1/1 expected=1/1/2 open=+1",
            "open: not a number",
        ),
        (
            "B label=17 my=2 own=1/1/1 expected=1/1/2 open=",
            "open: not a number",
        ),
        ("B label=17 my=2 own=1/1/1 expected=1/1/2/3", "of two types"),
        ("B label=17 my=2 own=1/1 expected=1/1/2", "own: no Section"),
        (
            "B label=17 my=2 own=1/1/65536/1 expected=1/1/2/3",
            "own: no Section",
        ),
        (
            "B label=17 my=2 own=1/1/1 expected=1/x/2",
            "expected: not a number: `x`",
        ),
        (
            "B label=17 my=2 own=LSP:1/1/1 expected=1/1/2",
            "the numbers of a Section",
        ),
        (
            "B label=17 my=2 own=PW:1/1/1 expected=1/1/2",
            "the numbers of a Section",
        ),
        (
            "B label=17 my=2 own=1/1/1 expected=1/1/2 follow=none,lock",
            "follow: `none,lock`",
        ),
        (
            "B label=17 my=2 own=1/1/1 expected=1/1/2 follow=",
            "follow: ``",
        ),
        (
            "B label=17 my=2 own=1/1/1 expected=1/1/2 my=3",
            "`my=` stands twice",
        ),
        (
            "B label=17 my=2 own=1/1/1 expected=1/1/2 lock",
            "unknown word `lock`",
        ),
        (
            "B label=17 my=2 own=1/1/1 expected=1/1/2 mult=3",
            "unknown word `mult=3`",
        ),
        (
            "A label=17 my=2 own=1/1/1 expected=1/1/2",
            "`A` has this name already",
        ),
        (
            "B label=16 my=2 own=1/1/1 expected=1/1/2",
            "`A` has this label already",
        ),
        (
            "B label=17 my=1 own=1/1/1 expected=1/1/2",
            "`A` has this discriminator already",
        ),
        (
            "B label=499,999 my=1 own=1/1/1 expected=1/1/2",
            "`A` has this discriminator already",
        ),
        (
            "\u{7}B label=17 my=2 own=1/1/1 expected=1/1/2",
            "session's name",
        ),
    ] {
        let told = mistake(&format!("# first\n{good}\n{line}\n"));
        assert!(
            told.starts_with("line 3: ") && told.contains(said),
            "{line}: {told}"
        );
    }
}

/// Two operators give their discriminators out apart.
#[test]
fn a_discriminator_stands_once_in_a_party() {
    let line = |name, label| format!("{name} label={label} my=1 own=1/1/1 expected=1/1/2\n");
    let both = line("A", 499_999) + &line("B", 500_000);
    assert_eq!(parse(&both).expect("two sessions").len(), 2);
    let told = mistake(&(both + &line("C", 1_048_575)));
    assert_eq!(told, "line 3: `B` has this discriminator already");
}
