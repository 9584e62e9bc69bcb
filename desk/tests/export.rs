//! `desk export`: import gives the same receives, and each packet says what `watch` answered.

mod common;

use common::{desk, file, printed, refused, stored_captures, watch};
use desk::export::{End, Export, Frames};
use desk::import::{Import, Plan};
use desk::sessions::Session;
use desk::tap::frame::HIGHEST_LABEL;
use peer::capture::{Kind, Next, Reader, Record, HEADER};
use peer::make;

/// A receive: time, label, message.
type Receive = (u64, u32, Vec<u8>);

/// The receives of a capture up to its end or its cut.
fn receives(capture: &[u8]) -> Vec<Receive> {
    let mut found = Vec::new();
    let Some(mut reader) = Reader::start(capture).expect("memory") else {
        return found;
    };
    while let Next::Record(record) = reader.next_record().expect("memory") {
        if record.kind == Kind::Receive {
            found.push((record.time, record.label, record.body.to_vec()));
        }
    }
    found
}

/// The pcapng of a capture with the second program's answers, and how many messages it leaves out.
fn export(capture: &[u8], frames: Frames) -> (Vec<u8>, u64) {
    let text = String::from_utf8(peer::watch::text(capture)).expect("UTF-8");
    let mut lines = text.lines();
    let next = |room: &mut Vec<u8>| {
        let line = lines.next().expect("a line for each record");
        room.extend_from_slice(line.split_once(' ').expect("a number").1.as_bytes());
        Ok(())
    };
    let mut pcapng = Vec::new();
    let mut export = Export::new(frames, &mut pcapng);
    let end = export
        .all("made.capture", capture, next, |_| ())
        .expect("a capture");
    let left_out = export.left_out;
    assert_eq!(end == End::Cut, text.ends_with("cut\n"));
    (pcapng, left_out)
}

/// The receives of a pcapng, if each of these labels has a session.
fn import(pcapng: &[u8], labels: &[u32], section: Option<u32>, start: i128) -> Vec<Receive> {
    let sessions = labels.iter().map(|label| Session {
        name: label.to_string(),
        label: *label,
        discriminator: 1,
        period: 1_000_000,
        mep_kind: 1,
        own: [1; 12],
        expected: [2; 12],
        follow_link: false,
        follow_lock: false,
        opened: 0,
    });
    let mut capture = Vec::new();
    let mut import = Import::new(
        Plan::new(sessions.collect(), section, Some(start)),
        &mut capture,
    );
    import.all("made.pcapng", pcapng, |_| ()).expect("a pcapng");
    receives(&capture)
}

/// Exports a capture and imports it again.
fn comes_back(name: &str, capture: &[u8]) -> usize {
    if !capture.starts_with(&HEADER) {
        return 0;
    }
    let all = receives(capture);
    let (can, cannot): (Vec<Receive>, Vec<Receive>) = all
        .into_iter()
        .partition(|(_, label, _)| *label <= HIGHEST_LABEL);
    let labels: Vec<u32> = can.iter().map(|(_, label, _)| *label).collect();
    let (pcapng, left_out) = export(capture, Frames::default());
    assert_eq!(left_out, cannot.len() as u64, "{name}");
    assert!(
        import(&pcapng, &labels, None, 0) == can,
        "{name}: other receives"
    );
    can.len()
}

#[test]
fn made_captures_come_back() {
    let count: usize = (1..=200)
        .map(|seed| comes_back(&format!("seed {seed}"), &make::capture(seed)))
        .sum();
    assert!(count > 40_000, "{count}");
}

#[test]
fn tied_captures_come_back() {
    let count: usize = (1..=200)
        .map(|seed| comes_back(&format!("tied {seed}"), &make::tied(seed)))
        .sum();
    assert!(count > 2_000, "{count}");
}

#[test]
fn stored_captures_come_back() {
    for (path, capture) in stored_captures() {
        comes_back(&path.display().to_string(), &capture);
    }
}

/// One message of each length up to the longest, on the lowest and the highest label and the GAL's.
/// No table knows them, and a tap may have them.
#[test]
fn dhc_messages_come_back() {
    let text = "0 100 open my=17
1 100 receive dhc group=7 status=1/55/2/PD switching=1/56/2/S
2 100 receive dhc group=7 cut=9
";
    let capture = peer::assemble::assemble(text).expect("a capture");
    assert_eq!(comes_back("dhc", &capture), 2);
    let (pcapng, _) = export(&capture, Frames::default());
    let expected = [
        "record 2: refused 24: a DHC message, and a capture has no groups to take it",
        "record 3: refused 3 at 9: the message ends before its layout does",
    ];
    assert_eq!(comments(&pcapng), expected);
}

#[test]
fn every_length_comes_back() {
    let mut capture = HEADER.to_vec();
    for length in 0..=2_048_usize {
        let label = [0, 13, 16, HIGHEST_LABEL][length % 4];
        let body: Vec<u8> = (0..length).map(|at| (at * 7 + length) as u8).collect();
        let time = u64::MAX - 2_048 + length as u64;
        Record {
            time,
            label,
            kind: Kind::Receive,
            body: &body,
        }
        .append_to(&mut capture);
    }
    assert_eq!(comes_back("lengths", &capture), 2_049);
}

#[test]
fn a_section_and_an_epoch_come_back() {
    let capture = make::capture(3);
    let all = receives(&capture);
    let (_, section, _) = all[0];
    let labels: Vec<u32> = all
        .iter()
        .map(|(_, label, _)| *label)
        .filter(|label| *label <= HIGHEST_LABEL)
        .collect();
    let frames = Frames {
        epoch: 1_700_000_000_250_000,
        section: Some(section),
    };
    let (pcapng, _) = export(&capture, frames);
    let found = import(&pcapng, &labels, Some(section), 1_700_000_000_250_000);
    let can: Vec<Receive> = receives(&capture)
        .into_iter()
        .filter(|(_, label, _)| labels.contains(label))
        .collect();
    assert!(found == can);
    // Without the Section's label its messages are not found, and only they.
    let found = import(&pcapng, &labels, None, 1_700_000_000_250_000);
    let others: Vec<Receive> = can
        .into_iter()
        .filter(|(_, label, _)| *label != section)
        .collect();
    assert!(!others.is_empty() && found == others);
}

/// The comments of a pcapng as `writer.rs` makes it: the option that ends an enhanced packet block.
fn comments(pcapng: &[u8]) -> Vec<String> {
    let number = |at: usize| {
        u32::from_le_bytes(pcapng[at..at + 4].try_into().expect("four octets")) as usize
    };
    let mut comments = Vec::new();
    let mut at = 0;
    while at < pcapng.len() {
        if number(at) == 6 {
            let option = at + 28 + number(at + 20).next_multiple_of(4);
            assert_eq!(pcapng[option..option + 2], [1, 0]);
            let length = number(option) >> 16;
            let octets = pcapng[option + 4..option + 4 + length].to_vec();
            comments.push(String::from_utf8(octets).expect("UTF-8"));
        }
        at += number(at + 4);
    }
    comments
}

/// Each comment has the record's number and the answer on its line of `watch`.
#[test]
fn comments_say_what_watch_answered() {
    let mut numbers = [0; 26];
    for (path, capture) in stored_captures() {
        if !capture.starts_with(&HEADER) {
            continue;
        }
        let name = path.to_str().expect("UTF-8");
        let output = desk(&["export", name]);
        let text = watch(name);
        assert_eq!(output.status.success(), !text.ends_with("cut\n"), "{name}");
        for comment in comments(&output.stdout) {
            let (record, answer) = comment.split_once(": ").expect("a number");
            let line = text.lines().nth(
                record
                    .strip_prefix("record ")
                    .expect("a record")
                    .parse::<usize>()
                    .expect("a number")
                    - 1,
            );
            let words: Vec<&str> = line.expect("a line").split(' ').skip(1).collect();
            let said = match words[..] {
                ["0"] => "accepted".to_string(),
                [refusal] => format!("refused {refusal}: "),
                [refusal, place] => format!("refused {refusal} at {place}: "),
                _ => panic!("{name}: {line:?}"),
            };
            assert!(answer.starts_with(&said), "{name}: {comment} for {line:?}");
            numbers[words[0].parse::<usize>().expect("a number")] += 1;
        }
    }
    // Every answer that there is to a receive was among them.
    for number in [0, 1, 2, 3, 4, 5, 6, 7, 8, 9, 14, 24, 25] {
        assert!(numbers[number] > 0, "{number}");
    }
}

#[test]
fn the_morning_by_the_programs() {
    let capture = common::package().join("../crates/questions/data/morning.capture");
    let name = capture.to_str().expect("UTF-8");
    let pcapng = file(
        "export_morning.pcapng",
        &printed(&["export", name, "--epoch", "2026-11-16"]),
    );
    let sessions = "a label=100 my=17 own=1/10/1/1 expected=1/20/1/1\nb label=200 my=18 own=1/10/1/1 expected=1/20/1/1";
    let sessions = file("export_morning.sessions", sessions.as_bytes());
    let output = desk(&["import", &pcapng, &sessions, "--start", "2026-11-16T00:00Z"]);
    assert!(output.status.success());
    let before = receives(&std::fs::read(&capture).expect("a capture"));
    assert_eq!(before.len(), 485);
    assert!(receives(&output.stdout) == before);
}

#[test]
fn a_cut_capture_is_named_and_written_as_far_as_it_goes() {
    let whole = make::capture(5);
    let all = receives(&whole);
    let cut = file("export_cut.capture", &whole[..whole.len() / 2]);
    let output = desk(&["export", &cut]);
    let said = String::from_utf8(output.stderr).expect("UTF-8");
    assert_eq!(output.status.code(), Some(1), "{said}");
    let labels: Vec<u32> = all.iter().map(|(_, label, _)| *label).collect();
    let found = import(&output.stdout, &labels, None, 0);
    let can: Vec<Receive> = all
        .into_iter()
        .filter(|(_, label, _)| *label <= HIGHEST_LABEL)
        .collect();
    assert!(found.len() > 20 && can.starts_with(&found));
    let record = watch(&cut).lines().count() - 1;
    assert!(
        said.ends_with(&format!(": no whole record behind record {record}\n")),
        "{said}"
    );
    let offset: usize = said
        .split("offset ")
        .nth(1)
        .and_then(|rest| rest.split(':').next())
        .expect("an offset")
        .parse()
        .expect("a number");
    assert!(
        watch(&file("export_whole.capture", &whole[..offset]))
            .lines()
            .count()
            == record
    );
}

#[test]
fn wrong_words_and_files() {
    let bad = file("export_bad.capture", b"TPO\0\x02\0\0\0");
    let mut late = HEADER.to_vec();
    Record {
        time: u64::MAX,
        label: 16,
        kind: Kind::Receive,
        body: &[],
    }
    .append_to(&mut late);
    let late = file("export_late.capture", &late);
    for (words, said) in [
        (vec![], "wants CAPTURE"),
        (
            vec![&bad[..]],
            "export_bad.capture: offset 0: not the header of a capture",
        ),
        (vec!["/no/such"], "cannot read /no/such"),
        (vec!["/dev/null"], "/dev/null is no regular file"),
        (
            vec![&late, "--epoch", "1"],
            "record 1: its time and the epoch are more than a pcapng can say",
        ),
        (vec![&late, "--epoch", "noon"], "--epoch: `noon` is neither"),
        (vec![&late, "--section", "x"], "--section: `x` is no label"),
    ] {
        let found = refused(&[&["export"], &words[..]].concat());
        assert!(found.contains(said), "{words:?}: {found}");
    }
    assert!(String::from_utf8_lossy(&printed(&["export", "--help"]))
        .starts_with("usage: desk export CAPTURE"));
}

#[test]
fn labels_without_a_frame_are_counted() {
    let mut capture = HEADER.to_vec();
    for label in [HIGHEST_LABEL, HIGHEST_LABEL + 1, u32::MAX] {
        Record {
            time: 0,
            label,
            kind: Kind::Receive,
            body: &[],
        }
        .append_to(&mut capture);
    }
    let output = desk(&["export", &file("export_labels.capture", &capture)]);
    assert!(output.status.success());
    assert_eq!(
        comments(&output.stdout),
        ["record 1: refused 2: no open session has this label"]
    );
    assert_eq!(
        String::from_utf8_lossy(&output.stderr),
        "2 messages left out: their labels have more than 20 bits\n"
    );
}
