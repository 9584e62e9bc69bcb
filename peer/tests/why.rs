//! `why`: the words of a question, and which call accounts for what.

mod common;

use common::*;
use peer::capture::{Kind, Record, HEADER};
use peer::machine::Mode;
use peer::make;
use peer::session::Report;
use peer::table::{self, Table};
use peer::why::cause::{answer, Answer, Cause, Life};
use peer::why::check::questions;
use peer::why::history::{Event, History};
use peer::why::question::{Question, Thing, USAGE};
use peer::why::{answer_to, why};
use std::io::{self, Read, Write};
use std::process::{Command, Stdio};

/// The lines that are printed for a question on a capture.
fn asked(capture: &Capture, words: &str) -> Vec<String> {
    let words: Vec<&str> = words.split_whitespace().collect();
    let text = answer_to(&words, &capture.octets);
    text.lines().map(str::to_string).collect()
}

fn ais(refresh: u8, number: u8) -> Vec<u8> {
    fault(AIS, 0, refresh, &interface(number))
}

#[test]
fn the_example_of_three_lines() {
    let mut tlv = vec![1, 8, 0, 0, 0, 1];
    tlv.extend([0, 0, 0, 7]);
    let capture = Capture::new()
        .open(0, 0)
        .receive(1_000_000, &fault(AIS, 0, 20, &tlv))
        .tick(67_500_000);
    let lines = [
        "which: record 2 at 1000000, AIS, refresh 20 s, interface 1/7",
        "how old: 66.500000 s",
        "ends: at 71000000, or when the loss ends",
    ];
    assert_eq!(asked(&capture, "100 held-back"), lines);
}

#[test]
fn words_that_are_no_question() {
    for words in [
        "",
        "100",
        "loss",
        "100 Loss",
        "+100 loss",
        "-0 loss",
        "100 loss global=1",
        "100 ais if=1",
        "100 ais if=1/+1",
        "100 ais global=1 global=1",
        "100 loss upto=18446744073709551616",
        "100 loss upto=1=1",
        "100 loss upto",
        "100 loss loss",
    ] {
        assert_eq!(asked(&Capture::new(), words), [USAGE], "{words}");
    }
    assert_eq!(answer_to(&["100", "", "loss"], &[]), format!("{USAGE}\n"));
    assert_eq!(answer_to(&["100 loss"], &[]), format!("{USAGE}\n"));
}

#[test]
fn a_question_gives_the_words_that_ask_it() {
    for words in [
        "0 crossing",
        "4294967295 loss upto=0",
        "100 held-back upto=18446744073709551614",
        "100 ais",
        "100 lkr if=4294967295/0 global=4294967295 upto=7",
        "100 ais global=0",
    ] {
        let split: Vec<&str> = words.split(' ').collect();
        let question = Question::of(&split).unwrap();
        assert_eq!(question.words().join(" "), words);
    }
    let most = Question::of(&["1", "loss", "upto=18446744073709551615"]);
    assert_eq!(most, Question::of(&["1", "loss"]));
    // Noughts in front change no number, and options may stand in any order.
    let plain = Question::of(&["7", "ais", "if=1/2", "global=3", "upto=4"]);
    let other = Question::of(&["007", "ais", "upto=04", "global=03", "if=01/02"]);
    assert_eq!(plain, other);
}

#[test]
fn refusal_2_comes_before_15() {
    let capture = Capture::new().open(0, 0);
    for (thing, line) in [
        ("crossing", "no crossing stands"),
        ("loss", "no loss stands"),
        ("held-back", "no alarm is held back"),
        ("ais", "this condition does not stand"),
        ("lkr if=1/1", "this condition does not stand"),
    ] {
        let open = asked(&capture, &format!("100 {thing}"));
        assert_eq!(open, [format!("refused 15: {line}")]);
        let closed = asked(&capture, &format!("101 {thing}"));
        assert_eq!(closed, ["refused 2: label 101 is not open"]);
    }
}

#[test]
fn of_crossed_messages_the_later_record_at_one_reading() {
    let capture = Capture::new()
        .open(0, 0)
        .receive(1_000_000, &cc(UP, 99))
        .receive(1_000_000, &cv(UP, DISCRIMINATOR, CROSSED))
        .tick(4_499_999);
    let lines = asked(&capture, "100 crossing");
    let sender = "from LSP 50529027/50529027/771/771";
    let which = format!("which: record 3 at 1000000, CV, Your 17, {sender}");
    assert_eq!(lines[0], which);
    assert_eq!(lines[1], "how old: 3.499999 s");
    let ends = "ends: at 4500000, unless another crossed message comes";
    assert_eq!(lines[2], ends);
    let over = asked(&capture.tick(4_500_000), "100 crossing");
    assert_eq!(over, ["refused 15: no crossing stands"]);
}

#[test]
fn a_cv_is_named_with_the_multiplier_of_the_cc() {
    let mut five = cc(DOWN, 0);
    five[6] = 5;
    let capture = Capture::new()
        .open(0, 0)
        .receive(0, &five)
        .receive(0, &cv(UP, DISCRIMINATOR, EXPECTED))
        .tick(5_000_001);
    let lines = asked(&capture, "100 loss");
    assert_eq!(lines[0], "which: record 3 at 0, CV");
    let ends = "ends: at the next CC or CV heard, a lock or a close; stood from 5000001";
    assert_eq!(lines[2], ends);
}

#[test]
fn only_a_real_unlock_restarts_the_detection_time() {
    let capture = Capture::new().open(0, 0).unlock(1).tick(3_000_001);
    assert_eq!(
        asked(&capture, "100 loss")[0],
        "which: record 1 at 0, opening"
    );
    let capture = Capture::new().open(0, 0).lock(1).unlock(2).unlock(3);
    let capture = capture.tick(3_000_003);
    assert_eq!(
        asked(&capture, "100 loss")[0],
        "which: record 3 at 2, unlock"
    );
}

#[test]
fn the_longest_holds_back_and_of_equal_ends_the_later() {
    let capture = Capture::new()
        .open(0, 0)
        .receive(0, &ais(2, 1))
        .receive(3_500_000, &ais(1, 2))
        .receive(3_500_000, &fault(LKR, 0, 1, &[]));
    let which = |words: &str| asked(&capture, words)[0].clone();
    let lkr = "which: record 4 at 3500000, LKR, refresh 1 s";
    assert_eq!(which("100 held-back"), lkr);
    let first = "which: record 3 at 3500000, AIS, refresh 1 s, interface 1/2";
    assert_eq!(which("100 held-back upto=3"), first);
}

#[test]
fn a_capture_that_is_not_whole_says_so_unless_more_records_come() {
    let mut capture = Capture::new().open(0, 0).tick(1);
    capture.octets.push(0);
    let cut = ["refused 15: no loss stands", "capture: cut behind record 2"];
    for words in ["100 loss", "100 loss upto=2", "100 loss upto=3"] {
        assert_eq!(asked(&capture, words), cut);
    }
    assert_eq!(asked(&capture, "100 loss upto=1"), cut[..1]);
    let none = "refused 2: label 100 is not open";
    assert_eq!(asked(&capture, "100 loss upto=0"), [none]);
    capture.octets[0] = 0;
    for words in ["100 loss", "100 loss upto=0"] {
        assert_eq!(asked(&capture, words), [none, "capture: bad header"]);
    }
}

/// Gives its octets, and then an error.
struct Fails<'a>(&'a [u8]);

impl Read for Fails<'_> {
    fn read(&mut self, room: &mut [u8]) -> io::Result<usize> {
        match self.0.read(room)? {
            0 => Err(io::Error::other("no more")),
            length => Ok(length),
        }
    }
}

#[test]
fn a_read_that_fails_is_told_and_no_answer_given() {
    let octets = Capture::new().open(0, 0).tick(1).octets;
    let ask = |words: &[&str]| {
        let mut output = Vec::new();
        let question = Question::of(words).unwrap();
        let done = why(&question, Fails(&octets), &mut output);
        (done.is_ok(), output.is_empty())
    };
    assert_eq!(ask(&["100", "loss"]), (false, true));
    assert_eq!(ask(&["100", "loss", "upto=2"]), (false, true));
    // One record more than asked for is read, and nothing behind it.
    assert_eq!(ask(&["100", "loss", "upto=1"]), (true, false));
}

/// The history of a made capture, its damage left out, and what is asked of it.
fn made(seed: u64) -> (History, Vec<Question>) {
    let mut history = History::read(&make::tied(seed)[..], u64::MAX).unwrap();
    history.damage = None;
    let questions = questions(seed, &history);
    (history, questions)
}

/// The same, with a tick behind its first records.
fn ticked(history: &History, upto: u64, time: u64) -> History {
    let mut events: Vec<Event> = history.front(upto).events.to_vec();
    events.push(Event {
        number: events.len() as u64 + 1,
        time,
        label: 0,
        kind: Kind::Tick,
        body: Box::new([]),
        mode: Mode::COORDINATED,
        accepted: true,
    });
    let damage = None;
    History { events, damage }
}

/// What is asked at the end of a history, and which record it comes from.
fn record_now(history: &History, question: &Question) -> Option<u64> {
    match answer(&history.front(u64::MAX), question) {
        Answer::Because(cause) => Some(cause.act.event.number),
        _ => None,
    }
}

/// All questions of some made captures that have an answer.
fn for_each_cause(mut look: impl FnMut(&History, &Question, &Cause)) {
    let mut causes = 0;
    for seed in 1..=60 {
        let (history, questions) = made(seed);
        for question in questions {
            let front = history.front(question.upto);
            if let Answer::Because(cause) = answer(&front, &question) {
                look(&history, &question, &cause);
                causes += 1;
            }
        }
    }
    assert!(causes > 500);
}

#[test]
fn what_ends_stands_until_its_end_and_not_from_there_on() {
    for_each_cause(|history, question, cause| {
        let number = Some(cause.act.event.number);
        let now = history.front(question.upto).clock();
        let at = |time| record_now(&ticked(history, question.upto, time), question);
        if question.thing != Thing::Loss {
            assert!(now < cause.end);
            assert_eq!(at(cause.end - 1), number);
            assert_eq!(at(cause.end), None);
        } else {
            assert!(cause.end <= now);
            assert_eq!(at(now + 1), number);
        }
    });
}

#[test]
fn a_loss_stood_from_its_first_reading_on() {
    for_each_cause(|history, question, cause| {
        if question.thing != Thing::Loss {
            return;
        }
        // Up to the call that it is timed from, and then nothing but a tick.
        let upto = cause.act.event.number;
        let at = |time| record_now(&ticked(history, upto, time), question);
        assert_eq!(at(cause.end), Some(upto));
        assert_eq!(at(cause.end - 1), None);
    });
}

#[test]
fn answers_are_there_exactly_where_the_report_shows_it() {
    for seed in 1..=60 {
        let capture = make::tied(seed);
        let history = History::read(&capture[..], u64::MAX).unwrap();
        for question in questions(seed, &history) {
            let front = history.front(question.upto);
            let told = answer(&front, &question);
            let Some(shown) = reported(&history, question.upto, question.label) else {
                assert_eq!(told, Answer::NotOpen);
                continue;
            };
            let life = Life::of(&front, question.label).unwrap();
            assert_eq!(life.conditions().len(), shown.conditions);
            let stands = matches!(told, Answer::Because(_));
            match question.thing {
                Thing::Crossing => assert_eq!(stands, shown.misconnectivity),
                Thing::Loss => assert_eq!(stands, shown.loss),
                Thing::HeldBack => assert_eq!(stands, shown.loss && !shown.alarm),
                Thing::Condition(_) => assert!(told != Answer::NotOpen),
            }
        }
    }
}

/// What the table reports of a label behind the first records.
fn reported(history: &History, upto: u64, label: u32) -> Option<Report> {
    let mut table = Table::new();
    for event in history.front(upto).events {
        table.perform(&Record {
            time: event.time,
            label: event.label,
            kind: event.kind,
            body: &event.body,
        });
    }
    let report = Record {
        time: 0,
        label,
        kind: Kind::Report,
        body: &[],
    };
    match table.perform(&report) {
        table::Answer::Report(report) => Some(report),
        _ => None,
    }
}

#[test]
fn a_seed_always_gives_the_same_capture_with_ties() {
    for seed in 1..20 {
        assert!(make::tied(seed) == make::tied(seed));
        assert!(make::tied(seed) != make::tied(seed + 1));
    }
    assert!(make::tied(1).starts_with(&HEADER[..2]));
}

/// What the command itself prints and ends with.
fn run(words: &[&str], capture: &[u8]) -> (String, Option<i32>) {
    let mut child = Command::new(env!("CARGO_BIN_EXE_peer"))
        .arg("why")
        .args(words)
        .stdin(Stdio::piped())
        .stdout(Stdio::piped())
        .spawn()
        .unwrap();
    // Words that are no question are refused before anything is read.
    let _ = child.stdin.take().unwrap().write_all(capture);
    let output = child.wait_with_output().unwrap();
    (
        String::from_utf8(output.stdout).unwrap(),
        output.status.code(),
    )
}

#[test]
fn the_command_prints_answers_refusals_and_its_usage() {
    let capture = Capture::new().open(0, 0).tick(3_000_001).octets;
    let loss = answer_to(&["100", "loss"], &capture);
    assert_eq!(loss.lines().count(), 3);
    assert_eq!(run(&["100", "loss"], &capture), (loss, Some(0)));
    let refused = "refused 15: no crossing stands\n".to_string();
    assert_eq!(run(&["100", "crossing"], &capture), (refused, Some(0)));
    for words in [&[][..], &["100"], &["100", "loss", ""]] {
        assert_eq!(run(words, &capture), (format!("{USAGE}\n"), Some(2)));
    }
}
