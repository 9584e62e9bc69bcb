//! `spacing`: which CCs are a pair, and the five numbers of them.

mod common;

use common::*;
use peer::capture::{open_body, Kind, Next, Reader, HEADER};
use peer::make;
use peer::message::{self, Message};
use peer::settings::Settings;
use peer::spacing::check::labels;
use peer::spacing::numbers::{Numbers, LIMIT};
use peer::spacing::pairs::{self, Pair};
use peer::spacing::{answer_to, spacing, text, USAGE};
use peer::table::{Table, LARGEST_READING};
use peer::why::history::History;
use std::io::{self, Read, Write};
use std::process::{Command, Stdio};

const NO_PAIR: &str = "0 - - 0 0";
/// The period of the usual session.
const PERIOD: u64 = 1_000_000;

/// The line for the usual label.
fn line(capture: &Capture) -> String {
    answer_to(&["100"], &capture.octets).trim_end().to_string()
}

/// The usual session, opened at 0, with heard CCs at these readings.
fn heard(readings: &[u64]) -> Capture {
    let open = Capture::new().open(0, 0);
    readings
        .iter()
        .fold(open, |capture, &time| hear(capture, time))
}

fn hear(capture: Capture, time: u64) -> Capture {
    capture.receive(time, &cc(UP, DISCRIMINATOR))
}

fn close(capture: Capture, time: u64) -> Capture {
    capture.call(Kind::Close, time, LABEL, &[])
}

fn open_with(capture: Capture, time: u64, period: u32) -> Capture {
    let body = open_body(DISCRIMINATOR, period, 1, OWN, EXPECTED, 0);
    capture.call(Kind::Open, time, LABEL, &body)
}

#[test]
fn early_and_late() {
    let capture = heard(&[0, 1_000_300, 1_999_900]);
    assert_eq!(line(&capture), "2 -400 300 -100 700");
    assert_eq!(line(&heard(&[7, 7 + PERIOD])), "1 0 0 0 0");
    assert_eq!(
        line(&heard(&[7, 7])),
        "1 -1000000 -1000000 -1000000 1000000"
    );
}

#[test]
fn without_a_pair_there_is_no_least_and_no_greatest() {
    for readings in [&[][..], &[5]] {
        assert_eq!(line(&heard(readings)), NO_PAIR);
    }
}

#[test]
fn a_label_that_was_never_open_or_is_none_is_not_refused() {
    let capture = heard(&[0, PERIOD]).octets;
    for label in ["101", "0", "15", "1048576", "4294967295"] {
        assert_eq!(answer_to(&[label], &capture).trim_end(), NO_PAIR, "{label}");
    }
}

#[test]
fn twenty_one_exactly_if_the_sizes_do_not_fit() {
    let fits = "2 -1000000 9223372036853775807 9223372036852775807 9223372036854775807";
    assert_eq!(line(&heard(&[0, 0, LARGEST_READING])), fits);
    assert_eq!(line(&heard(&[0, 0, 0, LARGEST_READING])), "refused 21");
    // Behind it nothing brings the sizes down again, a close neither.
    let over = heard(&[0, 0, 0, LARGEST_READING]);
    assert_eq!(line(&close(over, LARGEST_READING)), "refused 21");
    // A sum that fits does not help.
    let readings = [0, 0, 1, LARGEST_READING];
    assert_eq!(line(&heard(&readings)), "refused 21");
}

#[test]
fn one_microsecond_decides_over_21() {
    let sizes = |last| {
        let printed = line(&heard(&[0, 0, 0, last]));
        printed.rsplit(' ').next().unwrap().to_string()
    };
    assert_eq!(sizes(LARGEST_READING - PERIOD), LIMIT.to_string());
    assert_eq!(sizes(LARGEST_READING - PERIOD - 1), (LIMIT - 1).to_string());
    let over = heard(&[0, 0, 0, LARGEST_READING - PERIOD + 1]);
    assert_eq!(line(&over), "refused 21");
}

#[test]
fn a_loss_a_crossed_cc_and_an_unlock_of_what_is_not_locked_break_nothing() {
    let capture = heard(&[0])
        .receive(500, &cc(UP, 99))
        .tick(4_000_000)
        .unlock(4_000_000);
    let capture = hear(capture, 5_000_000);
    assert_eq!(line(&capture), "1 4000000 4000000 4000000 4000000");
}

#[test]
fn cvs_faults_refused_messages_and_reports_break_nothing_and_are_no_ccs() {
    let mut damaged = cc(UP, DISCRIMINATOR);
    damaged[4] = 0;
    let capture = heard(&[0])
        .receive(1, &cv(UP, DISCRIMINATOR, EXPECTED))
        .receive(2, &cv(UP, DISCRIMINATOR, CROSSED))
        .receive(3, &fault(AIS, 0, 1, &interface(1)))
        .receive(4, &damaged)
        .report()
        .write_cc()
        .open(5, 0);
    assert_eq!(line(&hear(capture, PERIOD + 9)), "1 9 9 9 9");
}

#[test]
fn a_cc_that_is_refused_is_not_heard() {
    // Below the clock, above the greatest reading, on a label that is not open.
    let capture = heard(&[10]);
    let capture = hear(hear(capture, 9), LARGEST_READING + 1);
    let capture = capture.call(Kind::Receive, 20, 101, &cc(UP, DISCRIMINATOR));
    assert_eq!(line(&hear(capture, 10 + PERIOD)), "1 0 0 0 0");
}

#[test]
fn a_cc_with_your_discriminator_0_is_heard() {
    let capture = heard(&[0]).receive(PERIOD + 1, &cc(DOWN, 0));
    assert_eq!(line(&capture), "1 1 1 1 1");
}

#[test]
fn a_lock_breaks_a_pair() {
    let capture = heard(&[0]).lock(0).unlock(0);
    let capture = hear(hear(capture, 700), 1_000_700);
    assert_eq!(line(&capture), "1 0 0 0 0");
}

#[test]
fn a_lock_of_what_is_locked_breaks_nothing_more_and_a_cc_while_locked_is_not_heard() {
    let capture = hear(heard(&[0]).lock(0).lock(1), 2).unlock(3);
    let capture = hear(hear(capture, 10), 20);
    assert_eq!(line(&capture), "1 -999990 -999990 -999990 999990");
}

#[test]
fn a_refused_lock_and_a_refused_close_break_nothing() {
    let capture = close(heard(&[10]).lock(9), 9);
    let capture = capture.call(Kind::Lock, 10, 101, &[]);
    assert_eq!(line(&hear(capture, 10 + PERIOD)), "1 0 0 0 0");
}

#[test]
fn an_opening_has_its_own_pairs_and_its_own_period() {
    let capture = open_with(
        close(heard(&[0, PERIOD + 1]), 2 * PERIOD),
        2 * PERIOD,
        1_000,
    );
    let capture = hear(hear(capture, 2 * PERIOD), 2 * PERIOD + 1_002);
    assert_eq!(line(&capture), "2 1 2 3 3");
}

#[test]
fn labels_have_their_own_pairs() {
    let other = |capture: Capture, time| capture.call(Kind::Receive, time, 101, &cc(UP, 18));
    let capture = heard(&[0]).open_other(1, 101, 18);
    let capture = other(hear(other(capture, 2), PERIOD), PERIOD + 7);
    assert_eq!(answer_to(&["100"], &capture.octets), "1 0 0 0 0\n");
    assert_eq!(answer_to(&["101"], &capture.octets), "1 5 5 5 5\n");
}

#[test]
fn of_a_cut_capture_the_records_before_the_cut_count() {
    let two = heard(&[0, PERIOD + 1]).octets;
    let three = heard(&[0, PERIOD + 1, 2 * PERIOD]).octets;
    for length in two.len()..three.len() {
        assert_eq!(answer_to(&["100"], &three[..length]), "1 1 1 1 1\n");
    }
    assert_eq!(answer_to(&["100"], &three), "2 -1 1 0 2\n");
    for (at, octet) in [(12, 1), (14, 8)] {
        // A kind that is none; a body that is too long.
        let mut damaged = three.clone();
        damaged[two.len() + at] = octet;
        damaged.resize(damaged.len() + 4_096, 0);
        assert_eq!(answer_to(&["100"], &damaged), "1 1 1 1 1\n", "{at}");
    }
}

#[test]
fn behind_a_bad_header_nothing_counts() {
    let capture = heard(&[0, PERIOD]).octets;
    for length in 0..HEADER.len() {
        assert_eq!(answer_to(&["100"], &capture[..length]).trim_end(), NO_PAIR);
        let mut wrong = capture.clone();
        wrong[length] ^= 1;
        assert_eq!(answer_to(&["100"], &wrong).trim_end(), NO_PAIR);
    }
}

#[test]
fn words_that_are_no_label() {
    let capture = heard(&[0, PERIOD]).octets;
    for words in [
        &[][..],
        &[""],
        &["+100"],
        &["-1"],
        &["100", "100"],
        &["4294967296"],
        &["1,00"],
    ] {
        assert_eq!(
            answer_to(words, &capture),
            format!("{USAGE}\n"),
            "{words:?}"
        );
    }
    assert_eq!(answer_to(&["0100"], &capture), "1 0 0 0 0\n");
}

/// Numbers of two accounts, and of both.
#[test]
fn counts_and_sums_add_up_and_a_side_without_pairs_gives_way() {
    let of = |errors: &[i128]| Numbers::of(errors.iter().copied());
    let line = |one: &[i128], other: &[i128]| of(one).with(&of(other)).line();
    assert_eq!(line(&[-5, 7], &[9]), "3 -5 9 11 21");
    assert_eq!(line(&[-5, 7], &[]), "2 -5 7 2 12");
    assert_eq!(line(&[], &[-5, 7]), "2 -5 7 2 12");
    assert_eq!(line(&[], &[]), NO_PAIR);
    let limit = LIMIT.to_string();
    let expected = format!("2 3 {} {limit} {limit}", LIMIT - 3);
    assert_eq!(line(&[LIMIT - 3], &[3]), expected);
    assert_eq!(line(&[LIMIT - 3], &[-4]), "refused 21");
    assert_eq!(line(&[LIMIT, 1], &[]), "refused 21");
    assert_eq!(
        line(&[-LIMIT], &[]),
        format!("1 -{limit} -{limit} -{limit} {limit}")
    );
    // The least signed number fits, but its size does not.
    assert_eq!(line(&[-LIMIT - 1], &[]), "refused 21");
}

/// The five numbers of a label by a running account: a table that takes record
/// after record, and the reading of the last heard CC.
fn running(capture: &[u8], label: u32) -> Numbers {
    let mut numbers = Numbers::default();
    let Some(mut reader) = Reader::start(capture).unwrap() else {
        return numbers;
    };
    let (mut table, mut last) = (Table::new(), None);
    while let Next::Record(record) = reader.next_record().unwrap() {
        if !table.perform(&record).is_accepted() || record.label != label {
            continue;
        }
        match record.kind {
            Kind::Open | Kind::Close | Kind::Lock => last = None,
            Kind::Receive => {
                let settings: Settings = table.session(label).unwrap().settings;
                let message = message::read(record.body).unwrap().message;
                if settings.is_misconnected(&message) || !matches!(message, Message::Cc(_)) {
                    continue;
                }
                let error = |earlier: u64| {
                    i128::from(record.time) - i128::from(earlier) - i128::from(settings.period)
                };
                let pair = last.map(error);
                numbers = numbers.with(&Numbers::of(pair.into_iter()));
                last = Some(record.time);
            }
            _ => {}
        }
    }
    numbers
}

#[test]
fn a_running_account_comes_to_the_same_numbers() {
    let captures = (1..=60).map(make::spaced);
    for capture in captures.chain((1..=10).map(make::capture)) {
        let history = History::read(&capture[..], u64::MAX).unwrap();
        for label in labels(&history) {
            let line = format!("{}\n", running(&capture, label).line());
            assert_eq!(text(&history, label), line);
        }
    }
}

#[test]
fn the_numbers_of_parts_combine_to_those_of_the_whole() {
    for seed in 1..=30 {
        let capture = make::spaced(seed);
        let history = History::read(&capture[..], u64::MAX).unwrap();
        for label in labels(&history) {
            let whole = pairs::of(&history.events, label);
            for cut in 0..=history.events.len() {
                let front = pairs::of(&history.events[..cut], label);
                let behind = &whole[front.len()..];
                assert!(behind.iter().all(|pair| pair.later.number > cut as u64));
                let numbers = |pairs: &[Pair]| Numbers::of(pairs.iter().map(Pair::error));
                assert_eq!(numbers(&front).with(&numbers(behind)), numbers(&whole));
            }
        }
    }
}

#[test]
fn a_seed_always_gives_the_same_capture_with_spacings() {
    for seed in 1..20 {
        assert!(make::spaced(seed) == make::spaced(seed));
        assert!(make::spaced(seed) != make::spaced(seed + 1));
    }
}

/// What the made captures have to have for a comparison to say much.
#[test]
fn the_made_captures_have_every_kind_of_pair() {
    let mut counts = Vec::new();
    peer::spacing::check::cover(100, &mut counts).unwrap();
    let counts = String::from_utf8(counts).unwrap();
    for what in [
        "answered: no pair",
        "answered: pairs",
        "answered: refused 21",
        "asked of a bad header",
        "asked of a cut capture",
        "between: CV",
        "between: crossed CC",
        "between: refused message",
        "between: unlock of what is not locked",
        "label with pairs: lock",
        "label with pairs: opening",
        "pair: at one reading",
        "pair: early",
        "pair: on time",
        "pair: late",
        "pair: later than half the greatest reading",
        "sizes at the limit",
        "sizes one above the limit",
    ] {
        assert!(counts.contains(&format!("\n{what}: ")), "{what}");
    }
}

struct Failing;

impl Read for Failing {
    fn read(&mut self, _: &mut [u8]) -> io::Result<usize> {
        Err(io::Error::other("no more"))
    }
}

#[test]
fn a_read_that_fails_is_no_end_of_the_capture() {
    let capture = heard(&[0, 1]).octets;
    let mut printed = Vec::new();
    assert!(spacing(100, (&capture[..]).chain(Failing), &mut printed).is_err());
    assert!(printed.is_empty());
}

/// What the command itself prints and ends with.
fn run(words: &[&str], capture: &[u8]) -> (String, Option<i32>) {
    let mut child = Command::new(env!("CARGO_BIN_EXE_peer"))
        .arg("spacing")
        .args(words)
        .stdin(Stdio::piped())
        .stdout(Stdio::piped())
        .spawn()
        .unwrap();
    // Words that are no label are refused before anything is read.
    let _ = child.stdin.take().unwrap().write_all(capture);
    let output = child.wait_with_output().unwrap();
    let printed = String::from_utf8(output.stdout).unwrap();
    (printed, output.status.code())
}

#[test]
fn the_command_prints_one_line_or_its_usage() {
    let capture = heard(&[0, 1_000_300, 1_999_900]).octets;
    let line = "2 -400 300 -100 700\n".to_string();
    assert_eq!(run(&["100"], &capture), (line, Some(0)));
    let over = heard(&[0, 0, 0, LARGEST_READING]).octets;
    assert_eq!(run(&["100"], &over), ("refused 21\n".to_string(), Some(0)));
    for words in [&[][..], &["x"], &["100", "1"]] {
        assert_eq!(run(words, &capture), (format!("{USAGE}\n"), Some(2)));
    }
}
