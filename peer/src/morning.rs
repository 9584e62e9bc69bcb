//! The text of a morning: the two cases that the carrier was asked about, as a
//! capture that can be asked. Readings are microseconds since midnight.
//!
//! On label 100 nothing is heard behind 05:39:30, and AIS that is renewed every
//! minute holds the alarm back from 05:40 to 09:10. On label 200 messages of
//! another LSP come every three seconds from 07:00 to 07:10, and the port is
//! blocked.

use crate::assemble::grouped;

const HEAD: &str = "\
# A morning in microseconds since midnight: `peer morning` prints this text.
# 100: the far end is heard until 05:39:30. AIS is renewed every minute and holds the alarm back from 05:40:00 to 09:10:00.
# 200: its far end is heard, and every three seconds from 07:00:00 to 07:10:00 a CV of another LSP comes.
";

/// The working of the answers in `morning.answers`.
const TAIL: &str = "\
# 100 loss: the last CC is record 10, at 05:39:30; its detection time is 30 s, so the loss stood from 05:40:00.000001.
# 100 held-back, upto=11: at 05:39:50 there is no loss yet. upto=12: at 05:40:50 there is, and AIS has just come.
# 100 held-back, upto=19: at 05:45:00 record 16, AIS of 05:44:50, ends at 05:46:00; record 17, LKR of 05:44:59, at 05:45:02.5.
# 100 held-back, upto=528: one microsecond before 09:10:00 the AIS of 09:08:50 is 69.999999 s old. At 09:10:00 it is over.
# 200 crossing, upto=248: at 07:05:01 the CV of 07:05:00. upto=385: the CV of 07:10:00, 3.499999 s old; upto=387: over.
# 200 loss, upto=248: a CC was heard at 07:05:00. At the end the label is closed.
";

const SECOND: u64 = 1_000_000;

/// What `watch` reports of a session: held back, with one and with two
/// conditions; alarm; DOWN and blocked; DOWN; UP.
const HELD_BACK: &str = "0 1 0 1 0 0 0 1";
const HELD_BACK_BY_TWO: &str = "0 1 0 1 0 0 0 2";
const ALARM: &str = "0 1 0 1 1 0 0 0";
const BLOCKED: &str = "0 1 1 0 0 0 1 0";
const DOWN: &str = "0 1 0 0 0 0 0 0";
const UP: &str = "0 3 0 0 0 0 0 0";

/// A record: its reading, what stands behind it in a line, and the answer.
struct Call {
    reading: u64,
    words: String,
    answer: &'static str,
}

/// The whole text.
pub fn text() -> String {
    let mut calls = Vec::new();
    held_back(&mut calls);
    blocked(&mut calls);
    // Calls of one reading stay in their order.
    calls.sort_by_key(|call| call.reading);
    HEAD.to_string() + &calls.iter().map(line).collect::<String>() + TAIL
}

fn line(call: &Call) -> String {
    let reading = match call.words.contains("report") {
        true => "-".to_string(),
        false => grouped(call.reading),
    };
    let (words, answer) = (&call.words, call.answer);
    format!("{reading:>14}  {words:<58}  => {answer}\n")
}

/// The reading of a time of day.
fn at(hours: u64, minutes: u64, seconds: u64) -> u64 {
    ((hours * 60 + minutes) * 60 + seconds) * SECOND
}

fn call(calls: &mut Vec<Call>, reading: u64, words: &str) {
    calls.push(Call {
        reading,
        words: words.to_string(),
        answer: "0",
    });
}

/// The same call again and again, from one reading to another.
fn every(calls: &mut Vec<Call>, seconds: u64, from: u64, to: u64, words: &str) {
    for reading in (from..=to).step_by((seconds * SECOND) as usize) {
        call(calls, reading, words);
    }
}

/// A tick, and what a report shows behind it.
fn look(calls: &mut Vec<Call>, reading: u64, label: u32, answer: &'static str) {
    call(calls, reading, "  -  tick");
    calls.push(Call {
        reading,
        words: format!("{label}  report"),
        answer,
    });
}

/// An alarm held back over a morning by renewed AIS, and for some seconds by a
/// lock report too.
fn held_back(calls: &mut Vec<Call>) {
    call(calls, at(5, 38, 0), "100  open my=17 period=10,000,000");
    call(calls, at(5, 38, 10), "100  receive cc init my=5 your=17");
    let up = "100  receive cc up my=5 your=17";
    every(calls, 10, at(5, 38, 20), at(5, 39, 30), up);
    let renewed = "100  receive ais refresh=20 if=1/7";
    every(calls, 60, at(5, 39, 50), at(9, 8, 50), renewed);
    let locked = "100  receive lkr refresh=1 if=1/7";
    call(calls, at(5, 44, 59), locked);
    look(calls, at(5, 45, 0), 100, HELD_BACK_BY_TWO);
    for quarter in 24..=36 {
        look(calls, at(0, 15 * quarter, 0), 100, HELD_BACK);
    }
    look(calls, at(9, 10, 0) - 1, 100, HELD_BACK);
    look(calls, at(9, 10, 0), 100, ALARM);
}

/// A port that is blocked, while its own far end is heard all the time.
fn blocked(calls: &mut Vec<Call>) {
    call(calls, at(6, 59, 30), "200  open my=18 period=10,000,000");
    let init = "200  receive cc init my=6 your=18";
    every(calls, 10, at(6, 59, 40), at(7, 10, 10), init);
    let crossed = "200  receive cv up my=9 your=44 mep=1/30/4/2";
    every(calls, 3, at(7, 0, 0), at(7, 10, 0), crossed);
    look(calls, at(6, 59, 59), 200, UP);
    look(calls, at(7, 5, 1), 200, BLOCKED);
    let end = at(7, 10, 0) + 3_500_000;
    look(calls, end - 1, 200, BLOCKED);
    look(calls, end, 200, DOWN);
    look(calls, at(7, 10, 11), 200, UP);
    call(calls, at(7, 10, 30), "200  close");
}
