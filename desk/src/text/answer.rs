//! The answers of `watch` in words.

use super::digits::{append_number, octets_of};
use super::messages::{append_message, word};
use peer::capture::{Kind, Record};

const STATES: [(&[u8], &str); 4] = [
    (b"0", "ADMIN DOWN"),
    (b"1", "DOWN"),
    (b"2", "INIT"),
    (b"3", "UP"),
];

/// Appends in words what `watch` answered to a record: what stands behind the number of its line.
/// An answer that is none of those known is appended as it is.
pub fn append_answer(out: &mut Vec<u8>, record: &Record, answer: &[u8]) {
    let (first, rest) = split(answer);
    let start = out.len();
    let known = match (first, record.kind) {
        (b"0", Kind::Report) => append_report(out, rest),
        (b"0", Kind::WriteCc | Kind::WriteCv) => append_written(out, rest),
        (b"0", _) => append_accepted(out, rest),
        _ => append_refusal(out, record, first, rest),
    };
    if known.is_none() {
        out.truncate(start);
        out.extend_from_slice(answer);
    }
}

/// Appends in words the answer that a log has: its number alone, so that a report and a message
/// written are just accepted, and a place in a message is not said.
pub fn append_logged(out: &mut Vec<u8>, record: &Record, answer: u16) {
    if answer == 0 {
        return word(out, "accepted");
    }
    word(out, "refused ");
    append_number(out, answer.into());
    let number = u8::try_from(answer).ok();
    if let Some(reason) = number.and_then(|number| reason(record, number, None)) {
        word(out, ": ");
        word(out, reason);
    }
}

/// The first word, and those behind it.
fn split(words: &[u8]) -> (&[u8], &[u8]) {
    let mut parts = words.splitn(2, |octet| *octet == b' ');
    (
        parts.next().unwrap_or_default(),
        parts.next().unwrap_or_default(),
    )
}

fn append_accepted(out: &mut Vec<u8>, rest: &[u8]) -> Option<()> {
    rest.is_empty().then(|| word(out, "accepted"))
}

fn append_report(out: &mut Vec<u8>, rest: &[u8]) -> Option<()> {
    let mut numbers = rest.split(|octet| *octet == b' ');
    let mut next = || numbers.next();
    let [state, crossing, loss, alarm, remote, blocked, conditions] = [
        next()?,
        next()?,
        next()?,
        next()?,
        next()?,
        next()?,
        next()?,
    ];
    let (_, name) = STATES.iter().find(|(number, _)| *number == state)?;
    word(out, name);
    for (number, name) in [
        (crossing, ", crossing"),
        (loss, ", loss"),
        (alarm, ", alarm"),
        (remote, ", remote defect"),
        (blocked, ", blocked"),
    ] {
        if number != b"0" {
            word(out, name);
        }
    }
    // What docs/WATCH.md calls a loss without an alarm.
    if loss == b"1" && alarm == b"0" {
        word(out, ", alarm held back");
    }
    if conditions != b"0" {
        word(out, ", ");
        out.extend_from_slice(conditions);
        word(
            out,
            if conditions == b"1" {
                " condition"
            } else {
                " conditions"
            },
        );
    }
    numbers.next().is_none().then_some(())
}

fn append_written(out: &mut Vec<u8>, rest: &[u8]) -> Option<()> {
    let message = octets_of(rest)?;
    word(out, "wrote");
    append_message(out, &message);
    Some(())
}

fn append_refusal(out: &mut Vec<u8>, record: &Record, first: &[u8], rest: &[u8]) -> Option<()> {
    let number = std::str::from_utf8(first).ok()?.parse::<u8>().ok()?;
    word(out, "refused ");
    out.extend_from_slice(first);
    let mut place = None;
    if !rest.is_empty() {
        place = Some(std::str::from_utf8(rest).ok()?.parse::<usize>().ok()?);
        word(out, " at ");
        out.extend_from_slice(rest);
    }
    word(out, ": ");
    word(out, reason(record, number, place)?);
    Some(())
}

/// What a refusal means, by docs/WATCH.md.
fn reason(record: &Record, number: u8, place: Option<usize>) -> Option<&'static str> {
    Some(match number {
        1 => "the time is below the clock or above the greatest reading",
        2 => "no open session has this label",
        3 => "the message ends before its layout does",
        4 => "not an associated channel header of version 0",
        5 => "none of the four channel types",
        6 => bfd_rule(place?)?,
        7 => mep_id_rule(record.body, place?)?,
        8 => fault_rule(place?),
        9 => "a new condition, and four stand already",
        10 => "a setting is out of range",
        11 => "the label is open already, or the discriminator in its party",
        12 => "all 32 sessions of its party are open",
        14 => "a BFD message for a locked session",
        24 => "a DHC message, and a capture has no groups to take it",
        25 => "a TLV of a DHC message, or neither of its two",
        _ => return None,
    })
}

fn bfd_rule(place: usize) -> Option<&'static str> {
    Some(match place {
        4 => "BFD version not 1",
        5 => "A or M set",
        6 => "multiplier 0",
        7 => "Length below 24",
        8 => "My Discriminator 0",
        12 => "Your Discriminator 0 in a CC that says INIT or UP",
        _ => return None,
    })
}

/// The MEP-ID stands behind what Length, octet 7, counts.
fn mep_id_rule(body: &[u8], place: usize) -> Option<&'static str> {
    match place.checked_sub(usize::from(*body.get(7)?))? {
        4 => Some("the type of the MEP-ID"),
        6 => Some("the length of the MEP-ID"),
        21 => Some("the AGI length of the MEP-ID"),
        _ => None,
    }
}

fn fault_rule(place: usize) -> &'static str {
    match place {
        4 => "fault message version not 1",
        5 => "neither AIS nor LKR",
        7 => "refresh not 1 to 20",
        _ => "a TLV",
    }
}
