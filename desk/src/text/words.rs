//! A record in the words of the assembler.

use super::digits::{align_right, append_grouped, append_number};
use super::messages::{
    append_mep_id, append_message, append_octets, append_padding, append_unless, word,
};
use peer::capture::{Kind, Record};
use peer::mep_id::LSP;
use peer::settings::OPEN_BODY;

/// The columns of time and label, wide enough for most days.
const TIME_WIDTH: usize = 14;
const LABEL_WIDTH: usize = 7;

/// The name of a kind of record.
fn name(kind: Kind) -> &'static str {
    match kind {
        Kind::Tick => "  tick",
        Kind::Open => "  open",
        Kind::Close => "  close",
        Kind::Lock => "  lock",
        Kind::Unlock => "  unlock",
        Kind::Receive => "  receive",
        Kind::Report => "  report",
        Kind::WriteCc => "  write-cc",
        Kind::WriteCv => "  write-cv",
    }
}

/// Appends a record: time, label, kind and body, of which the assembler makes the same octets.
pub fn append_record(out: &mut Vec<u8>, record: &Record) {
    let start = out.len();
    append_read(out, record.time, record.kind.brings_reading());
    align_right(out, start, TIME_WIDTH);
    word(out, "  ");
    let start = out.len();
    append_label(out, record);
    align_right(out, start, LABEL_WIDTH);
    word(out, name(record.kind));
    match record.kind {
        Kind::Open => append_settings(out, record.body),
        Kind::Receive => append_message(out, record.body),
        _ if record.body.is_empty() => {}
        _ => append_octets(out, record.body),
    }
}

/// A number that is read, or one that is not but stands there.
fn append_read(out: &mut Vec<u8>, number: u64, is_read: bool) {
    match is_read || number != 0 {
        true => append_grouped(out, number),
        false => out.push(b'-'),
    }
}

fn append_label(out: &mut Vec<u8>, record: &Record) {
    match record.kind {
        Kind::Tick if record.label == 0 => out.push(b'-'),
        _ => append_number(out, record.label.into()),
    }
}

/// Appends the settings of an open; a body that is too short for them as octets.
fn append_settings(out: &mut Vec<u8>, body: &[u8]) {
    let Some((head, padding)) = body.split_first_chunk::<OPEN_BODY>() else {
        return append_octets(out, body);
    };
    let number = |at: usize| u64::from(peer::octets::be32(head, at));
    let kind = peer::octets::be16(head, 8);
    let marks = head[34];
    word(out, " my=");
    append_number(out, number(0));
    word(out, " period=");
    append_grouped(out, number(4));
    append_mep_id(out, " own=", kind, &peer::octets::array(head, 10));
    append_mep_id(out, " expected=", kind, &peer::octets::array(head, 22));
    if kind > LSP {
        append_unless(out, " type=", kind.into(), 0);
    }
    match marks {
        0 => {}
        1 => word(out, " follow-link-down"),
        2 => word(out, " follow-lock"),
        3 => word(out, " follow-link-down follow-lock"),
        _ => append_unless(out, " marks=", marks.into(), 0),
    }
    append_padding(out, padding);
}
