//! Pairs of captures that differ in little: an octet, a field, a cut, records
//! left out, put in or exchanged.

use crate::capture::{record_octets, HEADER, RECORD_HEAD};
use crate::random::Random;

/// A capture in the making, as the octets of its records.
type Records = Vec<Vec<u8>>;
/// A way in which the second capture differs from the first.
type Change = fn(&mut Random, &mut Records);

/// The changes, those that leave a whole capture first.
const CHANGES: [Change; 10] = [
    change_time,
    change_label,
    change_kind,
    change_body,
    change_length,
    leave_out,
    put_in,
    exchange,
    leave_out_the_last,
    change_octet,
];
/// Where the fields of a record's head stand.
const TIME: usize = 0;
const LABEL: usize = 8;
const KIND: usize = 12;
const LENGTH: usize = 14;

/// Two captures of which one is the given capture, mostly its first records.
pub(super) fn pair(seed: u64, capture: &[u8]) -> [Vec<u8>; 2] {
    let mut random = Random::new(seed ^ 0xc0_3ba2e);
    let mut records = whole_records(capture);
    if random.chance(25) {
        records.truncate(random.below(6) as usize);
    }
    let mut changed = records.clone();
    for _ in 0..random.pick(&[0, 1, 1, 1, 1, 2, 3, 8]) {
        let change = random.pick(&CHANGES);
        change(&mut random, &mut changed);
    }
    let mut pair = [joined(&records), joined(&changed)];
    for capture in &mut pair {
        if random.chance(8) {
            spoil(&mut random, capture);
        }
    }
    if random.chance(50) {
        pair.reverse();
    }
    pair
}

/// The records before what is none.
pub(super) fn whole_records(capture: &[u8]) -> Records {
    let is_whole = |octets: &&[u8]| {
        let length = octets.get(LENGTH..RECORD_HEAD);
        let kind = octets.get(KIND..LENGTH);
        kind.is_some_and(|kind| kind <= &[0, 8][..])
            && length.is_some_and(|n| n <= &[8, 0][..])
            && length.is_some_and(|n| octets.len() == RECORD_HEAD + number(n))
    };
    let numbered = (1..).map_while(|number| record_octets(capture, number));
    let whole = numbered.take_while(is_whole);
    whole.map(<[u8]>::to_vec).collect()
}

fn number(octets: &[u8]) -> usize {
    octets
        .iter()
        .fold(0, |n, octet| 256 * n + usize::from(*octet))
}

pub(super) fn joined(records: &Records) -> Vec<u8> {
    let mut capture = HEADER.to_vec();
    capture.extend(records.iter().flatten());
    capture
}

/// One of the records, if there is one.
fn pick<'a>(random: &mut Random, records: &'a mut Records) -> Option<&'a mut Vec<u8>> {
    let at = random.below(records.len() as u64) as usize;
    records.get_mut(at)
}

/// Changes one octet of a part of a record, at times its last bit alone.
fn flip(random: &mut Random, octets: &mut [u8]) {
    let at = random.below(octets.len() as u64) as usize;
    let other = random.octet() | 1;
    if let Some(octet) = octets.get_mut(at) {
        *octet ^= random.pick(&[1, 0x80, other]);
    }
}

fn change_time(random: &mut Random, records: &mut Records) {
    if let Some(record) = pick(random, records) {
        flip(random, &mut record[TIME..LABEL]);
    }
}

fn change_label(random: &mut Random, records: &mut Records) {
    if let Some(record) = pick(random, records) {
        flip(random, &mut record[LABEL..KIND]);
    }
}

/// Another kind, at times one that there is not.
fn change_kind(random: &mut Random, records: &mut Records) {
    let kinds = if random.chance(10) { 12 } else { 9 };
    let kind = random.below(kinds);
    if let Some(record) = pick(random, records) {
        record[KIND + 1] = kind as u8;
    }
}

fn change_body(random: &mut Random, records: &mut Records) {
    if let Some(record) = pick(random, records) {
        flip(random, &mut record[RECORD_HEAD..]);
    }
}

/// A body that is longer or shorter, and whose record says so.
fn change_length(random: &mut Random, records: &mut Records) {
    let Some(record) = pick(random, records) else {
        return;
    };
    let body = record.len() - RECORD_HEAD;
    let other = random.below(2_049) as usize;
    let one_less = body.saturating_sub(1);
    let length = random.pick(&[body + 1, one_less, 0, other]).min(2_048);
    record.resize(RECORD_HEAD + length, 0);
    record[LENGTH..RECORD_HEAD].copy_from_slice(&(length as u16).to_be_bytes());
}

fn leave_out(random: &mut Random, records: &mut Records) {
    let at = random.below(records.len() as u64) as usize;
    if at < records.len() {
        records.remove(at);
    }
}

/// A record that stands there twice.
fn put_in(random: &mut Random, records: &mut Records) {
    let at = random.below(records.len() as u64) as usize;
    if let Some(record) = records.get(at).cloned() {
        records.insert(at, record);
    }
}

fn exchange(random: &mut Random, records: &mut Records) {
    let at = random.below(records.len() as u64) as usize;
    if at + 1 < records.len() {
        records.swap(at, at + 1);
    }
}

fn leave_out_the_last(random: &mut Random, records: &mut Records) {
    let kept = records.len().saturating_sub(random.between(1, 4) as usize);
    records.truncate(kept);
}

/// Any octet of a record: one of its kind or its length mostly makes the rest
/// of the capture none.
fn change_octet(random: &mut Random, records: &mut Records) {
    if let Some(record) = pick(random, records) {
        flip(random, record);
    }
}

/// Another octet in the header, a log's header, a cut, octets behind the end.
fn spoil(random: &mut Random, capture: &mut Vec<u8>) {
    match random.below(5) {
        0 => flip(random, &mut capture[..HEADER.len()]),
        1 => capture[2] = b'L',
        2 => {
            let left = random.below(capture.len() as u64);
            capture.truncate(left as usize);
        }
        3 => {
            capture.pop();
        }
        _ => {
            let more = random.between(1, 15) as usize;
            capture.extend(random.octets(more));
        }
    }
}
