//! Logs: captures in which each record has the answer that was given to it.

use crate::capture::{Kind, Record, LONGEST_BODY};
use crate::octets::{be16, be32, be64};

/// `TPL`, version 1, three zero octets.
pub const HEADER: [u8; 8] = [b'T', b'P', b'L', 0, 1, 0, 0, 0];
/// Length of a record before its body: that of a capture's, and the answer.
pub const HEAD: usize = 18;
/// The most records of a log.
pub const MOST_RECORDS: usize = 65_535;

/// A call with the answer that was given to it.
#[derive(Clone, Copy, Debug, PartialEq, Eq)]
pub struct Logged<'a> {
    pub record: Record<'a>,
    pub answer: u16,
    /// The place behind it.
    pub next: usize,
}

impl Logged<'_> {
    pub fn is_accepted(&self) -> bool {
        self.answer == 0
    }

    /// Whether it was accepted and brought a reading, be it that of the clock.
    pub fn moves_clock(&self) -> bool {
        self.is_accepted() && self.record.kind.brings_reading()
    }

    /// Whether it was accepted on this label. A tick names none.
    pub fn is_on(&self, label: u32) -> bool {
        let names_one = self.record.kind != Kind::Tick;
        self.is_accepted() && names_one && self.record.label == label
    }

    pub fn append_to(&self, log: &mut Vec<u8>) {
        let record = &self.record;
        log.extend(record.time.to_be_bytes());
        log.extend(record.label.to_be_bytes());
        log.extend((record.kind as u16).to_be_bytes());
        log.extend((record.body.len() as u16).to_be_bytes());
        log.extend(self.answer.to_be_bytes());
        log.extend(record.body);
    }
}

/// What stands at a place of a log.
#[derive(Clone, Copy, Debug, PartialEq, Eq)]
pub enum Next<'a> {
    Logged(Logged<'a>),
    End,
    /// Something that is no whole record.
    Cut,
}

pub fn has_header(log: &[u8]) -> bool {
    log.starts_with(&HEADER)
}

/// What stands at a place; nothing stands behind the end.
pub fn at(log: &[u8], place: usize) -> Next<'_> {
    let left = log.get(place..).unwrap_or_default();
    if left.is_empty() {
        return Next::End;
    }
    let Some((head, behind)) = left.split_first_chunk::<HEAD>() else {
        return Next::Cut;
    };
    let length = usize::from(be16(head, 14));
    match (Kind::from_number(be16(head, 12)), behind.get(..length)) {
        (Some(kind), Some(body)) if length <= LONGEST_BODY => Next::Logged(Logged {
            record: Record {
                time: be64(head, 0),
                label: be32(head, 8),
                kind,
                body,
            },
            answer: be16(head, 16),
            next: place + HEAD + length,
        }),
        _ => Next::Cut,
    }
}

/// The records of a whole log; nothing if its header is wrong, it is cut, or it
/// has more records than a log may have.
pub fn all(log: &[u8]) -> Option<Vec<Logged<'_>>> {
    let mut records = Vec::new();
    let mut place = HEADER.len();
    if !has_header(log) {
        return None;
    }
    loop {
        match at(log, place) {
            Next::End if records.len() <= MOST_RECORDS => return Some(records),
            Next::End | Next::Cut => return None,
            Next::Logged(logged) => {
                place = logged.next;
                records.push(logged);
            }
        }
    }
}
