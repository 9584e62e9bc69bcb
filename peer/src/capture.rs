//! Captures: a header and records of calls.

use crate::octets::{array, be16, be32, be64};
use std::io::{self, ErrorKind, Read};

/// `TPO`, version 1, three zero octets.
pub const HEADER: [u8; 8] = [b'T', b'P', b'O', 0, 1, 0, 0, 0];
/// Length of a record before its body.
pub const RECORD_HEAD: usize = 16;
/// The longest body.
pub const LONGEST_BODY: usize = 2_048;

/// The kinds of record, numbered as in a capture.
#[derive(Clone, Copy, Debug, PartialEq, Eq)]
#[repr(u16)]
pub enum Kind {
    Tick = 0,
    Open = 1,
    Close = 2,
    Lock = 3,
    Unlock = 4,
    Receive = 5,
    Report = 6,
    WriteCc = 7,
    WriteCv = 8,
}

impl Kind {
    pub const ALL: [Kind; 9] = [
        Kind::Tick,
        Kind::Open,
        Kind::Close,
        Kind::Lock,
        Kind::Unlock,
        Kind::Receive,
        Kind::Report,
        Kind::WriteCc,
        Kind::WriteCv,
    ];

    pub fn from_number(number: u16) -> Option<Kind> {
        Kind::ALL.get(usize::from(number)).copied()
    }

    /// Whether a call of this kind brings a clock reading.
    pub fn brings_reading(self) -> bool {
        !matches!(self, Kind::Report | Kind::WriteCc | Kind::WriteCv)
    }
}

/// One record: a call with its arguments.
#[derive(Clone, Copy, Debug, PartialEq, Eq)]
pub struct Record<'a> {
    pub time: u64,
    pub label: u32,
    pub kind: Kind,
    pub body: &'a [u8],
}

impl Record<'_> {
    /// Appends the record to a capture.
    pub fn append_to(&self, capture: &mut Vec<u8>) {
        let length = self.body.len() as u16;
        append_head(capture, self.time, self.label, self.kind as u16, length);
        capture.extend_from_slice(self.body);
    }
}

/// Appends the head of a record, right or wrong.
pub fn append_head(capture: &mut Vec<u8>, time: u64, label: u32, kind: u16, length: u16) {
    capture.extend_from_slice(&time.to_be_bytes());
    capture.extend_from_slice(&label.to_be_bytes());
    capture.extend_from_slice(&kind.to_be_bytes());
    capture.extend_from_slice(&length.to_be_bytes());
}

/// What comes next in a capture.
pub enum Next<'a> {
    Record(Record<'a>),
    /// The capture ended after a whole record.
    End,
    /// The record is cut, of unknown kind or too long.
    Cut,
}

/// Reads a capture record by record, in constant memory.
pub struct Reader<R> {
    input: R,
    body: [u8; LONGEST_BODY],
}

impl<R: Read> Reader<R> {
    /// Reads the header; nothing if it is wrong.
    pub fn start(mut input: R) -> io::Result<Option<Reader<R>>> {
        let mut header = [0; HEADER.len()];
        let length = fill(&mut input, &mut header)?;
        if length < HEADER.len() || header != HEADER {
            return Ok(None);
        }
        Ok(Some(Reader {
            input,
            body: [0; LONGEST_BODY],
        }))
    }

    pub fn next_record(&mut self) -> io::Result<Next<'_>> {
        let mut head = [0; RECORD_HEAD];
        match fill(&mut self.input, &mut head)? {
            0 => return Ok(Next::End),
            RECORD_HEAD => {}
            _ => return Ok(Next::Cut),
        }
        let length = usize::from(be16(&head, 14));
        let Some(kind) = Kind::from_number(be16(&head, 12)) else {
            return Ok(Next::Cut);
        };
        if length > LONGEST_BODY || fill(&mut self.input, &mut self.body[..length])? < length {
            return Ok(Next::Cut);
        }
        Ok(Next::Record(Record {
            time: be64(&head, 0),
            label: be32(&head, 8),
            kind,
            body: &self.body[..length],
        }))
    }
}

/// Reads until the room is full or the input ends; gives the number read.
fn fill(input: &mut impl Read, room: &mut [u8]) -> io::Result<usize> {
    let mut length = 0;
    while length < room.len() {
        match input.read(&mut room[length..]) {
            Ok(0) => break,
            Ok(more) => length += more,
            Err(error) if error.kind() == ErrorKind::Interrupted => {}
            Err(error) => return Err(error),
        }
    }
    Ok(length)
}

/// The body of an open record.
pub fn open_body(
    discriminator: u32,
    period: u32,
    mep_kind: u16,
    own: [u8; 12],
    expected: [u8; 12],
    marks: u8,
) -> Vec<u8> {
    let mut body = Vec::with_capacity(35);
    body.extend_from_slice(&discriminator.to_be_bytes());
    body.extend_from_slice(&period.to_be_bytes());
    body.extend_from_slice(&mep_kind.to_be_bytes());
    body.extend_from_slice(&own);
    body.extend_from_slice(&expected);
    body.push(marks);
    body
}

/// The record with this number (counted from 1) of a whole capture, as its
/// octets; shorter if the capture is cut there.
pub fn record_octets(capture: &[u8], number: usize) -> Option<&[u8]> {
    let mut at = HEADER.len();
    for _ in 1..number {
        at += record_length(capture, at)?;
    }
    if at >= capture.len() {
        return None;
    }
    let length = record_length(capture, at).unwrap_or(capture.len());
    Some(&capture[at..capture.len().min(at + length)])
}

fn record_length(capture: &[u8], at: usize) -> Option<usize> {
    let head: [u8; RECORD_HEAD] = array(capture.get(at..at + RECORD_HEAD)?, 0);
    Some(RECORD_HEAD + usize::from(be16(&head, 14)))
}
