//! The records of a capture or a log one after the other, and no octet lost where it goes wrong.

use crate::cli::Failure;
use peer::capture::{Kind, Record, HEADER, LONGEST_BODY, RECORD_HEAD};
use peer::log::records as log;
use peer::octets::{be16, be32, be64};
use std::io::{self, ErrorKind, Read};

/// What a file is, by its header.
#[derive(Clone, Copy, Debug, PartialEq, Eq)]
pub enum Form {
    Capture,
    /// Each record has the answer that was given, behind its length.
    Log,
    Neither,
}

/// What comes next in a capture or a log.
pub enum Next<'a> {
    /// A record, and in a log its answer.
    Record(Record<'a>, Option<u16>),
    End,
    /// No whole record: what stands there is given by `rest`.
    Cut,
}

pub struct Records<'p, R> {
    path: &'p str,
    input: R,
    room: Box<[u8; log::HEAD + LONGEST_BODY]>,
    /// How much of a record stands before its body.
    head: usize,
    /// How much of the room was filled last, by what may turn out to be no record.
    filled: usize,
    /// Where that started.
    offset: u64,
}

impl<'p, R: Read> Records<'p, R> {
    /// The path is for messages alone.
    pub fn of(path: &'p str, input: R) -> Records<'p, R> {
        let room = Box::new([0; log::HEAD + LONGEST_BODY]);
        let head = RECORD_HEAD;
        let (filled, offset) = (0, 0);
        Records {
            path,
            input,
            room,
            head,
            filled,
            offset,
        }
    }

    /// Where the last record, or what is none, starts.
    pub fn offset(&self) -> u64 {
        self.offset
    }

    /// What the file starts as; what stands there else is given by `rest`.
    pub fn header(&mut self) -> Result<Form, Failure> {
        self.fill(HEADER.len())?;
        let header = self.room.get(..self.filled);
        let form = match header {
            _ if header == Some(&HEADER) => Form::Capture,
            _ if header == Some(&log::HEADER) => Form::Log,
            _ => Form::Neither,
        };
        if form == Form::Log {
            self.head = log::HEAD;
        }
        Ok(form)
    }

    pub fn next(&mut self) -> Result<Next<'_>, Failure> {
        self.offset += self.filled as u64;
        self.filled = 0;
        let head = self.head;
        self.fill(head)?;
        if self.filled == 0 {
            return Ok(Next::End);
        }
        let (time, label) = (be64(&self.room[..], 0), be32(&self.room[..], 8));
        let kind = Kind::from_number(be16(&self.room[..], 12));
        let length = usize::from(be16(&self.room[..], 14));
        let (Some(kind), true, 0..=LONGEST_BODY) = (kind, self.filled == head, length) else {
            return Ok(Next::Cut);
        };
        self.fill(head + length)?;
        let answer = (head == log::HEAD).then(|| be16(&self.room[..], RECORD_HEAD));
        match self.room.get(head..self.filled) {
            Some(body) if body.len() == length => {
                let record = Record {
                    time,
                    label,
                    kind,
                    body,
                };
                Ok(Next::Record(record, answer))
            }
            _ => Ok(Next::Cut),
        }
    }

    /// Fills a room with octets as they stand from the offset on; gives how many there were.
    pub fn rest(&mut self, room: &mut [u8]) -> Result<usize, Failure> {
        let read = self.room.get(..self.filled).unwrap_or_default();
        let length = fill(&mut read.chain(&mut self.input), room);
        let length = length.map_err(|error| self.failure(error))?;
        let left = self.filled.saturating_sub(length);
        self.room.copy_within(self.filled - left..self.filled, 0);
        self.filled = left;
        Ok(length)
    }

    /// Fills the room up to a length, less where the input ends.
    fn fill(&mut self, length: usize) -> Result<(), Failure> {
        let room = self.room.get_mut(self.filled..length).unwrap_or_default();
        let read = fill(&mut self.input, room);
        self.filled += read.map_err(|error| self.failure(error))?;
        Ok(())
    }

    fn failure(&self, error: io::Error) -> Failure {
        let (path, offset) = (self.path, self.offset);
        Failure::new(format!("cannot read {path} at offset {offset}: {error}"))
    }
}

/// Reads until the room is full or the input ends; gives the number read.
fn fill(input: &mut impl Read, room: &mut [u8]) -> io::Result<usize> {
    let mut length = 0;
    while let Some(left) = room.get_mut(length..).filter(|left| !left.is_empty()) {
        match input.read(left) {
            Ok(0) => break,
            Ok(more) => length += more,
            Err(error) if error.kind() == ErrorKind::Interrupted => {}
            Err(error) => return Err(error),
        }
    }
    Ok(length)
}
