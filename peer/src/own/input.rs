//! Captures read in place: a body stays where the input put it.

use crate::capture::{Kind, Next, Record, HEADER, LONGEST_BODY, RECORD_HEAD};
use crate::octets::{be16, be32, be64};
use std::io::{self, ErrorKind, Read};

/// Room for what is read at a time; a record never needs more.
const BUFFER: usize = 1 << 16;

/// Reads a capture record by record, in constant memory.
pub struct Input<R> {
    input: R,
    buffer: Vec<u8>,
    /// What was read and not yet taken is `buffer[at..end]`.
    at: usize,
    end: usize,
}

impl<R: Read> Input<R> {
    /// Reads the header; nothing if it is wrong.
    pub fn start(input: R) -> io::Result<Option<Input<R>>> {
        let mut capture = Input {
            input,
            buffer: vec![0; BUFFER],
            at: 0,
            end: 0,
        };
        if !capture.has(HEADER.len())? || !capture.buffer.starts_with(&HEADER) {
            return Ok(None);
        }
        capture.at = HEADER.len();
        Ok(Some(capture))
    }

    pub fn next_record(&mut self) -> io::Result<Next<'_>> {
        if !self.has(RECORD_HEAD)? {
            let whole = self.at == self.end;
            return Ok(if whole { Next::End } else { Next::Cut });
        }
        let head = &self.buffer[self.at..self.at + RECORD_HEAD];
        let (time, label) = (be64(head, 0), be32(head, 8));
        let length = usize::from(be16(head, 14));
        let Some(kind) = Kind::from_number(be16(head, 12)) else {
            return Ok(Next::Cut);
        };
        if length > LONGEST_BODY || !self.has(RECORD_HEAD + length)? {
            return Ok(Next::Cut);
        }
        let start = self.at + RECORD_HEAD;
        self.at = start + length;
        Ok(Next::Record(Record {
            time,
            label,
            kind,
            body: &self.buffer[start..self.at],
        }))
    }

    /// Whether so many octets are there that were not yet taken; reads more if
    /// they are not.
    fn has(&mut self, count: usize) -> io::Result<bool> {
        if self.end - self.at >= count {
            return Ok(true);
        }
        self.read_up_to(count)
    }

    /// Moves what was not yet taken to the front and reads on behind it, until
    /// so many octets are there or the input ends.
    fn read_up_to(&mut self, count: usize) -> io::Result<bool> {
        self.buffer.copy_within(self.at..self.end, 0);
        self.end -= self.at;
        self.at = 0;
        while self.end < count {
            match self.input.read(&mut self.buffer[self.end..]) {
                Ok(0) => return Ok(false),
                Ok(more) => self.end += more,
                Err(error) if error.kind() == ErrorKind::Interrupted => {}
                Err(error) => return Err(error),
            }
        }
        Ok(true)
    }
}
