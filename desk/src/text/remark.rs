//! What stands behind a record as a remark: its number, the time of day, the session's name and
//! the answer.

use super::answer::{append_answer, append_logged};
use super::digits::{append_number, append_spaces};
use crate::events::clock::Epoch;
use crate::sessions::Session;
use peer::capture::{Kind, Record};
use std::collections::HashMap;

/// The column at which remarks start, if the words before leave it free.
const COLUMN: usize = 72;

pub struct Remarks {
    names: HashMap<u32, String>,
    epoch: Option<Epoch>,
}

impl Remarks {
    pub fn new(sessions: Vec<Session>, epoch: Option<Epoch>) -> Remarks {
        let names = sessions
            .into_iter()
            .map(|session| (session.label, session.name));
        Remarks {
            names: names.collect(),
            epoch,
        }
    }

    /// Appends the remark to the line that starts at `start`, with an answer of `watch`.
    pub fn append(
        &self,
        out: &mut Vec<u8>,
        start: usize,
        number: u64,
        record: &Record,
        answer: &[u8],
    ) {
        self.append_front(out, start, number, record);
        append_answer(out, record, answer);
        out.push(b'\n');
    }

    /// The same with the answer of a log.
    pub fn append_logged(
        &self,
        out: &mut Vec<u8>,
        start: usize,
        number: u64,
        record: &Record,
        answer: u16,
    ) {
        self.append_front(out, start, number, record);
        append_logged(out, record, answer);
        out.push(b'\n');
    }

    /// What stands before the answer.
    fn append_front(&self, out: &mut Vec<u8>, start: usize, number: u64, record: &Record) {
        append_spaces(out, start, COLUMN);
        out.extend_from_slice(b"# ");
        append_number(out, number);
        if let Some(epoch) = self.epoch.filter(|_| record.kind.brings_reading()) {
            out.push(b' ');
            out.extend_from_slice(epoch.wall_clock(record.time).as_bytes());
        }
        if let Some(name) = self
            .names
            .get(&record.label)
            .filter(|_| record.kind != Kind::Tick)
        {
            out.push(b' ');
            out.extend_from_slice(name.as_bytes());
        }
        out.extend_from_slice(b": ");
    }
}
