//! From a capture to a log, and back.

use super::{cut, no_header, open, records, ROOM};
use crate::cli::{Done, Failure};
use crate::text::answers::Answers;
use crate::text::records::{Form, Next};
use peer::log::records::{Logged, HEADER, MOST_RECORDS};
use std::io::{self, BufWriter, Write};

/// Writes the log of a capture. What stands before a cut is not written: a log has whole records.
pub fn to_log(path: &str) -> Done {
    let mut records = records(path)?;
    if records.header()? != Form::Capture {
        return Err(no_header(path, "capture"));
    }
    let mut answers = Answers::of(open(path)?)?;
    let mut log = HEADER.to_vec();
    loop {
        let behind = answers.record();
        let record = match records.next()? {
            Next::Record(record, _) => record,
            Next::End => break,
            Next::Cut => return Err(cut(path, records.offset(), behind)),
        };
        if behind == MOST_RECORDS as u64 {
            let most = "more than 65,535 records, which is the most that a log has";
            return Err(Failure::new(format!("{path}: {most}")));
        }
        let answer = number(answers.next()?, behind + 1)?;
        let next = 0;
        let logged = Logged {
            record,
            answer,
            next,
        };
        logged.append_to(&mut log);
    }
    answers.end("")?;
    put(&log)
}

/// The number of an answer: its first word.
pub fn number(answer: &[u8], record: u64) -> Result<u16, Failure> {
    let text = String::from_utf8_lossy(answer);
    let first = text.split(' ').next().unwrap_or_default();
    let wrong = |_| Failure::new(format!("watch answers `{text}` to record {record}"));
    first.parse().map_err(wrong)
}

pub fn to_capture(path: &str) -> Done {
    put(&capture_of(path)?.0)
}

/// The capture of a log, and the answers that the log has.
pub fn capture_of(path: &str) -> Result<(Vec<u8>, Vec<u16>), Failure> {
    let mut records = records(path)?;
    if records.header()? != Form::Log {
        return Err(no_header(path, "log"));
    }
    let mut capture = peer::capture::HEADER.to_vec();
    let mut answers = Vec::new();
    loop {
        match records.next()? {
            Next::End => return Ok((capture, answers)),
            Next::Cut => return Err(cut(path, records.offset(), answers.len() as u64)),
            Next::Record(record, answer) => {
                record.append_to(&mut capture);
                answers.push(answer.unwrap_or(0));
            }
        }
    }
}

fn put(octets: &[u8]) -> Done {
    let mut out = BufWriter::with_capacity(ROOM, io::stdout().lock());
    out.write_all(octets)?;
    Ok(out.flush()?)
}
