//! The records of a capture, each with what `watch` answered.

use crate::cli::{Failure, Progress};
use crate::programs;
use peer::capture::{Next, Reader, Record};

/// A record, its number and the answer of `watch`.
pub struct Answered<'a> {
    pub number: u64,
    pub record: Record<'a>,
    pub answer: u8,
}

impl Answered<'_> {
    pub fn accepted(&self) -> bool {
        self.answer == 0
    }
}

/// How a capture ends.
#[derive(Clone, Copy, Debug, PartialEq, Eq)]
pub struct End {
    /// How many whole records there are.
    pub records: u64,
    /// Behind them stands something that is no whole record.
    pub cut: bool,
}

/// Runs `watch` over a capture and gives each record with its answer.
pub fn each(capture: &[u8], tell: &mut dyn FnMut(Answered)) -> Result<End, Failure> {
    let text = programs::run("watch", &[], capture)?;
    let mut lines = text.split(|octet| *octet == b'\n');
    let mut reader = Reader::start(capture)?
        .ok_or_else(|| Failure::new("no capture: bad header at offset 0"))?;
    let mut progress = Progress::start("records", capture.len() as u64);
    let mut end = End {
        records: 0,
        cut: false,
    };
    let mut offset = 8;
    loop {
        match reader.next_record()? {
            Next::Record(record) => {
                end.records += 1;
                let answer = answer(lines.next().unwrap_or_default(), end.records)?;
                offset += 16 + record.body.len() as u64;
                progress.at(offset);
                tell(Answered {
                    number: end.records,
                    record,
                    answer,
                });
            }
            Next::End => return Ok(end),
            Next::Cut => {
                end.cut = true;
                return Ok(end);
            }
        }
    }
}

/// The answer of a line: its second number.
fn answer(line: &[u8], number: u64) -> Result<u8, Failure> {
    let words = std::str::from_utf8(line).unwrap_or_default();
    let mut words = words.split(' ');
    let said: Option<u64> = words.next().and_then(|word| word.parse().ok());
    let answer = words.next().and_then(|word| word.parse().ok());
    match answer {
        Some(answer) if said == Some(number) => Ok(answer),
        _ => Err(Failure::new(format!(
            "watch has no line for record {number}"
        ))),
    }
}
