//! A capture turned to a log: each record gets the answer of the table.

use super::records::{Logged, HEADER, MOST_RECORDS};
use crate::capture::{Next, Reader};
use crate::table::Table;

/// Why a capture has no log.
#[derive(Clone, Copy, Debug, PartialEq, Eq)]
pub enum NoLog {
    BadHeader,
    Cut,
    TooMany,
}

impl NoLog {
    pub fn words(self) -> &'static str {
        match self {
            NoLog::BadHeader => "not the header of a capture",
            NoLog::Cut => "the capture is cut",
            NoLog::TooMany => "more than 65,535 records",
        }
    }
}

/// The log of a whole capture from an empty table.
pub fn log_of(capture: &[u8]) -> Result<Vec<u8>, NoLog> {
    // Reading from memory cannot fail.
    let reader = Reader::start(capture).map_err(|_| NoLog::Cut)?;
    let mut reader = reader.ok_or(NoLog::BadHeader)?;
    let mut table = Table::new();
    let mut log = HEADER.to_vec();
    for number in 0.. {
        let record = match reader.next_record().map_err(|_| NoLog::Cut)? {
            Next::End => break,
            Next::Cut => return Err(NoLog::Cut),
            Next::Record(_) if number == MOST_RECORDS => return Err(NoLog::TooMany),
            Next::Record(record) => record,
        };
        let answer = u16::from(table.perform(&record).number());
        let next = 0;
        let logged = Logged {
            record,
            answer,
            next,
        };
        logged.append_to(&mut log);
    }
    Ok(log)
}
