//! Logs that can be asked: `peer log`, `peer index` and `peer ask`.
//!
//! Two ways lead to an answer. `all.rs` gives every call of the log to a table
//! and looks at it when the reading is reached; `ask.rs` starts from an entry of
//! an index and follows the one session through the records behind it.

pub mod all;
pub mod ask;
pub mod changes;
pub mod check;
pub mod cover;
pub mod follow;
pub mod index;
pub mod play;
pub mod records;
pub mod search;
pub mod turn;

use crate::session::Report;
use crate::table::LARGEST_READING;
use ask::Told;
use index::{Index, MOST_ENTRIES};

/// Why there is no answer, or no index.
#[derive(Clone, Copy, Debug, PartialEq, Eq)]
#[repr(u8)]
pub enum Refusal {
    /// The reading is above the largest.
    Reading = 1,
    /// The label is not open at the reading.
    NoSession = 2,
    /// The lent lists cannot hold all entries.
    Room = 13,
    /// The log has a bad header, a record that is read is cut, or, for an index,
    /// there are too many of them.
    Log = 19,
    /// The index is of another label or log, or is out of range.
    Index = 20,
}

/// What is told of a log: by its index, the looks, and by reading all of it.
pub fn ask(log: &[u8], label: u32, reading: u64) -> Result<Told, Refusal> {
    if reading > LARGEST_READING {
        return Err(Refusal::Reading);
    }
    let index = index::build(log, label, MOST_ENTRIES)?;
    let calls = records::all(log).ok_or(Refusal::Log)?;
    let report = all::reports(&calls, &[(label, reading)])[0];
    told(report, &index, reading)
}

/// The report from reading all, with the looks over the clocks of an index.
pub fn told(report: Option<Report>, index: &Index, reading: u64) -> Result<Told, Refusal> {
    let looks = search::search(&index.clocks, reading).looked.len();
    let report = report.ok_or(Refusal::NoSession)?;
    Ok(Told { report, looks })
}

/// An answer in numbers: the report and the looks, or the refusal.
pub fn answer_text(answer: &Result<Told, Refusal>) -> String {
    match answer {
        Ok(told) => format!("0 {} {}", told.report.numbers(), told.looks),
        Err(refusal) => (*refusal as u8).to_string(),
    }
}

/// An index in words: how many entries, and each in a line; or the refusal.
pub fn index_text(index: &Result<Index, Refusal>) -> String {
    match index {
        Ok(index) => format!("0 {}\n{}", index.count, index.lines()),
        Err(refusal) => format!("{}\n", *refusal as u8),
    }
}
