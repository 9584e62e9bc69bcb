//! A log asked by reading all of it: the calls go to a table, and no index
//! takes part.

use super::records::Logged;
use crate::session::Report;
use crate::table::Table;

/// A label and a reading.
pub type Question = (u32, u64);

/// What each label reported at its reading, if it was open then: the calls up
/// to the first accepted one that takes the clock past the reading, and then a
/// tick to it.
pub fn reports(calls: &[Logged], questions: &[Question]) -> Vec<Option<Report>> {
    let mut order: Vec<usize> = (0..questions.len()).collect();
    order.sort_by_key(|place| questions[*place].1);
    let mut reports = vec![None; questions.len()];
    let mut table = Table::new();
    let mut next = calls.iter().peekable();
    // A later reading is reached behind an earlier one: one run serves all.
    for place in order {
        let (label, reading) = questions[place];
        let goes_past = |call: &&Logged| call.moves_clock() && call.record.time > reading;
        while let Some(call) = next.next_if(|call| !goes_past(call)) {
            table.perform(&call.record);
        }
        reports[place] = report(&table, label, reading);
    }
    reports
}

/// The report of a label behind a tick that is not given to the table itself.
fn report(table: &Table, label: u32, reading: u64) -> Option<Report> {
    let mut session = table.session(label)?.clone();
    session.timer(reading);
    Some(session.report(reading))
}
