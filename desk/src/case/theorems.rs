//! Which theorem stands behind which line: the table of docs/WHY.md.

use super::moments::Asked;
use crate::html::Html;

/// Each theorem that a page names, and what it says.
const ALL: [(&str, &str); 9] = [
    ("held-back-cause", "This record's call accounts for the alarm held back; of every call that does, the condition ends at this end or sooner, and where it ends at the same reading it is this record or an earlier one. The reading of that call and the age add up to the clock."),
    ("crossing-cause", "This record's call accounts for the crossing, and every call that does is this record or an earlier one. The reading and the age add up to the clock."),
    ("loss-cause", "This record's call is the opening, real unlock or heard message that the loss is timed from, of equal readings the later. The reading and the age add up to the clock."),
    ("stands-until", "If nothing more arrives on the label, it stands at every reading from the clock on that is below the end, and at none from the end on."),
    ("stood-from", "If nothing more arrives on the label, there is a loss at every reading from that one on, and at none below it."),
    ("refused-2", "Said exactly if no session has the label."),
    ("refused-15", "Said exactly if one has, and no call accounts for what is asked."),
    ("past-right", "All of these hold of every capture, with no premise: whatever its octets, the calls of its whole records are answered as the rules paper says."),
    ("demand3", "A report shows a crossing, a loss or an alarm held back exactly when an accepted call accounts for it; where the stretches begin and end is read off such reports."),
];
const WHERE: &str = "The theorems are in crates/cause/proofs and crates/meaning of the Korvezul repository; docs/WHY.md says more.";
const NOT_PROVED: &str = "Not proved: that the capture is what the card saw, that a message was sent by whom it names, and this page itself, \
    which only shows what the programs answered. The list of messages was asked of a copy of the capture with this label's accepted \
    records alone, before each a tick at the clock that it met; record numbers are those of the capture.";

/// The theorem behind a line (the table of docs/WHY.md).
pub fn of(asked: Asked, line: &str) -> &'static str {
    let cause = match asked {
        Asked::HeldBack => "held-back-cause",
        Asked::Crossing => "crossing-cause",
        Asked::Loss => "loss-cause",
    };
    match line.split(' ').next() {
        Some("which:" | "how") => cause,
        Some("ends:") if asked == Asked::Loss => "stood-from",
        Some("ends:") => "stands-until",
        _ if line.starts_with("refused 2:") => "refused-2",
        _ if line.starts_with("refused 15:") => "refused-15",
        _ => "",
    }
}

pub fn write(html: &mut Html) {
    html.line("h2", &[], "What is proved of these lines");
    html.table(WHERE, &["Theorem", "What it says"], |html| {
        for (name, words) in ALL {
            html.row(true, &[name, words]);
        }
    });
    html.line("p", &[], NOT_PROVED);
}
