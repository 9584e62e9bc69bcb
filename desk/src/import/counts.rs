//! What became of the packets of a tap, in words.

use crate::tap::frame::Other;
use crate::tap::wall;
use std::collections::BTreeMap;
use std::fmt;

/// As many labels of no session are named; the others are counted together.
const NAMED: usize = 8;

#[derive(Clone, Debug, Default, PartialEq, Eq)]
pub struct Counts {
    /// What reading 0 means, in microseconds since 1970.
    pub start: Option<i128>,
    pub packets: u64,
    pub opens: u64,
    pub receives: u64,
    /// Of the receives: below a reading before; cut by the tap.
    pub back: u64,
    pub cut: u64,
    /// Messages that were left out: before the start, without a time, longer than a body can be, of
    /// a Section for which no label is known, on labels of no session.
    pub early: u64,
    pub undated: u64,
    pub long: u64,
    pub sections: u64,
    pub unknown: BTreeMap<u32, u64>,
    /// Messages that the far end did not send.
    pub other_sender: u64,
    /// Frames that are no MPLS-TP OAM.
    pub not_ethernet: u64,
    pub not_mpls: u64,
    pub no_channel: u64,
    pub gal_above: u64,
    pub short: u64,
}

impl Counts {
    /// Counts a frame that has no message.
    pub fn pass_over(&mut self, other: Other) {
        match other {
            Other::NotMpls => self.not_mpls += 1,
            Other::NoChannel => self.no_channel += 1,
            Other::GalAbove => self.gal_above += 1,
            Other::Short => self.short += 1,
        }
    }

    fn lines(&self) -> [(u64, &'static str); 12] {
        [
            (
                self.back,
                "of these at a reading below an earlier one: watch refuses such with 1",
            ),
            (self.cut, "messages that the tap kept in part"),
            (self.early, "left out: before the start"),
            (
                self.undated,
                "left out: in simple packet blocks, which have no time",
            ),
            (self.long, "left out: longer than 2,048 octets"),
            (
                self.sections,
                "left out: of the Section, and --section does not say its label",
            ),
            (
                self.other_sender,
                "left out: from another Ethernet address than --from names",
            ),
            (self.not_ethernet, "passed over: no Ethernet"),
            (self.not_mpls, "passed over: no MPLS"),
            (
                self.no_channel,
                "passed over: MPLS with no associated channel",
            ),
            (
                self.gal_above,
                "passed over: the GAL not at the bottom of the label stack",
            ),
            (
                self.short,
                "passed over: the frame ends before its label stack does",
            ),
        ]
    }

    /// The labels of no session, the most frequent first.
    fn unknown_labels(&self) -> Vec<(u32, u64)> {
        let mut labels: Vec<(u32, u64)> = self
            .unknown
            .iter()
            .map(|(label, count)| (*label, *count))
            .collect();
        labels.sort_by_key(|(label, count)| (u64::MAX - count, *label));
        labels
    }
}

impl fmt::Display for Counts {
    fn fmt(&self, f: &mut fmt::Formatter) -> fmt::Result {
        if let Some(start) = self.start {
            writeln!(
                f,
                "start: {} s since 1970 is reading 0",
                wall::seconds(start)
            )?;
        }
        writeln!(
            f,
            "{} packets, {} sessions opened, {} messages received",
            self.packets, self.opens, self.receives
        )?;
        for (count, what) in self.lines().into_iter().filter(|(count, _)| *count > 0) {
            writeln!(f, "{count} {what}")?;
        }
        let labels = self.unknown_labels();
        let total: u64 = labels.iter().map(|(_, count)| count).sum();
        if total == 0 {
            return Ok(());
        }
        write!(f, "{total} left out: on labels of no session:")?;
        for (label, count) in labels.iter().take(NAMED) {
            write!(f, " {label} ({count})")?;
        }
        match labels.len().saturating_sub(NAMED) {
            0 => writeln!(f),
            more => writeln!(f, " and {more} more labels"),
        }
    }
}
