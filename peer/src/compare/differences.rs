//! What differs between two lists of records.

use super::parsed::Placed;

/// A field that differs, or a list that alone has the record.
#[derive(Clone, Copy, Debug, PartialEq, Eq, PartialOrd, Ord)]
#[repr(u8)]
pub enum What {
    Time = 0,
    Label = 1,
    Kind = 2,
    Length = 3,
    Body = 4,
    OnlyFirst = 5,
    OnlySecond = 6,
}

impl What {
    pub const ALL: [What; 7] = [
        What::Time,
        What::Label,
        What::Kind,
        What::Length,
        What::Body,
        What::OnlyFirst,
        What::OnlySecond,
    ];

    pub fn words(self) -> &'static str {
        match self {
            What::Time => "time",
            What::Label => "label",
            What::Kind => "kind",
            What::Length => "length",
            What::Body => "body",
            What::OnlyFirst => "only in the first",
            What::OnlySecond => "only in the second",
        }
    }
}

/// One entry of the list.
#[derive(Clone, Copy, Debug, PartialEq, Eq, PartialOrd, Ord)]
pub struct Entry {
    /// Counted from 1.
    pub record: u64,
    pub what: What,
}

impl Entry {
    /// The number that stands for it in a lent list.
    pub fn number(&self) -> u64 {
        8 * self.record + self.what as u64
    }

    /// The line for people.
    pub fn line(&self) -> String {
        format!("{} {}", self.record, self.what.words())
    }
}

/// Everything that differs, record by record.
pub fn of(first: &[Placed], second: &[Placed]) -> Vec<Entry> {
    let longer = first.len().max(second.len());
    let at = |place: usize| {
        let record = place as u64 + 1;
        let whats = at_one_place(first.get(place), second.get(place));
        whats.into_iter().map(move |what| Entry { record, what })
    };
    (0..longer).flat_map(at).collect()
}

fn at_one_place(first: Option<&Placed>, second: Option<&Placed>) -> Vec<What> {
    match (first, second) {
        (Some(first), Some(second)) => of_records(first, second),
        (Some(_), None) => vec![What::OnlyFirst],
        (None, Some(_)) => vec![What::OnlySecond],
        (None, None) => vec![],
    }
}

/// The fields in which two records differ. Bodies of two lengths are two bodies.
fn of_records(first: &Placed, second: &Placed) -> Vec<What> {
    let fields = [
        (What::Time, first.time != second.time),
        (What::Label, first.label != second.label),
        (What::Kind, first.kind != second.kind),
        (What::Length, first.body.len() != second.body.len()),
        (What::Body, first.body != second.body),
    ];
    let differing = fields.into_iter().filter(|(_, differs)| *differs);
    differing.map(|(what, _)| what).collect()
}
