//! The program `compare`: what differs between two captures of one tap.
//!
//! Both captures are read to lists of records, and the lists are compared. No
//! table takes part: a record is its five fields, read or not.

pub mod check;
pub mod cover;
pub mod differences;
pub mod parsed;

use differences::Entry;

pub const USAGE: &str = "usage: compare FIRST SECOND";

/// Why nothing is listed.
#[derive(Clone, Copy, Debug, PartialEq, Eq)]
#[repr(u8)]
pub enum Refusal {
    /// The lent list cannot hold all.
    Room = 13,
    /// The first capture has a bad header or is cut.
    First = 22,
    /// The second does or is.
    Second = 23,
}

/// What is listed, and where in the first capture the rest begins.
#[derive(Clone, Debug, PartialEq, Eq)]
pub struct Compared {
    pub entries: Result<Vec<Entry>, Refusal>,
    /// The first capture's length where no record of it differs.
    pub rest: usize,
}

/// Compares two whole captures, with room for as many entries as there are.
pub fn compare(first: &[u8], second: &[u8]) -> Compared {
    let refused = |refusal| Compared {
        entries: Err(refusal),
        rest: first.len(),
    };
    let Some(ours) = parsed::records(first) else {
        return refused(Refusal::First);
    };
    let Some(theirs) = parsed::records(second) else {
        return refused(Refusal::Second);
    };
    let entries = differences::of(&ours, &theirs);
    // A record that the second alone has is none of the first.
    let listed = entries.first().map(|entry| entry.record as usize);
    let record = listed.and_then(|number| ours.get(number - 1));
    Compared {
        rest: record.map_or(first.len(), |record| record.place),
        entries: Ok(entries),
    }
}

impl Compared {
    /// The same with a list that has room for so many entries alone.
    pub fn within(self, room: usize) -> Compared {
        let fits = |entries: Vec<Entry>| match entries.len() <= room {
            true => Ok(entries),
            false => Err(Refusal::Room),
        };
        Compared {
            entries: self.entries.and_then(fits),
            ..self
        }
    }

    /// The answer and the numbers of the list in one line, the rest in another.
    pub fn numbers(&self) -> String {
        let mut text = match &self.entries {
            Ok(entries) => {
                let numbers = entries.iter().map(|entry| format!(" {}", entry.number()));
                format!("0{}\n", numbers.collect::<String>())
            }
            Err(refusal) => format!("{}\n", *refusal as u8),
        };
        text += &format!("rest {}\n", self.rest);
        text
    }

    /// What the program prints: a line for each entry, then the rest.
    pub fn lines(&self) -> String {
        match &self.entries {
            Ok(entries) => {
                let lines = entries.iter().map(|entry| entry.line() + "\n");
                format!("{}rest {}\n", lines.collect::<String>(), self.rest)
            }
            Err(refusal) => format!("refused {}\n", *refusal as u8),
        }
    }
}
