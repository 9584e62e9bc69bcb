//! Counts of what differs between the made pairs.

use super::differences::What;
use super::{compare, Refusal};
use std::collections::BTreeMap;
use std::io::{self, Write};

#[derive(Default)]
pub struct Cover {
    counts: BTreeMap<&'static str, u64>,
}

impl Cover {
    pub fn add(&mut self, first: &[u8], second: &[u8]) {
        let compared = compare(first, second);
        let entries = match compared.entries {
            Ok(entries) => entries,
            Err(refusal) => return self.count(refused(refusal, second)),
        };
        self.count(match entries.len() {
            0 => "listed: nothing",
            1 => "listed: one entry",
            _ => "listed: more than one entry",
        });
        let extra = entries.iter().find(|entry| entry.what >= What::OnlyFirst);
        match extra.map(|entry| entry.what) {
            Some(What::OnlyFirst) => self.count("the first is longer"),
            Some(_) => self.count("the second is longer"),
            None => self.count("as many records in both"),
        }
        match (compared.rest == first.len(), entries.is_empty()) {
            (true, false) => self.count("rest: the empty tail, and the second is longer"),
            (true, true) => self.count("rest: the empty tail, and nothing differs"),
            (false, _) => self.count("rest: from a record on"),
        }
        for entry in &entries {
            self.count(name(entry.what));
        }
    }

    fn count(&mut self, what: &'static str) {
        *self.counts.entry(what).or_default() += 1;
    }

    pub fn print(&self, output: &mut impl Write) -> io::Result<()> {
        for (what, times) in &self.counts {
            writeln!(output, "{what}: {times}")?;
        }
        Ok(())
    }
}

fn refused(refusal: Refusal, second: &[u8]) -> &'static str {
    let both = super::parsed::records(second).is_none();
    match refusal {
        Refusal::First if both => "refused 22, and the second is bad too",
        Refusal::First => "refused 22, and the second is whole",
        Refusal::Second => "refused 23",
        Refusal::Room => "refused 13",
    }
}

fn name(what: What) -> &'static str {
    match what {
        What::Time => "entry: time",
        What::Label => "entry: label",
        What::Kind => "entry: kind",
        What::Length => "entry: length",
        What::Body => "entry: body",
        What::OnlyFirst => "entry: only in the first",
        What::OnlySecond => "entry: only in the second",
    }
}
