//! Counts of what is asked of made logs.

use super::check::Case;
use std::collections::BTreeMap;
use std::io::{self, Write};

#[derive(Default)]
pub struct Cover {
    counts: BTreeMap<String, u64>,
}

impl Cover {
    pub fn add(&mut self, case: &Case) {
        self.count(format!("index with {} entries", case.index.count));
        let open = case.index.records.iter().filter(|r| r.settings.label != 0);
        *self
            .counts
            .entry("entry with a session".into())
            .or_default() += open.count() as u64;
        let clocks = &case.index.clocks;
        let equal = clocks.windows(2).filter(|two| two[0] == two[1]).count();
        *self
            .counts
            .entry("entry at the clock of the one before".into())
            .or_default() += equal as u64;
        for (_, answer) in &case.questions {
            let words: Vec<&str> = answer.split(' ').collect();
            self.count("question".to_string());
            match words[..] {
                [_, state, _, loss, .., looks] => {
                    self.count("answered 0".to_string());
                    self.count(format!("answered 0, state {state}"));
                    self.count(format!("answered 0, {looks} looks"));
                    if loss == "1" {
                        self.count("answered 0, loss".to_string());
                    }
                }
                _ => self.count(format!("answered {answer}")),
            }
        }
    }

    fn count(&mut self, what: String) {
        *self.counts.entry(what).or_default() += 1;
    }

    pub fn print(&self, output: &mut impl Write) -> io::Result<()> {
        for (what, times) in &self.counts {
            writeln!(output, "{what}: {times}")?;
        }
        Ok(())
    }
}
