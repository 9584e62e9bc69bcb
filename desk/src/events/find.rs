//! The search: a copy of the capture goes to `watch`, and each report is held against the last one
//! of its label.

use super::accepted::Accepted;
use super::causes::Causes;
use super::copy::{At, Copyist, Step};
use super::stream::{self, Lines};
use super::{changes, Ends, Event, Options, Shown, What};
use crate::cli::{Failure, Progress};
use peer::capture::Kind;
use std::collections::HashMap;
use std::sync::mpsc::sync_channel;

/// Pieces of the copy that may be on their way.
const ON_THE_WAY: usize = 4;

/// Gives each event to `each`, with at most `most` causes.
pub fn find(
    capture: &[u8],
    options: &Options,
    most: u64,
    each: &mut dyn FnMut(Event) -> Result<(), Failure>,
) -> Result<Ends, Failure> {
    let accepted = Accepted::by_watch(capture)?;
    let (sender, steps) = sync_channel(ON_THE_WAY);
    let feed = |input| Copyist::start(input, sender).write(capture, &accepted, options);
    let mut search = Search {
        options,
        causes: options.causes.then(|| Causes::new(capture, most)),
        shown: HashMap::new(),
        progress: Progress::start("events", capture.len() as u64),
        each,
    };
    let without_cause = stream::run("watch", &[], feed, |lines| {
        for step in steps.into_iter().flatten() {
            search.take(&step, lines)?;
        }
        Ok(search.causes.map_or(0, |causes| causes.not_asked))
    })?;
    Ok(Ends {
        without_cause,
        ..accepted.ends
    })
}

struct Search<'a> {
    options: &'a Options,
    causes: Option<Causes<'a>>,
    /// What each open label showed last.
    shown: HashMap<u32, Shown>,
    progress: Progress,
    each: &'a mut dyn FnMut(Event) -> Result<(), Failure>,
}

impl Search<'_> {
    /// Takes the line that answers to a step. A report on a label that was closed since is refused 2.
    fn take(&mut self, step: &Step, lines: &mut Lines) -> Result<(), Failure> {
        let line = lines.next_line()?.unwrap_or_default();
        let answer = line.split_once(' ').map(|(_, answer)| answer);
        match (step, answer) {
            (Step::Tick, Some("0")) | (Step::Report(_), Some("2")) => Ok(()),
            (Step::Call { .. }, Some("0")) => self.call(step),
            (Step::Report(at), Some(answer)) => {
                let shown = answer.strip_prefix("0 ").and_then(Shown::read);
                self.report(at, shown.ok_or_else(|| unlike(step, line))?)
            }
            _ => Err(unlike(step, line)),
        }
    }

    fn call(&mut self, step: &Step) -> Result<(), Failure> {
        let Step::Call {
            label,
            reading,
            number,
            offset,
            kind,
        } = *step
        else {
            return Ok(());
        };
        self.progress.at(offset as u64);
        if let Some(causes) = &mut self.causes {
            causes.note(label, kind, number, offset);
        }
        let at = At {
            label,
            reading,
            record: Some(number),
        };
        match kind {
            Kind::Open => self.tell(&at, What::Opened),
            Kind::Close => {
                self.shown.remove(&label);
                self.tell(&at, What::Closed)
            }
            _ => Ok(()),
        }
    }

    fn report(&mut self, at: &At, shown: Shown) -> Result<(), Failure> {
        let last = self.shown.insert(at.label, shown);
        if last == Some(shown) {
            return Ok(());
        }
        for what in changes::between(last.as_ref(), &shown) {
            self.tell(at, what)?;
        }
        Ok(())
    }

    fn tell(&mut self, at: &At, what: What) -> Result<(), Failure> {
        if at.reading < self.options.from || at.reading > self.options.to {
            return Ok(());
        }
        let cause = match &mut self.causes {
            Some(causes) => causes.of(at, what)?,
            None => None,
        };
        (self.each)(Event {
            label: at.label,
            reading: at.reading,
            record: at.record,
            what,
            cause,
        })
    }
}

/// `watch` answers otherwise than it did for the capture itself.
fn unlike(step: &Step, line: &str) -> Failure {
    Failure::new(format!("watch answers `{line}` to {step:?}"))
}

#[cfg(test)]
mod tests {
    use super::*;
    use peer::assemble::assemble;

    /// Four losses, each with an alarm that has the same cause.
    const FLAPS: &str = "
        0      100 open my=17 period=1,000
        5,000  100 receive cv down my=5
        10,000 100 receive cv down my=5
        15,000 100 receive cv down my=5
        20,000 -   tick";

    #[test]
    fn no_more_causes_than_wanted() {
        if std::env::var_os("KORVEZUL_BIN").is_none() {
            let folder = concat!(env!("CARGO_MANIFEST_DIR"), "/../target/bin");
            std::env::set_var("KORVEZUL_BIN", folder);
        }
        let capture = assemble(FLAPS).unwrap();
        for most in [0, 1, 3, 4, u64::MAX] {
            let mut given = 0;
            let ends = find(&capture, &Options::default(), most, &mut |event| {
                given += u64::from(event.cause.is_some());
                Ok(())
            });
            let expected = 2 * most.min(4);
            assert_eq!(
                (given, ends.unwrap().without_cause),
                (expected, 8 - expected)
            );
        }
    }
}
