//! Causes: `why` is asked about one label with that label's own accepted records alone. Labels do
//! not disturb each other, so its answer is that of the whole capture.

use super::copy::At;
use super::stream::{self, Lines};
use super::walk::record_at;
use super::{Cause, What};
use crate::cli::Failure;
use peer::capture::{append_head, Kind, HEADER};
use std::collections::HashMap;
use std::io::{BufWriter, Write};
use std::process::ChildStdin;

/// The most causes that are asked for, where not all are wanted: each is a run of `why`.
pub const MOST: u64 = 2_000;

/// An accepted record of a label: its number in the capture, and where it stands.
#[derive(Clone, Copy)]
struct Past {
    number: u64,
    offset: usize,
}

/// The records of each label since it was opened, and how many questions may still be asked.
pub struct Causes<'a> {
    capture: &'a [u8],
    past: HashMap<u32, Vec<Past>>,
    left: u64,
    pub not_asked: u64,
    last: Option<(Question, Cause)>,
}

/// What is asked of `why`, and of which reading behind which record of the label.
#[derive(Clone, Copy, PartialEq, Eq)]
struct Question {
    label: u32,
    thing: &'static str,
    reading: u64,
    records: usize,
}

impl<'a> Causes<'a> {
    pub fn new(capture: &'a [u8], most: u64) -> Causes<'a> {
        Causes {
            capture,
            past: HashMap::new(),
            left: most,
            not_asked: 0,
            last: None,
        }
    }

    /// Notes an accepted record. Nothing before a close accounts for anything behind it.
    pub fn note(&mut self, label: u32, kind: Kind, number: u64, offset: usize) {
        if kind == Kind::Close {
            self.past.remove(&label);
        } else {
            let past = self.past.entry(label).or_default();
            past.push(Past { number, offset });
        }
    }

    /// The cause of an event, if it is one that `why` accounts for.
    pub fn of(&mut self, at: &At, what: What) -> Result<Option<Cause>, Failure> {
        let Some(thing) = thing(what) else {
            return Ok(None);
        };
        let question = Question {
            label: at.label,
            thing,
            reading: at.reading,
            records: self.past.get(&at.label).map_or(0, Vec::len),
        };
        if let Some((_, cause)) = self.last.iter().find(|(last, _)| *last == question) {
            return Ok(Some(cause.clone()));
        }
        if self.left == 0 {
            self.not_asked = self.not_asked.saturating_add(1);
            return Ok(None);
        }
        self.left -= 1;
        let cause = self.ask(&question)?;
        self.last = Some((question, cause.clone()));
        Ok(Some(cause))
    }

    fn ask(&self, question: &Question) -> Result<Cause, Failure> {
        let past = self
            .past
            .get(&question.label)
            .map_or(&[][..], Vec::as_slice);
        let words = [question.label.to_string(), question.thing.to_string()];
        let feed = |input| write_past(self.capture, past, question.reading, input);
        let text = stream::run("why", &words, feed, all_lines)?;
        let cause = read_cause(&text, past);
        cause.ok_or_else(|| {
            let (label, thing, reading) = (question.label, question.thing, question.reading);
            let text = text.trim_end();
            Failure::new(format!(
                "label {label} at {reading}: watch shows {thing}, and why answers `{text}`"
            ))
        })
    }
}

/// What `why` is asked of an event. An alarm is a loss that nothing holds back.
fn thing(what: What) -> Option<&'static str> {
    match what {
        What::Loss(true) | What::Alarm(true) => Some("loss"),
        What::HeldBack(true) => Some("held-back"),
        What::Crossing(true) => Some("crossing"),
        _ => None,
    }
}

/// The label's records, and a tick at the reading that is asked about.
fn write_past(
    capture: &[u8],
    past: &[Past],
    reading: u64,
    input: ChildStdin,
) -> std::io::Result<()> {
    let mut input = BufWriter::with_capacity(1 << 16, input);
    input.write_all(&HEADER)?;
    for record in past {
        if let Some((_, octets)) = record_at(capture, record.offset) {
            input.write_all(octets)?;
        }
    }
    let mut tick = Vec::new();
    append_head(&mut tick, reading, 0, Kind::Tick as u16, 0);
    input.write_all(&tick)?;
    input.flush()
}

fn all_lines(lines: &mut Lines) -> Result<String, Failure> {
    let mut text = String::new();
    while let Some(line) = lines.next_line()? {
        text += line;
        text.push('\n');
    }
    Ok(text)
}

/// Reads the three lines of an answer; the record's number becomes the capture's own.
fn read_cause(text: &str, past: &[Past]) -> Option<Cause> {
    let mut lines = text.lines();
    let which = lines.next()?.strip_prefix("which: record ")?;
    let (number, rest) = which.split_once(" at ")?;
    let (reading, words) = rest.split_once(", ")?;
    let at = number.parse::<usize>().ok()?.checked_sub(1)?;
    let cause = Cause {
        record: past.get(at)?.number,
        reading: reading.parse().ok()?,
        words: words.to_string(),
        age: lines.next()?.strip_prefix("how old: ")?.to_string(),
        ends: lines.next()?.strip_prefix("ends: ")?.to_string(),
    };
    lines.next().is_none().then_some(cause)
}
