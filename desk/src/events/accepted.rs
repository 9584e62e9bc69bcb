//! Which records of a capture `watch` accepts: only these change anything, and only their times are
//! readings.

use super::stream::{self, Lines};
use super::walk::{Stood, Walk};
use super::{Damage, Ends};
use crate::cli::{Failure, Progress};
use std::io::Write;

/// A bit for each record, and how the capture ends.
#[derive(Default)]
pub struct Accepted {
    bits: Vec<u64>,
    pub ends: Ends,
}

impl Accepted {
    /// What `watch` answers to the capture as it is.
    pub fn by_watch(capture: &[u8]) -> Result<Accepted, Failure> {
        let feed = |mut input: std::process::ChildStdin| input.write_all(capture);
        stream::run("watch", &[], feed, |lines| Accepted::read(capture, lines))
    }

    fn read(capture: &[u8], lines: &mut Lines) -> Result<Accepted, Failure> {
        let mut walk = Walk::of(capture);
        let mut accepted = Accepted::default();
        let mut progress = Progress::start("answers", capture.len() as u64);
        while let Some(line) = lines.next_line()? {
            match line {
                "bad header" => accepted.ends.damage = Some(Damage::BadHeader),
                "cut" => {
                    accepted.ends.damage = Some(Damage::Cut {
                        offset: walk.offset() as u64,
                    })
                }
                _ => {
                    let stood = walk
                        .next()
                        .filter(|stood| number(line) == Some(stood.number));
                    let stood = stood.ok_or_else(|| unlike(line))?;
                    accepted.note(&stood, answer(line) == Some("0"));
                    progress.at(stood.offset as u64);
                }
            }
        }
        match accepted.ends.damage {
            None if walk.offset() < capture.len() => {
                Err(Failure::new("watch ends before the capture"))
            }
            _ => Ok(accepted),
        }
    }

    fn note(&mut self, stood: &Stood, accepted: bool) {
        self.ends.records = stood.number;
        let (word, bit) = place(stood.number);
        if self.bits.len() <= word {
            self.bits.resize(word + 1, 0);
        }
        if let (true, Some(bits)) = (accepted, self.bits.get_mut(word)) {
            *bits |= bit;
        }
        if accepted && stood.record.kind.brings_reading() {
            self.ends.first.get_or_insert(stood.record.time);
            self.ends.last = Some(stood.record.time);
        }
    }

    /// The records that change something or bring a reading, in order.
    pub fn calls<'a>(&'a self, capture: &'a [u8]) -> impl Iterator<Item = Stood<'a>> {
        let whole = usize::try_from(self.ends.records).unwrap_or(usize::MAX);
        let walk = Walk::of(capture).take(whole);
        walk.filter(|stood| stood.record.kind.brings_reading() && self.has(stood.number))
    }

    fn has(&self, number: u64) -> bool {
        let (word, bit) = place(number);
        self.bits.get(word).is_some_and(|bits| bits & bit != 0)
    }
}

fn place(number: u64) -> (usize, u64) {
    ((number / 64) as usize, 1 << (number % 64))
}

fn number(line: &str) -> Option<u64> {
    line.split(' ').next()?.parse().ok()
}

fn answer(line: &str) -> Option<&str> {
    line.split(' ').nth(1)
}

fn unlike(line: &str) -> Failure {
    Failure::new(format!(
        "watch answers `{line}` where no such record stands"
    ))
}
