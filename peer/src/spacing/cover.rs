//! Counts of what the made captures have between two CCs, and of the answers.

use super::numbers::{Numbers, LIMIT};
use super::pairs::{self, Pair};
use crate::capture::Kind;
use crate::message::{self, Message};
use crate::why::history::{Damage, Event, History};
use std::collections::BTreeMap;
use std::io::{self, Write};

#[derive(Default)]
pub struct Cover {
    pub questions: u64,
    counts: BTreeMap<&'static str, u64>,
}

impl Cover {
    pub fn add(&mut self, history: &History, label: u32) {
        self.questions += 1;
        let pairs = pairs::of(&history.events, label);
        let numbers = Numbers::of(pairs.iter().map(Pair::error));
        match history.damage {
            Some(Damage::Cut) => self.count("asked of a cut capture"),
            Some(Damage::BadHeader) => self.count("asked of a bad header"),
            None => {}
        }
        self.count(match (numbers.fits(), pairs.len()) {
            (false, _) => "answered: refused 21",
            (true, 0) => "answered: no pair",
            (true, _) => "answered: pairs",
        });
        match numbers.sizes - LIMIT {
            0 => self.count("sizes at the limit"),
            1 => self.count("sizes one above the limit"),
            _ => {}
        }
        self.add_breaks(history, label, &pairs);
        for pair in &pairs {
            self.add_pair(history, pair);
        }
    }

    /// Locks and openings of a label that has pairs.
    fn add_breaks(&mut self, history: &History, label: u32, pairs: &[Pair]) {
        if pairs.is_empty() {
            return;
        }
        let of_label = |event: &&Event| event.accepted && event.label == label;
        for event in history.events.iter().filter(of_label) {
            match event.kind {
                Kind::Lock => self.count("label with pairs: lock"),
                Kind::Open => self.count("label with pairs: opening"),
                _ => {}
            }
        }
    }

    fn add_pair(&mut self, history: &History, pair: &Pair) {
        self.count("pair");
        self.count(match pair.error() {
            ..=-1 if pair.earlier.time == pair.later.time => "pair: at one reading",
            ..=-1 => "pair: early",
            0 => "pair: on time",
            error if error > LIMIT / 2 => "pair: later than half the greatest reading",
            _ => "pair: late",
        });
        let (from, to) = (pair.earlier.number as usize, pair.later.number as usize);
        // Numbers count from 1: these are the records behind one and before the other.
        for event in &history.events[from..to - 1] {
            if event.label == pair.later.label {
                self.count(between(event));
            }
        }
    }

    fn count(&mut self, what: &'static str) {
        *self.counts.entry(what).or_default() += 1;
    }

    pub fn print(&self, output: &mut impl Write) -> io::Result<()> {
        for (what, times) in &self.counts {
            writeln!(output, "{what}: {times}")?;
        }
        Ok(())
    }
}

/// A call on the label that stands between the two CCs of a pair.
fn between(event: &Event) -> &'static str {
    match (event.accepted, event.kind) {
        (true, Kind::Unlock) => "between: unlock of what is not locked",
        (true, Kind::Receive) => match message::read(&event.body).map(|read| read.message) {
            // A heard CC would be one of the pair.
            Ok(Message::Cc(_)) => "between: crossed CC",
            Ok(Message::Cv(..)) => "between: CV",
            _ => "between: fault message",
        },
        (true, _) => "between: report or write",
        (false, Kind::Receive) => "between: refused message",
        (false, _) => "between: another refused call",
    }
}
