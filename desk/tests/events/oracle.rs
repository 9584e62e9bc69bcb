//! The same events found in another way: the second program's sessions are
//! given TIMER and asked for a report at many readings between two records,
//! or at every one.

use desk::events::{Cause, Event, What};
use peer::capture::{append_head, Kind, Next, Reader, Record};
use peer::edges;
use peer::random::Random;
use peer::session::{Report, Session};
use peer::table::Table;
use std::collections::BTreeMap;

/// At which readings between two records the sessions are asked.
pub enum Probes {
    Every,
    /// One before, at, one and two after each session's edges, and some at random.
    Edges(Random),
}

pub struct Oracle<'a> {
    capture: &'a [u8],
    table: Table,
    shown: BTreeMap<u32, Report>,
    probes: Probes,
    causes: bool,
    pub events: Vec<Event>,
}

/// Where in the capture an event stands.
#[derive(Clone, Copy)]
struct Place {
    reading: u64,
    record: Option<u64>,
    /// The octets of the capture that came before it.
    before: usize,
}

/// All events of a capture, with causes by the second program if they are wanted.
pub fn events(capture: &[u8], probes: Probes, causes: bool) -> Vec<Event> {
    let mut oracle = Oracle {
        capture,
        table: Table::new(),
        shown: BTreeMap::new(),
        probes,
        causes,
        events: Vec::new(),
    };
    let Some(mut reader) = Reader::start(capture).unwrap() else {
        return Vec::new();
    };
    let (mut number, mut offset) = (0, 8);
    while let Next::Record(record) = reader.next_record().unwrap() {
        number += 1;
        oracle.record(number, offset, &record);
        offset += 16 + record.body.len();
    }
    oracle.events
}

impl Oracle<'_> {
    fn record(&mut self, number: u64, offset: usize, record: &Record) {
        let clock = self.table.clock();
        let mut between: Vec<Session> = self.table.sessions().cloned().collect();
        between.sort_by_key(|session| session.settings.label);
        if !self.table.perform(record).is_accepted() || !record.kind.brings_reading() {
            return;
        }
        for reading in self.readings(&between, clock, record.time) {
            let place = Place {
                reading,
                record: (reading == record.time).then_some(number),
                before: offset,
            };
            for session in &mut between {
                session.timer(reading);
                self.compare(session.settings.label, session.report(reading), place);
            }
        }
        let place = Place {
            reading: record.time,
            record: Some(number),
            before: offset + 16 + record.body.len(),
        };
        self.behind(record, place);
    }

    fn readings(&mut self, sessions: &[Session], clock: u64, to: u64) -> Vec<u64> {
        let random = match &mut self.probes {
            Probes::Every => return (clock + 1..=to).collect(),
            Probes::Edges(random) => random,
        };
        let edges = sessions.iter().flat_map(edges::of).map(|(_, edge)| edge);
        let around = edges.flat_map(|edge| edge.saturating_sub(1)..=edge.saturating_add(2));
        let mut readings: Vec<u64> = around.filter(|r| (clock + 1..=to).contains(r)).collect();
        if to > clock {
            readings.extend((0..3).map(|_| random.between(clock + 1, to)));
            readings.push(to);
        }
        readings.sort_unstable();
        readings.dedup();
        readings
    }

    /// What the record itself changed, on its own label.
    fn behind(&mut self, record: &Record, place: Place) {
        match record.kind {
            Kind::Tick => {}
            Kind::Close => {
                self.shown.remove(&record.label);
                self.tell(record.label, place, What::Closed);
            }
            kind => {
                if kind == Kind::Open {
                    self.tell(record.label, place, What::Opened);
                }
                let report = self
                    .table
                    .session(record.label)
                    .unwrap()
                    .report(record.time);
                self.compare(record.label, report, place);
            }
        }
    }

    fn compare(&mut self, label: u32, now: Report, place: Place) {
        let last = self.shown.insert(label, now);
        let was = |flag: fn(&Report) -> bool| last.as_ref().is_some_and(flag);
        let held_back = |report: &Report| report.loss && !report.alarm;
        let mut changed = Vec::new();
        if was(|r| r.misconnectivity) != now.misconnectivity {
            changed.push(What::Crossing(now.misconnectivity));
        }
        if was(|r| r.loss) != now.loss {
            changed.push(What::Loss(now.loss));
        }
        if was(held_back) != held_back(&now) {
            changed.push(What::HeldBack(held_back(&now)));
        }
        if was(|r| r.alarm) != now.alarm {
            changed.push(What::Alarm(now.alarm));
        }
        if was(|r| r.remote_defect) != now.remote_defect {
            changed.push(What::RemoteDefect(now.remote_defect));
        }
        if last.is_none_or(|last| last.state != now.state) {
            changed.push(What::State(now.state as u8));
        }
        for what in changed {
            self.tell(label, place, what);
        }
    }

    fn tell(&mut self, label: u32, place: Place, what: What) {
        let thing = match what {
            What::Loss(true) | What::Alarm(true) => Some("loss"),
            What::HeldBack(true) => Some("held-back"),
            What::Crossing(true) => Some("crossing"),
            _ => None,
        };
        let thing = thing.filter(|_| self.causes);
        self.events.push(Event {
            label,
            reading: place.reading,
            record: place.record,
            what,
            cause: thing.map(|thing| self.cause(label, thing, place)),
        });
    }

    /// The second program is asked with all of the capture that came before, refused records and
    /// other labels too, and a tick.
    fn cause(&self, label: u32, thing: &str, place: Place) -> Cause {
        let mut capture = self.capture[..place.before].to_vec();
        append_head(&mut capture, place.reading, 0, Kind::Tick as u16, 0);
        let text = peer::why::answer_to(&[&label.to_string(), thing], &capture);
        let lines: Vec<&str> = text.lines().collect();
        let [which, age, ends] = lines[..] else {
            panic!("no cause: {text}");
        };
        let which = which.strip_prefix("which: record ").unwrap();
        let (record, which) = which.split_once(" at ").unwrap();
        let (reading, words) = which.split_once(", ").unwrap();
        Cause {
            record: record.parse().unwrap(),
            reading: reading.parse().unwrap(),
            words: words.to_string(),
            age: age.strip_prefix("how old: ").unwrap().to_string(),
            ends: ends.strip_prefix("ends: ").unwrap().to_string(),
        }
    }
}
