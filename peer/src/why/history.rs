//! The list of calls that a capture makes, each with what was answered.

use crate::capture::{Kind, Next, Reader};
use crate::machine::Mode;
use crate::table::Table;
use std::io::{self, Read};

/// A call and whether it was accepted.
#[derive(Clone, Debug, PartialEq, Eq)]
pub struct Event {
    /// Its record, counted from 1.
    pub number: u64,
    pub time: u64,
    pub label: u32,
    pub kind: Kind,
    pub body: Box<[u8]>,
    /// The mode of an open; in a capture all are coordinated.
    pub mode: Mode,
    pub accepted: bool,
}

/// Why a capture is not whole.
#[derive(Clone, Copy, Debug, PartialEq, Eq)]
pub enum Damage {
    BadHeader,
    Cut,
}

pub struct History {
    pub events: Vec<Event>,
    pub damage: Option<Damage>,
}

/// The first events of a history; its damage, if no event stands behind them.
pub struct Front<'a> {
    pub events: &'a [Event],
    pub damage: Option<Damage>,
}

impl History {
    /// Reads a capture up to one record more than asked for, which tells that
    /// there are more.
    pub fn read(input: impl Read, upto: u64) -> io::Result<History> {
        let mut events = Vec::new();
        let Some(mut reader) = Reader::start(input)? else {
            let damage = Some(Damage::BadHeader);
            return Ok(History { events, damage });
        };
        let mut table = Table::new();
        while events.len() as u64 <= upto {
            let record = match reader.next_record()? {
                Next::Record(record) => record,
                Next::End => break,
                Next::Cut => {
                    let damage = Some(Damage::Cut);
                    return Ok(History { events, damage });
                }
            };
            let accepted = table.perform(&record).is_accepted();
            events.push(Event {
                number: events.len() as u64 + 1,
                time: record.time,
                label: record.label,
                kind: record.kind,
                body: record.body.into(),
                mode: Mode::COORDINATED,
                accepted,
            });
        }
        let damage = None;
        Ok(History { events, damage })
    }

    pub fn front(&self, upto: u64) -> Front<'_> {
        match usize::try_from(upto) {
            Ok(count) if count < self.events.len() => Front {
                events: &self.events[..count],
                damage: None,
            },
            _ => Front {
                events: &self.events,
                damage: self.damage,
            },
        }
    }
}

impl Front<'_> {
    /// The reading of the last accepted call that brought one, 0 before any.
    pub fn clock(&self) -> u64 {
        let brought = |event: &&Event| event.accepted && event.kind.brings_reading();
        let last = self.events.iter().rev().find(brought);
        last.map_or(0, |event| event.time)
    }
}
