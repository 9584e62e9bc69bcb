//! An index of one label: after every 256th record, where it stands.

use super::follow::Point;
use super::records::{self, HEADER};
use super::Refusal;
use crate::machine::Mode;
use crate::mep_id::{MepId, SECTION};
use crate::session::Session;
use crate::settings::Settings;
use std::fmt::Write as _;

/// How many records stand between two entries.
pub const EVERY: usize = 256;
/// The most entries.
pub const MOST_ENTRIES: usize = 256;

/// A head, and three lists that a host lends.
#[derive(Clone, Debug, PartialEq, Eq)]
pub struct Index {
    pub length: u64,
    pub label: u32,
    pub count: u32,
    pub clocks: Vec<u64>,
    /// Where the next record of the log stands.
    pub places: Vec<u64>,
    /// The session as its own calls left it; label 0 says that there is none.
    pub records: Vec<Session>,
}

/// The index of a log for a label, if three lists of this room hold it.
pub fn build(log: &[u8], label: u32, room: usize) -> Result<Index, Refusal> {
    let calls = records::all(log).ok_or(Refusal::Log)?;
    let mut index = Index {
        length: log.len() as u64,
        label,
        count: (calls.len() / EVERY + 1) as u32,
        clocks: Vec::new(),
        places: Vec::new(),
        records: Vec::new(),
    };
    if index.count as usize > room {
        return Err(Refusal::Room);
    }
    let mut point = Point::START;
    index.add(&point, HEADER.len());
    for block in calls.chunks_exact(EVERY) {
        for logged in block {
            point.follow(logged, label);
        }
        index.add(&point, block[EVERY - 1].next);
    }
    Ok(index)
}

impl Index {
    fn add(&mut self, point: &Point, place: usize) {
        self.clocks.push(point.clock);
        self.places.push(place as u64);
        let record = point.session.clone().unwrap_or_else(absent);
        self.records.push(record);
    }

    /// One line for each entry: its number, clock, place and record.
    pub fn lines(&self) -> String {
        let mut text = String::new();
        for (number, record) in self.records.iter().enumerate() {
            let (clock, place) = (self.clocks[number], self.places[number]);
            // Writing to memory cannot fail.
            let _ = writeln!(text, "  {number} {clock} {place} {}", fields(record));
        }
        text
    }
}

/// The record that stands where there is no session.
fn absent() -> Session {
    let mep_id = MepId::new(SECTION, &[0; 12]);
    let settings = Settings {
        label: 0,
        discriminator: 0,
        period: 0,
        own: mep_id,
        expected: mep_id,
        follows_link_down: false,
        follows_lock: false,
        mode: Mode::COORDINATED,
    };
    Session::open(settings, 0)
}

fn fields(record: &Session) -> String {
    if record.settings.label == 0 {
        return "none".to_string();
    }
    format!(
        "state={} since={} multiplier={} remote={} diagnostic={} owed={}",
        record.state as u8,
        record.detecting_since,
        record.multiplier,
        record.remote_discriminator.unwrap_or(0),
        record.remote_diagnostic.unwrap_or(0),
        u8::from(record.reply_owed)
    )
}
