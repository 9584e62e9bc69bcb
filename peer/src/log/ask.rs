//! A log asked by an index: what a label reported at a reading.

use super::follow::Point;
use super::index::{Index, EVERY, MOST_ENTRIES};
use super::records::{self, Next, HEADER};
use super::search::search;
use super::Refusal;
use crate::session::Report;
use crate::sound::session_is_sound;
use crate::table::LARGEST_READING;

/// A report, and how many entries of the index were looked at for it.
#[derive(Clone, Copy, Debug, PartialEq, Eq)]
pub struct Told {
    pub report: Report,
    pub looks: usize,
}

/// The report of a label at a reading, from an entry of the index and at most
/// 256 records behind it.
pub fn ask(log: &[u8], index: &Index, label: u32, reading: u64) -> Result<Told, Refusal> {
    if reading > LARGEST_READING {
        return Err(Refusal::Reading);
    }
    if !records::has_header(log) {
        return Err(Refusal::Log);
    }
    if index.label != label || index.length != log.len() as u64 || !index.counts() {
        return Err(Refusal::Index);
    }
    let search = search(&index.clocks[..index.count as usize], reading);
    let mut used = search.looked.iter().chain([&search.found]);
    if !used.all(|entry| index.fits(*entry)) {
        return Err(Refusal::Index);
    }
    let mut point = index.point(search.found);
    read_on(log, index.places[search.found], &mut point, label, reading)?;
    let looks = search.looked.len();
    point.report(reading, looks)
}

impl Index {
    /// Whether there are as many entries as are counted, and not too many.
    fn counts(&self) -> bool {
        let count = self.count as usize;
        let lengths = [self.clocks.len(), self.places.len(), self.records.len()];
        (1..=MOST_ENTRIES).contains(&count) && lengths.iter().all(|length| count <= *length)
    }

    /// Whether an entry is in range: its place, and its record if it has one.
    fn fits(&self, entry: usize) -> bool {
        let (record, clock) = (&self.records[entry], self.clocks[entry]);
        let none = record.settings.label == 0;
        let own = record.settings.label == self.label;
        (HEADER.len() as u64..=self.length).contains(&self.places[entry])
            && (none || own && session_is_sound(record, clock))
    }

    fn point(&self, entry: usize) -> Point {
        let record = &self.records[entry];
        let open = record.settings.label != 0;
        Point {
            session: open.then(|| record.clone()),
            clock: self.clocks[entry],
        }
    }
}

/// Follows the records from a place on, before the first that takes the clock
/// past the reading.
fn read_on(
    log: &[u8],
    place: u64,
    point: &mut Point,
    label: u32,
    reading: u64,
) -> Result<(), Refusal> {
    let mut place = place as usize;
    for _ in 0..EVERY {
        match records::at(log, place) {
            Next::End => break,
            Next::Cut => return Err(Refusal::Log),
            Next::Logged(logged) if logged.moves_clock() && logged.record.time > reading => break,
            Next::Logged(logged) => {
                point.follow(&logged, label);
                place = logged.next;
            }
        }
    }
    Ok(())
}

impl Point {
    /// What is reported when the clock is taken to a reading, if it is not there.
    fn report(self, reading: u64, looks: usize) -> Result<Told, Refusal> {
        let now = self.clock.max(reading);
        let mut session = self.session.ok_or(Refusal::NoSession)?;
        session.timer(now);
        let report = session.report(now);
        Ok(Told { report, looks })
    }
}
