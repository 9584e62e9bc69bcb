//! Deterministic captures from a seed: random, but steered towards every
//! answer, every edge and every kind of damage.

mod circuits;
mod compares;
mod damage;
mod dhc;
mod draft;
mod ending;
mod groups;
mod logs;
mod readings;
mod scenarios;
mod sequences;
mod spacings;
mod ties;

use crate::assemble::Mistake;
use crate::capture::{Kind, Record, HEADER};
use crate::log::turn::log_of;
use crate::party::SESSIONS_OF_ONE;
use crate::random::Random;
use crate::session::Session;
use crate::table::{Answer, Table, LARGEST_READING};
use circuits::Circuit;

/// What a capture mostly consists of.
#[derive(Clone, Copy, PartialEq, Eq)]
enum Style {
    /// Everything about equally often.
    Mixed,
    /// Sessions come UP and stay UP.
    Steady,
    /// Many fault messages.
    Faults,
    /// Many damaged messages.
    Damage,
    /// Many readings at edges.
    Edges,
}

/// Makes one capture. It keeps a table of its own beside it, so that it knows
/// where each session stands and can aim at the edges.
struct Maker {
    random: Random,
    table: Table,
    capture: Vec<u8>,
    records: u64,
    style: Style,
    circuits: Vec<Circuit>,
    period: u32,
    /// The clock has been brought near the largest reading.
    late: bool,
}

/// The capture for a seed.
pub fn capture(seed: u64) -> Vec<u8> {
    let mut maker = Maker::new(seed);
    if maker.random.chance(3) && !maker.spoil_header() {
        return maker.capture;
    }
    maker.open_at_first();
    let target = maker.random.between(150, 900);
    let approaches_largest = maker.random.chance(25);
    while maker.records < target {
        if approaches_largest && !maker.late && maker.records > target * 3 / 4 {
            maker.approach_largest_reading();
        }
        maker.next_scenario();
    }
    maker.end();
    maker.capture
}

/// The capture for a seed in which ends and readings tie, for questions after
/// their causes.
pub fn tied(seed: u64) -> Vec<u8> {
    let mut maker = Maker::with_ties(seed);
    if maker.random.chance(2) && !maker.spoil_header() {
        return maker.capture;
    }
    maker.open_at_first();
    let target = maker.random.between(20, 90);
    let approaches_largest = maker.random.chance(15);
    while maker.records < target {
        if approaches_largest && !maker.late && maker.records > target / 2 {
            maker.approach_largest_reading();
        }
        maker.next_tie();
    }
    maker.leave_standing();
    maker.end();
    maker.capture
}

/// The capture for a seed in which CCs come early, late, together and far apart.
pub fn spaced(seed: u64) -> Vec<u8> {
    let mut maker = Maker::with_spacings(seed);
    if maker.random.chance(2) && !maker.spoil_header() {
        return maker.capture;
    }
    maker.open_at_first();
    let target = maker.random.between(10, 120);
    while maker.records < target {
        maker.next_spacing();
    }
    // What comes behind a leap may add to the sizes, so at times it comes last.
    if maker.random.chance(30) {
        maker.leap();
    }
    maker.end();
    maker.capture
}

/// A list of calls on groups for a seed, with so many calls and what this program
/// answers to each.
pub fn groups(seed: u64, calls: u64) -> Result<String, Mistake> {
    groups::list(seed, calls)
}

/// Two captures for a seed that differ in little, or not at all.
pub fn compared(seed: u64) -> [Vec<u8>; 2] {
    compares::pair(seed, &tied(seed))
}

/// The log for a seed: its capture with the answers that the table gives.
pub fn logged(seed: u64) -> Vec<u8> {
    let capture = logs::with_runs(seed, &capture(seed));
    // It has whole records alone, and not too many of them.
    log_of(&capture).unwrap_or_default()
}

impl Maker {
    fn new(seed: u64) -> Maker {
        let mut random = Random::new(seed);
        let styles = [
            Style::Mixed,
            Style::Mixed,
            Style::Steady,
            Style::Faults,
            Style::Damage,
            Style::Edges,
            Style::Edges,
        ];
        let style = random.pick(&styles);
        let count = random.pick(&[1, 1, 2, 2, 8, 8, 33, 33, 64, 66, 80]);
        let usual = random.pick(&[1_000, 3_333, 10_000, 100_000, 1_000_000, 1_000_000]);
        let any = random.between(1_000, 10_000_000) as u32;
        let period = random.pick(&[usual, usual, usual, 10_000_000, any]);
        let circuits = circuits::circuits(&mut random, count);
        Maker {
            random,
            table: Table::new(),
            capture: HEADER.to_vec(),
            records: 0,
            style,
            circuits,
            period,
            late: false,
        }
    }

    /// Appends a record and does its call on the maker's own table.
    fn call(&mut self, kind: Kind, time: u64, label: u32, body: &[u8]) -> Answer {
        let record = Record {
            time,
            label,
            kind,
            body,
        };
        record.append_to(&mut self.capture);
        self.records += 1;
        self.table.perform(&record)
    }

    /// Opens most circuits; where there are many, nearly all of them.
    fn open_at_first(&mut self) {
        let few = self.circuits.len() < SESSIONS_OF_ONE;
        let percent = if few { 92 } else { 99 };
        for at in 0..self.circuits.len() {
            if self.random.chance(percent) {
                let circuit = self.circuits[at];
                let body = self.good_open_body(&circuit);
                let time = self.table.clock() + self.random.below(3);
                self.call(Kind::Open, time, circuit.label, &body);
            }
        }
    }

    /// Brings the clock near the largest reading.
    fn approach_largest_reading(&mut self) {
        let distances = [0, 1, 2, 3_000_000, 3_500_000, 7_000_000, 80_000_000];
        let nearest = self.random.pick(&distances);
        let spread = self.random.pick(&[0, 0, 50_000_000]);
        let distance = nearest + self.random.below(spread + 1);
        self.late = true;
        self.call(Kind::Tick, LARGEST_READING - distance, 0, &[]);
    }

    /// One of the circuits, rather an open one.
    fn pick_circuit(&mut self) -> Circuit {
        let circuits = &self.circuits;
        let first = circuits[self.random.below(circuits.len() as u64) as usize];
        if self.table.session(first.label).is_some() {
            return first;
        }
        circuits[self.random.below(circuits.len() as u64) as usize]
    }

    fn session(&self, circuit: &Circuit) -> Option<&Session> {
        self.table.session(circuit.label)
    }

    /// A label that mostly is not open.
    fn odd_label(&mut self) -> u32 {
        let ours = [0, 1, 15, 16, 17, 499_999];
        let theirs = [500_000, 1_048_575, 1_048_576, u32::MAX];
        let free = self.random.between(16, 1_048_575) as u32;
        let known = self.pick_circuit().label;
        let (ours, theirs) = (self.random.pick(&ours), self.random.pick(&theirs));
        self.random
            .pick(&[ours, theirs, free, known ^ 1, known | 1 << 24])
    }

    /// A body that nobody reads: mostly empty, at times of any length.
    fn unread_body(&mut self) -> Vec<u8> {
        let length = match self.random.below(40) {
            0 => self.random.between(0, 2_048),
            1 => 2_048,
            2..=4 => self.random.between(1, 40),
            _ => 0,
        };
        self.random.octets(length as usize)
    }
}
