//! Counts of what the made captures contain.

use crate::capture::{Kind, Next, Reader, Record};
use crate::edges::{self, Edge};
use crate::make;
use crate::mep_id::{LONGEST_VALUE, PSEUDOWIRE, SECTION};
use crate::message::{self, Message, State};
use crate::party::{Party, SESSIONS_OF_ONE};
use crate::places;
use crate::session::{Report, Session};
use crate::table::{Answer, Table, LARGEST_READING};
use std::io;

const KINDS: [&str; 9] = [
    "tick", "open", "close", "lock", "unlock", "receive", "report", "write CC", "write CV",
];
const STATES: [&str; 4] = ["ADMIN DOWN", "DOWN", "INIT", "UP"];
const DEFECTS: [&str; 7] = [
    "crossing (misconnectivity)",
    "loss",
    "alarm",
    "held back (loss without alarm)",
    "remote defect",
    "blocked",
    "none of these",
];
const EDGES: [&str; 3] = ["detection time", "misconnectivity", "condition"];
const WAYS: [&str; 3] = ["any call", "message on it", "seen on it"];
const EXTRAS: [&str; 23] = [
    "accepted CC",
    "accepted CV",
    "accepted AIS or LKR",
    "accepted with padding",
    "accepted with Length above 24",
    "written with F",
    "sessions open at a call: 64",
    "sessions UP at a call: more than half",
    "CC held down by a crossing",
    "CC held down by a condition alone",
    "CC held down that would have led to INIT or UP",
    "crossed in INIT",
    "R beside a condition that differs in Global_ID alone",
    "condition beside one that differs in Global_ID alone",
    "crossed by a pseudowire on a Section session",
    "crossed by a pseudowire on an LSP session",
    "accepted pseudowire with an AGI of 0",
    "accepted pseudowire with an AGI of 32",
    "accepted pseudowire with the expected numbers",
    "opened with a discriminator that the other party has open",
    "opened while all 32 of the other party are open",
    "12 while the other party has fewer than 32 open",
    "12 while the other party has 32 open",
];
const ENDS: [&str; 3] = ["whole", "cut", "bad header"];

/// One before, at, one after.
type Sides = [u64; 3];

#[derive(Default)]
struct Counts {
    answers: [[u64; 27]; 9],
    places: [u64; places::NAMES.len()],
    states: [u64; 4],
    defects: [u64; 7],
    conditions: [u64; 5],
    diagnostics: [u64; 32],
    edges: [[Sides; 3]; 3],
    clock: Sides,
    largest: Sides,
    extras: [u64; EXTRAS.len()],
    ends: [u64; 3],
}

/// Prints what the captures of seeds 1 to `count` contain.
pub fn cover(count: u64, output: &mut impl io::Write) -> io::Result<()> {
    let mut counts = Counts::default();
    for seed in 1..=count {
        counts.add_capture(&make::capture(seed))?;
    }
    counts.print(output)
}

impl Counts {
    fn add_capture(&mut self, capture: &[u8]) -> io::Result<()> {
        let Some(mut reader) = Reader::start(capture)? else {
            self.ends[2] += 1;
            return Ok(());
        };
        let mut table = Table::new();
        loop {
            match reader.next_record()? {
                Next::Record(record) => self.add_record(&mut table, &record),
                Next::End => {
                    self.ends[0] += 1;
                    return Ok(());
                }
                Next::Cut => {
                    self.ends[1] += 1;
                    return Ok(());
                }
            }
        }
    }

    fn add_record(&mut self, table: &mut Table, record: &Record) {
        let before: Vec<Session> = table.sessions().cloned().collect();
        let clock = table.clock();
        let answer = table.perform(record);
        self.answers[record.kind as usize][usize::from(answer.number())] += 1;
        if record.kind.brings_reading() {
            side(&mut self.clock, record.time, clock);
            side(&mut self.largest, record.time, LARGEST_READING);
        }
        if answer.is_accepted() {
            self.add_edges(&before, clock, record);
            self.add_accepted(&before, record);
        }
        if record.kind == Kind::Open {
            self.add_open(&before, record, answer.number());
        }
        match &answer {
            Answer::Report(report) => self.add_report(report),
            Answer::Written(written) => self.add_written(written.octets()),
            Answer::Refused(refused) => {
                if let Some(place) = places::number(refused, record.body) {
                    self.places[place] += 1;
                }
            }
            // No record asks a group.
            Answer::Accepted | Answer::Group(_) => {}
        }
    }

    /// Counts how the reading, or the clock for a report or write, lies to
    /// the edges of the sessions as they were before the call.
    fn add_edges(&mut self, before: &[Session], clock: u64, record: &Record) {
        for session in before {
            let own = session.settings.label == record.label;
            for (edge, at) in edges::of(session) {
                let ways = &mut self.edges[edge_number(edge)];
                if record.kind.brings_reading() {
                    side(&mut ways[0], record.time, at);
                    if own && record.kind == Kind::Receive {
                        side(&mut ways[1], record.time, at);
                    }
                } else if own {
                    side(&mut ways[2], clock, at);
                }
            }
        }
    }

    /// Counts opens that the other party's sessions could have something to do with.
    fn add_open(&mut self, before: &[Session], record: &Record, answer: u8) {
        let party = Party::of(record.label);
        let others = || before.iter().filter(|s| !party.owns(s.settings.label));
        let full = others().count() == SESSIONS_OF_ONE;
        let own = |s: &Session| {
            record
                .body
                .starts_with(&s.settings.discriminator.to_be_bytes())
        };
        self.extras[19] += u64::from(answer == 0 && others().any(own));
        self.extras[20] += u64::from(answer == 0 && full);
        self.extras[21] += u64::from(answer == 12 && !full);
        self.extras[22] += u64::from(answer == 12 && full);
    }

    fn add_accepted(&mut self, before: &[Session], record: &Record) {
        let up = before.iter().filter(|s| s.state == State::Up);
        self.extras[6] += u64::from(before.len() == 64);
        self.extras[7] += u64::from(2 * up.count() > before.len());
        if record.kind != Kind::Receive {
            return;
        }
        let body = record.body;
        let Ok(read) = message::read(body) else {
            return;
        };
        let kind = match read.message {
            Message::Cc(_) => 0,
            Message::Cv(..) => 1,
            Message::Fault(_) => 2,
        };
        self.extras[kind] += 1;
        self.extras[3] += u64::from(body.len() > read.used);
        self.extras[4] += u64::from(kind < 2 && body[7] > 24);
        if let Some(session) = before.iter().find(|s| s.settings.label == record.label) {
            self.add_held(session, &read.message, record.time);
            self.add_carriers(session, &read.message, record.time);
            self.add_pseudowire(session, &read.message);
        }
    }

    /// Counts the pseudowires that a session of another type meets.
    fn add_pseudowire(&mut self, session: &Session, message: &Message) {
        let expected = session.settings.expected;
        match message {
            Message::Cv(_, source) if source.kind() == PSEUDOWIRE => {
                let section = expected.kind() == SECTION;
                self.extras[14] += u64::from(section);
                self.extras[15] += u64::from(!section);
                self.extras[16] += u64::from(source.value().len() == 14);
                self.extras[17] += u64::from(source.value().len() == LONGEST_VALUE);
                self.extras[18] += u64::from(source.value()[..12] == *expected.value());
            }
            _ => {}
        }
    }

    /// Counts fault messages that a condition of another Global_ID meets.
    fn add_carriers(&mut self, session: &Session, message: &Message, now: u64) {
        let Message::Fault(fault) = message else {
            return;
        };
        let beside = session.standing(now).any(|condition| {
            condition.key.kind == fault.kind
                && condition.key.origin.interface == fault.origin.interface
                && condition.key.origin.global != fault.origin.global
        });
        self.extras[12] += u64::from(beside && fault.clear);
        self.extras[13] += u64::from(beside && !fault.clear);
    }

    /// Counts what an accepted BFD message meets that is or becomes held down.
    fn add_held(&mut self, session: &Session, message: &Message, now: u64) {
        if session.settings.is_misconnected(message) {
            let in_init = session.state == State::Init && !session.has_loss(now);
            self.extras[11] += u64::from(in_init);
        } else if let Message::Cc(bfd) = message {
            let held = session.is_held_down(now);
            let crossing = session.has_misconnectivity(now);
            let leads_up = matches!(bfd.state, State::Down | State::Init);
            self.extras[8] += u64::from(crossing);
            self.extras[9] += u64::from(held && !crossing);
            self.extras[10] += u64::from(held && leads_up);
        }
    }

    fn add_report(&mut self, report: &Report) {
        self.states[report.state as usize] += 1;
        self.conditions[report.conditions] += 1;
        let suppressed = report.loss && !report.alarm;
        let quiet = !report.misconnectivity && !report.loss && !report.remote_defect;
        let seen = [
            report.misconnectivity,
            report.loss,
            report.alarm,
            suppressed,
            report.remote_defect,
            report.blocked,
            quiet,
        ];
        for (count, seen) in self.defects.iter_mut().zip(seen) {
            *count += u64::from(seen);
        }
    }

    fn add_written(&mut self, octets: &[u8]) {
        self.diagnostics[usize::from(octets[4] & 31)] += 1;
        self.extras[5] += u64::from(octets[5] & 0x10 != 0);
    }

    fn print(&self, output: &mut impl io::Write) -> io::Result<()> {
        self.print_answers(output)?;
        print_named(output, "place", &places::NAMES, &self.places)?;
        print_named(output, "reported state", &STATES, &self.states)?;
        print_named(output, "reported", &DEFECTS, &self.defects)?;
        let numbers: Vec<String> = (0..5).map(|n| n.to_string()).collect();
        print_named(output, "conditions reported", &numbers, &self.conditions)?;
        self.print_diagnostics(output)?;
        self.print_edges(output)?;
        print_named(output, "also", &EXTRAS, &self.extras)?;
        print_named(output, "captures that end", &ENDS, &self.ends)
    }

    /// Answers in lines, kinds of record in columns, with totals.
    fn print_answers(&self, output: &mut impl io::Write) -> io::Result<()> {
        write!(output, "{:>8}", "answer")?;
        for kind in KINDS {
            write!(output, "{kind:>9}")?;
        }
        writeln!(output, "{:>9}", "all")?;
        for answer in (0..15).chain([24, 25, 26]) {
            let row: Vec<u64> = self.answers.iter().map(|kind| kind[answer]).collect();
            print_row(output, &answer.to_string(), &row)?;
        }
        let totals: Vec<u64> = self.answers.iter().map(|k| k.iter().sum()).collect();
        print_row(output, "all", &totals)
    }

    fn print_diagnostics(&self, output: &mut impl io::Write) -> io::Result<()> {
        let named = [0, 1, 3, 5, 7, 9];
        for number in named {
            let count = self.diagnostics[number];
            writeln!(output, "diagnostic written: {number}: {count}")?;
        }
        let all: u64 = self.diagnostics.iter().sum();
        let others = all - named.iter().map(|&n| self.diagnostics[n]).sum::<u64>();
        writeln!(output, "diagnostic written: others: {others}")
    }

    fn print_edges(&self, output: &mut impl io::Write) -> io::Result<()> {
        writeln!(output, "readings beside edges: one before, at, one after")?;
        for (edge, ways) in EDGES.iter().zip(&self.edges) {
            for (way, sides) in WAYS.iter().zip(ways) {
                print_sides(output, &format!("{edge}, {way}"), sides)?;
            }
        }
        print_sides(output, "clock", &self.clock)?;
        print_sides(output, "largest reading", &self.largest)
    }
}

/// Counts a reading that lies at an edge or one beside it.
fn side(sides: &mut Sides, reading: u64, edge: u64) {
    if reading.checked_add(1) == Some(edge) {
        sides[0] += 1;
    } else if reading == edge {
        sides[1] += 1;
    } else if edge.checked_add(1) == Some(reading) {
        sides[2] += 1;
    }
}

fn edge_number(edge: Edge) -> usize {
    match edge {
        Edge::Detection => 0,
        Edge::Misconnectivity => 1,
        Edge::Condition => 2,
    }
}

fn print_row(output: &mut impl io::Write, name: &str, row: &[u64]) -> io::Result<()> {
    write!(output, "{name:>8}")?;
    for count in row {
        write!(output, "{count:>9}")?;
    }
    writeln!(output, "{:>9}", row.iter().sum::<u64>())
}

fn print_named(
    output: &mut impl io::Write,
    title: &str,
    names: &[impl AsRef<str>],
    counts: &[u64],
) -> io::Result<()> {
    for (name, count) in names.iter().zip(counts) {
        writeln!(output, "{title}: {}: {count}", name.as_ref())?;
    }
    Ok(())
}

fn print_sides(output: &mut impl io::Write, name: &str, sides: &Sides) -> io::Result<()> {
    let [before, at, after] = sides;
    writeln!(output, "  {name}: {before}, {at}, {after}")
}
