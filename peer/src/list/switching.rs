//! What the calls of a list do to groups, counted: each event that a PW hears of,
//! each row of Table 1, and each answer.

use super::{done, Call, Line};
use crate::capture::Kind;
use crate::dhc;
use crate::group::{Activity, Role};
use crate::message;
use crate::party::Party;
use crate::session::{Session, MISCONNECTIVITY_TIME};
use crate::table::{Answer, GroupCall, GroupName, Table};
use std::collections::BTreeMap;
use std::io::{self, Write};

const EVENTS: [&str; 15] = [
    "set, neither loss nor crossing",
    "set, loss",
    "set, crossing alone",
    "return, neither loss nor crossing",
    "return, loss",
    "return, crossing alone",
    "loss looked for",
    "crossed",
    "DHC, S",
    "DHC, F without S",
    "DHC, neither",
    "AC",
    "lock of the service PW",
    "unlock of the service PW",
    "close of the service PW",
];
const SET: usize = 0;
const RETURN: usize = 3;
const LOSS: usize = 6;
const CROSSED: usize = 7;
const COORDINATED: usize = 8;
const AC: usize = 11;
/// Role and PW before the call; of a group that is set, its PW then.
const GROUPS: [&str; 4] = [
    "working, active",
    "working, standby",
    "protection, active",
    "protection, standby",
];
/// PW and AC.
const ROWS: [&str; 4] = [
    "active, active",
    "active, standby",
    "standby, active",
    "standby, standby",
];
const DNI_PWS: [&str; 5] = ["locked", "DOWN", "INIT", "UP", "closed"];
const EDGES: [&str; 4] = [
    "loss of a working PW that is active: the last reading without",
    "loss of a working PW that is active: the first reading with",
    "crossing at a working PE's return: the last reading with",
    "crossing at a working PE's return: the first reading without",
];

#[derive(Clone, Debug, Default)]
pub struct Switching {
    pub events: [[u64; GROUPS.len()]; EVENTS.len()],
    pub rows: [[u64; DNI_PWS.len()]; ROWS.len()],
    pub edges: [u64; EDGES.len()],
    /// By kind of call and answer.
    pub answers: BTreeMap<(&'static str, u8), u64>,
}

impl Switching {
    /// Counts what a list does, from an empty table.
    pub fn add(&mut self, lines: &[Line]) -> Result<(), String> {
        let mut table = Table::new();
        for line in lines {
            let before: Vec<Session> = table.sessions().cloned().collect();
            if let Some(answer) = done(&mut table, line)? {
                self.add_answer(line, answer.number());
                self.add_told(&table, line, &answer);
                if answer.is_accepted() {
                    self.add_accepted(&before, &table, line);
                }
            }
        }
        Ok(())
    }

    fn add_answer(&mut self, line: &Line, number: u8) {
        let kind = match line {
            Line::Call(call) if is_dhc(call) => "DHC message",
            Line::Group(on) => match on.call {
                GroupCall::Set { .. } => "group",
                GroupCall::Ac { .. } => "ac",
                GroupCall::Return { .. } => "return",
                GroupCall::Ask { .. } => "ask",
            },
            _ => "other calls",
        };
        *self.answers.entry((kind, number)).or_default() += 1;
    }

    /// Counts a row of Table 1 by how the DNI-PW is.
    fn add_told(&mut self, table: &Table, line: &Line, answer: &Answer) {
        let (Line::Group(on), Answer::Group(told)) = (line, answer) else {
            return;
        };
        let sessions: Vec<Session> = table.sessions().cloned().collect();
        let dni = group_of(&sessions, on.call.name()).map(|session| session.group.dni);
        let dni_pw = dni.and_then(|label| table.session(label));
        let column = dni_pw.map_or(4, |session| session.state as usize);
        let row = 3 - usize::from(2 * told.pw.0 + told.ac.0);
        self.rows[row][column] += 1;
    }

    fn add_accepted(&mut self, before: &[Session], table: &Table, line: &Line) {
        let reading = match line {
            Line::Call(call) => call.kind.brings_reading().then_some(call.time),
            Line::Group(on) => on.call.reading(),
            _ => None,
        };
        let Some(now) = reading else { return };
        for session in before.iter().filter(|s| s.group.is_there()) {
            if session.has_loss(now) {
                self.count(LOSS, session);
            }
            self.add_edge_of_loss(session, now);
        }
        match line {
            Line::Call(call) => self.add_call(before, call),
            Line::Group(on) => self.add_group_call(before, table, &on.call, now),
            _ => {}
        }
    }

    fn count(&mut self, event: usize, session: &Session) {
        self.events[event][group_number(session)] += 1;
    }

    fn add_edge_of_loss(&mut self, session: &Session, now: u64) {
        if session.is_timed() && group_number(session) == 0 {
            let end = session.detection_end();
            self.edges[0] += u64::from(now == end);
            self.edges[1] += u64::from(now == end + 1);
        }
    }

    /// A call that a capture has too: a DHC message is the named group's, any
    /// other that of its label.
    fn add_call(&mut self, before: &[Session], call: &Call) {
        if is_dhc(call) {
            return self.add_coordinated(before, call);
        }
        let own = |s: &&Session| s.group.is_there() && s.settings.label == call.label;
        let Some(session) = before.iter().find(own) else {
            return;
        };
        match call.kind {
            Kind::Receive => {
                let read = message::read(&call.body);
                if read.is_ok_and(|read| session.settings.is_misconnected(&read.message)) {
                    self.count(CROSSED, session);
                }
            }
            Kind::Lock => self.count(AC + 1, session),
            Kind::Unlock => self.count(AC + 2, session),
            Kind::Close => self.count(AC + 3, session),
            _ => {}
        }
    }

    fn add_coordinated(&mut self, before: &[Session], call: &Call) {
        let Ok(dhc) = dhc::read(&call.body) else {
            return;
        };
        let party = Party::of(call.label);
        let id = dhc.group;
        if let Some(session) = group_of(before, GroupName { party, id }) {
            let part = match (dhc.switches(), dhc.fails()) {
                (true, _) => 0,
                (false, true) => 1,
                (false, false) => 2,
            };
            self.count(COORDINATED + part, session);
        }
    }

    fn add_group_call(&mut self, before: &[Session], table: &Table, call: &GroupCall, now: u64) {
        let after: Vec<Session> = table.sessions().cloned().collect();
        let (event, sessions) = match call {
            GroupCall::Set { .. } => (SET, &after[..]),
            GroupCall::Return { .. } => (RETURN, before),
            GroupCall::Ac { .. } => (AC, before),
            GroupCall::Ask { .. } => return,
        };
        let Some(session) = group_of(sessions, call.name()) else {
            return;
        };
        let defect = match (session.has_loss(now), session.has_misconnectivity(now)) {
            _ if event == AC => 0,
            (true, _) => 1,
            (false, true) => 2,
            (false, false) => 0,
        };
        self.count(event + defect, session);
        if event == RETURN && session.group.role == Role::WORKING {
            let end = session.last_misconnected.map(|d| d + MISCONNECTIVITY_TIME);
            self.edges[2] += u64::from(end == Some(now + 1));
            self.edges[3] += u64::from(end == Some(now));
        }
    }

    pub fn print(&self, output: &mut impl Write) -> io::Result<()> {
        print_table(output, &GROUPS, &EVENTS, &self.events)?;
        print_table(output, &DNI_PWS, &ROWS, &self.rows)?;
        for (name, times) in EDGES.iter().zip(self.edges) {
            writeln!(output, "{name}: {times}")?;
        }
        for ((kind, answer), times) in &self.answers {
            writeln!(output, "{kind}, answered {answer}: {times}")?;
        }
        Ok(())
    }
}

fn print_table<const N: usize>(
    output: &mut impl Write,
    columns: &[&str; N],
    names: &[&str],
    rows: &[[u64; N]],
) -> io::Result<()> {
    write!(output, "{:34}", "")?;
    for column in columns {
        write!(output, "{column:>21}")?;
    }
    writeln!(output)?;
    for (name, row) in names.iter().zip(rows) {
        write!(output, "{name:34}")?;
        for times in row {
            write!(output, "{times:>21}")?;
        }
        writeln!(output)?;
    }
    Ok(())
}

fn is_dhc(call: &Call) -> bool {
    let channel = || message::channel(&call.body);
    call.kind == Kind::Receive && channel() == Ok(message::CHANNEL_DHC)
}

/// The service PW of a group.
fn group_of(sessions: &[Session], name: GroupName) -> Option<&Session> {
    sessions.iter().find(|session| {
        let group = &session.group;
        group.is_there() && group.id == name.id && name.party.owns(session.settings.label)
    })
}

/// The place of a group among the four.
fn group_number(session: &Session) -> usize {
    let standby = session.group.pw == Activity::STANDBY;
    usize::from(2 * session.group.role.0) + usize::from(standby)
}
