//! How often the calls of a list play each cell of the three machines: a mode,
//! a state and an input.

use super::{done, Call, Line};
use crate::capture::Kind;
use crate::message::{self, FaultKind, Message, State};
use crate::session::Session;
use crate::table::Table;
use std::io::{self, Write};

const MODES: [&str; 3] = ["coordinated", "source", "sink"];
const STATES: [&str; 5] = ["ADMIN DOWN", "DOWN", "INIT", "UP", "DOWN, 3"];
/// The four received states are numbered as states are.
const INPUTS: [&str; 10] = [
    "ADMIN DOWN",
    "DOWN",
    "INIT",
    "UP",
    "TIMER",
    "LDI",
    "LKR",
    "crossed",
    "lock",
    "unlock",
];

#[derive(Clone, Debug, Default)]
pub struct Cells {
    times: [[[u64; INPUTS.len()]; STATES.len()]; MODES.len()],
}

impl Cells {
    /// Counts what the calls of a list play, from an empty table.
    pub fn add(&mut self, lines: &[Line]) -> Result<(), String> {
        let mut table = Table::new();
        for line in lines {
            if let Line::Call(call) = line {
                self.add_call(&table, call);
            }
            done(&mut table, line)?;
        }
        Ok(())
    }

    /// A tick is every session's, any other call that of its label, if the label
    /// is the caller's own.
    fn add_call(&mut self, table: &Table, call: &Call) {
        let own = call.beside.party.owns(call.label);
        for session in table.sessions() {
            if call.kind == Kind::Tick || own && session.settings.label == call.label {
                self.add_input(session, call);
            }
        }
    }

    fn add_input(&mut self, session: &Session, call: &Call) {
        let mode = self.times.get_mut(usize::from(session.settings.mode.0));
        if let (Some(states), Some(input)) = (mode, input(session, call)) {
            states[state(session)][input] += 1;
        }
    }

    /// How often the rarest cell is played.
    pub fn least(&self) -> u64 {
        let cells = self.times.iter().flatten().flatten();
        cells.copied().min().unwrap_or(0)
    }

    pub fn print(&self, output: &mut impl Write) -> io::Result<()> {
        write!(output, "{:24}", "")?;
        for input in INPUTS {
            write!(output, "{input:>11}")?;
        }
        writeln!(output)?;
        for (mode, states) in MODES.iter().zip(&self.times) {
            for (state, inputs) in STATES.iter().zip(states) {
                write!(output, "{:24}", format!("{mode}, {state}"))?;
                for times in inputs {
                    write!(output, "{times:>11}")?;
                }
                writeln!(output)?;
            }
        }
        writeln!(output, "the rarest is played {} times", self.least())
    }
}

/// The place of a session's state; DOWN by a received state is one of its own.
fn state(session: &Session) -> usize {
    match session.state {
        State::Down if session.taken_down_by_peer => 4,
        state => state as usize,
    }
}

/// The place of an input; nothing where a call is none. Silence counts as TIMER
/// where TIMER is not given too: in ADMIN DOWN, and to a source in UP.
fn input(session: &Session, call: &Call) -> Option<usize> {
    match call.kind {
        Kind::Tick => (call.time > session.detection_end()).then_some(4),
        Kind::Receive => received(session, &call.body),
        Kind::Lock => Some(8),
        Kind::Unlock => Some(9),
        _ => None,
    }
}

fn received(session: &Session, octets: &[u8]) -> Option<usize> {
    let settings = &session.settings;
    match message::read(octets).ok()?.message {
        message if settings.is_misconnected(&message) => Some(7),
        Message::Cc(bfd) => Some(bfd.state as usize),
        Message::Fault(fault) if !fault.clear => match fault.kind {
            FaultKind::AlarmIndication => {
                (settings.follows_link_down && fault.link_down).then_some(5)
            }
            FaultKind::LockReport => settings.follows_lock.then_some(6),
        },
        _ => None,
    }
}
