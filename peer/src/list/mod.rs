//! Lists of calls on a table, for what no capture can say: one call to a line,
//! in the notation of the captures' texts with a few words more.
//!
//! ```text
//! TIME LABEL KIND .. party=NUMBER => ANSWER    # remark
//! TIME LABEL open .. mode=NUMBER party=NUMBER => ANSWER
//! TIME SERVICE group id=ID role=NUMBER peer=NODE dni=LABEL party=NUMBER => ANSWER
//! TIME - ac id=ID ac=NUMBER party=NUMBER => ANSWER
//! TIME - return id=ID party=NUMBER => ANSWER
//! - - ask id=ID party=NUMBER => ANSWER
//! spoil PLACE FIELD VALUE
//! ```
//!
//! A list begins with an empty table. `party=` is who calls, the label's own
//! party where none is named, and 0 where there is no label; a tick names none.
//! `mode=` is the mode of an open, 0 where none is named. `group` sets a group on
//! the label SERVICE, role 0 working and 1 protection; `ac` sets its AC, 0 standby
//! and 1 active; `ask` is answered `0 PW AC FORWARDING`. `spoil` changes a stored
//! session past every call.

mod cells;
mod group;
mod play;
mod spoil;
mod switching;

use crate::assemble::{self, call_of, without_remark, Mistake, Words};
use crate::capture::{Kind, Record};
use crate::machine::Mode;
use crate::party::Party;
use crate::table::Beside;
pub use cells::Cells;
pub use group::OnGroup;
pub use play::{answer, done, play, text, Played};
pub use spoil::Spoil;
use std::io;
use std::path::{Path, PathBuf};
pub use switching::Switching;

/// A line of a list.
#[derive(Clone, Debug, PartialEq, Eq)]
pub enum Line {
    /// A line without words.
    Blank,
    Call(Call),
    Group(OnGroup),
    Spoil(Spoil),
}

/// A call, and what is to be answered where the list says so.
#[derive(Clone, Debug, PartialEq, Eq)]
pub struct Call {
    pub time: u64,
    pub label: u32,
    pub kind: Kind,
    pub body: Vec<u8>,
    pub beside: Beside,
    pub answer: Option<String>,
}

impl Call {
    pub fn record(&self) -> Record<'_> {
        Record {
            time: self.time,
            label: self.label,
            kind: self.kind,
            body: &self.body,
        }
    }
}

/// The lists of a folder, by name.
pub fn of_folder(folder: &Path) -> io::Result<Vec<PathBuf>> {
    let entries = std::fs::read_dir(folder)?;
    let mut paths = entries
        .map(|entry| entry.map(|entry| entry.path()))
        .collect::<io::Result<Vec<_>>>()?;
    paths.retain(|path| path.extension().is_some_and(|ending| ending == "calls"));
    paths.sort();
    Ok(paths)
}

/// The lines of a list, or its first mistake with the number of its line.
pub fn read(text: &str) -> Result<Vec<Line>, Mistake> {
    let lines = text.lines().enumerate();
    lines
        .map(|(number, line)| {
            line_of(line).map_err(|mistake| format!("line {}: {mistake}", number + 1))
        })
        .collect()
}

pub fn line_of(line: &str) -> Result<Line, Mistake> {
    let mut words = Words::of(call_of(line));
    let read = match words.first() {
        None => Line::Blank,
        Some("spoil") => Line::Spoil(spoil::read(&mut words)?),
        Some(time) => call(time, &mut words, answer_of(line))?,
    };
    words.end()?;
    Ok(read)
}

/// What a list says is answered, with one space between its words.
fn answer_of(line: &str) -> Option<String> {
    let (_, answer) = without_remark(line).split_once("=>")?;
    Some(answer.split_whitespace().collect::<Vec<_>>().join(" "))
}

fn call(time: &str, words: &mut Words, answer: Option<String>) -> Result<Line, Mistake> {
    let time = assemble::read(time)?;
    let label = assemble::read(words.first().ok_or("no label")?)?;
    let kind = words.first().ok_or("no kind")?;
    if let Some(call) = group::read(kind, time, label, words)? {
        return Ok(Line::Group(OnGroup { call, answer }));
    }
    let kind = assemble::kind_of(kind)?;
    let beside = beside(label, kind, words)?;
    Ok(Line::Call(Call {
        time,
        label,
        kind,
        body: assemble::body_of(kind, words)?,
        beside,
        answer,
    }))
}

/// The words of a call that a capture has none for.
fn beside(label: u32, kind: Kind, words: &mut Words) -> Result<Beside, Mistake> {
    let mut beside = Beside::of(label);
    if kind != Kind::Tick {
        beside.party = Party(words.number("party", beside.party.0)?);
    }
    if kind == Kind::Open {
        beside.mode = Mode(words.number("mode", beside.mode.0)?);
    }
    Ok(beside)
}

/// The same list line for line, for a host that reads no words: every body in
/// octets, every number of a group named, nothing left out.
pub fn spell(lines: &[Line]) -> String {
    lines.iter().map(|line| spelled(line) + "\n").collect()
}

fn spelled(line: &Line) -> String {
    match line {
        Line::Blank => String::new(),
        Line::Spoil(spoil) => spoil.to_string(),
        Line::Group(on) => answered(group::spelled(&on.call), &on.answer),
        Line::Call(call) => answered(spelled_call(call), &call.answer),
    }
}

fn spelled_call(call: &Call) -> String {
    let Call {
        time, label, body, ..
    } = call;
    let kind = assemble::name_of(call.kind);
    let beside = match (call.kind, call.beside.party.0) {
        (Kind::Tick, _) => String::new(),
        (Kind::Open, party) => format!(" mode={} party={party}", call.beside.mode.0),
        (_, party) => format!(" party={party}"),
    };
    let hex: String = body.iter().map(|octet| format!("{octet:02x}")).collect();
    format!("{time} {label} {kind}{beside} hex {hex}")
}

fn answered(call: String, answer: &Option<String>) -> String {
    match answer {
        Some(answer) => format!("{call} => {answer}"),
        None => call,
    }
}
