//! Every change of a circuit, with its exact reading and its cause. Nothing is
//! decided here: what changed is read off reports of `watch`, and causes are
//! answers of `why`.

pub(crate) mod accepted;
mod causes;
mod changes;
pub mod clock;
mod command;
mod copy;
mod dates;
mod find;
mod stream;
mod walk;
mod words;

use crate::cli::{Done, Failure};

/// The seven numbers of a report.
#[derive(Clone, Copy, Debug, PartialEq, Eq)]
pub struct Shown {
    pub state: u8,
    pub crossing: bool,
    pub loss: bool,
    pub alarm: bool,
    pub remote_defect: bool,
    pub blocked: bool,
    pub conditions: u8,
}

/// What changed. A state comes behind every `Opened`; what stands at a `Closed`
/// ends with the session, and no events of their own say so.
#[derive(Clone, Copy, Debug, PartialEq, Eq)]
pub enum What {
    Opened,
    Closed,
    State(u8),
    Loss(bool),
    Alarm(bool),
    HeldBack(bool),
    Crossing(bool),
    RemoteDefect(bool),
}

/// A change of one circuit at one reading.
#[derive(Clone, Debug, PartialEq, Eq)]
pub struct Event {
    pub label: u32,
    pub reading: u64,
    /// The record of the capture that brought it; none where no record stands at that reading.
    pub record: Option<u64>,
    pub what: What,
    pub cause: Option<Cause>,
}

/// What `why` answers: the three lines, with the capture's own record numbers.
#[derive(Clone, Debug, PartialEq, Eq)]
pub struct Cause {
    pub record: u64,
    pub reading: u64,
    /// What stands behind `which: record R at T, `.
    pub words: String,
    /// What stands behind `how old: `.
    pub age: String,
    /// What stands behind `ends: `.
    pub ends: String,
}

/// Which events are wanted: of one label or all, of readings from `from` to `to`, both included.
#[derive(Clone, Debug)]
pub struct Options {
    pub label: Option<u32>,
    pub from: u64,
    pub to: u64,
    pub causes: bool,
}

impl Default for Options {
    fn default() -> Options {
        Options {
            label: None,
            from: 0,
            to: u64::MAX,
            causes: true,
        }
    }
}

/// What is wrong with a capture, if it does not end behind a whole record.
#[derive(Clone, Copy, Debug, PartialEq, Eq)]
pub enum Damage {
    BadHeader,
    /// What stands at this offset is no whole record.
    Cut {
        offset: u64,
    },
}

/// How the capture ends, and what was left out.
#[derive(Clone, Copy, Debug, Default, PartialEq, Eq)]
pub struct Ends {
    /// The whole records.
    pub records: u64,
    /// The first and the last reading that was accepted; nothing is known of later ones.
    pub first: Option<u64>,
    pub last: Option<u64>,
    pub damage: Option<Damage>,
    /// Events that have a cause which was not asked for, because there are too many.
    pub without_cause: u64,
}

/// Gives each event in order of reading, and asks `why` 2,000 times at most.
pub fn find(
    capture: &[u8],
    options: &Options,
    each: &mut dyn FnMut(Event) -> Result<(), Failure>,
) -> Result<Ends, Failure> {
    find::find(capture, options, causes::MOST, each)
}

/// The same, and asks for all causes, which may take long.
pub fn find_all(
    capture: &[u8],
    options: &Options,
    each: &mut dyn FnMut(Event) -> Result<(), Failure>,
) -> Result<Ends, Failure> {
    find::find(capture, options, u64::MAX, each)
}

pub fn run(words: &[String]) -> Done {
    command::run(words)
}
