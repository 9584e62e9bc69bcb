//! `desk timeline`: a page with a lane for each circuit.

pub mod answered;
pub mod clock;
mod draw;
mod gather;
mod lanes;
mod legend;
mod page;
mod scale;
mod spacings;
pub mod stretches;
mod tables;

use crate::cli::{self, Done, Failure, Words};
use crate::events::{Damage, Ends};
use crate::programs;
use crate::sessions::{self, Session};
use crate::spacing;
use clock::Clock;
use gather::{Gathered, Heard};
use page::Picture;
use scale::Scale;
use std::path::Path;

const HELP: &str = "usage: desk timeline CAPTURE [--sessions FILE] [--epoch TIME] > page.html
One page of HTML, which needs no script and no network: a lane for each circuit with its state, loss,
alarm, held-back alarm, blocked traffic and remote defect as bars and its messages as ticks, and tables
with the same in words; beside its name a histogram of the spacing of its CCs: early ones to the left,
late ones to the right, by powers of ten. What it shows is what watch, why and spacing answer.
  --sessions FILE    names of the circuits (see desk import)
  --epoch TIME       the wall clock at reading 0, in seconds since 1970 or as 2026-11-16T05:40:00Z
";

pub fn run(words: &[String]) -> Done {
    let words = Words::of(words, &["--sessions", "--epoch"], &[])?;
    if words.has("--help") {
        return cli::say(HELP);
    }
    let [path] = words.plain(["CAPTURE"])?;
    let clock = Clock::of(words.value("--epoch"))?;
    let sessions = read_sessions(words.value("--sessions"))?;
    let capture = read_capture(path)?;
    let picture = picture(&capture, file_name(path), &sessions, clock)
        .map_err(|failure| Failure::new(format!("{path}: {failure}")))?;
    cli::say(&page::write(&picture))?;
    if picture.spacings.is_none() {
        let program = programs::program(spacing::PROGRAM);
        eprintln!(
            "desk timeline: no spacing is shown: {} is not there",
            program.display()
        );
    }
    match picture.wrong {
        Some(wrong) => Err(Failure::new(format!("{path}: {wrong}"))),
        None => Ok(()),
    }
}

/// The octets of a capture.
pub fn read_capture(path: &str) -> Result<Vec<u8>, Failure> {
    std::fs::read(path).map_err(|error| Failure::new(format!("cannot read {path}: {error}")))
}

/// The sessions of a file, where one is named.
pub fn read_sessions(path: Option<&str>) -> Result<Vec<Session>, Failure> {
    path.map_or_else(|| Ok(Vec::new()), |path| sessions::read(Path::new(path)))
}

/// The last part of a path: a page names no folders of the machine that it was made on.
pub fn file_name(path: &str) -> String {
    let name = Path::new(path)
        .file_name()
        .map(|name| name.to_string_lossy().into_owned());
    name.unwrap_or_else(|| path.to_string())
}

/// What a circuit is called: its session's name, else its label.
pub fn circuit_name(sessions: &[Session], label: u32) -> String {
    match sessions::name_of(sessions, label) {
        "" => format!("label {label}"),
        name => name.to_string(),
    }
}

/// What is wrong with a capture that does not end behind a whole record.
pub fn wrong(ends: &Ends) -> Option<String> {
    ends.damage.map(|damage| match damage {
        Damage::BadHeader => "no capture: bad header at offset 0".to_string(),
        Damage::Cut { offset } => format!(
            "cut behind record {}: what stands at offset {offset} is no whole record",
            ends.records
        ),
    })
}

fn picture(
    capture: &[u8],
    name: String,
    sessions: &[Session],
    clock: Clock,
) -> Result<Picture, Failure> {
    let heard = Heard::of(capture)?;
    let (first, last) = heard.extent.unwrap_or((0, 0));
    let clock = clock.on_day_of(first);
    let mut gathered = Gathered::new(sessions, Scale::new(first, last), &clock);
    let ends = gathered.take_events(capture)?;
    let elsewhere = gathered.take_messages(&heard.messages);
    let lanes = gathered.lanes_in_order();
    let mut stretches = gathered.stretches;
    stretches.sort_by_key(|stretch| stretch.order);
    let (scale, left_out) = (gathered.scale, gathered.left_out);
    let (wrong, without_cause) = (wrong(&ends), ends.without_cause);
    Ok(Picture {
        name,
        clock,
        scale,
        lanes,
        stretches,
        left_out,
        spacings: spacings::ask(capture)?,
        records: ends.records,
        elsewhere,
        without_cause,
        wrong,
    })
}
