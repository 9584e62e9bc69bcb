//! The copy of a capture that `watch` is asked with: the accepted records, a report behind each,
//! and between them ticks and reports at every reading at which something can change.

use super::accepted::Accepted;
use super::dates::Dates;
use super::walk::Stood;
use super::Options;
use peer::capture::{append_head, Kind, HEADER};
use std::io::{self, Write};
use std::sync::mpsc::SyncSender;

/// A label at a reading, and the record of the capture that brought the reading, if one did.
#[derive(Clone, Copy, Debug)]
pub struct At {
    pub label: u32,
    pub reading: u64,
    pub record: Option<u64>,
}

/// What a line of `watch` answers to.
#[derive(Clone, Copy, Debug)]
pub enum Step {
    Tick,
    /// An accepted record of the capture.
    Call {
        label: u32,
        reading: u64,
        number: u64,
        offset: usize,
        kind: Kind,
    },
    Report(At),
}

/// Octets and steps of one piece: few enough to be held, and many enough that handing them over
/// costs nothing.
const PIECE: usize = 1 << 16;

/// Writes the copy piece by piece, and says what each line will answer to.
pub struct Copyist<W> {
    output: W,
    steps: SyncSender<Vec<Step>>,
    octets: Vec<u8>,
    said: Vec<Step>,
    dates: Dates,
}

impl<W: Write> Copyist<W> {
    pub fn start(output: W, steps: SyncSender<Vec<Step>>) -> Copyist<W> {
        Copyist {
            output,
            steps,
            octets: HEADER.to_vec(),
            said: Vec::new(),
            dates: Dates::default(),
        }
    }

    /// Copies what the options want. Records of other labels bring readings all the same.
    pub fn write(
        mut self,
        capture: &[u8],
        accepted: &Accepted,
        options: &Options,
    ) -> io::Result<()> {
        for stood in accepted.calls(capture) {
            let reading = stood.record.time;
            self.ask_until(reading.min(options.to), reading, stood.number)?;
            if reading > options.to {
                break;
            }
            let wanted = options
                .label
                .is_none_or(|label| label == stood.record.label);
            if wanted && stood.record.kind != Kind::Tick {
                self.call(&stood)?;
            }
        }
        self.hand_over()
    }

    /// Ticks and reports at the readings that are due; at the next record's own reading it is that
    /// record which brings it.
    fn ask_until(&mut self, to: u64, next: u64, record: u64) -> io::Result<()> {
        let mut clock = None;
        while let Some((reading, label)) = self.dates.due(to) {
            if clock != Some(reading) {
                append_head(&mut self.octets, reading, 0, Kind::Tick as u16, 0);
                self.said.push(Step::Tick);
                clock = Some(reading);
            }
            self.report(At {
                label,
                reading,
                record: (reading == next).then_some(record),
            });
            self.hand_over_if_full()?;
        }
        Ok(())
    }

    fn call(&mut self, stood: &Stood) -> io::Result<()> {
        let (label, reading, kind) = (stood.record.label, stood.record.time, stood.record.kind);
        let number = stood.number;
        self.octets.extend_from_slice(stood.octets);
        self.said.push(Step::Call {
            label,
            reading,
            number,
            offset: stood.offset,
            kind,
        });
        if self.dates.note(&stood.record).is_none() {
            let said = format!("record {number}: watch accepts it, and it cannot be read");
            return Err(io::Error::other(said));
        }
        if kind != Kind::Close {
            self.report(At {
                label,
                reading,
                record: Some(number),
            });
        }
        self.hand_over_if_full()
    }

    fn report(&mut self, at: At) {
        append_head(&mut self.octets, 0, at.label, Kind::Report as u16, 0);
        self.said.push(Step::Report(at));
    }

    fn hand_over_if_full(&mut self) -> io::Result<()> {
        if self.octets.len() < PIECE {
            return Ok(());
        }
        self.hand_over()
    }

    /// Steps go first: whoever reads the lines then waits for those of octets that are on their way.
    fn hand_over(&mut self) -> io::Result<()> {
        let said = std::mem::take(&mut self.said);
        // Nobody listens any more: the same as a program that reads no more.
        let gone = |_| io::Error::from(io::ErrorKind::BrokenPipe);
        self.steps.send(said).map_err(gone)?;
        self.output.write_all(&self.octets)?;
        self.octets.clear();
        Ok(())
    }
}
