//! `desk export`: the messages of a capture as a pcapng, each with what `watch` answered.

use crate::cli::{self, Done, Failure, Progress, Words};
use crate::tap::frame::Channel;
use crate::tap::{wall, writer};
use crate::text::answer::append_answer;
use crate::text::answers::Answers;
use peer::capture::{Kind, Next, Reader, Record, HEADER, RECORD_HEAD};
use std::ffi::OsStr;
use std::fs::File;
use std::io::{BufReader, BufWriter, Read, Write};
use std::path::Path;

const HELP: &str = "usage: desk export CAPTURE [--epoch TIME] [--section LABEL] > pcapng

Writes each message that a capture has (its receives) as an Ethernet frame with an MPLS label stack:
the label of the record, the GAL (13) below it, then the message as it stands in the record, with no
padding of the link. Its comment names the record and says what `watch` answered to it.

  --epoch TIME     when reading 0 was: seconds since 1970 (1,700,000,000) or UTC
                   (2026-11-16T05:40:00Z). Without it 0: packets are dated from 1970 on.
  --section LABEL  the label that stands for a Section: its messages have the GAL alone.

`desk import` of the pcapng with `--start` and the same TIME gives the same receives. A label of
more than 20 bits, which `watch` never accepts, has no frame: such records are counted on standard
error and left out. KORVEZUL_BIN names the folder of `watch` (target/bin).
";

const ROOM: usize = 256 * 1024;
const APPLICATION: &str = "Korvezul desk";

/// How messages are put into frames.
#[derive(Clone, Copy, Debug, Default)]
pub struct Frames {
    /// Microseconds since 1970 of reading 0.
    pub epoch: u64,
    /// The label that stands for a Section.
    pub section: Option<u32>,
}

pub fn run(words: &[String]) -> Done {
    let words = Words::of(words, &["--epoch", "--section"], &[])?;
    if words.has("--help") {
        return cli::say(HELP);
    }
    let [name] = words.plain(["CAPTURE"])?;
    let frames = Frames {
        epoch: words.value("--epoch").map_or(Ok(0), epoch_of)?,
        section: words.value("--section").map(section_of).transpose()?,
    };
    let output = BufWriter::with_capacity(ROOM, std::io::stdout().lock());
    export_file(name, Export::new(frames, output))
}

fn open(name: &str) -> Result<File, Failure> {
    File::open(name).map_err(|error| Failure::new(format!("cannot read {name}: {error}")))
}

/// Exports a file, with `watch` beside it.
fn export_file(name: &str, mut export: Export<impl Write>) -> Done {
    let capture = open(name)?;
    let about = capture.metadata()?;
    if !about.is_file() {
        // It is read twice, here and by `watch`.
        return Err(Failure::new(format!("{name} is no regular file")));
    }
    let mut answers = Answers::of(open(name)?)?;
    let next = |room: &mut Vec<u8>| {
        room.extend_from_slice(answers.next()?);
        Ok(())
    };
    let mut progress = Progress::start("export", about.len());
    let capture = BufReader::with_capacity(ROOM, capture);
    let end = export.all(name, capture, next, |offset| progress.at(offset));
    drop(progress);
    if export.left_out > 0 {
        let count = export.left_out;
        eprintln!("{count} messages left out: their labels have more than 20 bits");
    }
    if end? == End::Whole {
        return answers.end("");
    }
    answers.end("cut")?;
    let (offset, record) = (export.offset, export.records);
    Err(Failure::new(format!(
        "{name}: offset {offset}: no whole record behind record {record}"
    )))
}

fn epoch_of(word: &str) -> Result<u64, Failure> {
    let wrong = || {
        Failure::usage(format!(
            "--epoch: `{word}` is neither seconds since 1970 nor a time as 2026-11-16T05:40:00Z"
        ))
    };
    wall::parse(word)
        .and_then(|micros| micros.try_into().ok())
        .ok_or_else(wrong)
}

fn section_of(word: &str) -> Result<u32, Failure> {
    let wrong = |_| Failure::usage(format!("--section: `{word}` is no label"));
    word.replace(',', "").parse().map_err(wrong)
}

/// How a capture ends.
#[derive(Clone, Copy, Debug, PartialEq, Eq)]
pub enum End {
    Whole,
    Cut,
}

/// A pcapng in the making.
pub struct Export<W> {
    frames: Frames,
    output: W,
    /// How many records were read, and where the next one starts.
    pub records: u64,
    pub offset: u64,
    /// Messages that no frame can carry.
    pub left_out: u64,
    answer: Vec<u8>,
    comment: Vec<u8>,
    frame: Vec<u8>,
    block: Vec<u8>,
}

impl<W: Write> Export<W> {
    pub fn new(frames: Frames, output: W) -> Export<W> {
        Export {
            frames,
            output,
            records: 0,
            offset: HEADER.len() as u64,
            left_out: 0,
            answer: Vec::new(),
            comment: Vec::new(),
            frame: Vec::new(),
            block: Vec::new(),
        }
    }

    /// Writes the messages of a capture. `answers` appends what was answered to the next record, as
    /// it stands behind the number on its line. What stands before a cut is written.
    pub fn all(
        &mut self,
        name: &str,
        capture: impl Read,
        mut answers: impl FnMut(&mut Vec<u8>) -> Done,
        mut at: impl FnMut(u64),
    ) -> Result<End, Failure> {
        let reader = Reader::start(capture)?;
        let mut reader = reader.ok_or_else(|| {
            Failure::new(format!("{name}: offset 0: not the header of a capture"))
        })?;
        let interface = Path::new(name).file_name().and_then(OsStr::to_str);
        writer::append_start(&mut self.block, APPLICATION, interface.unwrap_or("capture"));
        self.output.write_all(&self.block)?;
        let end = loop {
            match reader.next_record()? {
                Next::End => break End::Whole,
                Next::Cut => break End::Cut,
                Next::Record(record) => self.record(&record, &mut answers)?,
            }
            at(self.offset);
        };
        self.output.flush()?;
        Ok(end)
    }

    fn record(&mut self, record: &Record, answers: &mut impl FnMut(&mut Vec<u8>) -> Done) -> Done {
        self.records += 1;
        self.offset += (RECORD_HEAD + record.body.len()) as u64;
        self.answer.clear();
        answers(&mut self.answer)?;
        if record.kind != Kind::Receive {
            return Ok(());
        }
        self.frame.clear();
        let channel = match self.frames.section == Some(record.label) {
            true => Channel::Section,
            false => Channel::Label(record.label),
        };
        match writer::append_frame(&mut self.frame, channel, record.body) {
            Some(()) => self.packet(record),
            None => {
                self.left_out += 1;
                Ok(())
            }
        }
    }

    /// Writes the packet whose frame was made.
    fn packet(&mut self, record: &Record) -> Done {
        let number = self.records;
        let time = self.frames.epoch.checked_add(record.time).ok_or_else(|| {
            Failure::new(format!(
                "record {number}: its time and the epoch are more than a pcapng can say"
            ))
        })?;
        self.comment.clear();
        write!(self.comment, "record {number}: ")?;
        append_answer(&mut self.comment, record, &self.answer);
        self.block.clear();
        writer::append_packet(&mut self.block, time, &self.frame, &self.comment);
        self.output.write_all(&self.block)?;
        Ok(())
    }
}
