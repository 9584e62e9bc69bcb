//! `desk text`: a capture or a log in words.

use super::answers::Answers;
use super::digits::{append_hex, append_number};
use super::records::{Form, Next, Records};
use super::remark::Remarks;
use super::words::append_record;
use crate::cli::{say, Done, Failure, Progress, Words};
use crate::events::clock::Epoch;
use crate::sessions;
use std::fs::File;
use std::io::{self, BufReader, Read, Write};
use std::path::Path;

const HELP: &str = "usage: desk text CAPTURE|LOG [--sessions FILE] [--epoch TIME]

Writes a capture as text, one record a line: time, label, kind and the fields of the message in
the words that `desk assemble` reads back to the same octets. What no word says stands as octets.
Behind `#` stand the number of the record, the session's name and the answer of `watch` in words.
A capture that is cut or has a bad header is written whole too, and then named as a failure.
A log has the line `log` before its records and the answer that it has behind each, with `=>`; its
answers in words are the log's own, and `watch` is not asked (`desk log --check` does that).

  --sessions FILE   names of the sessions by their labels (the file of `desk import`)
  --epoch TIME      when reading 0 was, seconds since 1970 (1,700,000,000) or UTC
                    (2026-11-16T05:40:00Z): adds the time of day to each reading
";
const TITLE: &[u8] =
    b"#         time    label  call (docs/COMPARISON.md has the words)        # record, session: answer of watch\n";
const LOG_TITLE: &[u8] =
    b"#         time    label  call (docs/COMPARISON.md has the words)        # record, session: answer of the log\nlog\n";
/// Octets that are no record, to a line.
const OCTETS_A_LINE: usize = 32;
/// How much is read and written at once.
const ROOM: usize = 1 << 18;

pub fn run_text(words: &[String]) -> Done {
    let words = Words::of(words, &["--sessions", "--epoch"], &[])?;
    if words.has("--help") {
        return say(HELP);
    }
    let [path] = words.plain(["CAPTURE"])?;
    let epoch = words.value("--epoch").map(epoch).transpose()?;
    let sessions = words
        .value("--sessions")
        .map(|path| sessions::read(Path::new(path)));
    let remarks = Remarks::new(sessions.transpose()?.unwrap_or_default(), epoch);
    write_text(path, &remarks, io::stdout().lock())
}

fn epoch(word: &str) -> Result<Epoch, Failure> {
    let wrong = "neither seconds since 1970 nor a time as 2026-11-16T05:40:00Z";
    Epoch::read(word).ok_or_else(|| Failure::usage(format!("--epoch: `{word}` is {wrong}")))
}

fn open(path: &str) -> Result<File, Failure> {
    File::open(path).map_err(|error| Failure::new(format!("cannot read {path}: {error}")))
}

/// Writes the text of a capture, also of one that goes wrong; where it does is said at the end.
fn write_text(path: &str, remarks: &Remarks, out: impl Write) -> Done {
    let file = open(path)?;
    let about = file.metadata()?;
    if !about.is_file() {
        // It is read twice, here and by `watch`.
        return Err(Failure::new(format!("{path} is no regular file")));
    }
    let mut text = Text {
        out,
        room: Vec::new(),
        progress: Progress::start("text", about.len()),
    };
    let mut records = Records::of(path, BufReader::with_capacity(ROOM, file));
    let form = records.header()?;
    let (last, behind) = match form {
        Form::Log => text.log(&mut records, remarks)?,
        _ => text.capture(path, form, &mut records, remarks)?,
    };
    let offset = records.offset();
    text.flush()?;
    match last {
        "" => Ok(()),
        "cut" => Err(Failure::new(format!(
            "{path}: cut, no whole record stands at offset {offset}, behind record {behind}"
        ))),
        _ => Err(Failure::new(format!("{path}: no capture, {last}"))),
    }
}

/// The text as it is written, in large pieces.
struct Text<W> {
    out: W,
    room: Vec<u8>,
    progress: Progress,
}

impl<W: Write> Text<W> {
    /// Writes all that a capture has; gives the last line that `watch` owes where it goes wrong, and
    /// how many records stand before.
    fn capture<R: Read>(
        &mut self,
        path: &str,
        form: Form,
        records: &mut Records<R>,
        remarks: &Remarks,
    ) -> Result<(&'static str, u64), Failure> {
        self.room.extend_from_slice(TITLE);
        let mut answers = Answers::of(open(path)?)?;
        let last = match form {
            Form::Capture => self.records(records, &mut answers, remarks)?,
            _ => "bad header",
        };
        if last == "bad header" {
            self.remark("bad header: no capture");
            self.octets(b"header", records)?;
        }
        self.behind(last, records)?;
        let behind = answers.record();
        answers.end(last)?;
        Ok((last, behind))
    }

    /// Writes all that a log has; gives `cut` where it is, and how many records stand before.
    fn log<R: Read>(
        &mut self,
        records: &mut Records<R>,
        remarks: &Remarks,
    ) -> Result<(&'static str, u64), Failure> {
        self.room.extend_from_slice(LOG_TITLE);
        let mut number = 0;
        let last = loop {
            self.flush_if_full(records.offset())?;
            match records.next()? {
                Next::End => break "",
                Next::Cut => break "cut",
                Next::Record(record, answer) => {
                    number += 1;
                    let (start, answer) = (self.room.len(), answer.unwrap_or(0));
                    append_record(&mut self.room, &record);
                    self.room.extend_from_slice(b" => ");
                    append_number(&mut self.room, answer.into());
                    remarks.append_logged(&mut self.room, start, number, &record, answer);
                }
            }
        };
        self.behind(last, records)?;
        Ok((last, number))
    }

    /// The octets behind the last record, where it is cut.
    fn behind<R: Read>(&mut self, last: &str, records: &mut Records<R>) -> Done {
        if last == "cut" {
            self.remark("cut: no whole record stands here");
        }
        while !last.is_empty() && self.octets(b"octets", records)? {}
        Ok(())
    }

    /// Writes records with their answers up to the end, or to what is no record.
    fn records<R: Read>(
        &mut self,
        records: &mut Records<R>,
        answers: &mut Answers,
        remarks: &Remarks,
    ) -> Result<&'static str, Failure> {
        loop {
            self.flush_if_full(records.offset())?;
            match records.next()? {
                Next::End => return Ok(""),
                Next::Cut => return Ok("cut"),
                Next::Record(record, _) => {
                    let start = self.room.len();
                    append_record(&mut self.room, &record);
                    let number = answers.record() + 1;
                    remarks.append(&mut self.room, start, number, &record, answers.next()?);
                }
            }
        }
    }

    fn flush_if_full(&mut self, offset: u64) -> Done {
        if self.room.len() >= ROOM {
            self.progress.at(offset);
            self.flush()?;
        }
        Ok(())
    }

    fn flush(&mut self) -> Done {
        self.out.write_all(&self.room)?;
        self.room.clear();
        Ok(self.out.flush()?)
    }

    fn remark(&mut self, remark: &str) {
        self.room.extend_from_slice(b"# ");
        self.room.extend_from_slice(remark.as_bytes());
        self.room.push(b'\n');
    }

    /// A line of octets as they are; gives whether there may be more.
    fn octets<R: Read>(&mut self, name: &[u8], records: &mut Records<R>) -> Result<bool, Failure> {
        let mut octets = [0; OCTETS_A_LINE];
        let length = records.rest(&mut octets)?;
        if length > 0 || name == b"header" {
            self.room.extend_from_slice(name);
            self.room.push(b' ');
            append_hex(&mut self.room, octets.get(..length).unwrap_or_default());
            self.room.push(b'\n');
        }
        self.flush_if_full(records.offset())?;
        Ok(length == OCTETS_A_LINE)
    }
}
