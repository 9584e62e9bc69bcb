//! `desk assemble`: from words back to a capture or a log, line by line.

use crate::cli::{say, Done, Failure, Progress, Words};
use peer::assemble::append_line;
use peer::capture::{HEADER, RECORD_HEAD};
use peer::log::records as log;
use std::fs::File;
use std::io::{self, BufRead, BufReader, Read, Write};

const HELP: &str = "usage: desk assemble TEXT > capture|log

Makes a capture of a text with one record a line, as `desk text` writes it or by hand
(docs/COMPARISON.md has the words). What stands behind `=>` or `#` is passed over. Behind a line
`log`, which comes before all records, the text is that of a log: `=>` has the number answered.
";
const ROOM: usize = 1 << 18;
/// A longest record takes less than 5,000 characters.
const LONGEST_LINE: u64 = 1 << 20;

pub fn run_assemble(words: &[String]) -> Done {
    let words = Words::of(words, &[], &[])?;
    if words.has("--help") {
        return say(HELP);
    }
    let [path] = words.plain(["TEXT"])?;
    let text =
        File::open(path).map_err(|error| Failure::new(format!("cannot read {path}: {error}")))?;
    let progress = Progress::start("assemble", text.metadata()?.len());
    let text = BufReader::with_capacity(ROOM, text);
    assemble(path, text, io::stdout().lock(), progress)
}

/// Writes the capture of a text; a mistake is named with file and line.
fn assemble(
    path: &str,
    mut text: impl BufRead,
    mut out: impl Write,
    mut progress: Progress,
) -> Done {
    let mut capture = HEADER.to_vec();
    let mut line = Vec::new();
    let mut offset = 0;
    let mut so_far = SoFar::Nothing;
    for number in 1u64.. {
        let mistake = |mistake| Failure::new(format!("{path}, line {number}: {mistake}"));
        line.clear();
        let mut next = text.by_ref().take(LONGEST_LINE);
        let read = next.read_until(b'\n', &mut line);
        let length = read.map_err(|error| mistake(error.to_string()))?;
        if length == 0 {
            break;
        }
        offset += length as u64;
        append(&mut capture, &line, &mut so_far).map_err(mistake)?;
        if capture.len() >= ROOM {
            out.write_all(&capture)?;
            capture.clear();
            progress.at(offset);
        }
    }
    out.write_all(&capture)?;
    Ok(out.flush()?)
}

/// What the lines before have said.
#[derive(Clone, Copy, PartialEq, Eq)]
enum SoFar {
    Nothing,
    Capture,
    Log,
}

/// Appends what a line stands for. A header gives the first octets, so it comes before all else, and
/// so does `log`.
fn append(capture: &mut Vec<u8>, line: &[u8], so_far: &mut SoFar) -> Result<(), String> {
    if line.len() as u64 >= LONGEST_LINE {
        return Err(format!("longer than {LONGEST_LINE} characters"));
    }
    let line = std::str::from_utf8(line)
        .map_err(|error| format!("no UTF-8 behind character {}", error.valid_up_to()))?;
    // Some editors put a mark before the first character.
    let (call, answer) = call_of(line.trim_start_matches('\u{feff}'));
    let first = call.split_whitespace().next();
    match (first, *so_far) {
        (None, _) => {}
        (Some("log"), SoFar::Nothing) if call.trim() == "log" => {
            *so_far = SoFar::Log;
            *capture = log::HEADER.to_vec();
        }
        (Some("header" | "log"), SoFar::Capture | SoFar::Log) => {
            return Err("a header stands before the first record".to_string());
        }
        (Some("octets"), SoFar::Log) => append_line(capture, call)?,
        (Some(_), SoFar::Log) => append_logged(capture, call, answer)?,
        (Some(_), _) => {
            *so_far = SoFar::Capture;
            append_line(capture, call)?;
        }
    }
    Ok(())
}

/// Appends a record of a log: the answer stands between its length and its body.
fn append_logged(log: &mut Vec<u8>, call: &str, answer: Option<&str>) -> Result<(), String> {
    let answer = answer.ok_or("no answer")?.trim();
    let number: u16 = answer
        .parse()
        .map_err(|_| format!("no answer of a log: {answer}"))?;
    let mut record = Vec::new();
    append_line(&mut record, call)?;
    let (head, body) = record.split_at(RECORD_HEAD.min(record.len()));
    log.extend_from_slice(head);
    log.extend_from_slice(&number.to_be_bytes());
    log.extend_from_slice(body);
    Ok(())
}

/// What a line asks for, and the answer behind it, without the remark.
fn call_of(line: &str) -> (&str, Option<&str>) {
    let line = line.split_once('#').map_or(line, |(call, _)| call);
    let split = line.split_once("=>");
    split.map_or((line, None), |(call, answer)| (call, Some(answer)))
}
