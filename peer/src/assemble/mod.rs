//! Captures from a text that a person can read: one record to a line.
//!
//! ```text
//! TIME LABEL KIND BODY => ANSWER    # remark
//! ```
//!
//! `-` stands for a time or a label that is not read. What stands behind `=>`
//! was worked out by hand from the rules paper; no octet comes of it. A line
//! `header HEX` gives other octets for the header, and a line `octets HEX`
//! octets as they are, for what is no record.

mod bodies;
mod words;

use crate::capture::{append_head, Kind, HEADER};
use words::octets;
pub use words::{grouped, number, octets as octets_of, Mistake, Words};

/// The kinds of record by their names in a text, as they are numbered.
const NAMES: [&str; 9] = [
    "tick", "open", "close", "lock", "unlock", "receive", "report", "write-cc", "write-cv",
];

/// The capture of a text, or its first mistake with the number of its line.
pub fn assemble(text: &str) -> Result<Vec<u8>, Mistake> {
    let mut capture = HEADER.to_vec();
    for (number, line) in text.lines().enumerate() {
        append_line(&mut capture, call_of(line))
            .map_err(|mistake| format!("line {}: {mistake}", number + 1))?;
    }
    Ok(capture)
}

/// What a text says by hand that its capture will print: an answer with its
/// number, or the words that end the output.
pub fn answers(text: &str) -> String {
    let mut printed = String::new();
    let mut number = 0;
    for line in text.lines() {
        let Some((_, answer)) = without_remark(line).split_once("=>") else {
            continue;
        };
        let answer = answer.trim();
        if answer.starts_with(|first: char| first.is_ascii_digit()) {
            number += 1;
            printed += &format!("{number} ");
        }
        printed += answer;
        printed += "\n";
    }
    printed
}

pub fn without_remark(line: &str) -> &str {
    line.split_once('#').map_or(line, |(before, _)| before)
}

/// What a line asks for, without answer and remark.
pub fn call_of(line: &str) -> &str {
    let line = without_remark(line);
    line.split_once("=>").map_or(line, |(call, _)| call)
}

/// Appends what a line without answer and remark stands for.
pub fn append_line(capture: &mut Vec<u8>, line: &str) -> Result<(), Mistake> {
    let mut words = Words::of(line);
    match words.first() {
        None => {}
        Some("header") => *capture = words.octets()?,
        Some("octets") => capture.extend(words.octets()?),
        Some(time) => {
            let label = words.first().ok_or("no label")?;
            let kind = kind_of(words.first().ok_or("no kind")?)?;
            let body = body_of(kind, &mut words)?;
            let length = u16::try_from(body.len()).map_err(|_| "body too long")?;
            append_head(capture, read(time)?, read(label)?, kind as u16, length);
            capture.extend(body);
        }
    }
    words.end()
}

/// A time or label: 0 where it is not read.
pub fn read<T: TryFrom<u64>>(word: &str) -> Result<T, Mistake> {
    number(if word == "-" { "0" } else { word })
}

pub fn name_of(kind: Kind) -> &'static str {
    NAMES[kind as usize]
}

pub fn kind_of(name: &str) -> Result<Kind, Mistake> {
    let place = NAMES.iter().position(|known| *known == name);
    place
        .map(|at| Kind::ALL[at])
        .ok_or(format!("no kind: {name}"))
}

/// A body in words, cut to `cut` octets, and followed by the octets of `pad`
/// and as many zeros as `zeros` says.
pub fn body_of(kind: Kind, words: &mut Words) -> Result<Vec<u8>, Mistake> {
    let cut = words.number("cut", usize::MAX)?;
    let pad = octets(words.value("pad").unwrap_or(""))?;
    let zeros: u16 = words.number("zeros", 0)?;
    let mut body = match kind {
        _ if words.has("hex") => words.octets()?,
        Kind::Open => bodies::settings(words)?,
        Kind::Receive => bodies::message(words)?,
        _ => Vec::new(),
    };
    body.truncate(cut);
    body.extend(pad);
    body.resize(body.len() + usize::from(zeros), 0);
    Ok(body)
}
