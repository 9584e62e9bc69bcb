//! Comparison with another program over many captures.

use crate::capture::{record_octets, RECORD_HEAD};
use crate::octets::{be16, be32, be64};
use crate::{make, watch};
use std::fmt::Write as _;
use std::io::{self, Read, Write};
use std::path::Path;
use std::process::{Child, ChildStdin, Command, Stdio};
use std::thread;

/// Feeds the captures of seeds 1 to `count` to the program and compares. Gives
/// the number of records compared, or a description of the first difference.
pub fn check(count: u64, program: &Path) -> io::Result<Result<u64, String>> {
    let mut records = 0;
    for seed in 1..=count {
        let capture = make::capture(seed);
        let expected = watch::text(&capture);
        let piece = piece_length(seed, capture.len());
        let outcome = run(program, &[], &capture, piece)?;
        if let Some(text) = difference(&capture, &expected, &outcome) {
            return Ok(Err(format!("seed {seed}, fed {piece} at a time: {text}")));
        }
        records += lines(&expected).iter().filter(|l| is_answer(l)).count() as u64;
    }
    Ok(Ok(records))
}

/// Some captures are fed in odd pieces, most of them whole.
pub fn piece_length(seed: u64, whole: usize) -> usize {
    let piece = match seed % 8 {
        1 => 1,
        3 => 7,
        5 => 4_093,
        _ => whole,
    };
    piece.max(1)
}

/// What a program made of a capture.
pub struct Outcome {
    pub text: Vec<u8>,
    /// The program ended by itself, not by a signal.
    pub ended: bool,
}

impl Outcome {
    /// The program wrote this text and ended by itself.
    pub fn is(&self, expected: &str) -> bool {
        self.text == expected.as_bytes() && self.ended
    }

    /// What it wrote, and where that is so that a signal ended it.
    pub fn told(&self) -> String {
        let text = String::from_utf8_lossy(&self.text);
        let signal = match self.ended {
            true => "",
            false => "ended by a signal\n",
        };
        format!("{text}{signal}")
    }
}

/// Runs a program with these words behind its name on a capture.
pub fn run(program: &Path, words: &[String], capture: &[u8], piece: usize) -> io::Result<Outcome> {
    let mut child = Command::new(program)
        .args(words)
        .stdin(Stdio::piped())
        .stdout(Stdio::piped())
        .spawn()
        .map_err(|e| io::Error::new(e.kind(), format!("{}: {e}", program.display())))?;
    let input = child.stdin.take();
    let text = thread::scope(|scope| {
        let feeder = scope.spawn(move || input.map_or(Ok(()), |i| feed(i, capture, piece)));
        let text = drain(&mut child);
        match feeder.join() {
            Ok(fed) => fed.and(text),
            Err(_) => Err(io::Error::other("feeding the program failed")),
        }
    })?;
    let ended = child.wait()?.code().is_some();
    Ok(Outcome { text, ended })
}

/// Writes the capture piece by piece. A program may stop reading early, after
/// a record that cannot be read.
fn feed(mut input: ChildStdin, capture: &[u8], piece: usize) -> io::Result<()> {
    for part in capture.chunks(piece) {
        match input.write_all(part) {
            Err(error) if error.kind() == io::ErrorKind::BrokenPipe => return Ok(()),
            done => done?,
        }
        if piece < capture.len() {
            thread::yield_now();
        }
    }
    Ok(())
}

fn drain(child: &mut Child) -> io::Result<Vec<u8>> {
    let mut text = Vec::new();
    if let Some(output) = &mut child.stdout {
        output.read_to_end(&mut text)?;
    }
    Ok(text)
}

/// The lines of a text, each with its line end.
fn lines(text: &[u8]) -> Vec<&[u8]> {
    text.split_inclusive(|&octet| octet == b'\n').collect()
}

/// Whether a line is the answer to a record.
fn is_answer(line: &[u8]) -> bool {
    line.first().is_some_and(u8::is_ascii_digit)
}

/// Describes the first line that differs, with its record and the one before.
fn difference(capture: &[u8], expected: &[u8], outcome: &Outcome) -> Option<String> {
    if expected == outcome.text {
        let crashed = "same text, but the program was ended by a signal";
        return (!outcome.ended).then(|| crashed.to_string());
    }
    let (ours, theirs) = (lines(expected), lines(&outcome.text));
    let same = ours.iter().zip(&theirs).take_while(|(a, b)| a == b).count();
    let show = |lines: &[&[u8]]| match lines.get(same) {
        Some(line) => String::from_utf8_lossy(line).trim_end().to_string(),
        None => "(nothing)".to_string(),
    };
    let number = same + 1;
    let mut text = format!("difference at record {number}\n");
    let _ = writeln!(text, "  expected: {}", show(&ours));
    let _ = writeln!(text, "  program:  {}", show(&theirs));
    let _ = writeln!(text, "  record {number}: {}", describe(capture, number));
    if same > 0 {
        let _ = writeln!(text, "  record {same}: {}", describe(capture, same));
    }
    if !outcome.ended {
        text.push_str("  the program was ended by a signal\n");
    }
    Some(text)
}

/// A record in readable form.
fn describe(capture: &[u8], number: usize) -> String {
    let Some(octets) = record_octets(capture, number) else {
        return "(none)".to_string();
    };
    if octets.len() < RECORD_HEAD {
        return format!("(cut after {} octets)", octets.len());
    }
    let body: String = octets[RECORD_HEAD..]
        .iter()
        .map(|o| format!("{o:02x}"))
        .collect();
    format!(
        "time {} label {} kind {} length {} body {body}",
        be64(octets, 0),
        be32(octets, 8),
        be16(octets, 12),
        be16(octets, 14)
    )
}
