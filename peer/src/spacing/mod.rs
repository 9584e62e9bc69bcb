//! The program `spacing`: how late the CCs of a label came.
//!
//! The pairs are found in the list of calls that were accepted, and the sums are
//! exact; only what is printed has to fit a signed 64-bit number.

pub mod check;
pub mod cover;
pub mod numbers;
pub mod pairs;

use crate::why::history::History;
use numbers::Numbers;
use std::io::{self, Read, Write};

pub const USAGE: &str = "usage: spacing LABEL < capture";

/// Reads a capture and prints the line for a label. Of one that is cut the
/// records before the cut count, of one with a bad header none.
pub fn spacing(label: u32, input: impl Read, output: &mut impl Write) -> io::Result<()> {
    let history = History::read(input, u64::MAX)?;
    output.write_all(text(&history, label).as_bytes())
}

/// The line for a label from a history that has been read.
pub fn text(history: &History, label: u32) -> String {
    let pairs = pairs::of(&history.events, label);
    let numbers = Numbers::of(pairs.iter().map(|pair| pair.error()));
    format!("{}\n", numbers.line())
}

/// The label that some words behind the name of the program are: digits alone.
pub fn label_of(words: &[&str]) -> Option<u32> {
    let [word] = words else {
        return None;
    };
    let digits = word.bytes().all(|octet| octet.is_ascii_digit());
    digits.then(|| word.parse().ok())?
}

/// What the program prints for these words and a whole capture in memory.
pub fn answer_to(words: &[&str], capture: &[u8]) -> String {
    match label_of(words) {
        // Reading from memory cannot fail.
        Some(label) => {
            History::read(capture, u64::MAX).map_or(String::new(), |history| text(&history, label))
        }
        None => format!("{USAGE}\n"),
    }
}
