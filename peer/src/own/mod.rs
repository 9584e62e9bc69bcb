//! `watch` with a table of its own: what one would write where nobody else can
//! touch the table. It never asks refusal 26, finds a label by an index, and
//! gives a session TIMER when it next looks at it. Messages, settings and
//! sessions are those of the plain `watch`, and so is its text.

mod index;
mod input;
mod line;
mod table;

use crate::capture::Next;
use input::Input;
use line::Line;
use std::io::{self, Read, Write};
use table::Table;

/// Reads a capture and prints the answers, to the end or to the first record
/// that cannot be read.
pub fn watch(input: impl Read, output: &mut impl Write) -> io::Result<()> {
    let Some(mut capture) = Input::start(input)? else {
        return output.write_all(b"bad header\n");
    };
    let mut table = Table::new();
    let mut line = Line::new();
    let mut number: u64 = 0;
    loop {
        match capture.next_record()? {
            Next::End => return Ok(()),
            Next::Cut => return output.write_all(b"cut\n"),
            Next::Record(record) => {
                number += 1;
                output.write_all(line.of(number, &table.perform(&record)))?;
            }
        }
    }
}

/// The text for a whole capture in memory.
pub fn text(capture: &[u8]) -> Vec<u8> {
    let mut output = Vec::new();
    // Neither reading from nor writing to memory can fail.
    let done = watch(capture, &mut output);
    debug_assert!(done.is_ok());
    output
}
