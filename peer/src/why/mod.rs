//! The program `why`: which call accounts for what stands at the end of a
//! capture, how old it is, and what would end it.
//!
//! The calls and what the table answered to them are kept in a list, and the
//! list alone is looked back over for the call that accounts. No session keeps
//! the number of a record.

pub mod cause;
pub mod check;
pub mod cover;
pub mod history;
pub mod lines;
pub mod question;

use history::History;
use question::Question;
use std::io::{self, Read, Write};

/// Reads a capture as far as the question goes and prints the answer.
pub fn why(question: &Question, input: impl Read, output: &mut impl Write) -> io::Result<()> {
    let history = History::read(input, question.upto)?;
    output.write_all(text(&history, question).as_bytes())
}

/// The text of an answer from a history that has been read.
pub fn text(history: &History, question: &Question) -> String {
    let front = history.front(question.upto);
    lines::text(question, &cause::answer(&front, question), &front)
}

/// What the program prints for these words and a whole capture in memory.
pub fn answer_to(words: &[&str], capture: &[u8]) -> String {
    match Question::of(words) {
        // Reading from memory cannot fail.
        Some(question) => History::read(capture, question.upto)
            .map_or(String::new(), |history| text(&history, &question)),
        None => format!("{}\n", question::USAGE),
    }
}
