//! Playing lists: held to the answers in them, or answered.

use super::{line_of, Line};
use crate::assemble::Mistake;
use crate::table::{Answer, Table};
use crate::watch;
use std::io::{self, BufRead, Write};

/// How a list went.
#[derive(Clone, Debug, Default, PartialEq, Eq)]
pub struct Played {
    pub calls: u64,
    /// The lines that were answered otherwise, or could not be played.
    pub wrong: Vec<String>,
}

/// Plays the lines of a list and holds them to the answers in it. A call
/// without one is wrong: nothing would be held to it.
pub fn play(lines: &[Line]) -> Played {
    let mut table = Table::new();
    let mut played = Played::default();
    for (number, line) in lines.iter().enumerate() {
        played.calls += u64::from(matches!(line, Line::Call(_) | Line::Group(_)));
        if let Err(difference) = held(&mut table, line) {
            let number = number + 1;
            played.wrong.push(format!("line {number}: {difference}"));
        }
    }
    played
}

fn held(table: &mut Table, line: &Line) -> Result<(), String> {
    let expected = match line {
        Line::Call(call) => call.answer.as_deref(),
        Line::Group(on) => on.answer.as_deref(),
        Line::Blank | Line::Spoil(_) => Some(""),
    };
    let expected = expected.ok_or("no answer is named")?;
    match done(table, line)? {
        Some(answer) if text(&answer) != expected => {
            Err(format!("expected {expected}, answered {}", text(&answer)))
        }
        _ => Ok(()),
    }
}

/// Does what a line says; a call has an answer.
pub fn done(table: &mut Table, line: &Line) -> Result<Option<Answer>, Mistake> {
    match line {
        Line::Blank => Ok(None),
        Line::Spoil(spoil) => spoil.apply(table).map(|()| None),
        Line::Group(on) => Ok(Some(table.perform_on_group(&on.call))),
        Line::Call(call) => Ok(Some(table.perform_with(&call.record(), call.beside))),
    }
}

/// An answer as `watch` prints it behind the number of its record.
pub fn text(answer: &Answer) -> String {
    let mut text = Vec::new();
    // Writing to memory cannot fail.
    let done = watch::print_answer(&mut text, answer);
    debug_assert!(done.is_ok());
    String::from_utf8_lossy(&text).into_owned()
}

/// Reads a list and prints what is answered to its calls, numbered from 1, as
/// `watch` does for a capture.
pub fn answer(input: impl BufRead, output: &mut impl Write) -> io::Result<()> {
    let mut table = Table::new();
    let mut calls = 0;
    for (number, line) in input.lines().enumerate() {
        let mistake = |mistake| io::Error::other(format!("line {}: {mistake}", number + 1));
        let line = line_of(&line?).map_err(mistake)?;
        if let Some(answer) = done(&mut table, &line).map_err(mistake)? {
            calls += 1;
            watch::print(output, calls, &answer)?;
        }
    }
    Ok(())
}
