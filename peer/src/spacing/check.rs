//! Comparison with another program over the labels of many captures.

use super::cover::Cover;
use crate::capture::Kind;
use crate::check::{piece_length, run};
use crate::make;
use crate::why::history::{Event, History};
use std::io;
use std::path::Path;

/// A label that no made capture opens.
const NEVER_OPEN: u32 = 999_999;

/// Asks the program for each label of the captures of seeds 1 to `count` and
/// compares. Gives the number of questions, or describes the first difference.
pub fn check(count: u64, program: &Path) -> io::Result<Result<u64, String>> {
    let mut asked = 0;
    for seed in 1..=count {
        let capture = make::spaced(seed);
        let history = History::read(&capture[..], u64::MAX)?;
        // One question of a capture is fed in odd pieces, the others whole.
        let mut piece = piece_length(seed, capture.len());
        for label in labels(&history) {
            let expected = super::text(&history, label);
            let outcome = run(program, &[label.to_string()], &capture, piece)?;
            if !outcome.is(&expected) {
                let theirs = outcome.told();
                return Ok(Err(format!(
                    "seed {seed}, fed {piece} at a time: spacing {label}\n\
                     expected: {expected}program:  {theirs}"
                )));
            }
            asked += 1;
            piece = capture.len().max(1);
        }
    }
    Ok(Ok(asked))
}

/// Counts what is asked of seeds 1 to `count` and answered.
pub fn cover(count: u64, output: &mut impl io::Write) -> io::Result<()> {
    let mut cover = Cover::default();
    for seed in 1..=count {
        let capture = make::spaced(seed);
        let history = History::read(&capture[..], u64::MAX)?;
        for label in labels(&history) {
            cover.add(&history, label);
        }
    }
    writeln!(output, "{count} captures, {} questions", cover.questions)?;
    cover.print(output)
}

/// Every label that was ever open, and one that was not.
pub fn labels(history: &History) -> Vec<u32> {
    let opened = |event: &&Event| event.accepted && event.kind == Kind::Open;
    let events = history.events.iter().filter(opened);
    let mut labels: Vec<u32> = events.map(|event| event.label).collect();
    labels.sort();
    labels.dedup();
    labels.push(NEVER_OPEN);
    labels
}
