//! The commands that answer for a proved program.

use super::{file, input, number, print, print_octets, usage, usage_of, Done};
use peer::log::{self, index::MOST_ENTRIES};
use peer::why::question::{self, Question};
use peer::{compare, own, spacing, watch, why};
use std::io;

pub fn run(command: &str, words: &[&str]) -> Done {
    match (command, words) {
        ("watch", []) => print(|output| watch::watch(input(), output)),
        ("watch", ["--own-table"]) => print(|output| own::watch(io::stdin().lock(), output)),
        ("why", words) => answer(words),
        ("spacing", words) => space(words),
        ("compare", ["--lines", words @ ..]) => match words {
            [first, second] => print_octets(compared(first, second)?.lines().as_bytes()),
            _ => usage_of(compare::USAGE),
        },
        ("compare", [first, second]) => print_octets(compared(first, second)?.numbers().as_bytes()),
        ("compare", [first, second, room]) => {
            let compared = compared(first, second)?.within(number(room)?);
            print_octets(compared.numbers().as_bytes())
        }
        ("index", [log, label]) => index(log, number(label)?, MOST_ENTRIES),
        ("index", [log, label, room]) => index(log, number(label)?, number(room)?),
        ("ask", [log, label, reading]) => {
            let answer = log::ask(&file(log)?, number(label)?, number(reading)?);
            print_octets(format!("{}\n", log::answer_text(&answer)).as_bytes())
        }
        _ => usage(),
    }
}

fn index(log: &str, label: u32, room: usize) -> Done {
    let index = log::index::build(&file(log)?, label, room);
    print_octets(log::index_text(&index).as_bytes())
}

/// Answers a question; words that are none get the one line of usage.
fn answer(words: &[&str]) -> Done {
    match Question::of(words) {
        Some(question) => print(|output| why::why(&question, input(), output)),
        None => usage_of(question::USAGE),
    }
}

/// Says how late the CCs of a label came; words that are no label get the usage.
fn space(words: &[&str]) -> Done {
    match spacing::label_of(words) {
        Some(label) => print(|output| spacing::spacing(label, input(), output)),
        None => usage_of(spacing::USAGE),
    }
}

fn compared(first: &str, second: &str) -> io::Result<compare::Compared> {
    Ok(compare::compare(&file(first)?, &file(second)?))
}
