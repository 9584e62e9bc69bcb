//! The program `compare` asked, and its lines read.

use super::PROGRAM;
use crate::cli::Failure;
use crate::programs;

/// A field that differs, or the capture that alone has a record: in the order of the program.
#[derive(Clone, Copy, Debug, PartialEq, Eq, PartialOrd, Ord)]
pub enum What {
    Time,
    Label,
    Kind,
    Length,
    Body,
    OnlyFirst,
    OnlySecond,
}

/// As the program says them.
const WORDS: [(&str, What); 7] = [
    ("time", What::Time),
    ("label", What::Label),
    ("kind", What::Kind),
    ("length", What::Length),
    ("body", What::Body),
    ("only in the first", What::OnlyFirst),
    ("only in the second", What::OnlySecond),
];

impl What {
    fn read(words: &str) -> Option<What> {
        let known = WORDS.iter().find(|(known, _)| *known == words)?;
        Some(known.1)
    }

    pub fn words(self) -> &'static str {
        WORDS[self as usize].0
    }
}

/// A record that differs, and in what.
#[derive(Clone, Debug, PartialEq, Eq)]
pub struct Difference {
    /// Counted from 1.
    pub record: u64,
    pub whats: Vec<What>,
}

/// What `compare` says.
#[derive(Clone, Debug, PartialEq, Eq)]
pub enum Answer {
    /// The records that differ, in rising order, and where in the first capture they begin.
    Listed(Vec<Difference>, u64),
    /// 22: the first capture has a bad header or is cut.
    FirstBad,
    /// 23: the second does or is.
    SecondBad,
}

impl Answer {
    pub fn of(first: &str, second: &str) -> Result<Answer, Failure> {
        let text = programs::run(PROGRAM, &[first, second], &[])?;
        let text = String::from_utf8_lossy(&text);
        Answer::read(&text).map_err(|line| Failure::new(format!("compare answers `{line}`")))
    }

    /// Reads what the program prints, or gives the line that is none of its own.
    fn read(text: &str) -> Result<Answer, String> {
        match text {
            "refused 22\n" => return Ok(Answer::FirstBad),
            "refused 23\n" => return Ok(Answer::SecondBad),
            _ => {}
        }
        let mut differences = Vec::new();
        let mut lines = text.split_inclusive('\n');
        for line in lines.by_ref() {
            if let Some(place) = rest(line) {
                let behind = lines.next();
                return match behind {
                    None => Ok(Answer::Listed(differences, place)),
                    Some(line) => Err(line.trim_end().to_string()),
                };
            }
            let added = entry(line).and_then(|(record, what)| add(&mut differences, record, what));
            added.ok_or_else(|| line.trim_end().to_string())?;
        }
        Err(String::new())
    }
}

fn rest(line: &str) -> Option<u64> {
    let place = line.strip_prefix("rest ")?.strip_suffix('\n')?;
    place.parse().ok()
}

fn entry(line: &str) -> Option<(u64, What)> {
    let (record, words) = line.strip_suffix('\n')?.split_once(' ')?;
    let record = record.parse().ok().filter(|record| *record > 0)?;
    Some((record, What::read(words)?))
}

/// Adds an entry to the record that it is of. Entries rise.
fn add(differences: &mut Vec<Difference>, record: u64, what: What) -> Option<()> {
    match differences.last_mut() {
        Some(last) if last.record == record => {
            let rises = last.whats.last() < Some(&what);
            rises.then(|| last.whats.push(what))
        }
        Some(last) if last.record > record => None,
        _ => {
            let whats = vec![what];
            differences.push(Difference { record, whats });
            Some(())
        }
    }
}

#[cfg(test)]
mod tests {
    use super::*;

    #[test]
    fn lines_of_the_program() {
        let one = Difference {
            record: 1,
            whats: vec![What::Length, What::Body],
        };
        let three = Difference {
            record: 3,
            whats: vec![What::OnlyFirst],
        };
        let read = Answer::read("1 length\n1 body\n3 only in the first\nrest 8\n");
        assert_eq!(read, Ok(Answer::Listed(vec![one, three], 8)));
        let none = Answer::read("rest 75\n");
        assert_eq!(none, Ok(Answer::Listed(vec![], 75)));
        assert_eq!(Answer::read("refused 22\n"), Ok(Answer::FirstBad));
        assert_eq!(Answer::read("refused 23\n"), Ok(Answer::SecondBad));
    }

    #[test]
    fn lines_that_are_none() {
        for text in [
            "",
            "rest 8",
            "rest -8\n",
            "1 length\n",
            "0 length\nrest 8\n",
            "1 lengths\nrest 8\n",
            "1 body\n1 length\nrest 8\n",
            "1 body\n1 body\nrest 8\n",
            "2 body\n1 body\nrest 8\n",
            "rest 8\n1 body\n",
            "refused 13\n",
            "refused 22",
            "usage: compare FIRST SECOND\n",
        ] {
            assert!(Answer::read(text).is_err(), "{text}");
        }
    }

    #[test]
    fn words_are_those_of_the_program() {
        for (words, what) in WORDS {
            assert_eq!(What::read(words), Some(what));
            assert_eq!(what.words(), words);
        }
    }
}
