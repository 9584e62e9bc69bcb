//! The records that differ, in words: which, in what, and how they stand in each capture.

use super::ask::{Difference, What};
use crate::cli::{Done, Failure};
use crate::text::records::{Form, Next, Records};
use crate::text::words::append_record;
use peer::capture::Record;
use std::fs::File;
use std::io::{BufReader, Write};

/// How much is read at once.
const ROOM: usize = 1 << 18;

/// A capture read on to one record after the other.
pub struct Side<'p> {
    path: &'p str,
    records: Records<'p, BufReader<File>>,
    /// How many records were read.
    read: u64,
}

impl<'p> Side<'p> {
    pub fn of(path: &'p str) -> Result<Side<'p>, Failure> {
        let cannot = |error| Failure::new(format!("cannot read {path}: {error}"));
        let file = File::open(path).map_err(cannot)?;
        if !file.metadata()?.is_file() {
            // It is read twice, here and by `compare`.
            return Err(Failure::new(format!("{path} is no regular file")));
        }
        let records = Records::of(path, BufReader::with_capacity(ROOM, file));
        let read = 0;
        Ok(Side {
            path,
            records,
            read,
        })
    }

    /// Reads on to a record that was named; that it is there was said by `compare`.
    fn record(&mut self, number: u64) -> Result<Record<'_>, Failure> {
        if self.read == 0 && self.records.header()? != Form::Capture {
            return Err(self.none(number));
        }
        while self.read + 1 < number {
            match self.records.next()? {
                Next::Record(..) => self.read += 1,
                Next::End | Next::Cut => return Err(self.none(number)),
            }
        }
        self.read = number;
        let none = self.none(number);
        match self.records.next()? {
            Next::Record(record, _) => Ok(record),
            Next::End | Next::Cut => Err(none),
        }
    }

    fn none(&self, number: u64) -> Failure {
        let path = self.path;
        Failure::new(format!(
            "compare names record {number}, which {path} does not have"
        ))
    }

    /// Why no more can be read: what is no whole capture, said with the place.
    pub fn damage(mut self) -> Result<String, Failure> {
        if self.records.header()? != Form::Capture {
            return Ok("offset 0: not the header of a capture".to_string());
        }
        loop {
            match self.records.next()? {
                Next::Record(..) => self.read += 1,
                Next::End => return Ok("nothing is wrong with it here".to_string()),
                Next::Cut => {
                    let (offset, read) = (self.records.offset(), self.read);
                    let text = format!("offset {offset}: no whole record behind record {read}");
                    return Ok(text);
                }
            }
        }
    }
}

/// A line on what differs, and a line for the record of each capture that has it.
pub fn put(out: &mut impl Write, difference: &Difference, sides: &mut [Side; 2]) -> Done {
    let number = difference.record;
    writeln!(out, "record {number}: {}", words(&difference.whats))?;
    let [first, second] = sides;
    if !difference.whats.contains(&What::OnlySecond) {
        line(out, "  first ", &first.record(number)?)?;
    }
    if !difference.whats.contains(&What::OnlyFirst) {
        line(out, "  second", &second.record(number)?)?;
    }
    Ok(())
}

fn line(out: &mut impl Write, whose: &str, record: &Record) -> Done {
    let mut words = Vec::new();
    append_record(&mut words, record);
    out.write_all(whose.as_bytes())?;
    out.write_all(&words)?;
    Ok(out.write_all(b"\n")?)
}

/// The fields in words: `time differs`, `length and body differ`.
fn words(whats: &[What]) -> String {
    let names: Vec<&str> = whats.iter().map(|what| what.words()).collect();
    match names[..] {
        [one] if whats[0] >= What::OnlyFirst => one.to_string(),
        [one] => format!("{one} differs"),
        [ref all @ .., last] => format!("{} and {last} differ", all.join(", ")),
        [] => String::new(),
    }
}

/// The last line: how many records, and where the captures part.
pub fn sum(differences: &[Difference], rest: u64) -> String {
    let only = |whose: What| {
        let of_one = |difference: &&Difference| difference.whats.contains(&whose);
        differences.iter().filter(of_one).count()
    };
    let (first, second) = (only(What::OnlyFirst), only(What::OnlySecond));
    let both = differences.len() - first - second;
    let Some(difference) = differences.first() else {
        return "no record differs\n".to_string();
    };
    let many = if both == 1 {
        "record differs"
    } else {
        "records differ"
    };
    let mut text = format!("{both} {many}");
    for (count, whose) in [(first, What::OnlyFirst), (second, What::OnlySecond)] {
        if count > 0 {
            text += &format!(", {count} {}", whose.words());
        }
    }
    match second == differences.len() {
        true => text + "; the second goes on where the first ends\n",
        false => {
            let record = difference.record;
            text + &format!("; from record {record} on, at offset {rest} of the first\n")
        }
    }
}

#[cfg(test)]
mod tests {
    use super::*;

    fn difference(record: u64, whats: &[What]) -> Difference {
        let whats = whats.to_vec();
        Difference { record, whats }
    }

    #[test]
    fn fields_in_words() {
        assert_eq!(words(&[What::Time]), "time differs");
        let two = [What::Length, What::Body];
        assert_eq!(words(&two), "length and body differ");
        let three = [What::Time, What::Label, What::Kind];
        assert_eq!(words(&three), "time, label and kind differ");
        assert_eq!(words(&[What::OnlySecond]), "only in the second");
    }

    #[test]
    fn last_lines() {
        assert_eq!(sum(&[], 75), "no record differs\n");
        let body = difference(2, &[What::Body]);
        let first = difference(3, &[What::OnlyFirst]);
        let second = difference(3, &[What::OnlySecond]);
        let said = sum(&[body.clone(), first], 24);
        let expected =
            "1 record differs, 1 only in the first; from record 2 on, at offset 24 of the first\n";
        assert_eq!(said, expected);
        let said = sum(&[body.clone(), second.clone()], 24);
        assert!(said.ends_with("; from record 2 on, at offset 24 of the first\n"));
        let said = sum(&[second], 40);
        let expected =
            "0 records differ, 1 only in the second; the second goes on where the first ends\n";
        assert_eq!(said, expected);
    }
}
