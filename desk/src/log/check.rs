//! The answers of a log held to those of `watch`.

use super::turn::{capture_of, number};
use crate::cli::{Done, Failure};
use crate::programs;
use crate::text::words::append_record;
use peer::capture::{Next, Reader};
use std::io::{self, BufWriter, Write};

/// Says each record that is answered otherwise, and how many there are.
pub fn check(path: &str) -> Done {
    let (capture, logged) = capture_of(path)?;
    let text = programs::run("watch", &[], &capture)?;
    let ours = answers(&text)?;
    if ours.len() != logged.len() {
        let (ours, logged) = (ours.len(), logged.len());
        let text = format!("watch answers {ours} records of {logged}");
        return Err(Failure::new(text));
    }
    let otherwise: Vec<usize> = (0..ours.len())
        .filter(|at| ours[*at] != logged[*at])
        .collect();
    let mut out = BufWriter::new(io::stdout().lock());
    let mut reader = Records::of(&capture)?;
    for at in &otherwise {
        let (number, ours, logged) = (at + 1, ours[*at], logged[*at]);
        writeln!(
            out,
            "record {number}: the log has {logged}, watch answers {ours}"
        )?;
        reader.put(*at, &mut out)?;
    }
    let records = logged.len();
    match otherwise.len() {
        0 => writeln!(out, "{records} records, answered as by watch")?,
        count => writeln!(
            out,
            "{count} of {records} records are answered otherwise by watch"
        )?,
    }
    Ok(out.flush()?)
}

/// The number of each answer of `watch`, which stand behind the numbers of the records.
fn answers(text: &[u8]) -> Result<Vec<u16>, Failure> {
    let lines = text.split(|octet| *octet == b'\n');
    let lines = lines.filter(|line| !line.is_empty());
    let answer = |(at, line): (usize, &[u8])| {
        let record = at as u64 + 1;
        let named = format!("{record} ");
        let answer = line.strip_prefix(named.as_bytes());
        number(answer.unwrap_or(line), record)
    };
    lines.enumerate().map(answer).collect()
}

/// The records of a capture in memory, to be shown in rising order.
struct Records<'a> {
    reader: Reader<&'a [u8]>,
    /// How many were read.
    read: usize,
}

impl<'a> Records<'a> {
    fn of(capture: &'a [u8]) -> Result<Records<'a>, Failure> {
        let reader = Reader::start(capture)?;
        let reader = reader.ok_or_else(|| Failure::new("no header"))?;
        let read = 0;
        Ok(Records { reader, read })
    }

    /// Shows a record in words.
    fn put(&mut self, at: usize, out: &mut impl Write) -> Done {
        while self.read < at {
            self.reader.next_record()?;
            self.read += 1;
        }
        self.read += 1;
        if let Next::Record(record) = self.reader.next_record()? {
            let mut words = Vec::new();
            append_record(&mut words, &record);
            out.write_all(&words)?;
            out.write_all(b"\n")?;
        }
        Ok(())
    }
}
