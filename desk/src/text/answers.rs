//! `watch`, run beside the reading of a capture, and its lines one after the other.

use crate::cli::{Done, Failure};
use crate::programs::{program, HINT};
use std::fs::File;
use std::io::{BufRead, BufReader, Read};
use std::process::{Child, ChildStdout, Command, Stdio};

const ROOM: usize = 1 << 18;

/// The answers to a capture, in the order of its records.
pub struct Answers {
    child: Child,
    lines: BufReader<ChildStdout>,
    line: Vec<u8>,
    record: u64,
}

impl Answers {
    /// Runs `watch` on the file itself, so that nobody has to feed it.
    pub fn of(capture: File) -> Result<Answers, Failure> {
        let path = program("watch");
        let mut child = Command::new(&path)
            .stdin(Stdio::from(capture))
            .stdout(Stdio::piped())
            .stderr(Stdio::piped())
            .spawn()
            .map_err(|error| {
                let path = path.display();
                Failure::new(format!("cannot run {path}: {error} ({HINT})"))
            })?;
        let stdout = child
            .stdout
            .take()
            .ok_or_else(|| Failure::new("watch has no output"))?;
        let lines = BufReader::with_capacity(ROOM, stdout);
        Ok(Answers {
            child,
            lines,
            line: Vec::new(),
            record: 0,
        })
    }

    /// The number of the record that was answered last.
    pub fn record(&self) -> u64 {
        self.record
    }

    /// The answer to the next record: what stands behind the number on its line.
    pub fn next(&mut self) -> Result<&[u8], Failure> {
        let number = self.record + 1;
        self.read_line()?;
        let space = self.line.iter().position(|octet| *octet == b' ');
        let space = space.unwrap_or(self.line.len());
        if decimal(self.line.get(..space).unwrap_or_default()) != Some(number) {
            return Err(self.out_of_step());
        }
        self.record = number;
        Ok(self.line.get(space + 1..).unwrap_or_default())
    }

    /// The last line says how the capture ends, if it does not end whole, and nothing follows.
    pub fn end(mut self, last: &str) -> Done {
        if !last.is_empty() {
            self.read_line()?;
            if self.line != last.as_bytes() {
                return Err(self.out_of_step());
            }
        }
        self.read_line()?;
        if !self.line.is_empty() {
            return Err(self.out_of_step());
        }
        match self.child.wait()?.success() {
            true => Ok(()),
            false => Err(self.out_of_step()),
        }
    }

    /// Reads a line without its end; an empty one where there is no more.
    fn read_line(&mut self) -> Done {
        self.line.clear();
        self.lines.read_until(b'\n', &mut self.line)?;
        if self.line.last() == Some(&b'\n') {
            self.line.pop();
        }
        Ok(())
    }

    /// `watch` did not answer record for record: what it says of that itself.
    fn out_of_step(&mut self) -> Failure {
        let mut said = String::new();
        if self.line.is_empty() {
            if let Some(stderr) = self.child.stderr.take() {
                let _ = stderr.take(1_000).read_to_string(&mut said);
            }
        }
        let line = String::from_utf8_lossy(&self.line);
        let record = self.record;
        let said = said.trim();
        Failure::new(format!(
            "watch left off behind record {record}: `{line}` {said}"
        ))
    }
}

fn decimal(digits: &[u8]) -> Option<u64> {
    let add = |number: u64, digit: &u8| match digit {
        b'0'..=b'9' => number.checked_mul(10)?.checked_add(u64::from(digit - b'0')),
        _ => None,
    };
    (!digits.is_empty()).then(|| digits.iter().try_fold(0, add))?
}
