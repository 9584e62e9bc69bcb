//! The program `watch`: answers to a capture, one line for each record.

use crate::capture::{Next, Reader};
use crate::refusal::Refused;
use crate::session::Report;
use crate::table::{Answer, Table, Told};
use std::io::{self, Read, Write};

/// Reads a capture and prints the answers, to the end or to the first record
/// that cannot be read.
pub fn watch(input: impl Read, output: &mut impl Write) -> io::Result<()> {
    let Some(mut reader) = Reader::start(input)? else {
        return writeln!(output, "bad header");
    };
    let mut table = Table::new();
    let mut number: u64 = 0;
    loop {
        match reader.next_record()? {
            Next::End => return Ok(()),
            Next::Cut => return writeln!(output, "cut"),
            Next::Record(record) => {
                number += 1;
                print(output, number, &table.perform(&record))?;
            }
        }
    }
}

/// The line for a call: its number and its answer.
pub fn print(output: &mut impl Write, number: u64, answer: &Answer) -> io::Result<()> {
    write!(output, "{number} ")?;
    print_answer(output, answer)?;
    output.write_all(b"\n")
}

/// An answer's number and what stands behind it.
pub fn print_answer(output: &mut impl Write, answer: &Answer) -> io::Result<()> {
    write!(output, "{}", answer.number())?;
    match answer {
        Answer::Report(report) => print_report(output, report),
        Answer::Written(written) => print_hex(output, written.octets()),
        Answer::Group(told) => print_told(output, told),
        Answer::Refused(refused) => print_place(output, refused),
        Answer::Accepted => Ok(()),
    }
}

fn print_report(output: &mut impl Write, report: &Report) -> io::Result<()> {
    write!(
        output,
        " {} {} {} {} {} {} {}",
        report.state as u8,
        u8::from(report.misconnectivity),
        u8::from(report.loss),
        u8::from(report.alarm),
        u8::from(report.remote_defect),
        u8::from(report.blocked),
        report.conditions
    )
}

/// PW, AC and forwarding of a group, in their numbers.
fn print_told(output: &mut impl Write, told: &Told) -> io::Result<()> {
    let forwarding = told.forwarding as u8;
    write!(output, " {} {} {forwarding}", told.pw.0, told.ac.0)
}

/// Where a message that could not be read went wrong; nothing for others.
fn print_place(output: &mut impl Write, refused: &Refused) -> io::Result<()> {
    match refused.place {
        Some(place) => write!(output, " {place}"),
        None => Ok(()),
    }
}

/// One space, then all octets in lower-case hexadecimal.
fn print_hex(output: &mut impl Write, octets: &[u8]) -> io::Result<()> {
    const DIGITS: &[u8; 16] = b"0123456789abcdef";
    let mut text = Vec::with_capacity(1 + 2 * octets.len());
    text.push(b' ');
    for octet in octets {
        text.push(DIGITS[usize::from(octet >> 4)]);
        text.push(DIGITS[usize::from(octet & 15)]);
    }
    output.write_all(&text)
}

/// The text for a whole capture in memory.
pub fn text(capture: &[u8]) -> Vec<u8> {
    let mut output = Vec::new();
    // Neither reading from nor writing to memory can fail.
    let done = watch(capture, &mut output);
    debug_assert!(done.is_ok());
    output
}
