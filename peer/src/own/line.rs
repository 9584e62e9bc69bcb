//! The printed lines, made without the formatting machinery.

use crate::refusal::Refused;
use crate::session::Report;
use crate::table::Answer;

const DIGITS: &[u8; 16] = b"0123456789abcdef";
/// The digits of the greatest 64-bit number.
const MOST_DIGITS: usize = 20;

/// Room for a line, used again for each.
pub struct Line {
    text: Vec<u8>,
}

impl Line {
    pub fn new() -> Line {
        Line {
            text: Vec::with_capacity(128),
        }
    }

    /// The line for an answer, with its line end.
    pub fn of(&mut self, number: u64, answer: &Answer) -> &[u8] {
        self.text.clear();
        self.put(number);
        self.put_small(answer.number());
        match answer {
            Answer::Report(report) => self.put_report(report),
            Answer::Written(written) => self.put_hex(written.octets()),
            Answer::Refused(refused) => self.put_place(refused),
            // No record asks a group.
            Answer::Accepted | Answer::Group(_) => {}
        }
        self.text.push(b'\n');
        &self.text
    }

    fn put(&mut self, mut number: u64) {
        let mut digits = [0; MOST_DIGITS];
        let mut first = MOST_DIGITS;
        loop {
            first -= 1;
            digits[first] = b'0' + (number % 10) as u8;
            number /= 10;
            if number == 0 {
                break;
            }
        }
        self.text.extend_from_slice(&digits[first..]);
    }

    /// An answer or a number of a report, behind a space: below 100.
    fn put_small(&mut self, number: u8) {
        self.text.push(b' ');
        if number >= 10 {
            self.text.push(b'0' + number / 10);
        }
        self.text.push(b'0' + number % 10);
    }

    /// Where a message that could not be read went wrong; nothing for others.
    fn put_place(&mut self, refused: &Refused) {
        if let Some(place) = refused.place {
            self.text.push(b' ');
            self.put(place as u64);
        }
    }

    fn put_report(&mut self, report: &Report) {
        for number in [
            report.state as u8,
            u8::from(report.misconnectivity),
            u8::from(report.loss),
            u8::from(report.alarm),
            u8::from(report.remote_defect),
            u8::from(report.blocked),
            report.conditions as u8,
        ] {
            self.put_small(number);
        }
    }

    /// One space, then all octets in lower-case hexadecimal.
    fn put_hex(&mut self, octets: &[u8]) {
        self.text.push(b' ');
        for octet in octets {
            let pair = [octet >> 4, octet & 15].map(|digit| DIGITS[usize::from(digit)]);
            self.text.extend_from_slice(&pair);
        }
    }
}
