//! Small captures for the tests, written call by call.

// Each test file uses only some of these.
#![allow(dead_code)]

use peer::capture::{open_body, Kind, Record, HEADER};
use peer::{own, watch};

pub const LABEL: u32 = 100;
pub const DISCRIMINATOR: u32 = 17;
pub const OWN: [u8; 12] = [1; 12];
pub const EXPECTED: [u8; 12] = [2; 12];
pub const CROSSED: [u8; 12] = [3; 12];

pub const ADMIN_DOWN: u8 = 0;
pub const DOWN: u8 = 1;
pub const INIT: u8 = 2;
pub const UP: u8 = 3;

pub const AIS: u8 = 1;
pub const LKR: u8 = 2;

/// The text that both modes of `watch` print for a capture.
pub fn text(octets: &[u8]) -> String {
    let text = watch::text(octets);
    assert!(own::text(octets) == text, "the two modes differ");
    String::from_utf8(text).unwrap()
}

/// A capture in the making.
pub struct Capture {
    pub octets: Vec<u8>,
}

impl Capture {
    pub fn new() -> Capture {
        Capture {
            octets: HEADER.to_vec(),
        }
    }

    pub fn call(mut self, kind: Kind, time: u64, label: u32, body: &[u8]) -> Capture {
        let record = Record {
            time,
            label,
            kind,
            body,
        };
        record.append_to(&mut self.octets);
        self
    }

    /// Opens the usual session: discriminator 17, period one second.
    pub fn open(self, time: u64, marks: u8) -> Capture {
        let body = open_body(DISCRIMINATOR, 1_000_000, 1, OWN, EXPECTED, marks);
        self.call(Kind::Open, time, LABEL, &body)
    }

    pub fn open_other(self, time: u64, label: u32, discriminator: u32) -> Capture {
        let body = open_body(discriminator, 1_000_000, 1, OWN, EXPECTED, 0);
        self.call(Kind::Open, time, label, &body)
    }

    pub fn tick(self, time: u64) -> Capture {
        self.call(Kind::Tick, time, 0, &[])
    }

    pub fn lock(self, time: u64) -> Capture {
        self.call(Kind::Lock, time, LABEL, &[])
    }

    pub fn unlock(self, time: u64) -> Capture {
        self.call(Kind::Unlock, time, LABEL, &[])
    }

    pub fn receive(self, time: u64, message: &[u8]) -> Capture {
        self.call(Kind::Receive, time, LABEL, message)
    }

    pub fn report(self) -> Capture {
        self.call(Kind::Report, 0, LABEL, &[])
    }

    pub fn write_cc(self) -> Capture {
        self.call(Kind::WriteCc, 0, LABEL, &[])
    }

    pub fn write_cv(self) -> Capture {
        self.call(Kind::WriteCv, 0, LABEL, &[])
    }

    pub fn text(&self) -> String {
        text(&self.octets)
    }

    /// Compares the printed text, given line by line.
    pub fn prints(&self, lines: &[&str]) {
        let expected: String = lines.iter().map(|line| format!("{line}\n")).collect();
        assert_eq!(self.text(), expected);
    }
}

/// A CC with diagnostic 0, multiplier 3 and My Discriminator 5.
pub fn cc(state: u8, your: u32) -> Vec<u8> {
    let mut message = vec![0x10, 0, 0, 0x22, 0x20, state << 6, 3, 24, 0, 0, 0, 5];
    message.extend_from_slice(&your.to_be_bytes());
    message.extend_from_slice(&[0; 12]);
    message
}

/// A CV with an LSP MEP-ID.
pub fn cv(state: u8, your: u32, mep_id: [u8; 12]) -> Vec<u8> {
    let mut message = cc(state, your);
    message[3] = 0x23;
    message.extend_from_slice(&[0, 1, 0, 12]);
    message.extend_from_slice(&mep_id);
    message
}

/// A CV with the MEP-ID of a pseudowire: Global_ID, Node and AC_ID, AGI type
/// and AGI.
pub fn pseudowire_cv(state: u8, your: u32, numbers: [u8; 12], agi_kind: u8, agi: &[u8]) -> Vec<u8> {
    let mut message = cc(state, your);
    message[3] = 0x23;
    message.extend([0, 2, 0, 14 + agi.len() as u8]);
    message.extend(numbers);
    message.extend([agi_kind, agi.len() as u8]);
    message.extend(agi);
    message
}

/// A fault message with the given TLV octets.
pub fn fault(kind: u8, flags: u8, refresh: u8, tlvs: &[u8]) -> Vec<u8> {
    let mut message = vec![0x10, 0, 0, 0x58, 0x10, kind, flags, refresh];
    message.push(tlvs.len() as u8);
    message.extend_from_slice(tlvs);
    message
}

/// An IF_ID TLV of node 1.
pub fn interface(number: u8) -> Vec<u8> {
    vec![1, 8, 0, 0, 0, 1, 0, 0, 0, number]
}
