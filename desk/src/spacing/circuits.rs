//! The circuits of a capture, each with its own records that were accepted. Labels do not disturb
//! each other, so what `spacing` says of these alone is what it says of the whole capture.

use crate::cli::Failure;
use crate::events::accepted::Accepted;
use peer::capture::{Kind, Record, HEADER};
use peer::message::CHANNEL_CC;
use std::collections::BTreeMap;

/// A label and a capture of its own records.
pub struct Circuit {
    pub label: u32,
    octets: Vec<u8>,
    /// Where the capture may be cut: behind each record that is a CC. Only these can make a pair.
    cuts: Vec<usize>,
    records: u64,
}

impl Circuit {
    fn new(label: u32) -> Circuit {
        Circuit {
            label,
            octets: HEADER.to_vec(),
            cuts: Vec::new(),
            records: 0,
        }
    }

    fn add(&mut self, record: &Record, octets: &[u8]) {
        self.octets.extend_from_slice(octets);
        self.records += 1;
        let channel = record.body.get(2..4);
        if record.kind == Kind::Receive && channel == Some(&CHANNEL_CC.to_be_bytes()[..]) {
            self.cuts.push(self.octets.len());
        }
    }

    pub fn records(&self) -> u64 {
        self.records
    }

    /// All of its records.
    pub fn whole(&self) -> &[u8] {
        &self.octets
    }

    /// How many CCs there are.
    pub fn ccs(&self) -> usize {
        self.cuts.len()
    }

    /// Its records up to a CC, counted from 1; for the last one all records.
    pub fn upto(&self, cc: usize) -> &[u8] {
        let cut = match cc {
            1.. if cc < self.cuts.len() => self.cuts.get(cc - 1),
            _ => None,
        };
        let end = cut.copied().unwrap_or(self.octets.len());
        self.octets.get(..end).unwrap_or(&self.octets)
    }
}

/// Each label that was ever open, in order; of one label alone where one is named.
pub fn circuits(capture: &[u8], only: Option<u32>) -> Result<Vec<Circuit>, Failure> {
    let accepted = Accepted::by_watch(capture)?;
    let mut circuits: BTreeMap<u32, Circuit> = BTreeMap::new();
    for stood in accepted.calls(capture) {
        let label = stood.record.label;
        if stood.record.kind != Kind::Tick && only.is_none_or(|only| only == label) {
            let circuit = circuits.entry(label).or_insert_with(|| Circuit::new(label));
            circuit.add(&stood.record, stood.octets);
        }
    }
    Ok(circuits.into_values().collect())
}
