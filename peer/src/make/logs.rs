//! Captures for logs: some hundred records, with runs of them at one reading.

use super::compares::{joined, whole_records};
use crate::capture::{Kind, Record};
use crate::octets::be64;
use crate::random::Random;

/// The whole records of a made capture, and at times long runs between them that
/// leave the clock where it is: what lies between two entries of an index is
/// then at one reading, or on no label that is asked for.
pub(super) fn with_runs(seed: u64, capture: &[u8]) -> Vec<u8> {
    let mut random = Random::new(seed ^ 0x0006_1069);
    let mut records = whole_records(capture);
    for _ in 0..random.pick(&[0, 0, 1, 1, 2]) {
        let at = random.below(records.len() as u64) as usize;
        let Some(before) = records.get(at) else {
            continue;
        };
        let time = be64(before, 0);
        let length = random.pick(&[100, 255, 256, 257, 600]);
        let idle = match random.below(3) {
            0 => record(Kind::Report, 0),
            _ => record(Kind::Tick, time),
        };
        let run = std::iter::repeat_n(idle, length);
        records.splice(at + 1..at + 1, run);
    }
    // Just as many as fill a block, one less, one more.
    if random.chance(30) {
        let blocks = records.len() / 256;
        let wanted = (256 * blocks + 257).saturating_sub(random.between(1, 3) as usize);
        let last = records.last().map_or(0, |record| be64(record, 0));
        records.resize_with(wanted, || record(Kind::Tick, last));
    }
    joined(&records)
}

fn record(kind: Kind, time: u64) -> Vec<u8> {
    let mut octets = Vec::new();
    let record = Record {
        time,
        label: 0,
        kind,
        body: &[],
    };
    record.append_to(&mut octets);
    octets
}
