//! A capture as the list of its records, each with its place.

use crate::capture::{Kind, Next, Reader, HEADER, RECORD_HEAD};

/// A record and where it starts.
#[derive(Clone, Debug, PartialEq, Eq)]
pub struct Placed {
    pub place: usize,
    pub time: u64,
    pub label: u32,
    pub kind: Kind,
    pub body: Vec<u8>,
}

/// The records of a capture; nothing if its header is wrong or it is cut.
pub fn records(capture: &[u8]) -> Option<Vec<Placed>> {
    // Reading from memory cannot fail.
    let mut reader = Reader::start(capture).ok()??;
    let mut records = Vec::new();
    let mut place = HEADER.len();
    loop {
        match reader.next_record().ok()? {
            Next::End => return Some(records),
            Next::Cut => return None,
            Next::Record(record) => {
                records.push(Placed {
                    place,
                    time: record.time,
                    label: record.label,
                    kind: record.kind,
                    body: record.body.to_vec(),
                });
                place += RECORD_HEAD + record.body.len();
            }
        }
    }
}
