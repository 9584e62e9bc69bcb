//! The records of a capture in memory, one behind the other, with where they stand.

use peer::capture::{Kind, Record, HEADER, LONGEST_BODY, RECORD_HEAD};

/// A record, its number and its own octets.
#[derive(Clone, Copy)]
pub struct Stood<'a> {
    pub number: u64,
    pub offset: usize,
    pub octets: &'a [u8],
    pub record: Record<'a>,
}

/// Goes over the whole records, to the end or to what is no record.
pub struct Walk<'a> {
    capture: &'a [u8],
    offset: usize,
    number: u64,
}

impl<'a> Walk<'a> {
    pub fn of(capture: &'a [u8]) -> Walk<'a> {
        Walk {
            capture,
            offset: HEADER.len(),
            number: 0,
        }
    }

    /// Where the next record would stand.
    pub fn offset(&self) -> usize {
        self.offset
    }
}

impl<'a> Iterator for Walk<'a> {
    type Item = Stood<'a>;

    fn next(&mut self) -> Option<Stood<'a>> {
        let (record, octets) = record_at(self.capture, self.offset)?;
        let offset = self.offset;
        self.offset = offset.checked_add(octets.len())?;
        self.number += 1;
        Some(Stood {
            number: self.number,
            offset,
            octets,
            record,
        })
    }
}

/// The whole record at an offset, and its octets.
pub fn record_at(capture: &[u8], offset: usize) -> Option<(Record<'_>, &[u8])> {
    let rest = capture.get(offset..)?;
    let time = u64::from_be_bytes(piece(rest, 0)?);
    let label = u32::from_be_bytes(piece(rest, 8)?);
    let kind = Kind::from_number(u16::from_be_bytes(piece(rest, 12)?))?;
    let length = usize::from(u16::from_be_bytes(piece(rest, 14)?));
    let octets = rest.get(..RECORD_HEAD + length)?;
    let body = octets.get(RECORD_HEAD..)?;
    let record = Record {
        time,
        label,
        kind,
        body,
    };
    (length <= LONGEST_BODY).then_some((record, octets))
}

fn piece<const N: usize>(octets: &[u8], at: usize) -> Option<[u8; N]> {
    octets.get(at..at.checked_add(N)?)?.try_into().ok()
}
