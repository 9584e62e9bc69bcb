//! Maintenance end point identifiers: the form that each type has, and how one
//! is read at the end of a CV.

use crate::octets::be16;
use crate::refusal::{Refusal, Refused};
use std::ops::RangeInclusive;

pub const SECTION: u16 = 0;
pub const LSP: u16 = 1;
pub const PSEUDOWIRE: u16 = 2;

/// The most octets of a value: a pseudowire with an AGI of 32.
pub const LONGEST_VALUE: usize = 46;
/// Type and length, two octets each, stand before the value.
const HEAD: usize = 4;
/// Where the AGI length stands in the value of a pseudowire; the AGI is behind it.
const AGI_LENGTH: usize = 13;
const BEFORE_AGI: usize = AGI_LENGTH + 1;

/// A maintenance end point identifier: Section, LSP or pseudowire.
#[derive(Clone, Copy, Debug, PartialEq, Eq)]
pub struct MepId {
    kind: u16,
    length: u8,
    /// Zeros behind the value.
    octets: [u8; LONGEST_VALUE],
}

impl MepId {
    /// A MEP-ID of a type and a value, well-formed or not; the longest value at
    /// most is kept.
    pub fn new(kind: u16, value: &[u8]) -> MepId {
        let length = value.len().min(LONGEST_VALUE);
        let mut octets = [0; LONGEST_VALUE];
        octets[..length].copy_from_slice(&value[..length]);
        MepId {
            kind,
            length: length as u8,
            octets,
        }
    }

    pub fn kind(&self) -> u16 {
        self.kind
    }

    pub fn value(&self) -> &[u8] {
        &self.octets[..usize::from(self.length)]
    }

    /// Whether type, length and AGI length agree.
    pub fn is_well_formed(&self) -> bool {
        lengths(self.kind).is_some_and(|l| l.contains(&self.value().len()))
            && agi_fits(self.kind, self.value())
    }

    /// Type, length and value, as they stand in a CV.
    pub fn part(&self) -> Vec<u8> {
        let mut part = Vec::with_capacity(HEAD + LONGEST_VALUE);
        part.extend_from_slice(&self.kind.to_be_bytes());
        part.extend_from_slice(&u16::from(self.length).to_be_bytes());
        part.extend_from_slice(self.value());
        part
    }
}

/// The lengths that a type allows; none for a type that there is not.
fn lengths(kind: u16) -> Option<RangeInclusive<usize>> {
    match kind {
        SECTION | LSP => Some(12..=12),
        PSEUDOWIRE => Some(BEFORE_AGI..=LONGEST_VALUE),
        _ => None,
    }
}

/// Whether the AGI length of a pseudowire is that of what stands behind it.
fn agi_fits(kind: u16, value: &[u8]) -> bool {
    kind != PSEUDOWIRE || usize::from(value[AGI_LENGTH]) == value.len() - BEFORE_AGI
}

/// Reads the MEP-ID that starts at `at`, and where it ends: type and length are
/// judged before the value must be there, and the AGI length when it is.
pub fn read(message: &[u8], at: usize) -> Result<(MepId, usize), Refused> {
    let short = || Refusal::Short.at(message.len());
    let value_at = at + HEAD;
    if message.len() < value_at {
        return Err(short());
    }
    let kind = be16(message, at);
    let length = usize::from(be16(message, at + 2));
    let allowed = lengths(kind).ok_or(Refusal::MepId.at(at))?;
    if !allowed.contains(&length) {
        return Err(Refusal::MepId.at(at + 2));
    }
    let end = value_at + length;
    let value = message.get(value_at..end).ok_or_else(short)?;
    if !agi_fits(kind, value) {
        return Err(Refusal::MepId.at(value_at + AGI_LENGTH));
    }
    Ok((MepId::new(kind, value), end))
}
