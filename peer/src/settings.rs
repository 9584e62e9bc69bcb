//! The settings that open a session.

use crate::machine::Mode;
use crate::mep_id::MepId;
use crate::message::{Bfd, Message};
use crate::octets::{be16, be32};

pub const LOWEST_LABEL: u32 = 16;
pub const HIGHEST_LABEL: u32 = 1_048_575;
pub const SHORTEST_PERIOD: u32 = 1_000;
pub const LONGEST_PERIOD: u32 = 10_000_000;
/// Length of the body of an open record.
pub const OPEN_BODY: usize = 35;

/// What a session is opened with.
#[derive(Clone, Copy, Debug, PartialEq, Eq)]
pub struct Settings {
    pub label: u32,
    pub discriminator: u32,
    pub period: u32,
    pub own: MepId,
    pub expected: MepId,
    pub follows_link_down: bool,
    pub follows_lock: bool,
    pub mode: Mode,
}

impl Settings {
    /// Reads the body of an open record, which has no place for a mode: in a
    /// capture every session is coordinated.
    pub fn read(label: u32, body: &[u8]) -> Option<Settings> {
        Settings::read_in(Mode::COORDINATED, label, body)
    }

    /// Reads the body of an open in a mode; nothing if its length, its marks or
    /// a setting is out of range. It has one type and twelve octets for each
    /// MEP-ID, so that a pseudowire never fits.
    pub fn read_in(mode: Mode, label: u32, body: &[u8]) -> Option<Settings> {
        if body.len() != OPEN_BODY || body[34] > 3 {
            return None;
        }
        let kind = be16(body, 8);
        let mep_id = |at| MepId::new(kind, &body[at..at + 12]);
        let settings = Settings {
            label,
            discriminator: be32(body, 0),
            period: be32(body, 4),
            own: mep_id(10),
            expected: mep_id(22),
            follows_link_down: body[34] & 1 != 0,
            follows_lock: body[34] & 2 != 0,
            mode,
        };
        settings.in_range().then_some(settings)
    }

    /// Whether every setting is in its range.
    pub fn in_range(&self) -> bool {
        (LOWEST_LABEL..=HIGHEST_LABEL).contains(&self.label)
            && self.discriminator != 0
            && (SHORTEST_PERIOD..=LONGEST_PERIOD).contains(&self.period)
            && self.own.is_well_formed()
            && self.expected.is_well_formed()
            && self.mode.is_in_range()
    }

    /// Whether the message is one of another circuit.
    pub fn is_misconnected(&self, message: &Message) -> bool {
        match message {
            Message::Cc(bfd) => self.is_foreign(bfd),
            Message::Cv(bfd, source) => self.is_foreign(bfd) || self.is_wrong(source),
            Message::Fault(_) => false,
        }
    }

    /// The packet names another session as its receiver.
    fn is_foreign(&self, bfd: &Bfd) -> bool {
        bfd.your_discriminator != 0 && bfd.your_discriminator != self.discriminator
    }

    /// The packet comes from a maintenance end point that was not expected.
    fn is_wrong(&self, source: &MepId) -> bool {
        *source != self.expected
    }
}
