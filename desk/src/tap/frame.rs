//! Ethernet frames: where the associated channel is in one.
//!
//! The channel of an LSP is behind the GAL at the bottom of the label stack, and the label above the
//! GAL is the LSP's. The channel of a pseudowire is behind its label at the bottom, and starts with
//! the nibble 1; with the GAL below that label it is found as an LSP's. The channel of a Section is
//! behind the GAL alone.

use super::input::octets_at;

/// The G-ACh label (RFC 5586).
pub const GAL: u32 = 13;
/// The highest label: 20 bits.
pub const HIGHEST_LABEL: u32 = 0xf_ffff;
pub const MPLS: u16 = 0x8847;
const VLAN: u16 = 0x8100;
const SERVICE_VLAN: u16 = 0x88a8;
/// Both addresses stand before the type.
const ADDRESSES: usize = 12;
const BOTTOM: u32 = 0x100;

/// Whose channel a message came on.
#[derive(Clone, Copy, Debug, PartialEq, Eq)]
pub enum Channel {
    Label(u32),
    Section,
}

/// What a frame that has no message is.
#[derive(Clone, Copy, Debug, PartialEq, Eq)]
pub enum Other {
    /// Another protocol.
    NotMpls,
    /// MPLS without an associated channel: traffic.
    NoChannel,
    /// The GAL is not at the bottom of the stack, where it has to be.
    GalAbove,
    /// The frame ends before its label stack does.
    Short,
}

/// The channel of a frame and what it carries, from the channel header on to the frame's end; a
/// padding of the link stays behind it.
pub fn message(frame: &[u8]) -> Result<(Channel, &[u8]), Other> {
    channel(behind_type(frame)?)
}

/// What stands behind the Ethernet type, if that is MPLS, whatever tags stand before it.
fn behind_type(frame: &[u8]) -> Result<&[u8], Other> {
    let mut rest = frame.get(ADDRESSES..).ok_or(Other::Short)?;
    loop {
        let kind = octets_at(rest, 0).ok_or(Other::Short)?;
        match u16::from_be_bytes(kind) {
            // A tag: its type, two octets of its own, then the next type.
            VLAN | SERVICE_VLAN => rest = rest.get(4..).ok_or(Other::Short)?,
            MPLS => return rest.get(2..).ok_or(Other::Short),
            _ => return Err(Other::NotMpls),
        }
    }
}

/// Walks down a label stack to the channel behind it.
fn channel(mut stack: &[u8]) -> Result<(Channel, &[u8]), Other> {
    let mut above = None;
    let mut gal_above = false;
    loop {
        let entry = u32::from_be_bytes(octets_at(stack, 0).ok_or(Other::Short)?);
        let label = entry >> 12;
        stack = stack.get(4..).ok_or(Other::Short)?;
        if entry & BOTTOM == 0 {
            gal_above |= label == GAL;
            above = Some(label);
            continue;
        }
        return match (label, above) {
            (GAL, None) => Ok((Channel::Section, stack)),
            (GAL, Some(above)) => Ok((Channel::Label(above), stack)),
            _ if gal_above => Err(Other::GalAbove),
            _ if stack.first().is_some_and(|first| first >> 4 == 1) => {
                Ok((Channel::Label(label), stack))
            }
            _ => Err(Other::NoChannel),
        };
    }
}
