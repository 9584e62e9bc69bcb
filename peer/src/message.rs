//! Reading CC, CV and fault messages as they come off the associated channel.
//!
//! A message that cannot be read is refused with a place: the offset of the
//! first octet of the field that broke the rule, the earliest if there are
//! several, or the length of the message if it is too short.

use crate::mep_id::{self, MepId};
use crate::octets::{be16, be32};
use crate::refusal::{Refusal, Refused};

/// Length of the associated channel header.
const CHANNEL_HEADER: usize = 4;
/// Length of the mandatory part of a BFD packet.
const BFD_PACKET: usize = 24;
/// Length of a fault message up to its TLVs, channel header included.
const FAULT_HEAD: usize = 9;

pub const CHANNEL_CC: u16 = 0x0022;
pub const CHANNEL_CV: u16 = 0x0023;
pub const CHANNEL_FAULT: u16 = 0x0058;
/// Dual-homing coordination, which has a reader of its own (`dhc`).
pub const CHANNEL_DHC: u16 = 0x0009;

/// A BFD session state, numbered as on the wire.
#[derive(Clone, Copy, Debug, PartialEq, Eq)]
#[repr(u8)]
pub enum State {
    AdminDown = 0,
    Down = 1,
    Init = 2,
    Up = 3,
}

impl State {
    /// The state held in the two upper bits of the second BFD octet.
    fn from_octet(octet: u8) -> State {
        match octet >> 6 {
            0 => State::AdminDown,
            1 => State::Down,
            2 => State::Init,
            _ => State::Up,
        }
    }
}

/// What a session needs of a BFD packet.
#[derive(Clone, Copy, Debug, PartialEq, Eq)]
pub struct Bfd {
    pub diagnostic: u8,
    pub state: State,
    pub poll: bool,
    pub multiplier: u8,
    pub my_discriminator: u32,
    pub your_discriminator: u32,
}

/// The two kinds of fault message.
#[derive(Clone, Copy, Debug, PartialEq, Eq)]
pub enum FaultKind {
    AlarmIndication,
    LockReport,
}

/// The interface named by an IF_ID TLV.
#[derive(Clone, Copy, Debug, PartialEq, Eq)]
pub struct InterfaceId {
    pub node: u32,
    pub interface: u32,
}

/// Where a fault arose, as the TLVs of its message name it: an operator by the
/// Global_ID and an interface of theirs, each named or not.
#[derive(Clone, Copy, Debug, Default, PartialEq, Eq)]
pub struct Origin {
    pub global: Option<u32>,
    pub interface: Option<InterfaceId>,
}

/// A fault message.
#[derive(Clone, Copy, Debug, PartialEq, Eq)]
pub struct Fault {
    pub kind: FaultKind,
    pub link_down: bool,
    pub clear: bool,
    pub refresh: u8,
    pub origin: Origin,
}

/// A message of one of the three channels.
#[derive(Clone, Copy, Debug, PartialEq, Eq)]
pub enum Message {
    Cc(Bfd),
    Cv(Bfd, MepId),
    Fault(Fault),
}

/// A message that was read, and how many octets it takes without padding.
#[derive(Clone, Copy, Debug, PartialEq, Eq)]
pub struct Read {
    pub message: Message,
    pub used: usize,
}

/// Reads a message. Octets after its end are link padding.
pub fn read(message: &[u8]) -> Result<Read, Refused> {
    match channel(message)? {
        CHANNEL_CC => read_cc(message),
        CHANNEL_CV => read_cv(message),
        CHANNEL_FAULT => read_fault(message),
        _ => Err(Refusal::ChannelType.at(2)),
    }
}

/// The channel type, behind the rest of the associated channel header.
pub fn channel(message: &[u8]) -> Result<u16, Refused> {
    reach(message, CHANNEL_HEADER)?;
    // First nibble and version share the first octet.
    match message[0] {
        0x10 => Ok(be16(message, 2)),
        _ => Err(Refusal::ChannelHeader.at(0)),
    }
}

/// Refuses a message that ends before the octet `end`: its place is its length,
/// padding included.
fn reach(message: &[u8], end: usize) -> Result<(), Refused> {
    match message.len() < end {
        true => Err(Refusal::Short.at(message.len())),
        false => Ok(()),
    }
}

fn read_cc(message: &[u8]) -> Result<Read, Refused> {
    let bfd = read_bfd(message, true)?;
    let used = bfd_end(message);
    reach(message, used)?;
    Ok(Read {
        message: Message::Cc(bfd),
        used,
    })
}

fn read_cv(message: &[u8]) -> Result<Read, Refused> {
    let bfd = read_bfd(message, false)?;
    let (mep_id, used) = mep_id::read(message, bfd_end(message))?;
    Ok(Read {
        message: Message::Cv(bfd, mep_id),
        used,
    })
}

/// Where the BFD packet ends by its own Length field.
fn bfd_end(message: &[u8]) -> usize {
    CHANNEL_HEADER + usize::from(message[7])
}

/// Reads the first 24 octets of the BFD packet by the reception rules. Whether
/// Length fits into the message is judged afterwards.
fn read_bfd(message: &[u8], is_cc: bool) -> Result<Bfd, Refused> {
    reach(message, CHANNEL_HEADER + BFD_PACKET)?;
    let bfd = Bfd {
        diagnostic: message[4] & 0x1f,
        state: State::from_octet(message[5]),
        poll: message[5] & 0x20 != 0,
        multiplier: message[6],
        my_discriminator: be32(message, 8),
        your_discriminator: be32(message, 12),
    };
    match broken_field(message, &bfd, is_cc) {
        Some(place) => Err(Refusal::Bfd.at(place)),
        None => Ok(bfd),
    }
}

/// The earliest field of a BFD packet that breaks a reception rule.
fn broken_field(message: &[u8], bfd: &Bfd, is_cc: bool) -> Option<usize> {
    let version = message[4] >> 5;
    let authenticated = message[5] & 0x04 != 0;
    let multipoint = message[5] & 0x01 != 0;
    let length = usize::from(message[7]);
    // Only in a CC does an unknown remote end contradict INIT or UP.
    let remote_needed = is_cc && matches!(bfd.state, State::Init | State::Up);
    if version != 1 {
        Some(4)
    } else if authenticated || multipoint {
        Some(5)
    } else if bfd.multiplier == 0 {
        Some(6)
    } else if length < BFD_PACKET {
        Some(7)
    } else if bfd.my_discriminator == 0 {
        Some(8)
    } else if remote_needed && bfd.your_discriminator == 0 {
        Some(12)
    } else {
        None
    }
}

fn read_fault(message: &[u8]) -> Result<Read, Refused> {
    reach(message, FAULT_HEAD)?;
    if message[4] >> 4 != 1 {
        return Err(Refusal::Fault.at(4));
    }
    let kind = match message[5] {
        1 => FaultKind::AlarmIndication,
        2 => FaultKind::LockReport,
        _ => return Err(Refusal::Fault.at(5)),
    };
    let refresh = message[7];
    if !(1..=20).contains(&refresh) {
        return Err(Refusal::Fault.at(7));
    }
    let used = FAULT_HEAD + usize::from(message[8]);
    reach(message, used)?;
    let origin = read_tlvs(&message[..used])?;
    let fault = Fault {
        kind,
        link_down: message[6] & 2 != 0,
        clear: message[6] & 1 != 0,
        refresh,
        origin,
    };
    Ok(Read {
        message: Message::Fault(fault),
        used,
    })
}

/// Walks through the TLVs of a fault message that ends with them, up to the
/// first wrong one, and gives what they name. Their order makes no difference.
fn read_tlvs(message: &[u8]) -> Result<Origin, Refused> {
    let mut origin = Origin::default();
    let mut at = FAULT_HEAD;
    while at < message.len() {
        let tlv = tlv_at(message, at)?;
        let repeated = match tlv[0] {
            1 => origin.interface.is_some(),
            2 => origin.global.is_some(),
            _ => false,
        };
        if repeated {
            return Err(Refusal::Fault.at(at));
        }
        match (tlv[0], tlv.len() - 2) {
            (1, 8) => {
                origin.interface = Some(InterfaceId {
                    node: be32(tlv, 2),
                    interface: be32(tlv, 6),
                });
            }
            (2, 4) => origin.global = Some(be32(tlv, 2)),
            (1 | 2, _) => return Err(Refusal::Fault.at(at + 1)),
            _ => {}
        }
        at += tlv.len();
    }
    Ok(origin)
}

/// The TLV at `at`, type and length included. One octet alone is too short to
/// be a type and a length.
fn tlv_at(message: &[u8], at: usize) -> Result<&[u8], Refused> {
    let length = message.get(at + 1).copied();
    length
        .and_then(|length| message.get(at..at + 2 + usize::from(length)))
        .ok_or(Refusal::Fault.at(at))
}
