//! The places at which a message can go wrong, by name, for counting.

use crate::message::{CHANNEL_CV, CHANNEL_DHC, CHANNEL_FAULT};
use crate::octets::be16;
use crate::refusal::{Refusal, Refused};

/// Length of a fault message up to its TLVs, channel header included.
const FAULT_HEAD: usize = 9;

/// Length of a DHC message up to its TLVs, channel header included.
const DHC_HEAD: usize = 12;

/// All places, each behind the number of its refusal.
pub const NAMES: [&str; 26] = [
    "3, no octet",
    "3, under 4 octets",
    "3, CC or CV under 28",
    "3, CC or CV of 28 or more, before a MEP-ID's value",
    "3, MEP-ID's value not whole",
    "3, fault message under 9",
    "3, fault message of 9 or more",
    "4 at 0",
    "5 at 2",
    "6 at 4 (version)",
    "6 at 5 (A, M)",
    "6 at 6 (multiplier)",
    "6 at 7 (Length)",
    "6 at 8 (My)",
    "6 at 12 (Your)",
    "7 at the type",
    "7 at the length",
    "7 at the AGI length",
    "8 at 4 (version)",
    "8 at 5 (type)",
    "8 at 7 (refresh)",
    "8 at the first TLV's type",
    "8 at a later TLV's type",
    "8 at a TLV's length",
    "3, DHC message under 12",
    "3, DHC message of 12 or more",
];

/// Which of the places it is; none for a refusal that has no place.
pub fn number(refused: &Refused, message: &[u8]) -> Option<usize> {
    let place = refused.place?;
    let name = match refused.refusal {
        Refusal::Short => short(message),
        Refusal::ChannelHeader => 7,
        Refusal::ChannelType => 8,
        Refusal::Bfd if place == 12 => 14,
        Refusal::Bfd => place + 5,
        Refusal::MepId => match place - mep_id_at(message) {
            0 => 15,
            2 => 16,
            _ => 17,
        },
        Refusal::Fault => fault(place, message),
        _ => return None,
    };
    Some(name)
}

/// Where the MEP-ID of a CV starts.
fn mep_id_at(message: &[u8]) -> usize {
    4 + usize::from(message[7])
}

/// Which 3 it is, by the length of the message and its channel.
fn short(message: &[u8]) -> usize {
    let is_of = |channel| message.len() >= 4 && be16(message, 2) == channel;
    match message.len() {
        0 => 0,
        1..4 => 1,
        4..FAULT_HEAD if is_of(CHANNEL_FAULT) => 5,
        _ if is_of(CHANNEL_FAULT) => 6,
        4..DHC_HEAD if is_of(CHANNEL_DHC) => 24,
        _ if is_of(CHANNEL_DHC) => 25,
        4..28 => 2,
        length if is_of(CHANNEL_CV) && length >= mep_id_at(message) + 4 => 4,
        _ => 3,
    }
}

/// Which 8 it is: a field of the head, or an octet of a TLV.
fn fault(place: usize, message: &[u8]) -> usize {
    match place {
        4 | 5 => 14 + place,
        7 => 20,
        FAULT_HEAD => 21,
        _ if starts_tlv(place, message) => 22,
        _ => 23,
    }
}

/// Whether a TLV starts there, if those before it are walked through.
fn starts_tlv(place: usize, message: &[u8]) -> bool {
    let mut at = FAULT_HEAD;
    while at < place {
        at += 2 + usize::from(message[at + 1]);
    }
    at == place
}
