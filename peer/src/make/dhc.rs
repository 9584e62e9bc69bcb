//! DHC messages as they are drafted for captures and lists, right or wrong.

use super::Maker;
use crate::dhc::{DUAL_NODE_SWITCHING, PW_STATUS};
use crate::message::CHANNEL_DHC;
use crate::random::Random;

/// The bits of a TLV's flags, and of a Service PW Status.
const PROTECTION: u32 = 1;
const SWITCH: u32 = 2;
const FAIL: u32 = 1;
const DEGRADE: u32 = 2;

/// A DHC message with its channel header.
pub(super) struct DhcDraft {
    pub group: u32,
    /// What all reserved octets are.
    pub reserved: u8,
    /// In the order in which they are sent.
    pub tlvs: Vec<Vec<u8>>,
}

impl DhcDraft {
    pub fn octets(&self) -> Vec<u8> {
        let tlvs = self.tlvs.concat();
        let mut octets = vec![0x10, self.reserved];
        octets.extend(CHANNEL_DHC.to_be_bytes());
        octets.extend(self.group.to_be_bytes());
        octets.extend((tlvs.len() as u16).to_be_bytes());
        octets.extend([self.reserved; 2]);
        octets.extend(tlvs);
        octets
    }
}

fn tlv(kind: u16, value: &[u8]) -> Vec<u8> {
    let mut tlv = kind.to_be_bytes().to_vec();
    tlv.extend((value.len() as u16).to_be_bytes());
    tlv.extend(value);
    tlv
}

/// Destination, source and DNI-PW ID, of which the source alone is looked at.
fn ends(random: &mut Random, source: u32) -> Vec<u8> {
    let (destination, pseudowire) = match random.chance(80) {
        true => (1, 2),
        false => (random.word(), random.word()),
    };
    [destination, source, pseudowire]
        .map(u32::to_be_bytes)
        .concat()
}

/// Each of the bits half of the time, at times with all that are not looked at.
fn bits(random: &mut Random, bits: &[u32]) -> [u8; 4] {
    let known: u32 = bits.iter().sum();
    let others = random.pick(&[0, 0, 0, 0, 0, u32::MAX]);
    (others & !known | random.word() & known).to_be_bytes()
}

pub(super) fn status_tlv(random: &mut Random, source: u32) -> Vec<u8> {
    let mut value = ends(random, source);
    value.extend(bits(random, &[PROTECTION]));
    value.extend(bits(random, &[DEGRADE, FAIL]));
    tlv(PW_STATUS, &value)
}

pub(super) fn switching_tlv(random: &mut Random, source: u32) -> Vec<u8> {
    let mut value = ends(random, source);
    value.extend(bits(random, &[SWITCH, PROTECTION]));
    tlv(DUAL_NODE_SWITCHING, &value)
}

/// A TLV that is passed over.
fn other_tlv(random: &mut Random) -> Vec<u8> {
    let kind = random.pick(&[0, 3, 0x0100, 0xffff]);
    let length = random.pick(&[0, 1, 16, 20, 40]);
    let value = random.octets(length);
    tlv(kind, &value)
}

/// A good message: either TLV or both, in any order, at times others among them.
pub(super) fn good(random: &mut Random, group: u32, source: u32) -> DhcDraft {
    let mut tlvs = match random.below(4) {
        0 => vec![status_tlv(random, source)],
        1 => vec![switching_tlv(random, source)],
        2 => vec![status_tlv(random, source), switching_tlv(random, source)],
        _ => vec![switching_tlv(random, source), status_tlv(random, source)],
    };
    while random.chance(15) {
        let at = random.between(0, tlvs.len() as u64) as usize;
        tlvs.insert(at, other_tlv(random));
    }
    let reserved = random.pick(&[0, 0, 0, 0, 255]);
    DhcDraft {
        group,
        reserved,
        tlvs,
    }
}

/// A way to make a draft wrong.
type Wrong = fn(&mut Random, &mut DhcDraft);

/// Ways to make the TLVs wrong: one twice, one of another length, none of the
/// two, one past the total, and octets that are no TLV.
const WRONGS: [Wrong; 6] = [
    |random, draft| {
        let twice = match random.chance(50) {
            true => [status_tlv(random, 55), status_tlv(random, 55)],
            false => [switching_tlv(random, 55), switching_tlv(random, 55)],
        };
        draft.tlvs.extend(twice);
    },
    |random, draft| {
        let statuses = [0, 16, 19, 21, 24].map(|length| (PW_STATUS, length));
        let switchings = [0, 12, 15, 17, 20].map(|length| (DUAL_NODE_SWITCHING, length));
        let (kind, length) = random.pick(&[statuses, switchings].concat());
        draft.tlvs = vec![tlv(kind, &random.octets(length))];
    },
    |_, draft| draft.tlvs.clear(),
    |random, draft| draft.tlvs = vec![other_tlv(random)],
    |random, draft| {
        if let Some(last) = draft.tlvs.last_mut() {
            last[3] += random.between(1, 4) as u8;
        }
    },
    |random, draft| {
        let length = random.between(1, 3) as usize;
        draft.tlvs.push(random.octets(length));
    },
];

/// A message that cannot be read: its TLVs wrong, its total at odds with them, cut,
/// or behind another channel header.
pub(super) fn wrong(random: &mut Random, mut draft: DhcDraft) -> Vec<u8> {
    let spoils = random.chance(50);
    if spoils {
        random.pick(&WRONGS)(random, &mut draft);
    }
    let mut octets = draft.octets();
    match random.below(5) {
        _ if spoils => {}
        0 => octets[9] = octets[9].wrapping_add(random.between(1, 3) as u8),
        1 => {
            octets[9] = octets[9].wrapping_add(random.between(1, 5) as u8);
            octets.extend([0; 5]);
        }
        2 => octets[9] = octets[9].wrapping_sub(random.between(1, 4) as u8),
        3 => {
            let anywhere = random.below(octets.len() as u64) as usize;
            let last = octets.len() - 1;
            octets.truncate(random.pick(&[3, 4, 11, 12, last, anywhere]));
        }
        _ => {
            let at = random.pick(&[0, 0, 2, 3]);
            octets[at] ^= random.pick(&[1, 2, 0x10]);
        }
    }
    octets
}

impl Maker {
    /// DHC messages, right and wrong, some of them padded. No record of a capture
    /// sets a group, so that none is accepted.
    pub(super) fn send_dhc(&mut self) {
        let circuit = self.pick_circuit();
        for _ in 0..self.random.between(1, 4) {
            let time = self.reading(&circuit);
            let (group, source) = (self.random.pick(&[0, 7, u32::MAX]), self.random.word());
            let draft = good(&mut self.random, group, source);
            let message = match self.random.chance(40) {
                true => draft.octets(),
                false => wrong(&mut self.random, draft),
            };
            self.receive(&circuit, time, message);
        }
    }
}
