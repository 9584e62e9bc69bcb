//! Damaged messages: each field of each layout wrong in turn, messages cut at
//! every length, TLVs that do not fit, and several damages together.

use super::draft::{interface_tlv, FaultDraft};
use super::{Circuit, Maker};
use crate::mep_id::PSEUDOWIRE;
use crate::message::{CHANNEL_CC, CHANNEL_CV, CHANNEL_FAULT};
use crate::octets::be16;

/// A field: where it starts, how many octets it takes, which bits are its.
#[derive(Clone, Copy)]
pub(super) struct Field {
    at: usize,
    width: usize,
    mask: u32,
}

const fn field(at: usize, width: usize, mask: u32) -> Field {
    Field { at, width, mask }
}

const WORD: u32 = 0xffff_ffff;

const CHANNEL_FIELDS: [Field; 4] = [
    field(0, 1, 0xf0),
    field(0, 1, 0x0f),
    field(1, 1, 0xff),
    field(2, 2, 0xffff),
];

const BFD_FIELDS: [Field; 16] = [
    field(4, 1, 0xe0),
    field(4, 1, 0x1f),
    field(5, 1, 0xc0),
    field(5, 1, 0x20),
    field(5, 1, 0x10),
    field(5, 1, 0x08),
    field(5, 1, 0x04),
    field(5, 1, 0x02),
    field(5, 1, 0x01),
    field(6, 1, 0xff),
    field(7, 1, 0xff),
    field(8, 4, WORD),
    field(12, 4, WORD),
    field(16, 4, WORD),
    field(20, 4, WORD),
    field(24, 4, WORD),
];

const FAULT_FIELDS: [Field; 9] = [
    field(4, 1, 0xf0),
    field(4, 1, 0x0f),
    field(5, 1, 0xff),
    field(6, 1, 0x02),
    field(6, 1, 0x01),
    field(6, 1, 0xfc),
    field(7, 1, 0xff),
    field(8, 1, 0xff),
    field(9, 1, 0xff),
];

/// The fields of a message, by its channel type.
pub(super) fn fields(message: &[u8]) -> Vec<Field> {
    let mut fields = CHANNEL_FIELDS.to_vec();
    match be16(message, 2) {
        CHANNEL_CC => fields.extend(BFD_FIELDS),
        CHANNEL_CV => {
            let mep_id = 4 + usize::from(message[7]);
            fields.extend(BFD_FIELDS);
            fields.push(field(mep_id, 2, 0xffff));
            fields.push(field(mep_id + 2, 2, 0xffff));
            fields.extend((1..4).map(|n| field(mep_id + 4 * n, 4, WORD)));
            if message.get(mep_id..mep_id + 2) == Some(&PSEUDOWIRE.to_be_bytes()) {
                // AGI type, AGI length and the last octet of the AGI.
                let ends = [mep_id + 16, mep_id + 17, message.len() - 1];
                fields.extend(ends.map(|at| field(at, 1, 0xff)));
            }
        }
        CHANNEL_FAULT => {
            fields.extend(FAULT_FIELDS);
            // Type and length of every octet pair that may start a TLV.
            fields.extend((10..message.len()).map(|at| field(at, 1, 0xff)));
        }
        _ => {}
    }
    fields.retain(|f| f.at + f.width <= message.len());
    fields
}

/// The values worth trying in a field that now holds `old`.
pub(super) fn values(field: Field, old: u32) -> Vec<u32> {
    let step = 1 << field.mask.trailing_zeros();
    let mut values = vec![
        0,
        field.mask,
        old.wrapping_add(step),
        old.wrapping_sub(step),
    ];
    if field.width == 2 {
        values.extend([0x0021, 0x0024, 0x0057, 0x0059, 0x0007, 0x2200, 256]);
        values.extend([2, 3, 12, 13, 14, 46, 47]);
    }
    if field.mask == 0xff {
        values.extend([20, 21, 23, 24, 25, 31, 32, 33, 40, 128]);
    }
    for value in &mut values {
        *value &= field.mask;
    }
    values
}

pub(super) fn get(message: &[u8], field: Field) -> u32 {
    let octets = &message[field.at..field.at + field.width];
    octets.iter().fold(0, |n, &o| n << 8 | u32::from(o)) & field.mask
}

pub(super) fn set(message: &mut [u8], field: Field, value: u32) {
    for n in 0..field.width {
        let shift = 8 * (field.width - 1 - n);
        let mask = (field.mask >> shift) as u8;
        let octet = &mut message[field.at + n];
        *octet = *octet & !mask | (value >> shift) as u8 & mask;
    }
}

/// A way to make a message wrong.
type Wrong = fn(&mut Vec<u8>);

/// Ways to make a BFD message of Length 24 wrong; those that shorten it last.
const BFD_WRONGS: [Wrong; 18] = [
    |m| m[0] = 0x11,
    |m| m[3] = 0x24,
    |m| m[4] ^= 0x40,
    |m| m[6] = 0,
    |m| m[5] |= 0x04,
    |m| m[5] |= 0x01,
    |m| m[7] = 23,
    |m| m[7] = 255,
    |m| m[8..12].fill(0),
    |m| {
        m[12..16].fill(0);
        m[5] |= 0x80;
    },
    |m| m[12] ^= 0x10,
    |m| m.last_chunk_mut::<15>().unwrap_or(&mut [0; 15])[0] = 2,
    |m| m.last_chunk_mut::<15>().unwrap_or(&mut [0; 15])[0] = 3,
    |m| m.last_chunk_mut::<13>().unwrap_or(&mut [0; 13])[0] = 11,
    |m| m.last_chunk_mut::<13>().unwrap_or(&mut [0; 13])[0] = 14,
    |m| m.truncate(m.len() - 1),
    |m| m.truncate(30),
    |m| m.truncate(27),
];

/// Ways to make a fault message wrong; those that shorten it last.
const FAULT_WRONGS: [Wrong; 11] = [
    |m| m[0] = 0x00,
    |m| m[2] = 1,
    |m| m[4] = 0x20,
    |m| m[5] = 3,
    |m| m[7] = 21,
    |m| m[8] = 255,
    |m| m[8] = m[8].wrapping_add(1),
    |m| {
        m[8] = m[8].wrapping_add(1);
        m.push(1);
    },
    |m| {
        m[8] = m[8].wrapping_add(3);
        m.extend_from_slice(&[2, 1, 0]);
    },
    |m| m.truncate(m.len() - 1),
    |m| m.truncate(8),
];

impl Maker {
    /// Messages with two things wrong: one, or one for each pair of wrongs.
    pub(super) fn messages_with_two_wrongs(&mut self, circuit: &Circuit) -> Vec<Vec<u8>> {
        let mut draft = match self.random.chance(60) {
            true => self.good_cc(circuit),
            false => self.good_cv(circuit),
        };
        draft.extra.clear();
        let (message, wrongs) = match self.random.chance(70) {
            true => (draft.octets([5; 3]), &BFD_WRONGS[..]),
            false => (self.good_fault().octets(), &FAULT_WRONGS[..]),
        };
        let mut pairs: Vec<(usize, usize)> = (0..wrongs.len())
            .flat_map(|second| (0..second).map(move |first| (first, second)))
            .collect();
        if self.random.chance(96) {
            pairs = vec![self.random.pick(&pairs)];
        }
        let spoil = |(first, second): (usize, usize)| {
            let mut spoilt = message.clone();
            wrongs[first](&mut spoilt);
            wrongs[second](&mut spoilt);
            spoilt
        };
        pairs.into_iter().map(spoil).collect()
    }

    /// A message of any channel that would be accepted.
    pub(super) fn good_message(&mut self, circuit: &Circuit) -> Vec<u8> {
        match self.random.below(8) {
            0..3 => {
                let draft = self.good_cc(circuit);
                self.bfd_octets(&draft)
            }
            3 | 4 => {
                let draft = self.good_cv(circuit);
                self.bfd_octets(&draft)
            }
            5 => {
                let draft = self.pseudowire_cv(circuit);
                self.bfd_octets(&draft)
            }
            _ => {
                let octets = self.good_fault().octets();
                self.with_filler(octets)
            }
        }
    }

    /// A message with one field wrong, at times with more than that.
    pub(super) fn damaged_message(&mut self, circuit: &Circuit) -> Vec<u8> {
        if self.random.chance(15) {
            return self.wrong_tlvs().octets();
        }
        let mut message = self.good_message(circuit);
        self.damage_field(&mut message);
        if self.random.chance(25) {
            self.damage_field(&mut message);
        }
        if self.random.chance(25) {
            let length = self.random.between(0, message.len() as u64);
            message.truncate(length as usize);
        }
        message
    }

    /// The CV of a pseudowire, whole or wrong at its own places: another type,
    /// a length beside those allowed, an AGI length at odds, and cut beside
    /// each place at which the next thing is judged.
    pub(super) fn pseudowire(&mut self, circuit: &Circuit) -> Vec<u8> {
        let draft = self.pseudowire_cv(circuit);
        let mut message = self.bfd_octets(&draft);
        let at = 4 + usize::from(message[7]);
        let length = message.len() - at - 4;
        if self.random.chance(30) {
            let kinds = [[0, 0], [0, 1], [0, 3], [2, 0], [255, 255]];
            message[at..at + 2].copy_from_slice(&self.random.pick(&kinds));
        }
        if self.random.chance(30) {
            let lengths = [
                0,
                12,
                13,
                14,
                45,
                46,
                47,
                256 + length,
                length + 1,
                length - 1,
            ];
            let length = self.random.pick(&lengths) as u16;
            message[at + 2..at + 4].copy_from_slice(&length.to_be_bytes());
        }
        if self.random.chance(30) {
            let agi = message[at + 17];
            let lengths = [0, 32, 33, 255, agi.wrapping_add(1), agi.wrapping_sub(1)];
            message[at + 17] = self.random.pick(&lengths);
        }
        if self.random.chance(40) {
            let whole = message.len();
            let ends = [
                at,
                at + 3,
                at + 4,
                at + 5,
                at + 16,
                at + 17,
                at + 18,
                whole - 1,
            ];
            message.truncate(self.random.pick(&ends));
        }
        message
    }

    fn damage_field(&mut self, message: &mut [u8]) {
        let field = self.random.pick(&fields(message));
        let values = values(field, get(message, field));
        let value = self.random.pick(&values);
        let any = self.random.word() & field.mask;
        let chosen = self.random.pick(&[value, value, value, any]);
        set(message, field, chosen);
    }

    /// A fault message whose TLVs are wrong in one of the ways there are.
    pub(super) fn wrong_tlvs(&mut self) -> FaultDraft {
        let mut draft = self.good_fault();
        let wrong = match self.random.below(6) {
            0 => interface_tlv(1, 1),
            1 => vec![2, 4, 0, 0, 0, 7],
            2 => self.sized_tlv(1, &[0, 4, 7, 9, 12]),
            3 => self.sized_tlv(2, &[0, 3, 5, 8]),
            4 => vec![self.random.pick(&[0, 1, 2, 3, 255])],
            _ => vec![3, self.random.pick(&[1, 2, 255]), 0],
        };
        let at = self.random.between(0, draft.tlvs.len() as u64);
        draft.tlvs.insert(at as usize, wrong);
        draft
    }

    fn sized_tlv(&mut self, kind: u8, lengths: &[u8]) -> Vec<u8> {
        let length = self.random.pick(lengths);
        let mut tlv = vec![kind, length];
        tlv.extend_from_slice(&self.random.octets(usize::from(length)));
        tlv
    }
}
