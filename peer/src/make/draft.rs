//! Messages as they are drafted for a capture, right or wrong.

use super::{Circuit, Maker};
use crate::mep_id::{MepId, PSEUDOWIRE};
use crate::message::{FaultKind, Origin, State, CHANNEL_CC, CHANNEL_CV, CHANNEL_FAULT};

/// A BFD packet with its channel header.
#[derive(Clone)]
pub(super) struct BfdDraft {
    pub channel: u16,
    pub diagnostic: u8,
    pub state: u8,
    /// P, F, C, A, D and M in the six lower bits.
    pub flags: u8,
    pub multiplier: u8,
    pub my: u32,
    pub your: u32,
    /// Octets after the mandatory part that Length counts.
    pub extra: Vec<u8>,
    /// The MEP-ID of a CV.
    pub mep_id: Option<MepId>,
}

pub(super) const POLL: u8 = 0x20;

impl BfdDraft {
    pub fn octets(&self, intervals: [u32; 3]) -> Vec<u8> {
        let mut octets = vec![0x10, 0];
        octets.extend_from_slice(&self.channel.to_be_bytes());
        octets.push(1 << 5 | self.diagnostic & 31);
        octets.push(self.state << 6 | self.flags);
        octets.push(self.multiplier);
        octets.push(24 + self.extra.len() as u8);
        for word in [self.my, self.your].iter().chain(&intervals) {
            octets.extend_from_slice(&word.to_be_bytes());
        }
        octets.extend_from_slice(&self.extra);
        if let Some(mep_id) = self.mep_id {
            octets.extend_from_slice(&mep_id.part());
        }
        octets
    }
}

/// A fault message with its channel header.
#[derive(Clone)]
pub(super) struct FaultDraft {
    pub kind: u8,
    pub flags: u8,
    pub refresh: u8,
    pub tlvs: Vec<Vec<u8>>,
}

pub(super) const LINK_DOWN: u8 = 2;
pub(super) const CLEAR: u8 = 1;
pub(super) const ALARM_INDICATION: u8 = 1;
pub(super) const LOCK_REPORT: u8 = 2;

impl FaultDraft {
    pub fn octets(&self) -> Vec<u8> {
        let tlvs = self.tlvs.concat();
        let mut octets = vec![0x10, 0];
        octets.extend_from_slice(&CHANNEL_FAULT.to_be_bytes());
        octets.extend_from_slice(&[1 << 4, self.kind, self.flags, self.refresh]);
        octets.push(tlvs.len().min(255) as u8);
        octets.extend_from_slice(&tlvs);
        octets
    }
}

/// The number of a kind of fault message on the wire.
pub(super) fn kind_number(kind: FaultKind) -> u8 {
    match kind {
        FaultKind::AlarmIndication => ALARM_INDICATION,
        FaultKind::LockReport => LOCK_REPORT,
    }
}

/// An IF_ID TLV.
pub(super) fn interface_tlv(node: u32, interface: u32) -> Vec<u8> {
    let mut tlv = vec![1, 8];
    tlv.extend_from_slice(&node.to_be_bytes());
    tlv.extend_from_slice(&interface.to_be_bytes());
    tlv
}

/// A Global_ID TLV.
pub(super) fn global_tlv(global: u32) -> Vec<u8> {
    let mut tlv = vec![2, 4];
    tlv.extend_from_slice(&global.to_be_bytes());
    tlv
}

/// The TLVs that name an origin.
pub(super) fn origin_tlvs(origin: &Origin) -> Vec<Vec<u8>> {
    let interface = origin
        .interface
        .map(|id| interface_tlv(id.node, id.interface));
    let global = origin.global.map(global_tlv);
    interface.into_iter().chain(global).collect()
}

impl Maker {
    /// A CC that the session of the circuit accepts as its own. Its state mostly leads the
    /// session UP and keeps it there.
    pub(super) fn good_cc(&mut self, circuit: &Circuit) -> BfdDraft {
        let steered = self.random.chance(self.steering());
        let session = self.session(circuit).map(|s| (s.state, s.settings));
        let state = match session {
            Some((State::Down, _)) if steered => self.random.pick(&[1, 2, 2]),
            Some((State::Init | State::Up, _)) if steered => self.random.pick(&[2, 3, 3, 3]),
            _ => self.random.below(4) as u8,
        };
        let your = session.map_or(circuit.discriminator, |(_, s)| s.discriminator);
        let unknown = state < 2 && self.random.chance(50);
        let diagnostics = [0, 0, 0, 0, 0, 1, 3, 5, 7, 9];
        let any_diagnostic = self.random.below(32) as u8;
        let diagnostic = self.random.pick(&diagnostics);
        BfdDraft {
            channel: CHANNEL_CC,
            diagnostic: self.random.pick(&[diagnostic, diagnostic, any_diagnostic]),
            state,
            flags: self.harmless_flags(),
            multiplier: self.good_multiplier(),
            my: self.remote_of(circuit),
            your: if unknown { 0 } else { your },
            extra: self.extra_octets(),
            mep_id: None,
        }
    }

    /// A CV that the session of the circuit accepts as its own.
    pub(super) fn good_cv(&mut self, circuit: &Circuit) -> BfdDraft {
        let expected = match self.session(circuit) {
            Some(session) => session.settings.expected,
            None => MepId::new(circuit.mep_kind, &circuit.expected),
        };
        let mut draft = self.good_cc(circuit);
        draft.channel = CHANNEL_CV;
        draft.state = self.random.below(4) as u8;
        draft.mep_id = Some(expected);
        if self.random.chance(30) {
            draft.your = 0;
        }
        draft
    }

    /// A CV of a pseudowire: well-formed, and so of another circuit. Its numbers
    /// are at times the expected ones.
    pub(super) fn pseudowire_cv(&mut self, circuit: &Circuit) -> BfdDraft {
        let mut draft = self.good_cv(circuit);
        let mut value = match self.random.chance(60) {
            true => circuit.expected.to_vec(),
            false => self.random.octets(12),
        };
        let any = self.random.between(0, 32) as u8;
        let length = self.random.pick(&[0, 0, 1, 8, 31, 32, 32, any]);
        value.extend([self.random.pick(&[0, 0, 1, 255]), length]);
        value.extend(self.random.octets(usize::from(length)));
        draft.mep_id = Some(MepId::new(PSEUDOWIRE, &value));
        draft
    }

    /// How often, in a hundred, a CC leads the session UP.
    fn steering(&self) -> u64 {
        match self.style {
            super::Style::Steady => 98,
            _ => 75,
        }
    }

    /// P, F, C and D in all combinations; A and M clear.
    fn harmless_flags(&mut self) -> u8 {
        let mut flags = 0;
        for flag in [POLL, 0x10, 0x08, 0x02] {
            if self.random.chance(12) {
                flags |= flag;
            }
        }
        flags
    }

    fn good_multiplier(&mut self) -> u8 {
        let any = self.random.between(1, 255) as u8;
        self.random.pick(&[3, 3, 3, 3, 3, 1, 1, 2, 4, 255, any])
    }

    fn remote_of(&mut self, circuit: &Circuit) -> u32 {
        match self.random.chance(5) {
            true => self.random.word() | 1,
            false => circuit.remote,
        }
    }

    /// Octets that make Length larger than 24.
    fn extra_octets(&mut self) -> Vec<u8> {
        let length = match self.random.below(12) {
            0 => self.random.between(1, 231),
            1 => self.random.pick(&[1, 2, 16, 231]),
            _ => 0,
        };
        self.random.octets(length as usize)
    }

    /// The octets of a BFD draft with random intervals and channel filler.
    pub(super) fn bfd_octets(&mut self, draft: &BfdDraft) -> Vec<u8> {
        let intervals = match self.random.chance(50) {
            true => [self.period, self.period, 0],
            false => [self.random.word(), self.random.word(), self.random.word()],
        };
        let octets = draft.octets(intervals);
        self.with_filler(octets)
    }

    /// Sets the octet of the channel header that is not looked at.
    pub(super) fn with_filler(&mut self, mut octets: Vec<u8>) -> Vec<u8> {
        if self.random.chance(10) {
            octets[1] = self.random.octet();
        }
        octets
    }

    /// Link padding behind a message, at times up to the longest body.
    pub(super) fn padded(&mut self, mut octets: Vec<u8>) -> Vec<u8> {
        let length = match self.random.below(25) {
            0..=2 => self.random.between(1, 40) as usize,
            3 => 2_048 - octets.len().min(2_048),
            4 => 16,
            _ => 0,
        };
        let padding = match self.random.chance(50) {
            true => vec![0; length],
            false => self.random.octets(length),
        };
        octets.extend_from_slice(&padding);
        octets
    }

    /// A fault message that is read without refusal.
    pub(super) fn good_fault(&mut self) -> FaultDraft {
        let any_refresh = self.random.between(1, 20) as u8;
        let flags = self.random.pick(&[0, 0, 0, 0, 2, 2, 2, 1, 3]);
        let unread_flags = self.random.pick(&[0, 0, 0, 0xfc, 0x04]);
        FaultDraft {
            kind: self.random.pick(&[ALARM_INDICATION, LOCK_REPORT]),
            flags: flags | unread_flags,
            refresh: self.random.pick(&[1, 1, 1, 2, 20, any_refresh]),
            tlvs: self.good_tlvs(),
        }
    }

    /// IF_ID, Global_ID and unknown TLVs, each or none, in any order.
    pub(super) fn good_tlvs(&mut self) -> Vec<Vec<u8>> {
        let mut tlvs = Vec::new();
        if self.random.chance(75) {
            let node = self.random.pick(&[0, 1, 2, u32::MAX]);
            let interface = self.random.pick(&[0, 0, 1, 2]);
            tlvs.push(interface_tlv(node, interface));
        }
        tlvs.extend(self.any_global().map(global_tlv));
        while self.random.chance(20) && tlvs.len() < 6 {
            tlvs.push(self.unknown_tlv());
        }
        self.shuffle(&mut tlvs);
        tlvs
    }

    /// A Global_ID of few: none, 0, one of two carriers, seldom another.
    pub(super) fn any_global(&mut self) -> Option<u32> {
        let other = self.random.word();
        let few = [None, None, Some(0), Some(7), Some(7), Some(8)];
        match self.random.chance(5) {
            true => Some(other),
            false => self.random.pick(&few),
        }
    }

    pub(super) fn unknown_tlv(&mut self) -> Vec<u8> {
        let any = self.random.between(3, 255) as u8;
        let kind = self.random.pick(&[0, 3, 255, any]);
        let length = self.random.pick(&[0, 1, 4, 8, 12, 30]);
        let mut tlv = vec![kind, length];
        tlv.extend_from_slice(&self.random.octets(usize::from(length)));
        tlv
    }

    pub(super) fn shuffle(&mut self, tlvs: &mut [Vec<u8>]) {
        for last in (1..tlvs.len()).rev() {
            let other = self.random.between(0, last as u64) as usize;
            tlvs.swap(last, other);
        }
    }
}
