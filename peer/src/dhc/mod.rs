//! Dual-homing coordination (DHC) messages, read and written. What one does to a
//! group is the group's to say.

mod lines;

pub use lines::answer;

use crate::message::{self, CHANNEL_DHC};
use crate::octets::{be16, be32};
use crate::refusal::{Refusal, Refused};

/// Channel header, group ID, total length of the TLVs and a reserved field.
const HEAD: usize = 12;
/// Type and length of a TLV.
const TLV_HEAD: usize = 4;
pub const PW_STATUS: u16 = 1;
pub const DUAL_NODE_SWITCHING: u16 = 2;
pub const PW_STATUS_LENGTH: usize = 20;
pub const DUAL_NODE_SWITCHING_LENGTH: usize = 16;

/// A DHC message, with at least one of the two TLVs if it was read.
#[derive(Clone, Copy, Debug, PartialEq, Eq)]
pub struct Dhc {
    pub group: u32,
    pub status: Option<PwStatus>,
    pub switching: Option<DualNodeSwitching>,
}

/// The two PEs by their Node_IDs, and the pseudowire between them.
#[derive(Clone, Copy, Debug, PartialEq, Eq)]
pub struct Ends {
    pub destination: u32,
    pub source: u32,
    pub pseudowire: u32,
}

#[derive(Clone, Copy, Debug, PartialEq, Eq)]
pub struct PwStatus {
    pub ends: Ends,
    pub protection: bool,
    pub degrade: bool,
    pub fail: bool,
}

#[derive(Clone, Copy, Debug, PartialEq, Eq)]
pub struct DualNodeSwitching {
    pub ends: Ends,
    pub switch: bool,
    pub protection: bool,
}

impl Dhc {
    /// The switch bit names the protection PW.
    pub fn switches(&self) -> bool {
        self.switching.is_some_and(|switching| switching.switch)
    }

    /// The status is signal fail.
    pub fn fails(&self) -> bool {
        self.status.is_some_and(|status| status.fail)
    }

    /// The source of each TLV that is there.
    pub fn sources(&self) -> impl Iterator<Item = u32> {
        let status = self.status.map(|status| status.ends);
        let switching = self.switching.map(|switching| switching.ends);
        status.into_iter().chain(switching).map(|ends| ends.source)
    }
}

/// Reads a DHC message. Octets behind its TLVs are link padding. Where TLVs are
/// wrong no place is named.
pub fn read(octets: &[u8]) -> Result<Dhc, Refused> {
    if message::channel(octets)? != CHANNEL_DHC {
        return Err(Refusal::ChannelType.at(2));
    }
    let short = || Refusal::Short.at(octets.len());
    if octets.len() < HEAD {
        return Err(short());
    }
    let total = usize::from(be16(octets, 8));
    let tlvs = octets.get(HEAD..HEAD + total).ok_or_else(short)?;
    let mut dhc = Dhc {
        group: be32(octets, 4),
        status: None,
        switching: None,
    };
    read_tlvs(tlvs, &mut dhc).ok_or(Refusal::Coordination)?;
    match (dhc.status, dhc.switching) {
        (None, None) => Err(Refusal::Coordination.into()),
        _ => Ok(dhc),
    }
}

/// Puts what the TLVs say in its place; nothing if one of them is wrong. Those of
/// other types are passed over.
fn read_tlvs(mut tlvs: &[u8], dhc: &mut Dhc) -> Option<()> {
    while !tlvs.is_empty() {
        let head = tlvs.get(..TLV_HEAD)?;
        let end = TLV_HEAD + usize::from(be16(head, 2));
        let value = tlvs.get(TLV_HEAD..end)?;
        let first = match be16(head, 0) {
            PW_STATUS => dhc.status.replace(status_of(value)?).is_none(),
            DUAL_NODE_SWITCHING => dhc.switching.replace(switching_of(value)?).is_none(),
            _ => true,
        };
        if !first {
            return None;
        }
        tlvs = &tlvs[end..];
    }
    Some(())
}

fn ends_of(value: &[u8]) -> Ends {
    Ends {
        destination: be32(value, 0),
        source: be32(value, 4),
        pseudowire: be32(value, 8),
    }
}

fn status_of(value: &[u8]) -> Option<PwStatus> {
    (value.len() == PW_STATUS_LENGTH).then(|| PwStatus {
        ends: ends_of(value),
        protection: value[15] & 1 != 0,
        degrade: value[19] & 2 != 0,
        fail: value[19] & 1 != 0,
    })
}

fn switching_of(value: &[u8]) -> Option<DualNodeSwitching> {
    (value.len() == DUAL_NODE_SWITCHING_LENGTH).then(|| DualNodeSwitching {
        ends: ends_of(value),
        switch: value[15] & 2 != 0,
        protection: value[15] & 1 != 0,
    })
}

/// The octets of a message; none for one without a TLV, which nobody would read.
pub fn written(dhc: &Dhc) -> Option<Vec<u8>> {
    let mut tlvs = Vec::new();
    if let Some(status) = dhc.status {
        append_head(&mut tlvs, PW_STATUS, PW_STATUS_LENGTH, status.ends);
        tlvs.extend(u32::from(status.protection).to_be_bytes());
        let bits = u32::from(status.degrade) << 1 | u32::from(status.fail);
        tlvs.extend(bits.to_be_bytes());
    }
    if let Some(switching) = dhc.switching {
        let length = DUAL_NODE_SWITCHING_LENGTH;
        append_head(&mut tlvs, DUAL_NODE_SWITCHING, length, switching.ends);
        let bits = u32::from(switching.switch) << 1 | u32::from(switching.protection);
        tlvs.extend(bits.to_be_bytes());
    }
    let mut octets = vec![0x10, 0];
    octets.extend(CHANNEL_DHC.to_be_bytes());
    octets.extend(dhc.group.to_be_bytes());
    octets.extend((tlvs.len() as u16).to_be_bytes());
    octets.extend([0, 0]);
    octets.extend(&tlvs);
    (!tlvs.is_empty()).then_some(octets)
}

/// Type, length, and what both TLVs start with.
fn append_head(tlvs: &mut Vec<u8>, kind: u16, length: usize, ends: Ends) {
    tlvs.extend(kind.to_be_bytes());
    tlvs.extend((length as u16).to_be_bytes());
    for number in [ends.destination, ends.source, ends.pseudowire] {
        tlvs.extend(number.to_be_bytes());
    }
}
