//! The numbered refusals.

/// Why a call was refused. The discriminant is the number that is printed.
#[derive(Clone, Copy, Debug, PartialEq, Eq)]
#[repr(u8)]
pub enum Refusal {
    /// The reading is below the clock, or above the largest reading.
    Reading = 1,
    /// No open session has this label, or the label is another party's.
    NoSession = 2,
    /// The message is shorter than its layout needs.
    Short = 3,
    /// The first nibble is not 1, or the G-ACh version is not 0.
    ChannelHeader = 4,
    /// The channel type is none of CC, CV, fault and DHC, or of another kind than
    /// the reader's.
    ChannelType = 5,
    /// A BFD reception rule is broken.
    Bfd = 6,
    /// The MEP-ID has an unknown type, a length that its type does not allow,
    /// or an AGI length at odds with its length.
    MepId = 7,
    /// A fault message has a wrong field or TLV.
    Fault = 8,
    /// A new condition where four already stand.
    ConditionsFull = 9,
    /// A setting is out of range, the label is another party's, or the two labels
    /// of a group are equal.
    Setting = 10,
    /// The label is already open, or the local discriminator in one's own party;
    /// the service PW has a group, or one's own party has one of this ID.
    InUse = 11,
    /// One's own 32 sessions are open.
    TableFull = 12,
    /// The room to write into is too short.
    Buffer = 13,
    /// A BFD message came for a locked session.
    Locked = 14,
    /// There is no such group, or a DHC message is for another DNI-PW or not from
    /// the group's peer.
    NoGroup = 24,
    /// A TLV of a DHC message is wrong or there twice, or neither is there.
    Coordination = 25,
    /// The table itself breaks its rules.
    Table = 26,
}

impl Refusal {
    /// The number of the refusal.
    pub fn number(self) -> u8 {
        self as u8
    }

    /// The refusal of a message that goes wrong at this octet.
    pub fn at(self, place: usize) -> Refused {
        Refused {
            refusal: self,
            place: Some(place),
        }
    }
}

/// A refused call: why, and where in the message if it could not be read.
#[derive(Clone, Copy, Debug, PartialEq, Eq)]
pub struct Refused {
    pub refusal: Refusal,
    pub place: Option<usize>,
}

impl From<Refusal> for Refused {
    fn from(refusal: Refusal) -> Refused {
        Refused {
            refusal,
            place: None,
        }
    }
}
