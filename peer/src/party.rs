//! The two operators whose sessions share the table, and which label is whose.

/// The number of an operator. Any number may be named; above 1 it is nobody's.
#[derive(Clone, Copy, Debug, PartialEq, Eq)]
pub struct Party(pub u32);

/// The first label that is theirs.
pub const FIRST_OF_THEIRS: u32 = 500_000;
/// How many sessions one party may have open.
pub const SESSIONS_OF_ONE: usize = 32;

impl Party {
    pub const OURS: Party = Party(0);
    pub const THEIRS: Party = Party(1);

    /// Whose label this is, one out of range too.
    pub fn of(label: u32) -> Party {
        if label < FIRST_OF_THEIRS {
            Party::OURS
        } else {
            Party::THEIRS
        }
    }

    pub fn owns(self, label: u32) -> bool {
        Party::of(label) == self
    }
}

/// The label that a call is on, and who calls.
#[derive(Clone, Copy, Debug, PartialEq, Eq)]
pub struct Circuit {
    pub label: u32,
    pub party: Party,
}

impl Circuit {
    /// Whether the label is the caller's own.
    pub fn is_own(self) -> bool {
        self.party.owns(self.label)
    }
}

#[cfg(test)]
mod tests {
    use super::*;

    #[test]
    fn every_label_has_one_owner_of_two() {
        for label in [0, 15, 16, 499_999, 500_000, 1_048_576, u32::MAX] {
            let theirs = label > 499_999;
            assert_eq!(Party::OURS.owns(label), !theirs);
            assert_eq!(Party::THEIRS.owns(label), theirs);
            for nobody in [2, 255, 256, u32::MAX] {
                assert!(!Party(nobody).owns(label));
            }
        }
    }
}
