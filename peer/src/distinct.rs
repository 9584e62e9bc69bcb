//! An exact test whether many numbers are all different.

/// Slots of the hash table: a power of two, four times the most entries.
const SLOTS: usize = 256;
const SLOT_BITS: u32 = SLOTS.trailing_zeros();

#[derive(Clone, Copy)]
struct Slot {
    round: u64,
    value: u32,
}

/// A small open-addressing set. A slot counts as filled only if it bears the
/// number of the current round, so starting afresh costs nothing.
pub struct Distinct {
    round: u64,
    slots: [Slot; SLOTS],
}

impl Distinct {
    pub fn new() -> Distinct {
        let empty = Slot { round: 0, value: 0 };
        Distinct {
            round: 0,
            slots: [empty; SLOTS],
        }
    }

    /// Forgets all numbers.
    pub fn start(&mut self) {
        self.round += 1;
    }

    /// Adds a number and says whether it is new. At most 64 are added in one
    /// round, so a free slot is always found.
    pub fn add(&mut self, value: u32) -> bool {
        let mut at = (value.wrapping_mul(0x9E37_79B1) >> (32 - SLOT_BITS)) as usize;
        loop {
            let slot = &mut self.slots[at % SLOTS];
            if slot.round != self.round {
                *slot = Slot {
                    round: self.round,
                    value,
                };
                return true;
            }
            if slot.value == value {
                return false;
            }
            at += 1;
        }
    }
}

impl Default for Distinct {
    fn default() -> Distinct {
        Distinct::new()
    }
}

#[cfg(test)]
mod tests {
    use super::*;

    #[test]
    fn finds_a_repeated_number_and_no_other() {
        let mut set = Distinct::new();
        set.start();
        assert!((0..64).all(|n| set.add(n * 256)));
        assert!((0..64).all(|n| !set.add(n * 256)));
        set.start();
        assert!((0..64).all(|n| set.add(u32::MAX - n)));
        assert!(!set.add(u32::MAX - 63));
        set.start();
        assert!(set.add(0));
        assert!(!set.add(0));
    }
}
