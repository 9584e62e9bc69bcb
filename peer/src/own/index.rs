//! Where the session of a label stands.

/// Slots of the hash table: a power of two, four times the most entries.
const SLOTS: usize = 256;
const SLOT_BITS: u32 = SLOTS.trailing_zeros();

#[derive(Clone, Copy)]
struct Entry {
    label: u32,
    place: u8,
}

/// A small open-addressing table from labels to places. An entry stands in the
/// first slot from its home on that was free, with no free slot between.
pub struct Index {
    slots: [Option<Entry>; SLOTS],
}

impl Index {
    pub fn new() -> Index {
        Index {
            slots: [None; SLOTS],
        }
    }

    /// The place of a label.
    pub fn find(&self, label: u32) -> Option<usize> {
        self.slots[self.slot_of(label)].map(|entry| usize::from(entry.place))
    }

    /// Adds a label that is not there. At most 64 are there at a time.
    pub fn add(&mut self, label: u32, place: usize) {
        let place = place as u8;
        self.slots[self.slot_of(label)] = Some(Entry { label, place });
    }

    /// Takes a label out. Entries behind it move up, so that none is cut off
    /// from its home.
    pub fn remove(&mut self, label: u32) {
        let mut free = self.slot_of(label);
        let mut at = free;
        self.slots[free] = None;
        loop {
            at = (at + 1) % SLOTS;
            let Some(entry) = self.slots[at] else { return };
            if steps(home(entry.label), at) >= steps(free, at) {
                self.slots[free] = Some(entry);
                self.slots[at] = None;
                free = at;
            }
        }
    }

    /// The slot that has the label, else the free one in which it would stand.
    fn slot_of(&self, label: u32) -> usize {
        let mut at = home(label);
        while self.slots[at].is_some_and(|entry| entry.label != label) {
            at = (at + 1) % SLOTS;
        }
        at
    }
}

fn home(label: u32) -> usize {
    (label.wrapping_mul(0x9E37_79B1) >> (32 - SLOT_BITS)) as usize
}

/// How many slots onwards from one to another.
fn steps(from: usize, to: usize) -> usize {
    (to + SLOTS - from) % SLOTS
}

#[cfg(test)]
mod tests {
    use super::*;

    /// 64 labels with few homes, the last slots of the table among them.
    fn crowded() -> Vec<u32> {
        let few = |label: &u32| home(*label) > 252 || home(*label) < 2;
        (16..).filter(few).take(64).collect()
    }

    #[test]
    fn finds_what_is_there_and_nothing_else() {
        let labels = crowded();
        let mut index = Index::new();
        for (place, &label) in labels.iter().enumerate() {
            assert_eq!(index.find(label), None);
            index.add(label, place);
        }
        for out in 0..labels.len() {
            index.remove(labels[out]);
            for (place, &label) in labels.iter().enumerate() {
                assert_eq!(index.find(label), (place != out).then_some(place));
            }
            index.add(labels[out], out);
        }
    }

    #[test]
    fn is_empty_when_all_are_taken_out() {
        let labels = crowded();
        let mut index = Index::new();
        for (place, &label) in labels.iter().enumerate() {
            index.add(label, place);
        }
        for &label in labels
            .iter()
            .rev()
            .step_by(2)
            .chain(labels.iter().step_by(2))
        {
            index.remove(label);
            assert_eq!(index.find(label), None);
        }
        assert!(index.slots.iter().all(Option::is_none));
    }
}
