//! What a broken host does to a group and takes back again.

use super::GroupMaker;
use crate::group::Group;
use crate::party::{Party, FIRST_OF_THEIRS};

impl GroupMaker {
    /// A field of a group out of order, some calls, and the field as it was.
    pub(super) fn spoil(&mut self, time: u64) {
        let Some((label, group)) = self.pick_group() else {
            return self.set(time);
        };
        let Some(place) = self.table.place(label) else {
            return;
        };
        let (field, spoiled, old) = self.spoiled(label, &group);
        self.append(&format!("spoil {place} {field} {spoiled}"), "");
        for _ in 0..self.random.between(1, 3) {
            self.bring(time);
        }
        self.ask(Party::of(label), group.id);
        self.append(&format!("spoil {place} {field} {old}"), "");
    }

    /// A field, a number that is out of order in it, and the one that it has.
    fn spoiled(&mut self, label: u32, group: &Group) -> (&'static str, u32, u32) {
        let number = self.random.pick(&[2, 3, 255]);
        let other_party = match label < FIRST_OF_THEIRS {
            true => self.random.pick(&[500_000, 1_048_575]),
            false => self.random.pick(&[16, 499_999]),
        };
        let dni = self.random.pick(&[0, 15, 1_048_576, label, other_party]);
        let fields = [
            ("group", number, 1),
            ("group-role", number, u32::from(group.role.0)),
            ("group-pw", number, u32::from(group.pw.0)),
            ("group-ac", number, u32::from(group.ac.0)),
            ("group-dni", dni, group.dni),
        ];
        match self.second_id(label, group) {
            Some(id) if self.random.chance(40) => ("group-id", id, group.id),
            _ => self.random.pick(&fields),
        }
    }

    /// The ID of another group of the party.
    fn second_id(&self, label: u32, group: &Group) -> Option<u32> {
        let own = |other: u32| Party::of(other) == Party::of(label);
        let groups = self.groups().into_iter();
        let mut others = groups.filter(|(other, second)| own(*other) && second.id != group.id);
        others.next().map(|(_, second)| second.id)
    }
}
