//! Dual-homing groups: what the record of a service PW keeps of one, what makes
//! the PW active or standby, and what is forwarded.

use crate::dhc::Dhc;
use crate::party::Party;
use crate::settings::{HIGHEST_LABEL, LOWEST_LABEL};

/// Which of the two PEs this is to the group, by its number. A number that is
/// no role is out of range.
#[derive(Clone, Copy, Debug, Default, PartialEq, Eq)]
pub struct Role(pub u8);

impl Role {
    pub const WORKING: Role = Role(0);
    pub const PROTECTION: Role = Role(1);

    /// The role that a caller's number means; none is refused.
    pub fn of(number: u8) -> Role {
        Role(number.min(1))
    }

    fn is_in_range(self) -> bool {
        self.0 <= 1
    }
}

/// Whether a PW or an AC is in use, by its number. A number that is neither is
/// out of range.
#[derive(Clone, Copy, Debug, Default, PartialEq, Eq)]
pub struct Activity(pub u8);

impl Activity {
    pub const STANDBY: Activity = Activity(0);
    pub const ACTIVE: Activity = Activity(1);

    /// What a caller's number means; none is refused.
    pub fn of(number: u8) -> Activity {
        Activity(number.min(1))
    }

    fn is_in_range(self) -> bool {
        self.0 <= 1
    }
}

/// What a PE does with traffic: RFC 8185, Table 1.
#[derive(Clone, Copy, Debug, PartialEq, Eq)]
#[repr(u8)]
pub enum Forwarding {
    DropAll = 0,
    ServicePwAndAc = 1,
    ServicePwAndDniPw = 2,
    DniPwAndAc = 3,
}

impl Forwarding {
    /// A DNI-PW that is down leaves the one row that does without it.
    pub fn of(pw: Activity, ac: Activity, dni_up: bool) -> Forwarding {
        match (pw, ac, dni_up) {
            (Activity::ACTIVE, Activity::ACTIVE, _) => Forwarding::ServicePwAndAc,
            (Activity::ACTIVE, Activity::STANDBY, true) => Forwarding::ServicePwAndDniPw,
            (Activity::STANDBY, Activity::ACTIVE, true) => Forwarding::DniPwAndAc,
            _ => Forwarding::DropAll,
        }
    }
}

/// A group as it lies in the record of its service PW; all zeros where there is
/// none. A broken host may leave any number in it.
#[derive(Clone, Copy, Debug, Default, PartialEq, Eq)]
pub struct Group {
    /// Whether there is a group: 0 or 1.
    pub mark: u8,
    pub id: u32,
    pub role: Role,
    /// The Node_ID of the other PE.
    pub peer: u32,
    /// The label of the DNI-PW, open or not.
    pub dni: u32,
    /// The service PW.
    pub pw: Activity,
    pub ac: Activity,
}

impl Group {
    pub fn is_there(&self) -> bool {
        self.mark == 1
    }

    /// Sets the PW as it is at setting and at return: active at a working PE
    /// without a defect.
    pub fn start(&mut self, defect: bool) {
        self.pw = match self.role == Role::WORKING && !defect {
            true => Activity::ACTIVE,
            false => Activity::STANDBY,
        };
    }

    /// A loss or a crossed message on the service PW, or a switch bit: a working PE
    /// gives the PW up. A protection PE's is made standby by return alone.
    pub fn give_up(&mut self) {
        if self.role == Role::WORKING {
            self.pw = Activity::STANDBY;
        }
    }

    /// Whether a message of this group's ID is for another DNI-PW, or one of its
    /// TLVs from another PE than the peer.
    pub fn refuses(&self, dhc: &Dhc, label: u32) -> bool {
        self.dni != label || dhc.sources().any(|source| source != self.peer)
    }

    /// Takes in a message that is not refused.
    pub fn take(&mut self, dhc: &Dhc) {
        if dhc.switches() {
            self.give_up();
        }
        if self.role == Role::PROTECTION && (dhc.switches() || dhc.fails()) {
            self.pw = Activity::ACTIVE;
        }
    }

    /// Whether the group in the record of this label is in order: nothing is
    /// asked of the fields where there is no group, and the DNI-PW need not be
    /// open.
    pub fn is_sound(&self, label: u32) -> bool {
        match self.mark {
            0 => true,
            1 => self.fields_are_sound(label),
            _ => false,
        }
    }

    fn fields_are_sound(&self, label: u32) -> bool {
        self.role.is_in_range()
            && self.pw.is_in_range()
            && self.ac.is_in_range()
            && (LOWEST_LABEL..=HIGHEST_LABEL).contains(&self.dni)
            && self.dni != label
            && Party::of(self.dni) == Party::of(label)
    }
}

#[cfg(test)]
mod tests {
    use super::*;
    use crate::dhc::{DualNodeSwitching, Ends, PwStatus};

    const PEER: u32 = 55;

    fn group(role: Role, pw: Activity) -> Group {
        Group {
            mark: 1,
            id: 7,
            role,
            peer: PEER,
            dni: 101,
            pw,
            ac: Activity::STANDBY,
        }
    }

    fn ends(source: u32) -> Ends {
        Ends {
            destination: 1,
            source,
            pseudowire: 2,
        }
    }

    fn status(source: u32, fail: bool) -> Option<PwStatus> {
        Some(PwStatus {
            ends: ends(source),
            protection: true,
            degrade: true,
            fail,
        })
    }

    fn switching(source: u32, switch: bool) -> Option<DualNodeSwitching> {
        Some(DualNodeSwitching {
            ends: ends(source),
            switch,
            protection: true,
        })
    }

    /// The PW behind a message, from standby and from active.
    fn behind(role: Role, message: (Option<PwStatus>, Option<DualNodeSwitching>)) -> [u8; 2] {
        [Activity::STANDBY, Activity::ACTIVE].map(|pw| {
            let (mut group, (status, switching)) = (group(role, pw), message);
            group.take(&Dhc {
                group: 7,
                status,
                switching,
            });
            group.pw.0
        })
    }

    #[test]
    fn what_a_message_does() {
        for (message, working, protection) in [
            ((status(PEER, false), None), [0, 1], [0, 1]),
            ((status(PEER, true), None), [0, 1], [1, 1]),
            ((None, switching(PEER, false)), [0, 1], [0, 1]),
            ((None, switching(PEER, true)), [0, 0], [1, 1]),
            (
                (status(PEER, false), switching(PEER, false)),
                [0, 1],
                [0, 1],
            ),
            ((status(PEER, true), switching(PEER, false)), [0, 1], [1, 1]),
            ((status(PEER, false), switching(PEER, true)), [0, 0], [1, 1]),
            ((status(PEER, true), switching(PEER, true)), [0, 0], [1, 1]),
        ] {
            assert_eq!(behind(Role::WORKING, message), working, "{message:?}");
            assert_eq!(behind(Role::PROTECTION, message), protection, "{message:?}");
        }
    }

    #[test]
    fn every_tlv_that_is_there_is_from_the_peer() {
        let refuses = |status, switching, label| {
            let dhc = Dhc {
                group: 7,
                status,
                switching,
            };
            group(Role::WORKING, Activity::ACTIVE).refuses(&dhc, label)
        };
        let (own, other) = (switching(PEER, true), switching(56, true));
        assert!(!refuses(None, own, 101));
        assert!(refuses(None, own, 102));
        assert!(refuses(None, other, 101));
        assert!(!refuses(status(PEER, false), own, 101));
        assert!(refuses(status(PEER, false), other, 101));
        assert!(refuses(status(56, false), own, 101));
        assert!(refuses(status(0, false), None, 101));
    }

    #[test]
    fn set_and_returned_and_given_up() {
        for (role, defect, expected) in [
            (Role::WORKING, false, Activity::ACTIVE),
            (Role::WORKING, true, Activity::STANDBY),
            (Role::PROTECTION, false, Activity::STANDBY),
            (Role::PROTECTION, true, Activity::STANDBY),
        ] {
            for before in [Activity::STANDBY, Activity::ACTIVE] {
                let mut group = group(role, before);
                group.give_up();
                let kept = role == Role::PROTECTION && before == Activity::ACTIVE;
                assert_eq!(group.pw == Activity::ACTIVE, kept);
                group.start(defect);
                assert_eq!(group.pw, expected);
            }
        }
    }

    #[test]
    fn table_1() {
        let told = |pw, ac, up| Forwarding::of(Activity(pw), Activity(ac), up) as u8;
        assert_eq!([told(1, 1, true), told(1, 1, false)], [1, 1]);
        assert_eq!([told(1, 0, true), told(1, 0, false)], [2, 0]);
        assert_eq!([told(0, 1, true), told(0, 1, false)], [3, 0]);
        assert_eq!([told(0, 0, true), told(0, 0, false)], [0, 0]);
    }

    /// The verdict on a group over 101 in the record of 100, behind a change.
    fn verdict(change: impl Fn(&mut Group)) -> bool {
        let mut group = group(Role::WORKING, Activity::ACTIVE);
        change(&mut group);
        group.is_sound(100)
    }

    #[test]
    fn each_field_out_of_order_is_found() {
        assert!(verdict(|_| {}));
        for number in [2, 255] {
            assert!(!verdict(|g| g.mark = number));
            assert!(!verdict(|g| g.role = Role(number)));
            assert!(!verdict(|g| g.pw = Activity(number)));
            assert!(!verdict(|g| g.ac = Activity(number)));
        }
        for dni in [0, 15, 100, 500_000, 1_048_575, 1_048_576, u32::MAX] {
            assert!(!verdict(|g| g.dni = dni), "{dni}");
        }
        for dni in [16, 99, 101, 499_999] {
            assert!(verdict(|g| g.dni = dni), "{dni}");
        }
        for free in [0, u32::MAX] {
            assert!(verdict(|g| (g.id, g.peer) = (free, free)));
        }
    }

    #[test]
    fn nothing_is_asked_of_the_fields_of_no_group() {
        let mut none = group(Role(9), Activity(9));
        (none.mark, none.dni, none.ac) = (0, 100, Activity(9));
        assert!(none.is_sound(100) && !none.is_there());
        assert!(Group::default().is_sound(100));
    }

    #[test]
    fn numbers_of_callers() {
        assert_eq!(
            [0, 1, 2, 255].map(|number| Role::of(number).0),
            [0, 1, 1, 1]
        );
        assert_eq!(
            [0, 1, 2, 255].map(|number| Activity::of(number).0),
            [0, 1, 1, 1]
        );
    }
}
