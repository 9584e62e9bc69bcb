//! The calls on groups, and the DHC messages that come for them.

use super::{Answer, Table};
use crate::dhc;
use crate::group::{Activity, Forwarding, Group, Role};
use crate::message::State;
use crate::party::{Circuit, Party};
use crate::refusal::{Refusal, Refused};
use crate::session::Session;

/// A group by its party and its ID.
#[derive(Clone, Copy, Debug, PartialEq, Eq)]
pub struct GroupName {
    pub party: Party,
    pub id: u32,
}

/// A call on a group; no capture has one. Role and AC are numbers as a caller
/// gives them: 0 is working or standby, every other protection or active.
#[derive(Clone, Copy, Debug, PartialEq, Eq)]
pub enum GroupCall {
    Set {
        time: u64,
        /// The label of the service PW, and who calls.
        service: Circuit,
        dni: u32,
        id: u32,
        role: u8,
        peer: u32,
    },
    Ac {
        time: u64,
        name: GroupName,
        ac: u8,
    },
    Return {
        time: u64,
        name: GroupName,
    },
    Ask {
        name: GroupName,
    },
}

impl GroupCall {
    /// The reading that the call brings, if it does.
    pub fn reading(&self) -> Option<u64> {
        match *self {
            GroupCall::Set { time, .. }
            | GroupCall::Ac { time, .. }
            | GroupCall::Return { time, .. } => Some(time),
            GroupCall::Ask { .. } => None,
        }
    }

    /// The group that the call sets or is on.
    pub fn name(&self) -> GroupName {
        match *self {
            GroupCall::Set { service, id, .. } => GroupName {
                party: service.party,
                id,
            },
            GroupCall::Ac { name, .. }
            | GroupCall::Return { name, .. }
            | GroupCall::Ask { name } => name,
        }
    }
}

/// What a group tells at the clock.
#[derive(Clone, Copy, Debug, PartialEq, Eq)]
pub struct Told {
    pub pw: Activity,
    pub ac: Activity,
    pub forwarding: Forwarding,
}

impl Table {
    /// Does a call on a group. Refusal 26 comes before all others.
    pub fn perform_on_group(&mut self, call: &GroupCall) -> Answer {
        if !self.is_sound() {
            return Answer::Refused(Refusal::Table.into());
        }
        let answer = match *call {
            GroupCall::Set {
                time,
                service,
                dni,
                id,
                role,
                peer,
            } => {
                let group = Group {
                    mark: 1,
                    id,
                    role: Role::of(role),
                    peer,
                    dni,
                    pw: Activity::STANDBY,
                    ac: Activity::STANDBY,
                };
                self.set_group(time, service, group)
            }
            GroupCall::Ac { time, name, ac } => self.set_ac(time, name, Activity::of(ac)),
            GroupCall::Return { time, name } => self.return_group(time, name),
            GroupCall::Ask { name } => self.ask_group(name),
        };
        answer.unwrap_or_else(Answer::Refused)
    }

    /// Puts a group into the record of its service PW.
    fn set_group(
        &mut self,
        reading: u64,
        service: Circuit,
        group: Group,
    ) -> Result<Answer, Refused> {
        let place = self.place_for(reading, service)?;
        self.place_of(Circuit {
            label: group.dni,
            ..service
        })?;
        if group.dni == service.label {
            return Err(Refusal::Setting.into());
        }
        let name = GroupName {
            party: service.party,
            id: group.id,
        };
        if self.session_at(place)?.group.is_there() || self.place_of_group(name).is_ok() {
            return Err(Refusal::InUse.into());
        }
        self.accept(reading);
        let session = self.session_at(place)?;
        session.group = group;
        session.start_group(reading);
        Ok(Answer::Accepted)
    }

    fn set_ac(&mut self, reading: u64, name: GroupName, ac: Activity) -> Result<Answer, Refused> {
        self.judge_reading(reading)?;
        let place = self.place_of_group(name)?;
        self.accept(reading);
        self.session_at(place)?.group.ac = ac;
        Ok(Answer::Accepted)
    }

    fn return_group(&mut self, reading: u64, name: GroupName) -> Result<Answer, Refused> {
        self.judge_reading(reading)?;
        let place = self.place_of_group(name)?;
        self.accept(reading);
        self.session_at(place)?.start_group(reading);
        Ok(Answer::Accepted)
    }

    /// The PW stands as the last accepted reading left it, which is the clock.
    fn ask_group(&mut self, name: GroupName) -> Result<Answer, Refused> {
        let place = self.place_of_group(name)?;
        let Group { dni, pw, ac, .. } = self.session_at(place)?.group;
        let up = self.session(dni).is_some_and(|s| s.state == State::Up);
        Ok(Answer::Group(Told {
            pw,
            ac,
            forwarding: Forwarding::of(pw, ac, up),
        }))
    }

    /// A DHC message on an open label. It is no BFD message: nothing is heard on
    /// that label, and a lock does not refuse it.
    pub(super) fn coordinate(
        &mut self,
        reading: u64,
        circuit: Circuit,
        octets: &[u8],
    ) -> Result<Answer, Refused> {
        let dhc = dhc::read(octets)?;
        let place = self.place_of_group(GroupName {
            party: circuit.party,
            id: dhc.group,
        })?;
        if self.session_at(place)?.group.refuses(&dhc, circuit.label) {
            return Err(Refusal::NoGroup.into());
        }
        self.accept(reading);
        self.session_at(place)?.group.take(&dhc);
        Ok(Answer::Accepted)
    }

    /// Where the service PW of a group is, or refusal 24.
    fn place_of_group(&self, name: GroupName) -> Result<usize, Refusal> {
        let has_it = |session: &Session| {
            let group = &session.group;
            group.is_there() && group.id == name.id && name.party.owns(session.settings.label)
        };
        let place = self
            .places
            .iter()
            .position(|place| place.as_ref().is_some_and(has_it));
        place.ok_or(Refusal::NoGroup)
    }
}
