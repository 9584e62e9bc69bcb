//! What a broken host does to a stored session past every call.

use crate::assemble::{number, Mistake, Words};
use crate::group::{Activity, Group, Role};
use crate::machine::Mode;
use crate::message::State;
use crate::session::Session;
use crate::table::Table;
use std::fmt;

/// A field of the session in a place, and what it is changed to.
#[derive(Clone, Debug, PartialEq, Eq)]
pub struct Spoil {
    pub place: usize,
    pub field: Field,
    pub value: u64,
}

#[derive(Clone, Copy, Debug, PartialEq, Eq)]
pub enum Field {
    Label,
    /// The local discriminator.
    My,
    /// The remote discriminator, 0 for none.
    Remote,
    Mode,
    /// 0 to 3 as reported; 4 is DOWN by a received state.
    State,
    Multiplier,
    /// When the running detection time began.
    Timed,
    Group(GroupField),
}

#[derive(Clone, Copy, Debug, PartialEq, Eq)]
pub enum GroupField {
    /// Whether there is a group.
    Mark,
    Id,
    Role,
    Peer,
    Dni,
    Pw,
    Ac,
}

const NAMES: [(&str, Field); 14] = [
    ("label", Field::Label),
    ("my", Field::My),
    ("remote", Field::Remote),
    ("mode", Field::Mode),
    ("state", Field::State),
    ("multiplier", Field::Multiplier),
    ("timed", Field::Timed),
    ("group", Field::Group(GroupField::Mark)),
    ("group-id", Field::Group(GroupField::Id)),
    ("group-role", Field::Group(GroupField::Role)),
    ("group-peer", Field::Group(GroupField::Peer)),
    ("group-dni", Field::Group(GroupField::Dni)),
    ("group-pw", Field::Group(GroupField::Pw)),
    ("group-ac", Field::Group(GroupField::Ac)),
];

/// The words of a line behind `spoil`.
pub fn read(words: &mut Words) -> Result<Spoil, Mistake> {
    let mut next = || words.first().ok_or("spoil PLACE FIELD VALUE");
    let (place, name, value) = (next()?, next()?, next()?);
    let known = NAMES.iter().find(|(known, _)| *known == name);
    Ok(Spoil {
        place: number(place)?,
        field: known.ok_or(format!("no such field: {name}"))?.1,
        value: number(value)?,
    })
}

impl fmt::Display for Spoil {
    fn fmt(&self, to: &mut fmt::Formatter) -> fmt::Result {
        let name = NAMES.iter().find(|(_, field)| *field == self.field);
        let name = name.map_or("?", |(name, _)| name);
        write!(to, "spoil {} {name} {}", self.place, self.value)
    }
}

impl Spoil {
    pub fn apply(&self, table: &mut Table) -> Result<(), Mistake> {
        let session = table.place_mut(self.place).ok_or("the place is free")?;
        self.change(session)
            .ok_or(format!("too large: {}", self.value))
    }

    fn change(&self, session: &mut Session) -> Option<()> {
        match self.field {
            Field::Label => session.settings.label = self.word()?,
            Field::My => session.settings.discriminator = self.word()?,
            Field::Remote => {
                let remote = self.word()?;
                session.remote_discriminator = (remote != 0).then_some(remote);
            }
            Field::Mode => session.settings.mode = Mode(self.octet()?),
            Field::State => self.change_state(session)?,
            Field::Multiplier => session.multiplier = self.octet()?,
            Field::Timed => session.detecting_since = self.value,
            Field::Group(field) => self.change_group(field, &mut session.group)?,
        }
        Some(())
    }

    fn change_state(&self, session: &mut Session) -> Option<()> {
        session.state = match self.value {
            0 => State::AdminDown,
            1 | 4 => State::Down,
            2 => State::Init,
            3 => State::Up,
            _ => return None,
        };
        session.taken_down_by_peer = self.value == 4;
        Some(())
    }

    fn change_group(&self, field: GroupField, group: &mut Group) -> Option<()> {
        match field {
            GroupField::Mark => group.mark = self.octet()?,
            GroupField::Id => group.id = self.word()?,
            GroupField::Role => group.role = Role(self.octet()?),
            GroupField::Peer => group.peer = self.word()?,
            GroupField::Dni => group.dni = self.word()?,
            GroupField::Pw => group.pw = Activity(self.octet()?),
            GroupField::Ac => group.ac = Activity(self.octet()?),
        }
        Some(())
    }

    fn word(&self) -> Option<u32> {
        u32::try_from(self.value).ok()
    }

    fn octet(&self) -> Option<u8> {
        u8::try_from(self.value).ok()
    }
}
