//! The lines of a list that call on a group.

use crate::assemble::{number, Mistake, Words};
use crate::party::{Circuit, Party};
use crate::table::{GroupCall, GroupName};

/// A call on a group, and what is to be answered where the list says so.
#[derive(Clone, Debug, PartialEq, Eq)]
pub struct OnGroup {
    pub call: GroupCall,
    pub answer: Option<String>,
}

/// The call of a line by its kind; none if that is no call on a group. The label
/// is read where a group is set alone: the others name party and ID.
pub fn read(
    kind: &str,
    time: u64,
    label: u32,
    words: &mut Words,
) -> Result<Option<GroupCall>, Mistake> {
    let call = match kind {
        "group" => set(time, label, words)?,
        "ac" => GroupCall::Ac {
            time,
            name: name(words)?,
            ac: named(words, "ac")?,
        },
        "return" => GroupCall::Return {
            time,
            name: name(words)?,
        },
        "ask" => GroupCall::Ask { name: name(words)? },
        _ => return Ok(None),
    };
    Ok(Some(call))
}

fn set(time: u64, label: u32, words: &mut Words) -> Result<GroupCall, Mistake> {
    let party = Party(words.number("party", Party::of(label).0)?);
    Ok(GroupCall::Set {
        time,
        service: Circuit { label, party },
        dni: named(words, "dni")?,
        id: named(words, "id")?,
        role: named(words, "role")?,
        peer: named(words, "peer")?,
    })
}

fn name(words: &mut Words) -> Result<GroupName, Mistake> {
    Ok(GroupName {
        party: Party(words.number("party", Party::OURS.0)?),
        id: named(words, "id")?,
    })
}

/// A number that has no usual value.
fn named<T: TryFrom<u64>>(words: &mut Words, name: &str) -> Result<T, Mistake> {
    words.value(name).map_or(Err(format!("no {name}=")), number)
}

/// The call with nothing left out: 0 for a time or label that is not read.
pub fn spelled(call: &GroupCall) -> String {
    let name = call.name();
    let (party, id) = (name.party.0, name.id);
    match *call {
        GroupCall::Set {
            time,
            service,
            dni,
            role,
            peer,
            ..
        } => {
            let label = service.label;
            format!("{time} {label} group party={party} id={id} role={role} peer={peer} dni={dni}")
        }
        GroupCall::Ac { time, ac, .. } => format!("{time} 0 ac party={party} id={id} ac={ac}"),
        GroupCall::Return { time, .. } => format!("{time} 0 return party={party} id={id}"),
        GroupCall::Ask { .. } => format!("0 0 ask party={party} id={id}"),
    }
}
