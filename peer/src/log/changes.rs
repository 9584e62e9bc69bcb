//! Changes to an index and to its log, as a broken host or disk makes them.
//!
//! ```text
//! length = N, label = N, count = N      the head of the index
//! clock[K] = N, place[K] = N            entry K
//! record[K].FIELD = N                   a field of its record
//! clocks = N, places = N, records = N   the length of a lent list: cut, or
//!                                       filled with copies of its last element
//! octet[A] = N, mark = N                an octet of the log; its third one
//! cut = N, more = N                     octets off its end; noughts behind it
//! ```

use super::index::Index;
use crate::assemble::Mistake;
use crate::machine::Mode;
use crate::message::State;
use crate::session::Session;

/// Makes one change: `NAME = N`.
pub fn change(text: &str, log: &mut Vec<u8>, index: &mut Index) -> Result<(), Mistake> {
    let mistake = || format!("no change: {text}");
    let (name, value) = text.split_once('=').ok_or_else(mistake)?;
    let value: u64 = value.trim().parse().map_err(|_| mistake())?;
    let name = name.trim();
    let done = match name.split_once('[') {
        None => of_whole(name, value, log, index),
        Some((list, rest)) => of_element(list, rest, value, log, index),
    };
    done.ok_or_else(mistake)
}

/// A change of the log alone.
pub fn change_log(name: &str, value: u64, log: &mut Vec<u8>) -> Option<()> {
    let length = usize::try_from(value).ok()?;
    match name {
        "mark" => *log.get_mut(2)? = value.try_into().ok()?,
        "cut" => log.truncate(log.len().checked_sub(length)?),
        "more" => log.resize(log.len() + length, 0),
        _ => return None,
    }
    Some(())
}

fn of_whole(name: &str, value: u64, log: &mut Vec<u8>, index: &mut Index) -> Option<()> {
    let length = usize::try_from(value).ok()?;
    match name {
        "length" => index.length = value,
        "label" => index.label = value.try_into().ok()?,
        "count" => index.count = value.try_into().ok()?,
        "clocks" => resize(&mut index.clocks, length)?,
        "places" => resize(&mut index.places, length)?,
        "records" => resize(&mut index.records, length)?,
        _ => return change_log(name, value, log),
    }
    Some(())
}

fn resize<T: Clone>(list: &mut Vec<T>, length: usize) -> Option<()> {
    let last = list.last()?.clone();
    list.resize(length, last);
    Some(())
}

/// `list[K]`, of which the rest is `K]` or `K].FIELD`.
fn of_element(list: &str, rest: &str, value: u64, log: &mut [u8], index: &mut Index) -> Option<()> {
    let (place, field) = rest.split_once(']')?;
    let place: usize = place.parse().ok()?;
    match (list, field.strip_prefix('.')) {
        ("clock", None) => *index.clocks.get_mut(place)? = value,
        ("place", None) => *index.places.get_mut(place)? = value,
        ("octet", None) => *log.get_mut(place)? = value.try_into().ok()?,
        ("record", Some(field)) => return of_record(index.records.get_mut(place)?, field, value),
        _ => return None,
    }
    Some(())
}

fn of_record(record: &mut Session, field: &str, value: u64) -> Option<()> {
    let word = u32::try_from(value).ok();
    let octet = u8::try_from(value).ok();
    match field {
        "label" => record.settings.label = word?,
        "my" => record.settings.discriminator = word?,
        "period" => record.settings.period = word?,
        "mode" => record.settings.mode = Mode(octet?),
        "since" => record.detecting_since = value,
        "multiplier" => record.multiplier = octet?,
        "remote" => record.remote_discriminator = (value != 0).then_some(word?),
        "diagnostic" => record.remote_diagnostic = Some(octet?),
        "owed" => record.reply_owed = value != 0,
        "state" => set_state(record, value)?,
        _ => return None,
    }
    Some(())
}

/// Of a record that is none no state is looked at, whatever its number.
fn set_state(record: &mut Session, value: u64) -> Option<()> {
    record.state = match value {
        0 => State::AdminDown,
        1 => State::Down,
        2 => State::Init,
        3 => State::Up,
        _ if record.settings.label == 0 => return Some(()),
        _ => return None,
    };
    record.taken_down_by_peer = false;
    Some(())
}
