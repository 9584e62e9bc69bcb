//! The sessions file: one line a session, in the words of the text notation.
//!
//! ```text
//! # name     label      discriminator  period and MEP-IDs of the session
//! LON-PAR-1  label=100  my=17  period=1,000,000  own=LSP:1/10/1/1  expected=LSP:1/20/1/1  follow=link-down,lock
//! LON-AMS    label=101  my=18  own=Section:1/10/7  expected=Section:1/30/2  open=60,000,000
//! ```
//!
//! A MEP-ID of three numbers is a Section (Global_ID/Node/Interface), of four an LSP
//! (Global_ID/Node/Tunnel/LSP); `Section:` or `LSP:` may stand before it and has to agree.

use crate::cli::Failure;
use peer::capture;
use peer::mep_id::{LSP, SECTION};
use peer::party::Party;
use peer::settings::{HIGHEST_LABEL, LONGEST_PERIOD, LOWEST_LABEL, SHORTEST_PERIOD};
use peer::table::LARGEST_READING;
use std::ops::RangeInclusive;
use std::path::Path;

/// The period where a line names none: a CC a second.
const USUAL_PERIOD: u64 = 1_000_000;
/// The words of a line behind the name.
const NAMES: [&str; 7] = ["label", "my", "period", "own", "expected", "follow", "open"];

/// A session as a line of the file has it.
#[derive(Clone, Debug, PartialEq, Eq)]
pub struct Session {
    pub name: String,
    pub label: u32,
    pub discriminator: u32,
    pub period: u32,
    /// The type of both MEP-IDs: `peer::mep_id::SECTION` or `LSP`.
    pub mep_kind: u16,
    pub own: [u8; 12],
    pub expected: [u8; 12],
    pub follow_link: bool,
    pub follow_lock: bool,
    /// The reading at which the session is opened.
    pub opened: u64,
}

/// The sessions of a file; a mistake is named with the file and its line.
pub fn read(path: &Path) -> Result<Vec<Session>, Failure> {
    let name = path.display();
    let octets = std::fs::read(path)
        .map_err(|error| Failure::new(format!("cannot read {name}: {error}")))?;
    let text = String::from_utf8(octets).map_err(|error| {
        let offset = error.utf8_error().valid_up_to();
        Failure::new(format!("{name}: no UTF-8 at offset {offset}"))
    })?;
    parse(&text).map_err(|failure| Failure::new(format!("{name}, {failure}")))
}

/// The sessions of a text in its order, or its first mistake with the number of the line.
pub fn parse(text: &str) -> Result<Vec<Session>, Failure> {
    let mut sessions = Vec::new();
    let text = text.strip_prefix('\u{feff}').unwrap_or(text);
    for (above, line) in text.lines().enumerate() {
        add_line(&mut sessions, line)
            .map_err(|mistake| Failure::new(format!("line {}: {mistake}", above + 1)))?;
    }
    Ok(sessions)
}

/// The body of the record that opens a session.
pub fn open_body(session: &Session) -> Vec<u8> {
    let marks = u8::from(session.follow_link) + 2 * u8::from(session.follow_lock);
    capture::open_body(
        session.discriminator,
        session.period,
        session.mep_kind,
        session.own,
        session.expected,
        marks,
    )
}

/// The name of the session with a label; empty where none has it.
pub fn name_of(sessions: &[Session], label: u32) -> &str {
    let found = sessions.iter().find(|session| session.label == label);
    found.map_or("", |session| &session.name)
}

fn add_line(sessions: &mut Vec<Session>, line: &str) -> Result<(), String> {
    let words = line.split_whitespace();
    // A `#` inside a word is part of a name.
    let words: Vec<&str> = words.take_while(|word| !word.starts_with('#')).collect();
    let Some((name, words)) = words.split_first() else {
        return Ok(());
    };
    let session = session(name, words)?;
    apart(sessions, &session)?;
    sessions.push(session);
    Ok(())
}

fn session(name: &str, words: &[&str]) -> Result<Session, String> {
    if name.contains('=') || name.contains(char::is_control) {
        return Err(format!(
            "a line starts with the session's name, not `{}`",
            name.escape_debug()
        ));
    }
    check_names(words)?;
    let label = LOWEST_LABEL.into()..=HIGHEST_LABEL.into();
    let period = SHORTEST_PERIOD.into()..=LONGEST_PERIOD.into();
    let (mep_kind, own) = mep_id("own", needed(words, "own")?)?;
    let (expected_kind, expected) = mep_id("expected", needed(words, "expected")?)?;
    if mep_kind != expected_kind {
        return Err("own and expected MEP-ID are of two types".to_string());
    }
    let (follow_link, follow_lock) = follow(value(words, "follow").unwrap_or("none"))?;
    let period = number_or(words, "period", USUAL_PERIOD, period)? as u32;
    Ok(Session {
        name: name.to_string(),
        label: number("label", needed(words, "label")?, label)? as u32,
        discriminator: number("my", needed(words, "my")?, 1..=u32::MAX.into())? as u32,
        period,
        mep_kind,
        own,
        expected,
        follow_link,
        follow_lock,
        opened: number_or(words, "open", 0, 0..=LARGEST_READING)?,
    })
}

/// Every word is `name=value`, of a name that is known and stands once.
fn check_names(words: &[&str]) -> Result<(), String> {
    for (place, word) in words.iter().enumerate() {
        let Some((name, _)) = word
            .split_once('=')
            .filter(|(name, _)| NAMES.contains(name))
        else {
            return Err(format!(
                "unknown word `{word}` (known: {}= )",
                NAMES.join("= ")
            ));
        };
        if value(words.get(..place).unwrap_or(&[]), name).is_some() {
            return Err(format!("`{name}=` stands twice"));
        }
    }
    Ok(())
}

fn value<'a>(words: &[&'a str], name: &str) -> Option<&'a str> {
    let mut pairs = words.iter().filter_map(|word| word.split_once('='));
    pairs.find(|(n, _)| *n == name).map(|(_, value)| value)
}

fn needed<'a>(words: &[&'a str], name: &str) -> Result<&'a str, String> {
    value(words, name).ok_or(format!("no `{name}=`"))
}

fn number_or(
    words: &[&str],
    name: &str,
    usual: u64,
    range: RangeInclusive<u64>,
) -> Result<u64, String> {
    value(words, name).map_or(Ok(usual), |word| number(name, word, range))
}

/// A number in its range, decimal with or without commas, or hexadecimal after `0x`.
fn number(name: &str, word: &str, range: RangeInclusive<u64>) -> Result<u64, String> {
    let plain = word.replace(',', "");
    let parsed = match plain.strip_prefix("0x") {
        Some(digits) => u64::from_str_radix(digits, 16),
        None => plain.parse(),
    };
    let parsed = parsed.ok().filter(|_| !word.contains('+'));
    let value = parsed.ok_or_else(|| format!("{name}: not a number: `{word}`"))?;
    match range.contains(&value) {
        true => Ok(value),
        false => Err(format!(
            "{name}: `{word}` is not from {} to {}",
            range.start(),
            range.end()
        )),
    }
}

/// The marks: which fault messages take the session down.
fn follow(word: &str) -> Result<(bool, bool), String> {
    let mut marks = (false, false);
    for part in word.split(',') {
        match part {
            "link-down" => marks.0 = true,
            "lock" => marks.1 = true,
            "none" if word == "none" => {}
            _ => {
                return Err(format!(
                    "follow: `{word}` is not link-down, lock, both with a comma, or none"
                ))
            }
        }
    }
    Ok(marks)
}

/// The type and the octets of a MEP-ID.
fn mep_id(name: &str, word: &str) -> Result<(u16, [u8; 12]), String> {
    let (said, numbers) = match word.split_once(':') {
        Some((said, numbers)) => (Some(said), numbers),
        None => (None, word),
    };
    let part = |part: &str| number(name, part, 0..=u32::MAX.into()).map(|number| number as u32);
    let parts = numbers
        .split('/')
        .map(part)
        .collect::<Result<Vec<u32>, _>>()?;
    let (kind, parts) = match parts[..] {
        [global, node, interface] => (SECTION, [global, node, interface]),
        [global, node, tunnel, lsp] if tunnel <= 0xffff && lsp <= 0xffff => {
            (LSP, [global, node, tunnel << 16 | lsp])
        }
        _ => return Err(format!("{name}: no Section (Global_ID/Node/Interface) and no LSP (Global_ID/Node/Tunnel/LSP): `{word}`")),
    };
    let kind_name = if kind == LSP { "LSP" } else { "Section" };
    if said.is_some_and(|said| !said.eq_ignore_ascii_case(kind_name)) {
        return Err(format!("{name}: `{word}` has the numbers of a {kind_name}"));
    }
    let mut octets = [0; 12];
    for (room, part) in octets.chunks_exact_mut(4).zip(parts) {
        room.copy_from_slice(&part.to_be_bytes());
    }
    Ok((kind, octets))
}

/// A name or label belongs to one line alone, and so does a discriminator within
/// one party: the operators of the two give theirs out apart.
fn apart(sessions: &[Session], session: &Session) -> Result<(), String> {
    for other in sessions {
        let twice = if other.name == session.name {
            "name"
        } else if other.label == session.label {
            "label"
        } else if other.discriminator == session.discriminator
            && Party::of(other.label) == Party::of(session.label)
        {
            "discriminator"
        } else {
            continue;
        };
        return Err(format!("`{}` has this {twice} already", other.name));
    }
    Ok(())
}
