//! The bodies of records: settings and messages, right or wrong.

use super::words::{number, octets, Mistake, Words};
use crate::capture::open_body;
use crate::mep_id::{LSP, PSEUDOWIRE, SECTION};
use crate::message::{CHANNEL_CC, CHANNEL_CV, CHANNEL_DHC, CHANNEL_FAULT};

/// The period of a session, and the intervals of a CC, where none is named.
const USUAL_PERIOD: u32 = 1_000_000;
const USUAL_OWN: &str = "1/10/1/1";
const USUAL_EXPECTED: &str = "1/20/1/1";

/// The body of an open: its settings.
pub fn settings(words: &mut Words) -> Result<Vec<u8>, Mistake> {
    let (kind, own) = mep_id(words.value("own").unwrap_or(USUAL_OWN))?;
    let (expected_kind, expected) = mep_id(words.value("expected").unwrap_or(USUAL_EXPECTED))?;
    if kind != expected_kind {
        return Err("own and expected MEP-ID are of two types".to_string());
    }
    let marks = u8::from(words.has("follow-link-down")) + 2 * u8::from(words.has("follow-lock"));
    Ok(open_body(
        words.number("my", 0)?,
        words.number("period", USUAL_PERIOD)?,
        words.number("type", kind)?,
        own,
        expected,
        words.number("marks", marks)?,
    ))
}

/// The type and the first twelve octets of a MEP-ID by its numbers:
/// Global_ID/Node/Interface of a Section, or Global_ID/Node/Tunnel/LSP.
fn mep_id(word: &str) -> Result<(u16, [u8; 12]), Mistake> {
    let mistake = || format!("not a MEP-ID: {word}");
    let parts = word
        .split('/')
        .map(number)
        .collect::<Result<Vec<u32>, _>>()?;
    let (kind, last) = match parts[..] {
        [_, _, interface] => (SECTION, interface),
        [_, _, tunnel, lsp] if tunnel < 1 << 16 && lsp < 1 << 16 => (LSP, tunnel << 16 | lsp),
        _ => return Err(mistake()),
    };
    let mut value = [0; 12];
    value[..4].copy_from_slice(&parts[0].to_be_bytes());
    value[4..8].copy_from_slice(&parts[1].to_be_bytes());
    value[8..].copy_from_slice(&last.to_be_bytes());
    Ok((kind, value))
}

/// The body of a receive: a message by its name; nothing where none is named.
pub fn message(words: &mut Words) -> Result<Vec<u8>, Mistake> {
    match words.first() {
        None => Ok(Vec::new()),
        Some("cc") => bfd(words, CHANNEL_CC),
        Some("cv") => cv(words),
        Some("ais") => fault(words, 1),
        Some("lkr") => fault(words, 2),
        Some("dhc") => dhc(words),
        Some(word) => Err(format!("no message: {word}")),
    }
}

/// The associated channel header.
fn channel_header(words: &mut Words, channel: u16) -> Result<Vec<u8>, Mistake> {
    let nibble = words.bits("nibble", 1, 4)?;
    let version = words.bits("gach-version", 0, 4)?;
    let mut header = vec![nibble << 4 | version, words.number("reserved", 0)?];
    header.extend(words.number("channel", channel)?.to_be_bytes());
    Ok(header)
}

/// Channel header and BFD packet.
fn bfd(words: &mut Words, channel: u16) -> Result<Vec<u8>, Mistake> {
    let mut message = channel_header(words, channel)?;
    let behind = octets(words.value("behind").unwrap_or(""))?;
    let version = words.bits("version", 1, 3)?;
    message.push(version << 5 | words.bits("diag", 0, 5)?);
    message.push(state_and_flags(words)?);
    message.push(words.number("mult", 3)?);
    message.push(words.length("length", 24 + behind.len())?);
    for (name, usual) in [
        ("my", 0),
        ("your", 0),
        ("transmit", USUAL_PERIOD),
        ("receive", USUAL_PERIOD),
        ("echo", 0),
    ] {
        message.extend(words.number(name, usual)?.to_be_bytes());
    }
    message.extend(behind);
    Ok(message)
}

/// The second octet of a BFD packet.
fn state_and_flags(words: &mut Words) -> Result<u8, Mistake> {
    let states = ["admin-down", "down", "init", "up"];
    let state = states.iter().position(|name| words.has(name));
    let mut octet = (state.ok_or("no state")? as u8) << 6;
    let flags = ["poll", "final", "control", "auth", "demand", "multipoint"];
    for (place, name) in flags.iter().enumerate() {
        octet |= u8::from(words.has(name)) << (5 - place);
    }
    Ok(octet)
}

/// A CV: what a CC has, and the MEP-ID of its sender.
fn cv(words: &mut Words) -> Result<Vec<u8>, Mistake> {
    let mut message = bfd(words, CHANNEL_CV)?;
    let (kind, value) = source(words)?;
    let length = value.len() as u16;
    message.extend(words.number("mep-type", kind)?.to_be_bytes());
    message.extend(words.number("mep-length", length)?.to_be_bytes());
    message.extend(value);
    Ok(message)
}

/// The MEP-ID of a CV. With an AGI, of any number of octets, the numbers are
/// Global_ID/Node/AC_ID of a pseudowire.
fn source(words: &mut Words) -> Result<(u16, Vec<u8>), Mistake> {
    let (kind, numbers) = mep_id(words.value("mep").unwrap_or(USUAL_EXPECTED))?;
    let mut value = numbers.to_vec();
    let Some(agi) = words.value("agi") else {
        return Ok((kind, value));
    };
    if kind != SECTION {
        return Err("a pseudowire is Global_ID/Node/AC_ID".to_string());
    }
    let agi = octets(agi)?;
    value.push(words.number("agi-type", 0)?);
    value.push(words.length("agi-length", agi.len())?);
    value.extend(agi);
    Ok((PSEUDOWIRE, value))
}

/// A fault message.
fn fault(words: &mut Words, kind: u8) -> Result<Vec<u8>, Mistake> {
    let mut message = channel_header(words, CHANNEL_FAULT)?;
    let version = words.bits("version", 1, 4)?;
    message.push(version << 4 | words.bits("low-nibble", 0, 4)?);
    message.push(words.number("type", kind)?);
    let flags = 2 * u8::from(words.has("L")) + u8::from(words.has("R"));
    message.push(words.number("flags", flags)?);
    message.push(words.number("refresh", 1)?);
    let tlvs = tlvs(words)?;
    message.push(words.length("total", tlvs.len())?);
    message.extend(tlvs);
    Ok(message)
}

/// IF_ID, then Global_ID, then others as they are.
fn tlvs(words: &mut Words) -> Result<Vec<u8>, Mistake> {
    let mut tlvs = Vec::new();
    while let Some(word) = words.value("if") {
        let (node, interface) = word.split_once('/').ok_or("an IF_ID is node/interface")?;
        tlvs.extend([1, 8]);
        tlvs.extend(number::<u32>(node)?.to_be_bytes());
        tlvs.extend(number::<u32>(interface)?.to_be_bytes());
    }
    while let Some(word) = words.value("global") {
        tlvs.extend([2, 4]);
        tlvs.extend(number::<u32>(word)?.to_be_bytes());
    }
    while let Some(word) = words.value("tlv") {
        tlvs.extend(octets(word)?);
    }
    Ok(tlvs)
}

/// A dual-homing coordination message: PW Status, then Dual-Node Switching, then
/// others as they are.
fn dhc(words: &mut Words) -> Result<Vec<u8>, Mistake> {
    let mut message = channel_header(words, CHANNEL_DHC)?;
    message.extend(words.number("group", 0u32)?.to_be_bytes());
    let mut tlvs = Vec::new();
    while let Some(word) = words.value("status") {
        let (numbers, [protection, degrade, fail]) = coordinated(word, ['P', 'D', 'F'])?;
        tlvs.extend([0, 1, 0, 20]);
        tlvs.extend(numbers);
        tlvs.extend([0, 0, 0, protection, 0, 0, 0, 2 * degrade + fail]);
    }
    while let Some(word) = words.value("switching") {
        let (numbers, [switch, protection]) = coordinated(word, ['S', 'P'])?;
        tlvs.extend([0, 2, 0, 16]);
        tlvs.extend(numbers);
        tlvs.extend([0, 0, 0, 2 * switch + protection]);
    }
    while let Some(word) = words.value("tlv") {
        tlvs.extend(octets(word)?);
    }
    let length = u16::try_from(tlvs.len()).map_err(|_| "too many TLVs")?;
    message.extend(words.number("total", length)?.to_be_bytes());
    message.extend(words.number("tlv-reserved", 0u16)?.to_be_bytes());
    message.extend(tlvs);
    Ok(message)
}

/// Destination/source/pseudowire, and behind a further `/` the letters of the
/// bits that are set, in this order.
fn coordinated<const N: usize>(
    word: &str,
    letters: [char; N],
) -> Result<([u8; 12], [u8; N]), Mistake> {
    let mistake = || format!("not destination/source/pseudowire and bits: {word}");
    let parts: Vec<&str> = word.split('/').collect();
    let mut left = match parts[..] {
        [_, _, _] => "",
        [_, _, _, set] if !set.is_empty() => set,
        _ => return Err(mistake()),
    };
    let mut numbers = [0; 12];
    for (to, part) in numbers.chunks_mut(4).zip(parts) {
        to.copy_from_slice(&number::<u32>(part)?.to_be_bytes());
    }
    let bits = letters.map(|letter| {
        let without = left.strip_prefix(letter);
        left = without.unwrap_or(left);
        u8::from(without.is_some())
    });
    match left {
        "" => Ok((numbers, bits)),
        _ => Err(mistake()),
    }
}
