//! The words behind the options of `desk import`.

use crate::cli::Failure;
use crate::sessions::Session;
use crate::tap::wall;
use peer::mep_id::SECTION;

/// What `--start` says, in microseconds since 1970.
pub fn start(word: &str) -> Result<i128, Failure> {
    let wrong = || {
        Failure::usage(format!(
            "--start: `{word}` is neither seconds since 1970 nor a time as 2026-11-16T05:40:00Z"
        ))
    };
    wall::parse(word).ok_or_else(wrong)
}

/// The label that stands for the Section: the one said, or that of the only Section there is.
pub fn section(word: Option<&str>, sessions: &[Session]) -> Result<Option<u32>, Failure> {
    if let Some(word) = word {
        let label = word.replace(',', "").parse().ok();
        let known = label.filter(|label| sessions.iter().any(|session| session.label == *label));
        let wrong = || Failure::usage(format!("--section: no session has the label `{word}`"));
        return known.map(Some).ok_or_else(wrong);
    }
    let mut labels = sessions
        .iter()
        .filter(|session| session.mep_kind == SECTION)
        .map(|session| session.label);
    Ok(labels.next().filter(|_| labels.next().is_none()))
}

/// An Ethernet address: six octets in hexadecimal, with colons or hyphens between them.
pub fn address(word: &str) -> Result<[u8; 6], Failure> {
    let wrong = || {
        Failure::usage(format!(
            "--from: `{word}` is no address as 02:00:00:00:00:01"
        ))
    };
    let octet = |part: &str| match part.len() {
        2 if !part.starts_with('+') => u8::from_str_radix(part, 16).ok(),
        _ => None,
    };
    let octets = word
        .split([':', '-'])
        .map(octet)
        .collect::<Option<Vec<u8>>>();
    octets
        .and_then(|octets| octets.try_into().ok())
        .ok_or_else(wrong)
}
