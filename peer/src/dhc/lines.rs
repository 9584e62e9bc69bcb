//! Questions about DHC messages, one to a line, and their answers.
//!
//! ```text
//! read OCTETS
//! write ROOM GROUP STATUS SWITCHING
//! ```
//!
//! A PW Status is `DESTINATION/SOURCE/PSEUDOWIRE/P/D/F`, a Dual-Node Switching
//! `DESTINATION/SOURCE/PSEUDOWIRE/S/P`; `-` is one that is absent, or no octets.
//! A read is answered by `0 GROUP STATUS SWITCHING`, a write by `0 OCTETS`, and
//! each by the number of its refusal where there is one. What stands behind `=>`
//! or `#` is passed over.

use super::{Dhc, DualNodeSwitching, Ends, PwStatus};
use crate::assemble::{call_of, number, octets_of, Mistake};
use crate::refusal::Refusal;
use std::io::{self, BufRead, Write};

/// Prints the answer to each line that asks something.
pub fn answer(lines: impl BufRead, output: &mut impl Write) -> io::Result<()> {
    for (at, line) in lines.lines().enumerate() {
        let line = line?;
        let words: Vec<&str> = call_of(&line).split_whitespace().collect();
        if words.is_empty() {
            continue;
        }
        let said = answer_to(&words).map_err(|mistake| {
            let line = at + 1;
            io::Error::other(format!("line {line}: {mistake}"))
        })?;
        match said {
            Ok(fields) => writeln!(output, "0 {fields}")?,
            Err(refusal) => writeln!(output, "{}", refusal.number())?,
        }
    }
    Ok(())
}

fn answer_to(words: &[&str]) -> Result<Result<String, Refusal>, Mistake> {
    match *words {
        ["read", octets] => {
            let message = octets_of(if octets == "-" { "" } else { octets })?;
            let read = super::read(&message).map_err(|refused| refused.refusal);
            Ok(read.map(|dhc| fields(&dhc)))
        }
        ["write", room, group, status, switching] => {
            let status = status_by(&numbers(status)?)?;
            let switching = switching_by(&numbers(switching)?)?;
            let (room, group) = (number(room)?, number(group)?);
            Ok(written_into(room, group, status, switching))
        }
        _ => Err("neither a read nor a write".to_string()),
    }
}

fn written_into(
    room: usize,
    group: u32,
    status: Option<Numbers<3>>,
    switching: Option<Numbers<2>>,
) -> Result<String, Refusal> {
    let status = status.map(|(ends, bits)| {
        Ok(PwStatus {
            ends,
            protection: bit(bits[0])?,
            degrade: bit(bits[1])?,
            fail: bit(bits[2])?,
        })
    });
    let switching = switching.map(|(ends, bits)| {
        Ok(DualNodeSwitching {
            ends,
            switch: bit(bits[0])?,
            protection: bit(bits[1])?,
        })
    });
    let dhc = Dhc {
        group,
        status: status.transpose()?,
        switching: switching.transpose()?,
    };
    let octets = super::written(&dhc).ok_or(Refusal::Setting)?;
    match octets.len() <= room {
        true => Ok(octets.iter().map(|octet| format!("{octet:02x}")).collect()),
        false => Err(Refusal::Buffer),
    }
}

/// The ends of a TLV, and its bits in numbers that may be too great for one.
type Numbers<const N: usize> = (Ends, [u32; N]);

fn bit(number: u32) -> Result<bool, Refusal> {
    match number {
        0 | 1 => Ok(number == 1),
        _ => Err(Refusal::Setting),
    }
}

/// The numbers of a TLV; none if it is absent.
fn numbers(word: &str) -> Result<Vec<u32>, Mistake> {
    match word {
        "-" => Ok(Vec::new()),
        _ => word.split('/').map(number).collect(),
    }
}

fn status_by(numbers: &[u32]) -> Result<Option<Numbers<3>>, Mistake> {
    match *numbers {
        [] => Ok(None),
        [to, from, pw, p, d, f] => Ok(Some((ends(to, from, pw), [p, d, f]))),
        _ => Err("a PW Status has six numbers".to_string()),
    }
}

fn switching_by(numbers: &[u32]) -> Result<Option<Numbers<2>>, Mistake> {
    match *numbers {
        [] => Ok(None),
        [to, from, pw, s, p] => Ok(Some((ends(to, from, pw), [s, p]))),
        _ => Err("a Dual-Node Switching has five numbers".to_string()),
    }
}

fn ends(destination: u32, source: u32, pseudowire: u32) -> Ends {
    Ends {
        destination,
        source,
        pseudowire,
    }
}

/// The fields of a message as a line has them.
fn fields(dhc: &Dhc) -> String {
    let status = dhc.status.map(|status| {
        let bits = [status.protection, status.degrade, status.fail];
        tlv(status.ends, &bits)
    });
    let switching = dhc.switching.map(|switching| {
        let bits = [switching.switch, switching.protection];
        tlv(switching.ends, &bits)
    });
    let or_absent = |tlv: Option<String>| tlv.unwrap_or("-".to_string());
    let group = dhc.group;
    format!("{group} {} {}", or_absent(status), or_absent(switching))
}

fn tlv(ends: Ends, bits: &[bool]) -> String {
    let mut text = format!("{}/{}/{}", ends.destination, ends.source, ends.pseudowire);
    for bit in bits {
        text += if *bit { "/1" } else { "/0" };
    }
    text
}
