//! Messages in the words of the assembler. What a word leaves unsaid is as the assembler has it;
//! a message that is cut is filled up with what is usual and its length said by `cut=`.

use super::digits::{append_grouped, append_hex, append_number};
use peer::mep_id::{LSP, PSEUDOWIRE};
use peer::message::{CHANNEL_CC, CHANNEL_CV, CHANNEL_DHC, CHANNEL_FAULT};
use peer::octets::be16;
use std::borrow::Cow;

/// The usual interval of a BFD packet.
const USUAL_INTERVAL: u32 = 1_000_000;
/// A BFD packet behind its channel header, as the assembler writes it: version 1, Length 24,
/// multiplier 3.
const USUAL_BFD: [u8; 28] = [
    0x10, 0, 0, 0x22, 0x20, 0, 3, 24, 0, 0, 0, 0, 0, 0, 0, 0, 0, 15, 66, 64, 0, 15, 66, 64, 0, 0,
    0, 0,
];
/// The MEP-ID of a CV, as the assembler writes it, and room for the AGI type and length.
const USUAL_MEP_ID: [u8; 18] = [0, 1, 0, 12, 0, 0, 0, 1, 0, 0, 0, 20, 0, 1, 0, 1, 0, 0];
/// A fault message up to its TLVs.
const USUAL_FAULT: [u8; 9] = [0x10, 0, 0, 0x58, 0x10, 1, 0, 1, 0];
/// A dual-homing coordination message up to its TLVs.
const USUAL_DHC: [u8; 12] = [0x10, 0, 0, 9, 0, 0, 0, 0, 0, 0, 0, 0];
/// A message that ends before the octet of its state or type is not called by a name.
const SHORTEST_NAMED: usize = 6;
/// Zeros at the end of octets are counted when they are more than a few.
const FEW_ZEROS: usize = 8;
const STATES: [&str; 4] = [" admin-down", " down", " init", " up"];
const FLAGS: [&str; 6] = [
    " poll",
    " final",
    " control",
    " auth",
    " demand",
    " multipoint",
];

/// Appends the words of a message, each with a space before it; none for no octets.
pub fn append_message(out: &mut Vec<u8>, message: &[u8]) {
    let named = message.len() >= SHORTEST_NAMED;
    match if named { be16(message, 2) } else { 0 } {
        CHANNEL_CC => cc(out, message),
        CHANNEL_CV => cv(out, message),
        CHANNEL_FAULT => fault(out, message),
        CHANNEL_DHC => dhc(out, message),
        _ if message.is_empty() => {}
        _ => append_octets(out, message),
    }
}

/// Appends octets as they are, four to a word.
pub fn append_octets(out: &mut Vec<u8>, octets: &[u8]) {
    word(out, " hex");
    let (said, zeros) = match without_zeros(octets) {
        (_, 0..FEW_ZEROS) => (octets, 0),
        split => split,
    };
    for four in said.chunks(4) {
        out.push(b' ');
        append_hex(out, four);
    }
    append_unless(out, " zeros=", zeros as u64, 0);
}

/// Appends what stands behind a message.
pub fn append_padding(out: &mut Vec<u8>, padding: &[u8]) {
    let (said, zeros) = without_zeros(padding);
    append_named_octets(out, " pad=", said);
    append_unless(out, " zeros=", zeros as u64, 0);
}

/// Octets without the zeros at their end, and how many these are.
fn without_zeros(octets: &[u8]) -> (&[u8], usize) {
    let length = octets
        .iter()
        .rposition(|octet| *octet != 0)
        .map_or(0, |last| last + 1);
    (
        octets.get(..length).unwrap_or(octets),
        octets.len() - length,
    )
}

/// Appends the numbers of a MEP-ID: of an LSP, or of any other as of a Section.
pub fn append_mep_id(out: &mut Vec<u8>, name: &str, kind: u16, value: &[u8; 12]) {
    let [a, b, c, d, e, f, g, h, i, j, k, l] = *value;
    word(out, name);
    append_number(out, u32::from_be_bytes([a, b, c, d]).into());
    out.push(b'/');
    append_number(out, u32::from_be_bytes([e, f, g, h]).into());
    out.push(b'/');
    if kind == LSP {
        append_number(out, u16::from_be_bytes([i, j]).into());
        out.push(b'/');
        append_number(out, u16::from_be_bytes([k, l]).into());
    } else {
        append_number(out, u32::from_be_bytes([i, j, k, l]).into());
    }
}

pub fn word(out: &mut Vec<u8>, word: &str) {
    out.extend_from_slice(word.as_bytes());
}

/// Appends a number with its name unless it is the one that is meant where none is named.
pub fn append_unless(out: &mut Vec<u8>, name: &str, number: u64, usual: u64) {
    if number != usual {
        word(out, name);
        append_number(out, number);
    }
}

fn append_named_octets(out: &mut Vec<u8>, name: &str, octets: &[u8]) {
    if !octets.is_empty() {
        word(out, name);
        append_hex(out, octets);
    }
}

/// A message filled up to the length of what is usual.
fn filled<'a>(message: &'a [u8], usual: &[u8]) -> Cow<'a, [u8]> {
    match usual.get(message.len()..) {
        None | Some([]) => Cow::Borrowed(message),
        Some(missing) => Cow::Owned([message, missing].concat()),
    }
}

/// The first octets, of which the message is known to have that many, and those behind them.
fn split<const N: usize>(octets: &[u8]) -> ([u8; N], &[u8]) {
    match octets.split_first_chunk::<N>() {
        Some((first, behind)) => (*first, behind),
        None => ([0; N], &[]),
    }
}

fn cc(out: &mut Vec<u8>, message: &[u8]) {
    word(out, " cc");
    let whole = filled(message, &USUAL_BFD);
    let behind = bfd(out, &whole);
    append_end(out, message, &whole, behind);
}

fn cv(out: &mut Vec<u8>, message: &[u8]) {
    word(out, " cv");
    let mut whole = filled(message, &USUAL_BFD);
    let end = whole.len() - bfd(out, &whole).len();
    let usual = [whole.get(..end).unwrap_or_default(), &USUAL_MEP_ID].concat();
    let (kind, _) = type_and_length(&filled(&whole, &usual), end);
    let needed = usual.len() - if kind == PSEUDOWIRE { 0 } else { 2 };
    if let Some(missing) = usual.get(whole.len()..needed) {
        whole.to_mut().extend_from_slice(missing);
    }
    let behind = mep_id(out, whole.get(end..).unwrap_or_default());
    append_end(out, message, &whole, behind);
}

/// Where a message was cut, or what stands behind it.
fn append_end(out: &mut Vec<u8>, message: &[u8], whole: &[u8], behind: &[u8]) {
    if message.len() < whole.len() {
        word(out, " cut=");
        append_number(out, message.len() as u64);
    } else {
        append_padding(out, behind);
    }
}

/// What is odd about the channel header, the channel type apart.
fn channel_header(out: &mut Vec<u8>, first: u8, reserved: u8) {
    append_unless(out, " nibble=", (first >> 4).into(), 1);
    append_unless(out, " gach-version=", (first & 15).into(), 0);
    append_unless(out, " reserved=", reserved.into(), 0);
}

/// Appends channel header and BFD packet; gives what stands behind what Length counts.
fn bfd<'a>(out: &mut Vec<u8>, message: &'a [u8]) -> &'a [u8] {
    let (head, behind) = split::<28>(message);
    let number = |at: usize| peer::octets::be32(&head, at);
    word(out, STATES[usize::from(head[5] >> 6)]);
    word(out, " my=");
    append_number(out, number(8).into());
    append_unless(out, " your=", number(12).into(), 0);
    append_unless(out, " mult=", head[6].into(), 3);
    append_unless(out, " diag=", (head[4] & 31).into(), 0);
    for (place, name) in FLAGS.into_iter().enumerate() {
        if head[5] & 32 >> place != 0 {
            word(out, name);
        }
    }
    append_interval(out, " transmit=", number(16));
    append_interval(out, " receive=", number(20));
    append_unless(out, " echo=", number(24).into(), 0);
    channel_header(out, head[0], head[1]);
    append_unless(out, " version=", (head[4] >> 5).into(), 1);
    let counted = usize::from(head[7]).saturating_sub(24).min(behind.len());
    let (counted, behind) = behind.split_at(counted);
    append_named_octets(out, " behind=", counted);
    append_unless(out, " length=", head[7].into(), 24 + counted.len() as u64);
    behind
}

fn append_interval(out: &mut Vec<u8>, name: &str, interval: u32) {
    if interval != USUAL_INTERVAL {
        word(out, name);
        append_grouped(out, interval.into());
    }
}

/// The type and the length of a MEP-ID.
fn type_and_length(message: &[u8], at: usize) -> (u16, u16) {
    let (head, _) = split::<4>(message.get(at..).unwrap_or_default());
    (be16(&head, 0), be16(&head, 2))
}

/// Appends the MEP-ID of a CV; gives what stands behind it.
fn mep_id<'a>(out: &mut Vec<u8>, part: &'a [u8]) -> &'a [u8] {
    let (kind, length) = type_and_length(part, 0);
    let (_, value) = split::<4>(part);
    let (numbers, mut behind) = split::<12>(value);
    append_mep_id(out, " mep=", kind, &numbers);
    let mut said = 12;
    if kind == PSEUDOWIRE {
        let (head, agi_and_more) = split::<2>(behind);
        let agi = usize::from(length).saturating_sub(14);
        let (agi, more) = agi_and_more.split_at(agi.min(255).min(agi_and_more.len()));
        word(out, " agi=");
        append_hex(out, agi);
        append_unless(out, " agi-type=", head[0].into(), 0);
        append_unless(out, " agi-length=", head[1].into(), agi.len() as u64);
        said = 14 + agi.len() as u64;
        behind = more;
    } else if kind > LSP {
        append_unless(out, " mep-type=", kind.into(), 0);
    }
    append_unless(out, " mep-length=", length.into(), said);
    behind
}

fn fault(out: &mut Vec<u8>, message: &[u8]) {
    let whole = filled(message, &USUAL_FAULT);
    let (head, behind) = split::<9>(&whole);
    let [first, reserved, _, _, version, kind, flags, refresh, total] = head;
    word(out, if kind == 2 { " lkr" } else { " ais" });
    word(out, " refresh=");
    append_number(out, refresh.into());
    match flags {
        0 => {}
        1 => word(out, " R"),
        2 => word(out, " L"),
        3 => word(out, " L R"),
        _ => append_unless(out, " flags=", flags.into(), 0),
    }
    let (tlvs, behind) = behind.split_at(usize::from(total).min(behind.len()));
    append_tlvs(out, tlvs);
    if !(1..=2).contains(&kind) {
        append_unless(out, " type=", kind.into(), 1);
    }
    channel_header(out, first, reserved);
    append_unless(out, " version=", (version >> 4).into(), 1);
    append_unless(out, " low-nibble=", (version & 15).into(), 0);
    append_unless(out, " total=", total.into(), tlvs.len() as u64);
    append_end(out, message, &whole, behind);
}

/// An IF_ID and a Global_ID in this order, as the assembler writes them; others as octets.
fn append_tlvs(out: &mut Vec<u8>, mut tlvs: &[u8]) {
    while let [1, 8, a, b, c, d, e, f, g, h, ..] = *tlvs {
        word(out, " if=");
        append_number(out, u32::from_be_bytes([a, b, c, d]).into());
        out.push(b'/');
        append_number(out, u32::from_be_bytes([e, f, g, h]).into());
        tlvs = tlvs.get(10..).unwrap_or_default();
    }
    while let [2, 4, a, b, c, d, ..] = *tlvs {
        word(out, " global=");
        append_number(out, u32::from_be_bytes([a, b, c, d]).into());
        tlvs = tlvs.get(6..).unwrap_or_default();
    }
    append_named_octets(out, " tlv=", tlvs);
}

fn dhc(out: &mut Vec<u8>, message: &[u8]) {
    let whole = filled(message, &USUAL_DHC);
    let (head, behind) = split::<12>(&whole);
    let total = be16(&head, 8);
    word(out, " dhc group=");
    append_number(out, peer::octets::be32(&head, 4).into());
    let (tlvs, behind) = behind.split_at(usize::from(total).min(behind.len()));
    append_coordination(out, tlvs);
    channel_header(out, head[0], head[1]);
    append_unless(out, " tlv-reserved=", be16(&head, 10).into(), 0);
    append_unless(out, " total=", total.into(), tlvs.len() as u64);
    append_end(out, message, &whole, behind);
}

/// PW Status and Dual-Node Switching in this order, if they are as the assembler writes them;
/// others as octets.
fn append_coordination(out: &mut Vec<u8>, mut tlvs: &[u8]) {
    const STATUS: [u8; 4] = [0, 1, 0, 20];
    const SWITCHING: [u8; 4] = [0, 2, 0, 16];
    while let Some((ends, [0, 0, 0, flags @ 0..=1, 0, 0, 0, state @ 0..=3])) = tlv_of(tlvs, STATUS)
    {
        append_ends(out, " status=", ends);
        append_bits(out, &[(flags, b'P'), (state & 2, b'D'), (state & 1, b'F')]);
        tlvs = tlvs.get(24..).unwrap_or_default();
    }
    while let Some((ends, [0, 0, 0, flags @ 0..=3])) = tlv_of(tlvs, SWITCHING) {
        append_ends(out, " switching=", ends);
        append_bits(out, &[(flags & 2, b'S'), (flags & 1, b'P')]);
        tlvs = tlvs.get(20..).unwrap_or_default();
    }
    append_named_octets(out, " tlv=", tlvs);
}

/// Of the first TLV, if its type and length are these, three numbers and the octets behind them.
fn tlv_of<const N: usize>(tlvs: &[u8], head: [u8; 4]) -> Option<([u8; 12], [u8; N])> {
    let value = tlvs.strip_prefix(&head)?;
    let (ends, behind) = value.split_first_chunk()?;
    Some((*ends, *behind.first_chunk()?))
}

/// Destination/source/pseudowire.
fn append_ends(out: &mut Vec<u8>, name: &str, ends: [u8; 12]) {
    word(out, name);
    for (at, between) in [(0, ""), (4, "/"), (8, "/")] {
        word(out, between);
        append_number(out, peer::octets::be32(&ends, at).into());
    }
}

/// The letters of the bits that are set, behind a `/` if there is one.
fn append_bits(out: &mut Vec<u8>, bits: &[(u8, u8)]) {
    let mut set = bits.iter().filter(|(bit, _)| *bit != 0).peekable();
    if set.peek().is_some() {
        out.push(b'/');
    }
    out.extend(set.map(|(_, letter)| *letter));
}
