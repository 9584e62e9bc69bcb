//! The stored taps: octets in hexadecimal with remarks, and what their packets have to read to.

// Each test file uses only some of these.
#![allow(dead_code)]

use desk::tap::frame::{self, Channel, Other};
use desk::tap::input::Damage;
use desk::tap::{wall, Packet, Tap, ETHERNET};
use peer::message::{self, FaultKind, Message};

/// A tap, and a line for each of its packets.
pub struct Stored {
    pub name: &'static str,
    pub octets: Vec<u8>,
    pub packets: Vec<String>,
}

const TAPS: [(&str, &str); 7] = [
    ("pcap_micro_little", include_str!("pcap_micro_little.txt")),
    ("pcap_micro_big", include_str!("pcap_micro_big.txt")),
    ("pcap_nano_little", include_str!("pcap_nano_little.txt")),
    ("pcap_nano_big", include_str!("pcap_nano_big.txt")),
    ("pcap_editcap", include_str!("pcap_editcap.txt")),
    ("pcapng_little", include_str!("pcapng_little.txt")),
    ("pcapng_big", include_str!("pcapng_big.txt")),
];

pub fn all() -> Vec<Stored> {
    TAPS.into_iter()
        .map(|(name, text)| stored(name, text))
        .collect()
}

pub fn named(name: &str) -> Stored {
    all()
        .into_iter()
        .find(|stored| stored.name == name)
        .expect("a stored tap")
}

fn stored(name: &'static str, text: &str) -> Stored {
    let mut octets = Vec::new();
    let mut packets = Vec::new();
    for line in text
        .lines()
        .map(|line| line.split('#').next().unwrap_or(""))
    {
        match line.strip_prefix("=>") {
            Some(packet) => packets.push(packet.trim().to_string()),
            None => octets.extend(
                line.split_whitespace()
                    .map(|word| u8::from_str_radix(word, 16).expect(word)),
            ),
        }
    }
    Stored {
        name,
        octets,
        packets,
    }
}

/// The packets of a tap as lines, up to its end or its damage.
pub fn read(octets: &[u8]) -> (Vec<String>, Option<Damage>) {
    let mut lines = Vec::new();
    let mut tap = match Tap::start(octets) {
        Ok(tap) => tap,
        Err(damage) => return (lines, Some(damage)),
    };
    loop {
        match tap.next_packet() {
            Ok(Some(packet)) => lines.push(line(&packet)),
            Ok(None) => return (lines, None),
            Err(damage) => return (lines, Some(damage)),
        }
    }
}

/// A packet in the words of the stored taps.
fn line(packet: &Packet) -> String {
    let time = packet.time.map_or("-".to_string(), wall::seconds);
    let time = match time.contains('.') {
        true => time.trim_end_matches('0').to_string(),
        false => time,
    };
    let cut = if packet.cut { " cut" } else { "" };
    format!("{} {time} {}{cut}", packet.offset, what(packet))
}

fn what(packet: &Packet) -> String {
    if packet.link != ETHERNET {
        return "not-ethernet".to_string();
    }
    let (channel, body) = match frame::message(packet.frame) {
        Ok(found) => found,
        Err(Other::NotMpls) => return "not-mpls".to_string(),
        Err(Other::NoChannel) => return "no-channel".to_string(),
        Err(Other::GalAbove) => return "gal-above".to_string(),
        Err(Other::Short) => return "short".to_string(),
    };
    let channel = match channel {
        Channel::Label(label) => format!("label {label}"),
        Channel::Section => "section".to_string(),
    };
    format!("{channel} body {} {}", body.len(), kind(body))
}

fn kind(body: &[u8]) -> &'static str {
    match message::read(body).map(|read| read.message) {
        Ok(Message::Cc(_)) => "cc",
        Ok(Message::Cv(..)) => "cv",
        Ok(Message::Fault(fault)) if fault.kind == FaultKind::AlarmIndication => "ais",
        Ok(Message::Fault(_)) => "lkr",
        Err(_) => "refused",
    }
}
