//! Taps: the stored ones, and what is left of them when they are cut or damaged.

mod taps;

use desk::tap::{wall, LONGEST_FRAME};
use peer::random::Random;

#[test]
fn stored_taps_read_as_they_say() {
    for tap in taps::all() {
        let (lines, damage) = taps::read(&tap.octets);
        assert_eq!(damage, None, "{}", tap.name);
        assert_eq!(lines, tap.packets, "{}", tap.name);
    }
}

/// Where a tap may end: behind its header, or behind any packet or block.
fn ends(octets: &[u8]) -> Vec<usize> {
    if octets.starts_with(&[0x0a, 0x0d, 0x0d, 0x0a]) {
        return blocks(octets);
    }
    let little = matches!(octets.first(), Some(0xd4 | 0x4d));
    let mut ends = vec![24];
    while let Some(head) = octets
        .get(ends[ends.len() - 1]..)
        .and_then(|rest| rest.get(8..12))
    {
        let length = number(head, little);
        ends.push(ends[ends.len() - 1] + 16 + length);
    }
    ends
}

fn blocks(octets: &[u8]) -> Vec<usize> {
    let mut ends = Vec::new();
    let (mut at, mut little) = (0, false);
    while at < octets.len() {
        if octets[at..].starts_with(&[0x0a, 0x0d, 0x0d, 0x0a]) {
            little = octets[at + 8] == 0x4d;
        }
        at += number(&octets[at + 4..at + 8], little);
        ends.push(at);
    }
    ends
}

fn number(octets: &[u8], little: bool) -> usize {
    let octets = octets.try_into().expect("four octets");
    (if little {
        u32::from_le_bytes(octets)
    } else {
        u32::from_be_bytes(octets)
    }) as usize
}

/// A cut between two packets is an end; any other is named, at an offset within what is there.
#[test]
fn every_prefix_ends_or_is_cut() {
    for tap in taps::all() {
        let ends = ends(&tap.octets);
        for length in 0..tap.octets.len() {
            let (lines, damage) = taps::read(&tap.octets[..length]);
            assert!(tap.packets.starts_with(&lines), "{} {length}", tap.name);
            assert_eq!(
                damage.is_none(),
                ends.contains(&length),
                "{} {length}: {damage:?}",
                tap.name
            );
            if let Some(damage) = damage {
                assert!(
                    damage.offset <= length as u64,
                    "{} {length}: {damage:?}",
                    tap.name
                );
                assert!(
                    damage.what.contains("the file ends after"),
                    "{} {length}: {damage:?}",
                    tap.name
                );
            }
        }
    }
}

/// Any octet in any other form is read to an end or named within the file, and takes away no packet
/// that stands before it.
#[test]
fn every_octet_damaged_is_read_or_named() {
    for tap in taps::all() {
        let mut octets = tap.octets.clone();
        for at in 0..octets.len() {
            let before = whole_before(&tap, at);
            for other in 0..=255 {
                octets[at] = other;
                let (lines, damage) = taps::read(&octets);
                if let Some(damage) = damage {
                    assert!(
                        damage.offset <= octets.len() as u64,
                        "{} {at} {other}: {damage:?}",
                        tap.name
                    );
                } else if other == tap.octets[at] {
                    assert_eq!(lines, tap.packets, "{}", tap.name);
                }
                let kept = tap
                    .packets
                    .iter()
                    .zip(&lines)
                    .take_while(|(a, b)| a == b)
                    .count();
                assert!(kept >= before, "{} {at} {other}", tap.name);
            }
            octets[at] = tap.octets[at];
        }
    }
}

/// Octets by chance behind what a tap starts with are read to an end or named within the file.
#[test]
fn octets_by_chance_are_read_or_named() {
    let mut random = Random::new(1);
    let mut packets = 0;
    for tap in taps::all() {
        let starts = ends(&tap.octets);
        for round in 0..500 {
            let start = starts[round % starts.len()];
            let mut octets = tap.octets[..start].to_vec();
            // Small numbers, so that lengths are met at times.
            octets.extend(random.octets(200).iter().map(|octet| match octet {
                0..=199 => 0,
                _ => octet % 40,
            }));
            let (lines, damage) = taps::read(&octets);
            packets += lines.len();
            if let Some(damage) = damage {
                assert!(damage.offset <= octets.len() as u64, "{damage:?}");
            }
        }
    }
    assert!(packets > 1_000, "{packets}");
}

/// How many packets end before an octet.
fn whole_before(tap: &taps::Stored, at: usize) -> usize {
    let (lines, _) = taps::read(&tap.octets[..at]);
    lines.len()
}

/// What a tap is refused for, and at which offset.
fn refused(octets: &[u8]) -> (u64, String) {
    let damage = taps::read(octets).1.expect("refused");
    (damage.offset, damage.what)
}

fn changed(name: &str, at: usize, octets: &[u8]) -> Vec<u8> {
    let mut tap = taps::named(name).octets;
    tap[at..at + octets.len()].copy_from_slice(octets);
    tap
}

/// A wrong field: the tap, the offset and the octets put there; the offset and the words said.
type Wrong = (&'static str, usize, &'static [u8], u64, &'static str);

const WRONG: &[Wrong] = &[
    (
        "pcap_micro_little",
        0,
        &[0x34, 0xcd, 0xb2, 0xa1],
        0,
        "34cdb2a1 starts no pcap",
    ),
    ("pcap_micro_little", 4, &[1, 0], 4, "version 1.4"),
    ("pcap_micro_big", 6, &[0, 3], 4, "version 2.3"),
    (
        "pcap_micro_little",
        28,
        &[0x40, 0x42, 0x0f, 0],
        28,
        "1000000 parts of 1000000",
    ),
    (
        "pcap_nano_little",
        28,
        &[0, 0xca, 0x9a, 0x3b],
        28,
        "1000000000 parts",
    ),
    (
        "pcap_micro_little",
        32,
        &[1, 0, 4, 0],
        32,
        "a frame of 262145 octets",
    ),
    (
        "pcap_micro_little",
        32,
        &[0xff; 4],
        32,
        "a frame of 4294967295 octets",
    ),
    ("pcapng_little", 4, &[0x24, 0, 0, 0], 32, "ends as one of"),
    ("pcapng_little", 4, &[0x29, 0, 0, 0], 4, "no multiple of 4"),
    ("pcapng_little", 4, &[0x18, 0, 0, 0], 4, "below 28"),
    ("pcapng_little", 8, &[0, 0, 0, 0], 8, "no byte-order magic"),
    ("pcapng_little", 12, &[2, 0], 12, "version 2.0"),
    ("pcapng_little", 44, &[8, 0, 0, 0], 44, "below 12"),
    ("pcapng_little", 44, &[0, 0, 0, 2], 44, "above 16777216"),
    (
        "pcapng_little",
        44,
        &[0xfc, 0xff, 0xff, 0xff],
        44,
        "above 16777216",
    ),
    ("pcapng_little", 56, &[9, 0, 2, 0], 58, "one octet long"),
    (
        "pcapng_little",
        56,
        &[9, 0, 0xff, 0xff],
        58,
        "goes past its block",
    ),
    ("pcapng_little", 56, &[14, 0, 1, 0], 58, "8 octets long"),
    ("pcapng_little", 60, &[20], 60, "0x14: too fine"),
    ("pcapng_little", 60, &[0xc1], 60, "0xc1: too fine"),
    (
        "pcapng_little",
        96,
        &[0xfc, 0xff, 0xff, 0xff],
        100,
        "the file ends after 312",
    ),
    (
        "pcapng_little",
        104,
        &[0x14, 0, 0, 0],
        104,
        "of 16 octets ends as one of 20",
    ),
    (
        "pcapng_little",
        116,
        &[3, 0, 0, 0],
        116,
        "interface 3, and the section has described 2",
    ),
    (
        "pcapng_little",
        128,
        &[0x35, 0, 0, 0],
        128,
        "53 octets in a block with room for 52",
    ),
    (
        "pcapng_little",
        128,
        &[0xff; 4],
        128,
        "a frame of 4294967295 octets",
    ),
    (
        "pcapng_little",
        276,
        &[0x31, 0, 0, 0],
        276,
        "49 octets in a block with room for 48",
    ),
    (
        "pcapng_big",
        80,
        &[0, 1],
        80,
        "interface 1, and the section has described 1",
    ),
];

#[test]
fn wrong_fields_are_named_with_their_offset() {
    assert_eq!(u32::from_le_bytes([1, 0, 4, 0]), LONGEST_FRAME + 1);
    for (name, at, octets, offset, words) in WRONG {
        let (found, what) = refused(&changed(name, *at, octets));
        assert!(what.contains(words), "{name} {at}: {found} {what}");
        assert_eq!(found, *offset, "{name} {at}: {what}");
    }
}

/// The first packet of a tap counts 1,700,000,000,000,001,999 parts of a second.
#[test]
fn the_coarsest_and_the_finest_times() {
    for (resolution, time) in [
        (0, "1700000000000001999"),
        (9, "1700000000.000001"),
        (19, "0.17"),
        (0x80, "1700000000000001999"),
        (0xc0, "0.092157"),
    ] {
        let (lines, damage) = taps::read(&changed("pcapng_little", 60, &[resolution]));
        assert_eq!(damage, None);
        assert_eq!(lines[0], format!("108 {time} label 100 body 28 cc"));
    }
}

/// Of a simple packet its interface says how much was kept.
#[test]
fn a_simple_packet_is_cut_at_the_snap_length() {
    let (lines, damage) = taps::read(&changed("pcapng_little", 52, &[31, 0, 0, 0]));
    assert_eq!(damage, None);
    assert_eq!(lines[2], "268 - label 101 body 5 refused cut");
    let (lines, _) = taps::read(&changed("pcapng_little", 52, &[0, 0, 0, 0]));
    assert_eq!(lines[2], "268 - label 101 body 19 ais");
}

#[test]
fn a_file_of_no_octets_is_no_tap() {
    assert_eq!(
        refused(&[]),
        (
            0,
            "the magic number: the file ends after 0 of 4 octets".to_string()
        )
    );
}

/// A packet before any description of an interface.
#[test]
fn a_section_forgets_the_interfaces_before_it() {
    let mut tap = taps::named("pcapng_big").octets;
    tap.drain(164..184);
    assert_eq!(
        refused(&tap),
        (
            172,
            "a packet of interface 0, and the section has described 0".to_string()
        )
    );
}

#[test]
fn wall_clock_times() {
    let known = [
        ("0", 0),
        ("1,700,000,000.25", 1_700_000_000_250_000),
        ("1970-01-01", 0),
        ("2000-02-29T23:59:59.000001Z", 951_868_799_000_001),
        ("2023-11-14T22:13:20", 1_700_000_000_000_000),
        ("2100-03-01T00:00", 4_107_542_400_000_000),
    ];
    for (word, micros) in known {
        assert_eq!(wall::parse(word), Some(micros), "{word}");
    }
    let wrong = [
        "",
        "x",
        "-1",
        "1.",
        "1.1234567",
        "1.-1",
        "+1",
        "2026-13-01",
        "2026-02-29",
        "2026-00-01",
        "2026-01-00",
        "1969-12-31",
        "2026-01-01T24:00",
        "2026-01-01T1",
        "2026-01-01T00:60",
        "2026-01-01T00:00:60",
        "2026-01-01T00:00:00:00",
        "2026-01-01-01",
        "99999999999999999999",
        "9999999999999",
    ];
    for word in wrong {
        assert_eq!(wall::parse(word), None, "{word}");
    }
}
