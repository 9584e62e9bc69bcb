//! The form of captures: headers, cut records, unread fields.

mod common;

use common::*;
use peer::capture::{append_head, Kind, Record, HEADER};
use peer::{make, own, watch};
use std::io::Read;

#[test]
fn a_header_alone_prints_nothing() {
    assert_eq!(text(&HEADER), "");
}

#[test]
fn wrong_and_short_headers() {
    for length in 0..HEADER.len() {
        assert_eq!(text(&HEADER[..length]), "bad header\n");
        let mut wrong = Capture::new().tick(0).octets;
        wrong[length] ^= 1;
        assert_eq!(text(&wrong), "bad header\n");
    }
}

#[test]
fn a_record_cut_at_any_place() {
    let whole = Capture::new().tick(0).receive(0, &cc(DOWN, 0)).octets;
    let second = HEADER.len() + 16;
    for length in second + 1..whole.len() {
        assert_eq!(text(&whole[..length]), "1 0\ncut\n");
    }
    assert_eq!(text(&whole), "1 0\n2 2\n");
}

#[test]
fn unknown_kind_and_great_length() {
    for (kind, length) in [(9, 0), (65_535, 0), (256, 0), (0, 2_049), (5, 65_535)] {
        let mut octets = Capture::new().tick(0).octets;
        append_head(&mut octets, 0, 0, kind, length);
        octets.extend_from_slice(&vec![0; usize::from(length) + 16]);
        assert_eq!(text(&octets), "1 0\ncut\n");
    }
}

#[test]
fn time_label_and_bodies_are_unread_where_the_paper_says_so() {
    let long = [0xff; 2_048];
    Capture::new()
        .open(7, 0)
        .call(Kind::Tick, 7, u32::MAX, &long)
        .call(Kind::Report, u64::MAX, LABEL, &long)
        .call(Kind::WriteCc, u64::MAX, LABEL, &[0])
        .call(Kind::Lock, 7, LABEL, &long)
        .call(Kind::Unlock, 7, LABEL, &[9])
        .call(Kind::Close, 7, LABEL, &long)
        .prints(&[
            "1 0",
            "2 0",
            "3 0 1 0 0 0 0 0 0",
            "4 0 10000022204003180000001100000000000f4240000f424000000000",
            "5 0",
            "6 0",
            "7 0",
        ]);
}

#[test]
fn opens_of_other_length_or_marks() {
    let good = Capture::new().open(0, 3).octets;
    let body = &good[HEADER.len() + 16..];
    let mut longer = body.to_vec();
    longer.push(0);
    let mut marked = body.to_vec();
    marked[34] = 4;
    Capture::new()
        .call(Kind::Open, 5, LABEL, &body[..34])
        .call(Kind::Open, 5, LABEL, &longer)
        .call(Kind::Open, 5, LABEL, &marked)
        .call(Kind::Open, 1 << 63, LABEL, &[])
        .tick(4)
        .call(Kind::Open, 3, LABEL, &marked)
        .call(Kind::Open, 4, LABEL, body)
        .prints(&["1 10", "2 10", "3 10", "4 1", "5 0", "6 1", "7 0"]);
}

/// Gives its octets one at a time.
struct Drops<'a>(&'a [u8]);

impl Read for Drops<'_> {
    fn read(&mut self, room: &mut [u8]) -> std::io::Result<usize> {
        let length = room.len().min(1);
        self.0.read(&mut room[..length])
    }
}

#[test]
fn pieces_make_no_difference() {
    for seed in 1..20 {
        let capture = make::capture(seed);
        let mut output = Vec::new();
        watch::watch(Drops(&capture), &mut output).unwrap();
        own::watch(Drops(&capture), &mut output).unwrap();
        assert!(output == watch::text(&capture).repeat(2));
    }
}

#[test]
fn a_seed_always_gives_the_same_capture() {
    for seed in 1..20 {
        assert!(make::capture(seed) == make::capture(seed));
        assert!(make::capture(seed) != make::capture(seed + 1));
    }
}

#[test]
fn a_record_appends_its_octets() {
    let mut octets = Vec::new();
    let record = Record {
        time: 0x0102_0304_0506_0708,
        label: 0x090a_0b0c,
        kind: Kind::WriteCv,
        body: &[7, 7],
    };
    record.append_to(&mut octets);
    let expected = [1, 2, 3, 4, 5, 6, 7, 8, 9, 10, 11, 12, 0, 8, 0, 2, 7, 7];
    assert_eq!(octets, expected);
}
