//! Where a message went wrong: the place behind a receive's 3 to 8, and the
//! octets that an accepted message takes.

mod common;

use common::*;
use peer::capture::Kind;
use peer::message;

/// What stands behind the record number for a message received at 0 by the
/// usual session.
fn answer(message: &[u8]) -> String {
    let text = Capture::new().open(0, 3).receive(0, message).text();
    let line = text.lines().nth(1).unwrap();
    line.split_once(' ').unwrap().1.to_string()
}

/// A message with some of its octets set.
fn set<const N: usize>(message: &[u8], octets: [(usize, u8); N]) -> Vec<u8> {
    let mut message = message.to_vec();
    for (at, value) in octets {
        message[at] = value;
    }
    message
}

/// A message whose Length counts six octets more, which stand behind the
/// BFD packet.
fn grown(message: &[u8]) -> Vec<u8> {
    let mut message = set(message, [(7, 30)]);
    message.splice(28..28, [9; 6]);
    message
}

fn padded(mut message: Vec<u8>, padding: usize) -> Vec<u8> {
    message.extend(vec![0xff; padding]);
    message
}

#[test]
fn a_short_message_names_its_length() {
    let cc = cc(DOWN, DISCRIMINATOR);
    let cv = cv(DOWN, DISCRIMINATOR, EXPECTED);
    let ais = fault(AIS, 0, 1, &interface(1));
    for length in 0..28 {
        assert_eq!(answer(&cc[..length]), format!("3 {length}"));
    }
    for length in 0..44 {
        assert_eq!(answer(&cv[..length]), format!("3 {length}"));
    }
    for length in 0..19 {
        assert_eq!(answer(&ais[..length]), format!("3 {length}"));
    }
}

#[test]
fn padding_counts_where_a_message_is_too_short() {
    let long = set(&cc(DOWN, DISCRIMINATOR), [(7, 40)]);
    assert_eq!(answer(&padded(long.clone(), 15)), "3 43");
    assert_eq!(answer(&padded(long, 16)), "0");
    let long = set(&cv(DOWN, DISCRIMINATOR, EXPECTED), [(7, 40)]);
    assert_eq!(answer(&padded(long.clone(), 3)), "3 47");
    assert_eq!(answer(&padded(long, 4)), "7 44");
    let long = set(&fault(AIS, 0, 1, &[]), [(8, 20)]);
    assert_eq!(answer(&padded(long, 19)), "3 28");
}

#[test]
fn the_channel_header_is_named() {
    let good = cc(DOWN, DISCRIMINATOR);
    for first in [0x00, 0x20, 0x11, 0x1f, 0xff] {
        assert_eq!(answer(&set(&good, [(0, first)])), "4 0");
        assert_eq!(answer(&set(&good, [(0, first), (2, 1)])), "4 0");
    }
    assert_eq!(answer(&set(&good, [(2, 1)])), "5 2");
    assert_eq!(answer(&set(&good, [(3, 0x21)])), "5 2");
    assert_eq!(answer(&[0x10, 0, 0, 0x21]), "5 2");
}

/// A way to break a rule.
type Spoil = fn(&mut [u8]);

/// The fields of a BFD packet that can break a rule, by offset, each with what
/// breaks it in a CC of state DOWN.
const BREAKS: [(usize, Spoil); 10] = [
    (4, |m| m[4] = 0x00),
    (4, |m| m[4] = 0x40),
    (5, |m| m[5] |= 0x04),
    (5, |m| m[5] |= 0x01),
    (5, |m| m[5] |= 0x05),
    (6, |m| m[6] = 0),
    (7, |m| m[7] = 23),
    (7, |m| m[7] = 0),
    (8, |m| m[8..12].fill(0)),
    (12, |m| {
        m[12..16].fill(0);
        m[5] |= 0x80;
    }),
];

#[test]
fn of_broken_bfd_fields_the_earliest_is_named() {
    for (first, spoil_first) in BREAKS {
        let mut one = cc(DOWN, DISCRIMINATOR);
        spoil_first(&mut one);
        assert_eq!(answer(&one), format!("6 {first}"));
        assert_eq!(answer(&padded(one.clone(), 3)), format!("6 {first}"));
        for (second, spoil_second) in BREAKS {
            let mut both = one.clone();
            spoil_second(&mut both);
            assert_eq!(answer(&both), format!("6 {}", first.min(second)));
        }
    }
    let mut all = cc(DOWN, DISCRIMINATOR);
    for (place, spoil) in BREAKS.into_iter().rev() {
        spoil(&mut all);
        assert_eq!(answer(&all), format!("6 {place}"));
    }
}

#[test]
fn a_your_of_0_is_named_and_not_the_state() {
    for state in [INIT, UP] {
        let unknown = cc(state, 0);
        assert_eq!(answer(&unknown), "6 12");
        assert_eq!(answer(&set(&unknown, [(7, 255)])), "6 12");
        let authenticated = set(&unknown, [(5, state << 6 | 4)]);
        assert_eq!(answer(&authenticated), "6 5");
        assert_eq!(answer(&cv(state, 0, EXPECTED)), "0");
    }
}

#[test]
fn a_cv_names_the_fields_of_its_mep_id() {
    let good = cv(DOWN, DISCRIMINATOR, EXPECTED);
    assert_eq!(answer(&set(&good, [(28, 1)])), "7 28");
    assert_eq!(answer(&set(&good, [(29, 3)])), "7 28");
    assert_eq!(answer(&set(&good, [(30, 1)])), "7 30");
    assert_eq!(answer(&set(&good, [(31, 13)])), "7 30");
    assert_eq!(answer(&set(&good, [(29, 3), (31, 13)])), "7 28");
    assert_eq!(answer(&set(&good, [(6, 0), (29, 3)])), "6 6");
    let longer = grown(&good);
    assert_eq!(answer(&set(&longer, [(35, 3)])), "7 34");
    assert_eq!(answer(&set(&longer, [(37, 13)])), "7 36");
    assert_eq!(answer(&set(&longer, [(35, 3), (37, 13)])), "7 34");
    // They are judged when they are there, before the value is.
    for length in 32..44 {
        assert_eq!(answer(&set(&good, [(29, 3)])[..length]), "7 28");
        assert_eq!(answer(&set(&good, [(31, 13)])[..length]), "7 30");
        assert_eq!(answer(&set(&good, [(29, 2)])[..length]), "7 30");
    }
    assert_eq!(answer(&set(&good, [(29, 3)])[..31]), "3 31");
}

#[test]
fn of_broken_fields_in_a_fault_head_the_earliest_is_named() {
    let good = fault(AIS, 0, 1, &[]);
    let breaks = [(4, 0x2f), (5, 0), (5, 3), (7, 0), (7, 21)];
    for (place, value) in breaks {
        let one = set(&good, [(place, value)]);
        assert_eq!(answer(&one), format!("8 {place}"));
        // A total past the end comes later.
        assert_eq!(answer(&set(&one, [(8, 1)])), format!("8 {place}"));
        for (other, value) in breaks {
            let both = set(&one, [(other, value)]);
            assert_eq!(answer(&both), format!("8 {}", place.min(other)));
        }
    }
    assert_eq!(answer(&set(&good, [(8, 1)])), "3 9");
}

/// The answer to a lock report with these TLVs.
fn told(tlvs: &[&[u8]]) -> String {
    answer(&fault(LKR, 0, 1, &tlvs.concat()))
}

const GLOBAL: [u8; 6] = [2, 4, 0, 0, 0, 1];
const OTHER: [u8; 3] = [9, 1, 1];

#[test]
fn a_wrong_length_of_a_tlv_names_the_length() {
    let id = interface(1);
    assert_eq!(told(&[&[1, 7, 0, 0, 0, 9, 0, 0, 0]]), "8 10");
    assert_eq!(told(&[&[1, 0]]), "8 10");
    assert_eq!(told(&[&[2, 3, 0, 0, 0]]), "8 10");
    assert_eq!(told(&[&id, &[2, 5, 0, 0, 0, 0, 0]]), "8 20");
    assert_eq!(told(&[&OTHER, &GLOBAL, &[1, 0]]), "8 19");
}

#[test]
fn a_repeated_tlv_names_the_type_of_the_second() {
    let id = interface(1);
    assert_eq!(told(&[&id, &id]), "8 19");
    assert_eq!(told(&[&GLOBAL, &id, &GLOBAL]), "8 25");
    assert_eq!(told(&[&id, &OTHER, &interface(2)]), "8 22");
    // Wrong in length as well: the type comes first.
    assert_eq!(told(&[&id, &[1, 7, 0, 0, 0, 9, 0, 0, 0]]), "8 19");
    assert_eq!(told(&[&GLOBAL, &[2, 0]]), "8 15");
}

#[test]
fn a_tlv_past_the_total_names_its_type() {
    let id = interface(1);
    assert_eq!(told(&[&[1, 9, 0xaa, 0xbb]]), "8 9");
    assert_eq!(told(&[&[1, 8, 0xaa, 0xbb]]), "8 9");
    assert_eq!(told(&[&[3, 3, 0xaa, 0xbb]]), "8 9");
    assert_eq!(told(&[&id, &[2, 4, 0, 0, 0]]), "8 19");
    assert_eq!(told(&[&id, &[1, 9, 0]]), "8 19");
    let past = fault(LKR, 0, 1, &[3, 3, 0xaa, 0xbb]);
    assert_eq!(answer(&padded(past, 1)), "8 9");
}

#[test]
fn a_stray_last_octet_is_named() {
    for stray in [0, 1, 2, 3, 255] {
        assert_eq!(told(&[&[stray]]), "8 9");
        assert_eq!(told(&[&interface(1), &[stray]]), "8 19");
    }
}

#[test]
fn the_first_wrong_tlv_is_named() {
    let (short, id) = ([1, 0], interface(1));
    assert_eq!(told(&[&short, &id, &id]), "8 10");
    assert_eq!(told(&[&id, &id, &short]), "8 19");
    assert_eq!(told(&[&OTHER, &short, &[3]]), "8 13");
}

#[test]
fn an_accepted_message_takes_its_octets_and_no_padding() {
    let used = |message: &[u8]| message::read(message).unwrap().used;
    let cc = cc(DOWN, DISCRIMINATOR);
    let cv = cv(DOWN, DISCRIMINATOR, EXPECTED);
    let ais = fault(AIS, 0, 1, &[interface(1), GLOBAL.to_vec()].concat());
    for padding in [0, 1, 2, 5, 2_000] {
        assert_eq!(used(&padded(cc.clone(), padding)), 28);
        assert_eq!(used(&padded(grown(&cc), padding)), 34);
        assert_eq!(used(&padded(cv.clone(), padding)), 44);
        assert_eq!(used(&padded(grown(&cv), padding)), 50);
        assert_eq!(used(&padded(ais.clone(), padding)), 25);
        assert_eq!(used(&padded(fault(LKR, 1, 20, &[]), padding)), 9);
    }
}

#[test]
fn other_answers_have_no_place() {
    let wrong = cc(UP, 0);
    let ais = |number| fault(AIS, 0, 20, &interface(number));
    Capture::new()
        .open(5, 0)
        .receive(4, &wrong)
        .call(Kind::Receive, 5, 101, &wrong)
        .receive(5, &ais(1))
        .receive(5, &ais(2))
        .receive(5, &ais(3))
        .receive(5, &ais(4))
        .receive(5, &ais(5))
        .lock(5)
        .receive(5, &cc(DOWN, 0))
        .receive(5, &wrong)
        .receive(5, &fault(AIS, 0, 0, &[]))
        .prints(&[
            "1 0", "2 1", "3 2", "4 0", "5 0", "6 0", "7 0", "8 9", "9 0", "10 14", "11 6 12",
            "12 8 7",
        ]);
}
