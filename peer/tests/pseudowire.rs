//! MEP-IDs of pseudowires: what a CV with one is refused for and where, that it
//! is crossed, and sessions whose own or expected end point is one.

mod common;

use common::*;
use peer::capture::{open_body, Kind};
use peer::machine::Mode;
use peer::mep_id::{MepId, LSP, PSEUDOWIRE, SECTION};
use peer::message::{read, Message};
use peer::refusal::Refusal;
use peer::session::Session;
use peer::settings::Settings;

/// Octets 0, 1, 2 and so on.
fn agi(length: usize) -> Vec<u8> {
    (0..length as u8).collect()
}

fn cv_of(length: usize) -> Vec<u8> {
    pseudowire_cv(UP, DISCRIMINATOR, EXPECTED, 0, &agi(length))
}

/// The MEP-ID of a pseudowire.
fn pseudowire(numbers: [u8; 12], agi_kind: u8, agi: &[u8]) -> MepId {
    let head = [agi_kind, agi.len() as u8];
    MepId::new(PSEUDOWIRE, &[&numbers[..], &head[..], agi].concat())
}

/// The refusal of a message and its place.
fn refused(message: &[u8]) -> (u8, usize) {
    let refused = read(message).unwrap_err();
    (refused.refusal.number(), refused.place.unwrap())
}

fn with(message: &[u8], at: usize, value: u8) -> Vec<u8> {
    let mut message = message.to_vec();
    message[at] = value;
    message
}

#[test]
fn every_agi_length_is_read() {
    for length in 0..=32 {
        for kind in [0, 1, 255] {
            let mut message = pseudowire_cv(UP, DISCRIMINATOR, EXPECTED, kind, &agi(length));
            assert_eq!(message.len(), 46 + length);
            message.extend([0xff; 7]);
            let found = read(&message).unwrap();
            assert_eq!(found.used, 46 + length);
            let Message::Cv(_, source) = found.message else {
                panic!("no CV");
            };
            assert_eq!(source, pseudowire(EXPECTED, kind, &agi(length)));
        }
    }
}

#[test]
fn a_length_beside_those_allowed_names_the_length() {
    for length in 0..=255 {
        let allowed = (14..=46).contains(&length);
        let message = with(&cv_of(32), 31, length);
        assert_eq!(refused_at(&message, 30), !allowed, "{length}");
        assert_eq!(refused_at(&message[..32], 30), !allowed, "{length}");
    }
    assert_eq!(refused(&cv_of(33)), (7, 30));
    assert_eq!(refused(&with(&cv_of(0), 30, 1)), (7, 30));
}

/// Whether the message is refused with 7 at this place.
fn refused_at(message: &[u8], place: usize) -> bool {
    read(message).is_err_and(|refused| refused == Refusal::MepId.at(place))
}

#[test]
fn types_above_2_name_the_type() {
    for kind in [3, 4, 255] {
        assert_eq!(refused(&with(&cv_of(0), 29, kind)), (7, 28));
        assert_eq!(refused(&with(&cv_of(0), 29, kind)[..32]), (7, 28));
    }
    assert_eq!(refused(&with(&cv_of(0), 28, 1)), (7, 28));
    for kind in [0, 1] {
        assert_eq!(refused(&with(&cv_of(0), 29, kind)), (7, 30));
    }
}

#[test]
fn an_agi_length_at_odds_names_itself() {
    for length in [0, 1, 4, 8, 31, 32] {
        let good = cv_of(length);
        for told in (0..=255).filter(|told| usize::from(*told) != length) {
            assert_eq!(refused(&with(&good, 45, told)), (7, 45));
        }
        // Padding would hold it.
        let mut padded = with(&good, 45, length as u8 + 1);
        padded.push(0);
        assert_eq!(refused(&padded), (7, 45));
    }
    let mut grown = with(&with(&cv_of(4), 45, 5), 7, 30);
    grown.splice(28..28, [9; 6]);
    assert_eq!(refused(&grown), (7, 51));
}

#[test]
fn the_value_comes_before_its_agi_length() {
    let odd = with(&cv_of(4), 45, 7);
    for length in 28..odd.len() {
        assert_eq!(refused(&odd[..length]), (3, length));
    }
    assert_eq!(refused(&odd), (7, 45));
}

#[test]
fn a_pseudowire_is_crossed_on_sessions_of_other_types() {
    for kind in [SECTION, LSP] {
        let body = open_body(DISCRIMINATOR, 1_000_000, kind, OWN, EXPECTED, 0);
        for length in [0, 1, 31, 32] {
            Capture::new()
                .call(Kind::Open, 0, LABEL, &body)
                .receive(0, &cc(INIT, DISCRIMINATOR))
                .receive(1, &cv_of(length))
                .report()
                .lock(1)
                .receive(1, &cv_of(length))
                .receive(1, &with(&cv_of(length), 45, 33))
                .prints(&[
                    "1 0",
                    "2 0",
                    "3 0",
                    "4 0 1 1 0 0 0 1 0",
                    "5 0",
                    "6 14",
                    "7 7 45",
                ]);
        }
    }
}

#[test]
fn an_open_of_a_capture_has_no_pseudowire() {
    let body = open_body(DISCRIMINATOR, 1_000_000, 2, OWN, EXPECTED, 0);
    Capture::new()
        .tick(5)
        .call(Kind::Open, 5, LABEL, &body)
        .call(Kind::Open, 4, LABEL, &body)
        .call(Kind::Open, i64::MAX as u64 + 1, LABEL, &body)
        .open(5, 0)
        .call(Kind::Open, 5, LABEL, &body)
        .prints(&["1 0", "2 10", "3 1", "4 1", "5 0", "6 10"]);
}

/// A session in UP with these end points.
fn session(own: MepId, expected: MepId) -> Session {
    let settings = Settings {
        label: LABEL,
        discriminator: DISCRIMINATOR,
        period: 1_000_000,
        own,
        expected,
        follows_link_down: false,
        follows_lock: false,
        mode: Mode::COORDINATED,
    };
    assert!(settings.in_range());
    Session::open(settings, 0)
}

/// Whether the session takes the message as one of its own circuit.
fn hears(session: &Session, message: &[u8]) -> bool {
    !session
        .settings
        .is_misconnected(&read(message).unwrap().message)
}

#[test]
fn a_pseudowire_is_heard_where_it_is_expected() {
    for length in 0..=32 {
        let session = session(MepId::new(LSP, &OWN), pseudowire(EXPECTED, 0, &agi(length)));
        let good = cv_of(length);
        assert!(hears(&session, &good));
        // Every octet of the value counts, but for the AGI length, which
        // cannot differ alone.
        for at in (32..good.len()).filter(|at| *at != 45) {
            assert!(!hears(&session, &with(&good, at, good[at] ^ 1)));
        }
        if length < 32 {
            assert!(!hears(&session, &cv_of(length + 1)));
        }
        assert!(!hears(&session, &cv(UP, DISCRIMINATOR, EXPECTED)));
    }
    // The AGI is not what stands behind it.
    let session = session(MepId::new(LSP, &OWN), pseudowire(EXPECTED, 0, &[0, 1, 2]));
    let crossed = pseudowire_cv(UP, DISCRIMINATOR, EXPECTED, 0, &[0, 1, 0x78]);
    assert!(!hears(&session, &crossed));
}

#[test]
fn the_written_cv_is_as_long_as_its_end_point() {
    let lsp = MepId::new(LSP, &EXPECTED);
    assert_eq!(session(lsp, lsp).write_cv(0).octets().len(), 44);
    for length in 0..=32 {
        let own = pseudowire(OWN, 3, &agi(length));
        let written = session(own, lsp).write_cv(0);
        assert_eq!(written.octets().len(), 46 + length);
        let found = read(written.octets()).unwrap();
        assert_eq!(found.used, written.octets().len());
        let Message::Cv(_, source) = found.message else {
            panic!("no CV");
        };
        assert_eq!(source, own);
    }
}
