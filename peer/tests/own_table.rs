//! `watch` with a table of its own prints the text of the plain one, for every
//! capture: refusal 26, which it leaves out, cannot come from a capture. The
//! other tests ask both modes too (`common::text`); here are long captures.

mod common;

use common::*;
use peer::capture::Kind;
use peer::load::{load, Load};
use peer::make;
use peer::random::Random;

#[test]
fn made_captures() {
    for seed in 1..=300 {
        text(&make::capture(seed));
    }
}

#[test]
fn long_captures() {
    for kind in [Load::One, Load::Many, Load::Mixed, Load::Full] {
        let mut capture = Vec::new();
        load(kind, 50_000, &mut capture).unwrap();
        text(&capture);
    }
}

/// Sessions are opened and closed in a table that is mostly full, on labels in
/// and out of range, so that each label is soon found at another place.
#[test]
fn labels_that_come_and_go() {
    let mut random = Random::new(1);
    let mut capture = Capture::new();
    for time in 0..20_000 {
        let label = random.below(60) as u32 * 37 + random.below(2) as u32 * 500_000;
        capture = match random.below(5) {
            0 | 1 => capture.open_other(time, label, 1 + random.below(200) as u32),
            2 => capture.call(Kind::Close, time, label, &[]),
            3 => capture.call(Kind::Receive, time, label, &cc(INIT, DISCRIMINATOR)),
            _ => capture.call(Kind::WriteCc, 0, label, &[]),
        };
    }
    let text = capture.text();
    for refusal in ["2", "10", "11", "12"] {
        let given = text
            .lines()
            .filter(|line| line.split_once(' ').unwrap().1 == refusal);
        assert!(given.count() > 50, "{refusal}");
    }
}
