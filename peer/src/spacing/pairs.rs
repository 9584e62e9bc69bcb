//! Pairs of successive heard CCs, found in the list of accepted calls.

use crate::capture::Kind;
use crate::message::{self, Message};
use crate::settings::Settings;
use crate::why::history::Event;

/// Two heard CCs of one opening and one stretch unlocked, none heard between.
#[derive(Clone, Copy, Debug, PartialEq, Eq)]
pub struct Pair<'a> {
    pub earlier: &'a Event,
    pub later: &'a Event,
    /// The period of their opening.
    pub period: u32,
}

impl Pair<'_> {
    /// How much later than a period the later one came; below 0 if sooner.
    pub fn error(&self) -> i128 {
        let apart = i128::from(self.later.time) - i128::from(self.earlier.time);
        apart - i128::from(self.period)
    }
}

/// The pairs of a label, in the order of calls.
pub fn of(events: &[Event], label: u32) -> Vec<Pair<'_>> {
    let accepted = |event: &&Event| event.accepted && event.label == label;
    let calls: Vec<&Event> = events.iter().filter(accepted).collect();
    let openings = calls.split_inclusive(|event| event.kind == Kind::Close);
    openings.flat_map(of_opening).collect()
}

/// The pairs of the accepted calls from an open to its close.
fn of_opening<'a>(calls: &[&'a Event]) -> Vec<Pair<'a>> {
    let Some(settings) = settings_of(calls) else {
        return Vec::new();
    };
    let stretches = calls.split(|event| event.kind == Kind::Lock);
    stretches
        .flat_map(|stretch| of_stretch(&settings, stretch))
        .collect()
}

/// An open label cannot be opened again, so its open is the first accepted call.
fn settings_of(calls: &[&Event]) -> Option<Settings> {
    let open = calls.first().filter(|event| event.kind == Kind::Open)?;
    Settings::read_in(open.mode, open.label, &open.body)
}

/// The pairs of the calls between two locks. What is received while the session
/// is locked is refused, so that the first heard CC stands behind an unlock.
fn of_stretch<'a>(settings: &Settings, calls: &[&'a Event]) -> Vec<Pair<'a>> {
    let heard = calls.iter().filter(|event| is_heard_cc(settings, event));
    let heard: Vec<&Event> = heard.copied().collect();
    let pair = |two: &[&'a Event]| Pair {
        earlier: two[0],
        later: two[1],
        period: settings.period,
    };
    heard.windows(2).map(pair).collect()
}

fn is_heard_cc(settings: &Settings, event: &Event) -> bool {
    event.kind == Kind::Receive
        && message::read(&event.body).is_ok_and(|read| {
            let message = read.message;
            matches!(message, Message::Cc(_)) && !settings.is_misconnected(&message)
        })
}
