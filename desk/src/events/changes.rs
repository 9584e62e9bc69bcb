//! What changed, read off two reports of one label.

use super::{Shown, What};

impl Shown {
    /// The seven numbers behind a report's answer 0.
    pub fn read(numbers: &str) -> Option<Shown> {
        let mut numbers = numbers.split(' ').map(|number| number.parse::<u8>().ok());
        let mut next = || numbers.next().flatten();
        let shown = Shown {
            state: next()?,
            crossing: flag(next()?)?,
            loss: flag(next()?)?,
            alarm: flag(next()?)?,
            remote_defect: flag(next()?)?,
            blocked: flag(next()?)?,
            conditions: next()?,
        };
        next().is_none().then_some(shown)
    }

    /// A loss for which conditions stand shows no alarm: it is held back.
    pub fn held_back(&self) -> bool {
        self.loss && self.conditions > 0 && !self.alarm
    }
}

fn flag(number: u8) -> Option<bool> {
    match number {
        0 => Some(false),
        1 => Some(true),
        _ => None,
    }
}

/// What differs between the last report of a label, if it was shown before, and the next one: first
/// what brings it about, then the state.
pub fn between(last: Option<&Shown>, next: &Shown) -> impl Iterator<Item = What> {
    let flags = |shown: &Shown| {
        [
            (shown.crossing, What::Crossing as fn(bool) -> What),
            (shown.loss, What::Loss),
            (shown.held_back(), What::HeldBack),
            (shown.alarm, What::Alarm),
            (shown.remote_defect, What::RemoteDefect),
        ]
    };
    let before = last.map_or([false; 5], |last| flags(last).map(|(flag, _)| flag));
    let changed = flags(next).into_iter().zip(before);
    let changed = changed.filter(|((flag, _), before)| flag != before);
    let state =
        (last.map(|last| last.state) != Some(next.state)).then_some(What::State(next.state));
    changed.map(|((flag, what), _)| what(flag)).chain(state)
}
