//! What a lane shows: bars and ticks, thinned to what a pixel column can show.

use super::answered::Answered;
use super::scale::{Scale, COLUMNS};
use super::stretches::{Stretch, Thing};
use peer::capture::Kind;
use peer::message::{CHANNEL_CC, CHANNEL_CV, CHANNEL_FAULT};

/// Bars of fewer columns than this cannot be told apart where they stand side by side.
const NARROW: f64 = 2.0;

/// The rows of bars in a lane, from above. An alarm and an alarm held back share one: never do both stand.
#[derive(Clone, Copy, Debug, PartialEq, Eq)]
pub enum Row {
    State,
    Loss,
    Alarm,
    Blocked,
    RemoteDefect,
}

impl Row {
    pub const ALL: [Row; 5] = [
        Row::State,
        Row::Loss,
        Row::Alarm,
        Row::Blocked,
        Row::RemoteDefect,
    ];

    fn of(thing: Thing) -> Row {
        match thing {
            Thing::State(_) => Row::State,
            Thing::Loss => Row::Loss,
            Thing::Alarm | Thing::HeldBack => Row::Alarm,
            Thing::Blocked => Row::Blocked,
            Thing::RemoteDefect => Row::RemoteDefect,
        }
    }
}

/// One stretch, or several that are too short to be told apart.
pub struct Bar {
    pub row: Row,
    /// None where it stands for things of two kinds.
    pub thing: Option<Thing>,
    pub from: u64,
    pub to: u64,
    /// How many stretches it stands for.
    pub times: u64,
    /// What is said of it on hover, if it is one stretch.
    pub title: String,
}

/// A message as a tick; of several in a column the greatest shows.
#[derive(Clone, Copy, Debug, PartialEq, Eq, PartialOrd, Ord)]
pub enum Tick {
    /// CC or CV.
    Bfd,
    /// AIS or LKR.
    Fault,
    Refused,
}

impl Tick {
    pub const ALL: [Tick; 3] = [Tick::Bfd, Tick::Fault, Tick::Refused];

    /// None for a record that is no message.
    pub fn of(answered: &Answered) -> Option<Tick> {
        if answered.record.kind != Kind::Receive {
            return None;
        }
        let channel = answered
            .record
            .body
            .get(2..4)
            .map(|two| <[u8; 2]>::try_from(two).map(u16::from_be_bytes));
        match channel {
            _ if !answered.accepted() => Some(Tick::Refused),
            Some(Ok(CHANNEL_CC | CHANNEL_CV)) => Some(Tick::Bfd),
            Some(Ok(CHANNEL_FAULT)) => Some(Tick::Fault),
            _ => None,
        }
    }
}

/// One circuit.
pub struct Lane {
    pub label: u32,
    pub name: String,
    pub bars: Vec<Bar>,
    ticks: Vec<Option<Tick>>,
    pub messages: u64,
    pub refused: u64,
}

impl Lane {
    pub fn new(label: u32, name: String) -> Lane {
        Lane {
            label,
            name,
            bars: Vec::new(),
            ticks: vec![None; COLUMNS as usize],
            messages: 0,
            refused: 0,
        }
    }

    pub fn add_tick(&mut self, tick: Tick, column: u32) {
        self.messages += 1;
        self.refused += u64::from(tick == Tick::Refused);
        if let Some(room) = self.ticks.get_mut(column as usize) {
            *room = (*room).max(Some(tick));
        }
    }

    /// Columns with this kind of tick, as runs: the first and how many.
    pub fn runs(&self, tick: Tick) -> Vec<(u32, u32)> {
        let mut runs: Vec<(u32, u32)> = Vec::new();
        for (column, _) in (0..COLUMNS)
            .zip(&self.ticks)
            .filter(|(_, shown)| **shown == Some(tick))
        {
            match runs.last_mut() {
                Some((first, count)) if *first + *count == column => *count += 1,
                _ => runs.push((column, 1)),
            }
        }
        runs
    }

    /// Adds a stretch. A narrow one joins the last of its row, if that is narrow too or has joined
    /// others, and is no further than a column away: so a page has few bars, however many stretches.
    pub fn add_stretch(&mut self, stretch: &Stretch, scale: &Scale, title: String) {
        let (thing, row) = (stretch.thing, Row::of(stretch.thing));
        let to = stretch.to.unwrap_or(scale.last);
        let narrow = |from, to| scale.place(to) - scale.place(from) < NARROW;
        let last = self.bars.iter_mut().rev().find(|bar| bar.row == row);
        let joins = |bar: &&mut Bar| {
            let small = bar.times > 1 || narrow(bar.from, bar.to);
            small
                && narrow(stretch.from, to)
                && scale.column(stretch.from) <= scale.column(bar.to) + 1
        };
        match last.filter(joins) {
            Some(bar) => {
                bar.thing = bar.thing.filter(|same| *same == thing);
                bar.to = to;
                bar.times += 1;
                bar.title.clear();
            }
            None => self.bars.push(Bar {
                row,
                thing: Some(thing),
                from: stretch.from,
                to,
                times: 1,
                title,
            }),
        }
    }
}

#[cfg(test)]
mod tests {
    use super::*;

    fn stretch(thing: Thing, from: u64, to: u64) -> Stretch {
        Stretch {
            label: 100,
            thing,
            from,
            begun_by: None,
            to: Some(to),
            ended_by: None,
            cause: None,
            order: 0,
        }
    }

    #[test]
    fn short_stretches_share_a_bar() {
        let scale = Scale::new(0, 1_000_000);
        let mut lane = Lane::new(100, String::new());
        for from in [0, 100, 200, 5_000] {
            lane.add_stretch(
                &stretch(Thing::Loss, from, from + 50),
                &scale,
                "one".to_string(),
            );
        }
        let bars: Vec<_> = lane
            .bars
            .iter()
            .map(|bar| (bar.from, bar.to, bar.times, bar.title.as_str()))
            .collect();
        assert_eq!(bars, [(0, 250, 3, ""), (5_000, 5_050, 1, "one")]);
        for from in (6_000..500_000).step_by(700) {
            lane.add_stretch(
                &stretch(Thing::Loss, from, from + 50),
                &scale,
                String::new(),
            );
        }
        assert_eq!(lane.bars.len(), 2, "they stand side by side");
    }

    #[test]
    fn long_stretches_stay_apart_and_two_kinds_have_no_name() {
        let scale = Scale::new(0, 1_000_000);
        let mut lane = Lane::new(100, String::new());
        for (thing, from, to) in [
            (Thing::Alarm, 0, 5_000),
            (Thing::HeldBack, 5_000, 5_010),
            (Thing::Alarm, 5_010, 5_020),
        ] {
            lane.add_stretch(&stretch(thing, from, to), &scale, String::new());
        }
        let things: Vec<_> = lane.bars.iter().map(|bar| bar.thing).collect();
        assert_eq!(things, [Some(Thing::Alarm), None]);
    }

    #[test]
    fn one_tick_a_column() {
        let mut lane = Lane::new(100, String::new());
        for (tick, column) in [
            (Tick::Bfd, 3),
            (Tick::Fault, 3),
            (Tick::Bfd, 3),
            (Tick::Bfd, 4),
            (Tick::Bfd, 5),
        ] {
            lane.add_tick(tick, column);
        }
        assert_eq!(
            (lane.runs(Tick::Bfd), lane.runs(Tick::Fault)),
            (vec![(4, 2)], vec![(3, 1)])
        );
        assert_eq!(lane.messages, 5);
    }
}
