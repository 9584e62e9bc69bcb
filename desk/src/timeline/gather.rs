//! Events and messages of a capture, gathered into lanes.

use super::answered::{self, Answered};
use super::clock::Clock;
use super::lanes::{Lane, Tick};
use super::scale::Scale;
use super::stretches::{Standing, Stretch};
use super::{circuit_name, tables};
use crate::cli::Failure;
use crate::events::{self, Ends, Options};
use crate::sessions::Session;
use std::collections::BTreeMap;

/// The tables have no more rows than this, so that a page stays one that a browser opens.
const MOST_ROWS: u64 = 4_000;

/// A message: its label, its reading and its tick.
pub type Message = (u32, u64, Tick);

/// What a capture holds beside its events.
#[derive(Default)]
pub struct Heard {
    /// The first and the last reading that was accepted: any other may be anything.
    pub extent: Option<(u64, u64)>,
    pub messages: Vec<Message>,
}

impl Heard {
    pub fn of(capture: &[u8]) -> Result<Heard, Failure> {
        let mut heard = Heard::default();
        answered::each(capture, &mut |answered| heard.take(&answered))?;
        Ok(heard)
    }

    fn take(&mut self, answered: &Answered) {
        let record = &answered.record;
        if answered.accepted() && record.kind.brings_reading() {
            let first = self.extent.map_or(record.time, |(first, _)| first);
            self.extent = Some((first, record.time));
        }
        // A message refused for its reading has no place on the axis but the clock's.
        let clock = self.extent.map_or(record.time, |(_, last)| last);
        let reading = if answered.accepted() {
            record.time
        } else {
            clock
        };
        if let Some(tick) = Tick::of(answered) {
            self.messages.push((record.label, reading, tick));
        }
    }
}

/// Lanes while they fill.
pub struct Gathered<'a> {
    sessions: &'a [Session],
    pub scale: Scale,
    clock: &'a Clock,
    lanes: BTreeMap<u32, Lane>,
    pub stretches: Vec<Stretch>,
    pub left_out: u64,
}

impl<'a> Gathered<'a> {
    pub fn new(sessions: &'a [Session], scale: Scale, clock: &'a Clock) -> Gathered<'a> {
        Gathered {
            sessions,
            scale,
            clock,
            lanes: BTreeMap::new(),
            stretches: Vec::new(),
            left_out: 0,
        }
    }

    /// Takes every event, and makes a lane for each label that was ever open.
    pub fn take_events(&mut self, capture: &[u8]) -> Result<Ends, Failure> {
        let mut standing = Standing::new();
        let ends = events::find(capture, &Options::default(), &mut |event| {
            standing.take(event, &mut |stretch| self.add(stretch));
            Ok(())
        })?;
        for label in standing.labels() {
            self.lane(label);
        }
        standing.finish(&mut |stretch| self.add(stretch));
        Ok(ends)
    }

    /// Puts each message into its lane; gives how many have none.
    pub fn take_messages(&mut self, messages: &[Message]) -> u64 {
        let mut elsewhere = 0;
        for (label, reading, tick) in messages {
            match self.lanes.get_mut(label) {
                Some(lane) => lane.add_tick(*tick, self.scale.column(*reading)),
                None => elsewhere += 1,
            }
        }
        elsewhere
    }

    /// In the order of the sessions file, and then by label.
    pub fn lanes_in_order(&mut self) -> Vec<Lane> {
        let lanes = std::mem::take(&mut self.lanes);
        let place = |lane: &Lane| {
            self.sessions
                .iter()
                .position(|session| session.label == lane.label)
        };
        let mut lanes: Vec<Lane> = lanes.into_values().collect();
        lanes.sort_by_key(|lane| (place(lane).unwrap_or(usize::MAX), lane.label));
        lanes
    }

    fn lane(&mut self, label: u32) -> &mut Lane {
        let sessions = self.sessions;
        self.lanes
            .entry(label)
            .or_insert_with(|| Lane::new(label, circuit_name(sessions, label)))
    }

    fn add(&mut self, stretch: Stretch) {
        let (scale, clock) = (self.scale, self.clock);
        let lane = self.lane(stretch.label);
        let title = tables::title(&stretch, &lane.name, &scale, clock);
        lane.add_stretch(&stretch, &scale, title);
        match stretch.order < MOST_ROWS {
            true => self.stretches.push(stretch),
            false => self.left_out += 1,
        }
    }
}
