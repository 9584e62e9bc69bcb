//! Events put together to stretches: from where a thing began to where it ended.

use crate::events::{Cause, Event, What};
use std::collections::BTreeMap;

/// What lasts on a circuit.
#[derive(Clone, Copy, Debug, PartialEq, Eq, PartialOrd, Ord)]
pub enum Thing {
    State(u8),
    Loss,
    Alarm,
    HeldBack,
    Blocked,
    RemoteDefect,
}

impl Thing {
    pub fn words(self) -> &'static str {
        match self {
            Thing::State(0) => "ADMIN DOWN",
            Thing::State(1) => "DOWN",
            Thing::State(2) => "INIT",
            Thing::State(_) => "UP",
            Thing::Loss => "loss",
            Thing::Alarm => "alarm",
            Thing::HeldBack => "alarm held back",
            Thing::Blocked => "traffic blocked (crossing)",
            Thing::RemoteDefect => "remote defect",
        }
    }

    /// Of the things of one slot at most one stands at a time.
    fn slot(self) -> usize {
        match self {
            Thing::State(_) => 0,
            Thing::Loss => 1,
            Thing::Alarm => 2,
            Thing::HeldBack => 3,
            Thing::Blocked => 4,
            Thing::RemoteDefect => 5,
        }
    }
}

const SLOTS: usize = 6;

/// A thing from its begin to its end.
#[derive(Clone, Debug)]
pub struct Stretch {
    pub label: u32,
    pub thing: Thing,
    pub from: u64,
    /// The record that brought it; none where no record stands at its begin.
    pub begun_by: Option<u64>,
    /// The first reading without it; none if it stands at the end.
    pub to: Option<u64>,
    pub ended_by: Option<u64>,
    pub cause: Option<Cause>,
    /// Stretches are numbered in the order in which they began.
    pub order: u64,
}

/// What stands now on each label, while events go by.
#[derive(Default)]
pub struct Standing {
    labels: BTreeMap<u32, [Option<Stretch>; SLOTS]>,
    begun: u64,
}

impl Standing {
    pub fn new() -> Standing {
        Standing::default()
    }

    /// Labels that were open at some time.
    pub fn labels(&self) -> impl Iterator<Item = u32> + '_ {
        self.labels.keys().copied()
    }

    /// Takes an event; `ended` gets each stretch that ends with it.
    pub fn take(&mut self, event: Event, ended: &mut dyn FnMut(Stretch)) {
        let thing = match event.what {
            What::Opened => {
                self.labels.entry(event.label).or_default();
                return;
            }
            What::Closed => return self.close(&event, ended),
            What::State(state) => (Thing::State(state), true),
            What::Loss(on) => (Thing::Loss, on),
            What::Alarm(on) => (Thing::Alarm, on),
            What::HeldBack(on) => (Thing::HeldBack, on),
            What::Crossing(on) => (Thing::Blocked, on),
            What::RemoteDefect(on) => (Thing::RemoteDefect, on),
        };
        self.change(thing, event, ended);
    }

    fn change(&mut self, (thing, on): (Thing, bool), event: Event, ended: &mut dyn FnMut(Stretch)) {
        let slots = self.labels.entry(event.label).or_default();
        let Some(slot) = slots.get_mut(thing.slot()) else {
            return;
        };
        if let Some(stretch) = slot.take() {
            ended(end(stretch, &event));
        }
        if on {
            *slot = Some(begin(thing, event, self.begun));
            self.begun += 1;
        }
    }

    fn close(&mut self, event: &Event, ended: &mut dyn FnMut(Stretch)) {
        for slot in self.labels.entry(event.label).or_default() {
            if let Some(stretch) = slot.take() {
                ended(end(stretch, event));
            }
        }
    }

    /// What stands at the end of the events.
    pub fn finish(self, standing: &mut dyn FnMut(Stretch)) {
        for slots in self.labels.into_values() {
            slots.into_iter().flatten().for_each(&mut *standing);
        }
    }
}

fn begin(thing: Thing, event: Event, order: u64) -> Stretch {
    Stretch {
        label: event.label,
        thing,
        from: event.reading,
        begun_by: event.record,
        to: None,
        ended_by: None,
        cause: event.cause,
        order,
    }
}

fn end(stretch: Stretch, event: &Event) -> Stretch {
    Stretch {
        to: Some(event.reading),
        ended_by: event.record,
        ..stretch
    }
}
