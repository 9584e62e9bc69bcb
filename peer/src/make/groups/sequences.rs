//! Sequences of calls that aim at one rule each.

use super::GroupMaker;
use crate::group::Role;
use crate::party::Party;
use crate::session::MISCONNECTIVITY_TIME;
use crate::table::LARGEST_READING;

impl GroupMaker {
    /// Calls of any kind at the last reading without a loss of a service PW, and at
    /// the first with it.
    pub(super) fn lose(&mut self, time: u64) {
        let Some((label, group)) = self.pick_group() else {
            return self.set(time);
        };
        if self.random.chance(60) {
            let clock = self.table.clock();
            self.hear_on(clock, label);
            let party = super::named(Party::of(label));
            self.call_on_group(clock, &format!("return id={}{party}", group.id));
        }
        let end = match self.session(label) {
            Some(session) => session.detection_end(),
            None => return,
        };
        for time in [end, end + 1] {
            if (self.table.clock()..=LARGEST_READING).contains(&time) {
                self.bring(time);
                self.ask(Party::of(label), group.id);
            }
        }
    }

    /// A crossed message on a working PE's service PW, and returns while it stands,
    /// at the last reading at which it does and at the first free one.
    pub(super) fn return_under_crossing(&mut self, time: u64) {
        let groups = self.groups().into_iter();
        let working = groups.filter(|(_, group)| group.role == Role::WORKING);
        let working: Vec<_> = working.collect();
        if working.is_empty() {
            return self.set(time);
        }
        let (label, group) = self.random.pick(&working);
        let party = super::named(Party::of(label));
        let clock = self.table.clock();
        self.cross_on(clock, label);
        self.ask(Party::of(label), group.id);
        let heard = clock + MISCONNECTIVITY_TIME - 1_000;
        let end = clock + MISCONNECTIVITY_TIME;
        if end > LARGEST_READING {
            return;
        }
        self.hear_on(heard, label);
        for time in [end - 1, end] {
            let words = format!("return id={}{party}", group.id);
            self.call_on_group(time, &words);
            self.ask(Party::of(label), group.id);
        }
    }

    /// The DNI-PW closes and is opened again.
    pub(super) fn reopen_dni_pw(&mut self, time: u64) {
        let Some((label, group)) = self.pick_group() else {
            return self.set(time);
        };
        let clock = self.table.clock();
        self.call(clock, group.dni, "close");
        self.ask(Party::of(label), group.id);
        self.coordinate_with(clock, &group);
        if self.random.chance(70) {
            self.open_label(clock, group.dni);
            self.coordinate_with(clock, &group);
            self.hear_on(clock, group.dni);
            self.ask(Party::of(label), group.id);
        }
    }

    /// The service PW closes, and with it the group ends; opened again it has none.
    pub(super) fn reopen_service_pw(&mut self, time: u64) {
        let Some((label, group)) = self.pick_group() else {
            return self.set(time);
        };
        let clock = self.table.clock();
        self.call(clock, label, "close");
        self.ask(Party::of(label), group.id);
        self.coordinate_with(clock, &group);
        if self.random.chance(70) {
            self.open_label(clock, label);
            self.ask(Party::of(label), group.id);
            self.coordinate_with(clock, &group);
            self.set_group(clock, label, group.dni, group.id, "");
        }
    }
}
