//! Captures in which ends and readings tie: conditions that end together,
//! messages at one reading, places that serve again.

use super::circuits::{circuits, Circuit};
use super::draft::{
    interface_tlv, kind_number, origin_tlvs, FaultDraft, ALARM_INDICATION, CLEAR, LINK_DOWN,
    LOCK_REPORT,
};
use super::scenarios::Scenario;
use super::{Maker, Style};
use crate::capture::Kind;
use crate::message::{InterfaceId, Origin};
use crate::random::Random;
use crate::session::{Condition, CONDITION_TIME_PER_SECOND};
use crate::table::LARGEST_READING;

/// The scenarios of these captures, each with its weight.
const SCENARIOS: [(Scenario, u64); 21] = [
    (Maker::end_together, 30),
    (Maker::end_first, 10),
    (Maker::cross_together, 14),
    (Maker::restart_together, 12),
    (Maker::use_places_again, 8),
    (Maker::renew_to_another_end, 8),
    (Maker::go_silent, 24),
    (Maker::tick, 3),
    (Maker::open_well, 3),
    (Maker::open_oddly, 1),
    (Maker::close, 1),
    (Maker::lock, 2),
    (Maker::unlock, 4),
    (Maker::send_cc, 4),
    (Maker::send_cv, 3),
    (Maker::send_misconnected, 5),
    (Maker::send_fault, 2),
    (Maker::send_damaged, 2),
    (Maker::fill_conditions, 1),
    (Maker::reopen, 2),
    (Maker::observe_any, 2),
];

impl Maker {
    /// A maker of few circuits whose losses come soon.
    pub(super) fn with_ties(seed: u64) -> Maker {
        // Another stream than that of the captures for `watch`.
        let mut random = Random::new(!seed);
        let count = random.pick(&[1, 1, 2, 3]);
        let period = random.pick(&[1_000, 1_000, 3_333, 100_000, 1_000_000]);
        let circuits = circuits(&mut random, count);
        Maker {
            random,
            style: Style::Mixed,
            circuits,
            period,
            ..Maker::new(seed)
        }
    }

    pub(super) fn next_tie(&mut self) {
        self.go_on(&SCENARIOS);
    }

    /// Ends with something that stands: conditions under a loss, crossings.
    pub(super) fn leave_standing(&mut self) {
        self.end_together();
        self.end_together();
        if self.random.chance(40) {
            self.end_first();
        }
        if self.random.chance(70) {
            self.go_silent();
        }
        if self.random.chance(50) {
            self.cross_together();
        }
    }

    /// The conditions that stand in the session of a circuit.
    fn standing(&self, circuit: &Circuit) -> Vec<Condition> {
        let clock = self.table.clock();
        match self.session(circuit) {
            Some(session) => session.standing(clock).copied().collect(),
            None => Vec::new(),
        }
    }

    /// A fault message that ends together with a condition that stands: of a
    /// shorter refresh so much later. The first one is long.
    fn end_together(&mut self) {
        let circuit = self.pick_circuit();
        let clock = self.table.clock();
        let mut draft = self.one_of_few_keys();
        let standing = self.standing(&circuit);
        if standing.is_empty() {
            draft.refresh = self.random.pick(&[3, 8, 20, 20]);
            self.receive(&circuit, clock, draft.octets());
            return;
        }
        let end = self.random.pick(&standing).end();
        let most = ((end - clock) / CONDITION_TIME_PER_SECOND).min(20);
        if most == 0 {
            return self.go_silent();
        }
        let any = self.random.between(1, most);
        let refresh = self.random.pick(&[1, most, most, any]);
        let time = end - CONDITION_TIME_PER_SECOND * refresh;
        draft.refresh = refresh as u8;
        if self.random.chance(25) {
            let key = self.random.pick(&standing).key;
            draft.kind = kind_number(key.kind);
            draft.tlvs = origin_tlvs(&key.origin);
        }
        self.receive(&circuit, time.min(LARGEST_READING), draft.octets());
    }

    /// A fault message that comes last and ends first.
    fn end_first(&mut self) {
        let circuit = self.pick_circuit();
        let draft = self.one_of_few_keys();
        let time = self.soon().min(LARGEST_READING);
        self.receive(&circuit, time, draft.octets());
    }

    /// A fault message of one of few keys, so that they come again.
    fn one_of_few_keys(&mut self) -> FaultDraft {
        let number = self.random.pick(&[None, Some(0), Some(1), Some(2)]);
        let global = self.random.pick(&[None, None, Some(0)]);
        let interface = number.map(|interface| InterfaceId { node: 8, interface });
        FaultDraft {
            kind: self.random.pick(&[ALARM_INDICATION, LOCK_REPORT]),
            flags: self.random.pick(&[0, 0, LINK_DOWN]),
            refresh: 1,
            tlvs: origin_tlvs(&Origin { global, interface }),
        }
    }

    /// Crossed messages at one reading, with a heard one between at times.
    fn cross_together(&mut self) {
        let circuit = self.pick_circuit();
        let time = self.soon().min(LARGEST_READING);
        for _ in 0..self.random.between(1, 3) {
            let message = self.misconnected(&circuit).octets([7; 3]);
            self.call(Kind::Receive, time, circuit.label, &message);
            if self.random.chance(20) {
                let message = self.good_cc(&circuit).octets([7; 3]);
                self.call(Kind::Receive, time, circuit.label, &message);
            }
        }
    }

    /// Several calls at one reading that a loss may be timed from: CCs, CVs,
    /// locks and unlocks, real ones and others; now and then a new opening.
    fn restart_together(&mut self) {
        let circuit = self.pick_circuit();
        let time = self.soon().min(LARGEST_READING);
        if self.random.chance(15) {
            self.call(Kind::Close, time, circuit.label, &[]);
            let body = self.good_open_body(&circuit);
            self.call(Kind::Open, time, circuit.label, &body);
        }
        for _ in 0..self.random.between(1, 4) {
            let message = match self.random.below(5) {
                0 => self.good_cv(&circuit).octets([8; 3]),
                1 | 2 => self.good_cc(&circuit).octets([8; 3]),
                kind => {
                    if kind == 3 {
                        self.call(Kind::Lock, time, circuit.label, &[]);
                    }
                    self.call(Kind::Unlock, time, circuit.label, &[]);
                    continue;
                }
            };
            self.call(Kind::Receive, time, circuit.label, &message);
        }
    }

    /// Keys in turn, more than there are places: some are ended by R before the
    /// next, some lapse.
    fn use_places_again(&mut self) {
        let circuit = self.pick_circuit();
        for number in 0..self.random.between(5, 7) as u32 {
            let mut draft = FaultDraft {
                kind: self.random.pick(&[ALARM_INDICATION, LOCK_REPORT]),
                flags: 0,
                refresh: self.random.pick(&[1, 1, 2]),
                tlvs: vec![interface_tlv(8, number)],
            };
            let time = self.table.clock();
            self.call(Kind::Receive, time, circuit.label, &draft.octets());
            if self.random.chance(40) {
                draft.flags = CLEAR;
                self.call(Kind::Receive, time, circuit.label, &draft.octets());
            } else if self.random.chance(30) {
                let ends = self.standing(&circuit).into_iter().map(|c| c.end());
                let first = ends.min().unwrap_or(time).min(LARGEST_READING);
                self.call(Kind::Tick, first, 0, &[]);
            }
        }
    }

    /// A key that stands is renewed with another refresh, sooner or later.
    fn renew_to_another_end(&mut self) {
        let circuit = self.pick_circuit();
        let standing = self.standing(&circuit);
        if standing.is_empty() {
            return self.send_fault();
        }
        let key = self.random.pick(&standing).key;
        let draft = FaultDraft {
            kind: kind_number(key.kind),
            flags: 0,
            refresh: self.random.pick(&[1, 2, 3, 20]),
            tlvs: origin_tlvs(&key.origin),
        };
        let time = self.table.clock() + self.random.below(3);
        self.call(Kind::Receive, time, circuit.label, &draft.octets());
    }

    /// Brings the reading at which a session has lost continuity, so that its
    /// conditions hold an alarm back, or the one before.
    fn go_silent(&mut self) {
        let circuit = self.pick_circuit();
        let Some(session) = self.session(&circuit) else {
            return;
        };
        let edge = session.detection_end();
        let time = edge + self.random.pick(&[0, 1, 1]);
        let time = time.max(self.table.clock() + self.random.below(2));
        self.call(Kind::Tick, time.min(LARGEST_READING), 0, &[]);
    }
}
