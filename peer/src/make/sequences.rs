//! Longer sequences of calls that aim at one rule each.

use super::draft::{interface_tlv, FaultDraft, ALARM_INDICATION, CLEAR, LINK_DOWN, LOCK_REPORT};
use super::{Circuit, Maker};
use crate::capture::Kind;
use crate::edges::{self, Edge};
use crate::message::State;

impl Maker {
    /// Sends a CC that leads the session towards UP.
    pub(super) fn bring_up(&mut self, circuit: &Circuit, time: u64) {
        let state = match self.session(circuit).map(|s| s.state) {
            Some(State::Down) => 2,
            _ => 3,
        };
        let mut draft = self.good_cc(circuit);
        draft.state = state;
        draft.your = circuit.discriminator;
        let message = self.bfd_octets(&draft);
        self.receive(circuit, time, message);
    }

    /// A picked circuit whose session is open, unlocked and UP, if all goes
    /// well.
    fn ready_circuit(&mut self) -> Circuit {
        let circuit = self.pick_circuit();
        let time = self.table.clock();
        if self.session(&circuit).is_none() {
            let body = self.good_open_body(&circuit);
            self.call(Kind::Open, time, circuit.label, &body);
        }
        if self.session(&circuit).is_some_and(|s| s.is_locked()) {
            self.call(Kind::Unlock, time, circuit.label, &[]);
        }
        self.bring_up(&circuit, time);
        circuit
    }

    fn fault_on(&mut self, circuit: &Circuit, time: u64, draft: &FaultDraft) {
        self.call(Kind::Receive, time, circuit.label, &draft.octets());
    }

    /// Calls refused at a reading at which the session has a loss: they must
    /// not give TIMER.
    pub(super) fn refuse_after_detection(&mut self) {
        let circuit = self.ready_circuit();
        let clock = self.table.clock();
        let Some(late) = self.session(&circuit).map(|s| s.detection_end() + 1) else {
            return;
        };
        let other = self.pick_circuit();
        if self.random.chance(50) && other.label != circuit.label {
            self.call(Kind::Lock, clock, other.label, &[]);
            let message = self.good_cc(&other).octets([3; 3]);
            self.call(Kind::Receive, late, other.label, &message);
        } else {
            self.overfill(&circuit, clock, late);
        }
        self.observe(&circuit);
        if self.random.chance(50) {
            self.bring_up(&circuit, clock);
        }
    }

    /// A call of any kind, mostly on another label, brings the reading at
    /// which a session loses continuity: TIMER comes from every one of them.
    pub(super) fn timer_by_any_call(&mut self) {
        let circuit = self.ready_circuit();
        let Some(edge) = self.session(&circuit).map(|s| s.detection_end()) else {
            return;
        };
        let mut other = self.pick_circuit();
        for _ in 0..5 {
            if other.label == circuit.label {
                other = self.pick_circuit();
            }
        }
        let time = edge + self.random.pick(&[0, 1, 1]);
        let kind = self.random.pick(&Kind::ALL[..6]);
        let body = match kind {
            Kind::Open => self.good_open_body(&other),
            Kind::Receive => self.good_message(&other),
            _ => Vec::new(),
        };
        if kind == Kind::Open {
            let clock = self.table.clock();
            self.call(Kind::Close, clock, other.label, &[]);
        }
        self.call(kind, time, other.label, &body);
        self.observe(&circuit);
        self.observe_often(&other);
    }

    /// Four long conditions, and a fifth at the reading `late`.
    fn overfill(&mut self, circuit: &Circuit, clock: u64, late: u64) {
        for number in 0..6 {
            let draft = FaultDraft {
                kind: ALARM_INDICATION,
                flags: 0,
                refresh: 20,
                tlvs: vec![interface_tlv(9, number)],
            };
            let time = if number < 4 { clock } else { late };
            self.fault_on(circuit, time, &draft);
        }
    }

    /// A session that follows link-down and lock is taken down by each fault
    /// message anew, but not by one that clears.
    pub(super) fn follow_faults(&mut self) {
        let circuit = self.pick_circuit();
        let clock = self.table.clock();
        self.call(Kind::Close, clock, circuit.label, &[]);
        let mut body = self.good_open_body(&circuit);
        body[34] = self.random.pick(&[1, 2, 3]);
        self.call(Kind::Open, clock, circuit.label, &body);
        let mut draft = FaultDraft {
            kind: self.random.pick(&[ALARM_INDICATION, LOCK_REPORT]),
            flags: LINK_DOWN,
            refresh: self.random.pick(&[1, 2, 20]),
            tlvs: self.good_tlvs(),
        };
        for _ in 0..self.random.between(2, 4) {
            let time = self.soon();
            self.bring_up(&circuit, time);
            let time = self.soon();
            self.fault_on(&circuit, time, &draft);
            self.observe(&circuit);
            draft.flags ^= self.random.pick(&[0, 0, CLEAR, LINK_DOWN]);
        }
    }

    /// A crossing or a fault message that may be followed, and CCs while it
    /// stands, at the last reading at which it does and at the first free one.
    pub(super) fn hold_down(&mut self) {
        let circuit = self.ready_circuit();
        match self.random.below(3) {
            0 => self.go_down(&circuit),
            1 => self.lead_to_init(&circuit),
            _ => {}
        }
        let message = match self.random.chance(50) {
            true => self.misconnected(&circuit).octets([6; 3]),
            false => FaultDraft {
                kind: self.random.pick(&[ALARM_INDICATION, LOCK_REPORT]),
                flags: LINK_DOWN,
                refresh: 1,
                tlvs: self.good_tlvs(),
            }
            .octets(),
        };
        let time = self.soon();
        self.receive(&circuit, time, message);
        let clock = self.table.clock();
        let ends = self.session(&circuit).map_or(Vec::new(), edges::of);
        let last = ends.iter().filter(|(edge, _)| *edge != Edge::Detection);
        let Some(end) = last.map(|&(_, end)| end).filter(|&end| end > clock).max() else {
            return;
        };
        for time in [clock, end - 1, end] {
            let mut draft = self.good_cc(&circuit);
            draft.state = self.random.pick(&[0, 1, 1, 2, 2, 2, 3]);
            draft.your = circuit.discriminator;
            let message = self.bfd_octets(&draft);
            self.receive(&circuit, time, message);
        }
    }

    /// A lock, an unlock and a CC of state DOWN.
    fn lead_to_init(&mut self, circuit: &Circuit) {
        let clock = self.table.clock();
        self.call(Kind::Lock, clock, circuit.label, &[]);
        self.call(Kind::Unlock, clock, circuit.label, &[]);
        let mut draft = self.good_cc(circuit);
        draft.state = 1;
        draft.your = 0;
        let message = self.bfd_octets(&draft);
        self.receive(circuit, clock, message);
    }

    /// A lock and an unlock of a session with much to remember or forget.
    pub(super) fn lock_and_unlock(&mut self) {
        let circuit = self.ready_circuit();
        if self.random.chance(50) {
            self.go_down(&circuit);
        }
        if self.random.chance(50) {
            let time = self.table.clock();
            let message = self.good_message(&circuit);
            self.receive(&circuit, time, message);
        }
        for kind in [Kind::Lock, Kind::Lock, Kind::Unlock, Kind::Unlock] {
            if self.random.chance(80) {
                let time = self.good_reading(&circuit);
                self.call(kind, time, circuit.label, &[]);
                self.observe(&circuit);
            }
        }
        let Some(edge) = self.session(&circuit).map(|s| s.detection_end()) else {
            return;
        };
        let time = edge + self.random.below(2);
        self.call(Kind::Tick, time, 0, &[]);
        self.observe(&circuit);
    }

    /// A session with much to remember is closed and opened again: nothing of
    /// it may be left.
    pub(super) fn reopen(&mut self) {
        let circuit = self.ready_circuit();
        let time = self.table.clock();
        for _ in 0..self.random.between(1, 3) {
            let message = match self.random.chance(40) {
                true => self.misconnected(&circuit).octets([4; 3]),
                false => self.good_message(&circuit),
            };
            self.call(Kind::Receive, time, circuit.label, &message);
        }
        if self.random.chance(20) {
            self.call(Kind::Lock, time, circuit.label, &[]);
        }
        let time = self.good_reading(&circuit);
        self.call(Kind::Close, time, circuit.label, &[]);
        let time = self.good_reading(&circuit);
        let body = self.good_open_body(&circuit);
        self.call(Kind::Open, time, circuit.label, &body);
        self.observe(&circuit);
    }

    /// One transition of the state machine: the session is led to DOWN, INIT
    /// or UP, and then receives any of the four states.
    pub(super) fn step_state_machine(&mut self) {
        let circuit = self.ready_circuit();
        let clock = self.table.clock();
        self.call(Kind::Lock, clock, circuit.label, &[]);
        self.call(Kind::Unlock, clock, circuit.label, &[]);
        let mut states = match self.random.below(3) {
            0 => vec![],
            1 => vec![1],
            _ => vec![2],
        };
        states.push(self.random.below(4) as u8);
        if self.random.chance(40) {
            states.push(self.random.below(4) as u8);
        }
        for state in states {
            let mut draft = self.good_cc(&circuit);
            draft.state = state;
            draft.your = circuit.discriminator;
            let message = self.bfd_octets(&draft);
            self.call(Kind::Receive, clock, circuit.label, &message);
        }
        self.observe(&circuit);
    }

    /// Messages with two things wrong, so that the order of refusals shows.
    pub(super) fn send_two_wrongs(&mut self) {
        let circuit = self.pick_circuit();
        for message in self.messages_with_two_wrongs(&circuit) {
            let time = self.table.clock();
            self.call(Kind::Receive, time, circuit.label, &message);
        }
    }
}
