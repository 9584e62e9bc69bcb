//! What happens in a capture: single calls and short sequences of them.

use super::damage::{fields, get, set, values};
use super::draft::{
    global_tlv, interface_tlv, kind_number, origin_tlvs, BfdDraft, FaultDraft, CLEAR, LINK_DOWN,
    POLL,
};
use super::{Circuit, Maker, Style};
use crate::capture::{open_body, Kind};
use crate::edges;
use crate::mep_id::MepId;
use crate::settings::OPEN_BODY;

/// The scenarios, each with its weight in the styles Mixed, Steady, Faults,
/// Damage and Edges.
const SCENARIOS: [(Scenario, [u64; 5]); 30] = [
    (Maker::tick, [8, 3, 4, 3, 10]),
    (Maker::open_well, [8, 2, 4, 4, 6]),
    (Maker::open_oddly, [10, 4, 4, 6, 6]),
    (Maker::close, [3, 1, 2, 2, 3]),
    (Maker::lock, [3, 1, 3, 3, 4]),
    (Maker::unlock, [4, 3, 4, 4, 5]),
    (Maker::send_cc, [20, 60, 10, 10, 20]),
    (Maker::send_cv, [10, 20, 6, 6, 12]),
    (Maker::send_misconnected, [7, 1, 4, 3, 12]),
    (Maker::send_fault, [12, 3, 40, 4, 16]),
    (Maker::send_damaged, [12, 2, 10, 50, 4]),
    (Maker::send_random_octets, [3, 1, 1, 6, 1]),
    (Maker::call_unknown_label, [4, 1, 2, 3, 2]),
    (Maker::observe_any, [10, 10, 10, 5, 10]),
    (Maker::cut_at_every_length, [1, 0, 1, 2, 0]),
    (Maker::spoil_every_field, [1, 0, 0, 1, 0]),
    (Maker::visit_edge, [6, 1, 6, 1, 30]),
    (Maker::fill_conditions, [3, 0, 12, 1, 4]),
    (Maker::stay_up, [6, 12, 4, 4, 8]),
    (Maker::poll, [3, 3, 1, 1, 2]),
    (Maker::refuse_after_detection, [2, 1, 2, 1, 3]),
    (Maker::timer_by_any_call, [4, 2, 2, 1, 6]),
    (Maker::follow_faults, [2, 0, 5, 1, 2]),
    (Maker::lock_and_unlock, [3, 1, 2, 1, 3]),
    (Maker::step_state_machine, [5, 2, 2, 1, 4]),
    (Maker::reopen, [2, 1, 2, 1, 2]),
    (Maker::send_two_wrongs, [4, 1, 2, 15, 1]),
    (Maker::hold_down, [4, 1, 4, 1, 6]),
    (Maker::send_pseudowire, [4, 1, 1, 12, 2]),
    (Maker::send_dhc, [4, 2, 1, 10, 2]),
];

pub(super) type Scenario = fn(&mut Maker);

impl Maker {
    /// Goes on with a scenario, by the weights of the capture's style.
    pub(super) fn next_scenario(&mut self) {
        let style = match self.style {
            Style::Mixed => 0,
            Style::Steady => 1,
            Style::Faults => 2,
            Style::Damage => 3,
            Style::Edges => 4,
        };
        let of_style = SCENARIOS.map(|(scenario, weights)| (scenario, weights[style]));
        self.go_on(&of_style);
    }

    /// Goes on with one of some scenarios, by their weights.
    pub(super) fn go_on(&mut self, scenarios: &[(Scenario, u64)]) {
        let total = scenarios.iter().map(|(_, weight)| weight).sum();
        let mut left = self.random.below(total);
        for (scenario, weight) in scenarios {
            if left < *weight {
                return scenario(self);
            }
            left -= weight;
        }
    }

    /// Reports and writes on a circuit, with unread times and bodies.
    pub(super) fn observe(&mut self, circuit: &Circuit) {
        let kinds = [Kind::Report, Kind::WriteCc, Kind::WriteCv];
        let first = self.random.pick(&kinds);
        let more = self.random.chance(40);
        for kind in kinds {
            if kind == first || more {
                let time = self.random.draw();
                let time = self.random.pick(&[0, self.table.clock(), time]);
                let body = self.unread_body();
                self.call(kind, time, circuit.label, &body);
            }
        }
    }

    pub(super) fn observe_often(&mut self, circuit: &Circuit) {
        if self.random.chance(60) {
            self.observe(circuit);
        }
    }

    pub(super) fn observe_any(&mut self) {
        let circuit = self.pick_circuit();
        self.observe(&circuit);
    }

    pub(super) fn receive(&mut self, circuit: &Circuit, time: u64, message: Vec<u8>) {
        let body = self.padded(message);
        self.call(Kind::Receive, time, circuit.label, &body);
        self.observe_often(circuit);
    }

    /// A call without a body that is read, on a picked circuit.
    fn plain(&mut self, kind: Kind) {
        let circuit = self.pick_circuit();
        let time = self.reading(&circuit);
        let body = self.unread_body();
        self.call(kind, time, circuit.label, &body);
        self.observe_often(&circuit);
    }

    pub(super) fn tick(&mut self) {
        let circuit = self.pick_circuit();
        let time = self.reading(&circuit);
        let label = self.random.word();
        let body = self.unread_body();
        self.call(Kind::Tick, time, label, &body);
        self.observe_often(&circuit);
    }

    pub(super) fn close(&mut self) {
        self.plain(Kind::Close);
    }

    pub(super) fn lock(&mut self) {
        self.plain(Kind::Lock);
    }

    pub(super) fn unlock(&mut self) {
        self.plain(Kind::Unlock);
    }

    /// The settings of a circuit, with marks and periods that vary.
    pub(super) fn good_open_body(&mut self, circuit: &Circuit) -> Vec<u8> {
        let any = self.random.between(1_000, 10_000_000) as u32;
        let usual = self.period;
        let period = self
            .random
            .pick(&[usual, usual, usual, usual, 1_000, 10_000_000, any]);
        open_body(
            circuit.discriminator,
            period,
            circuit.mep_kind,
            circuit.own,
            circuit.expected,
            self.random.below(4) as u8,
        )
    }

    /// Opens a circuit that is closed, if one is found.
    pub(super) fn open_well(&mut self) {
        let mut circuit = self.pick_circuit();
        for _ in 0..4 {
            if self.session(&circuit).is_some() {
                circuit = self.pick_circuit();
            }
        }
        let time = self.reading(&circuit);
        let body = self.good_open_body(&circuit);
        self.call(Kind::Open, time, circuit.label, &body);
        self.observe_often(&circuit);
    }

    /// An open with one thing wrong: a setting, the length, the marks, or a
    /// label or discriminator that another session has.
    pub(super) fn open_oddly(&mut self) {
        let circuit = self.pick_circuit();
        let mut label = self.odd_label();
        let mut body = self.good_open_body(&circuit);
        let fresh = self.random.word() | 1;
        body[..4].copy_from_slice(&fresh.to_be_bytes());
        match self.random.below(9) {
            0 => {}
            1 => body[..4].copy_from_slice(&[0; 4]),
            2 => body[..4].copy_from_slice(&circuit.discriminator.to_be_bytes()),
            3 => label = circuit.label,
            4 => self.odd_period(&mut body),
            5 => {
                let kinds = [[0, 2], [0, 2], [0, 3], [1, 0], [2, 0], [255, 255]];
                body[8..10].copy_from_slice(&self.random.pick(&kinds));
            }
            6 => body[34] = self.random.pick(&[4, 5, 128, 255]),
            7 => self.odd_length(&mut body),
            _ => label = self.random.between(16, 1_048_575) as u32,
        }
        let time = self.reading(&circuit);
        self.call(Kind::Open, time, label, &body);
        self.observe_often(&circuit);
    }

    fn odd_period(&mut self, body: &mut [u8]) {
        let periods: [u32; 6] = [0, 999, 1_000, 10_000_000, 10_000_001, u32::MAX];
        body[4..8].copy_from_slice(&self.random.pick(&periods).to_be_bytes());
    }

    fn odd_length(&mut self, body: &mut Vec<u8>) {
        let any = self.random.below(2_049) as usize;
        let length = self.random.pick(&[0, 34, 34, 36, 36, 2_048, any]);
        let filler = self.random.octets(length.saturating_sub(OPEN_BODY));
        body.extend_from_slice(&filler);
        body.truncate(length);
    }

    pub(super) fn send_cc(&mut self) {
        let circuit = self.pick_circuit();
        let draft = self.good_cc(&circuit);
        let time = self.reading(&circuit);
        let message = self.bfd_octets(&draft);
        self.receive(&circuit, time, message);
    }

    pub(super) fn send_cv(&mut self) {
        let circuit = self.pick_circuit();
        let draft = self.good_cv(&circuit);
        let time = self.reading(&circuit);
        let message = self.bfd_octets(&draft);
        self.receive(&circuit, time, message);
    }

    /// A message of another circuit on this one.
    pub(super) fn send_misconnected(&mut self) {
        let circuit = self.pick_circuit();
        let draft = self.misconnected(&circuit);
        let time = self.reading(&circuit);
        let message = self.bfd_octets(&draft);
        self.receive(&circuit, time, message);
    }

    /// A misconnected CC or CV: wrong Your Discriminator, MEP-ID type or value.
    pub(super) fn misconnected(&mut self, circuit: &Circuit) -> BfdDraft {
        let other = self.pick_circuit();
        let mut draft = self.good_cv(circuit);
        match self.random.below(7) {
            0 => draft.your = circuit.discriminator ^ self.random.pick(&[1, 0x8000_0000]),
            1 => draft = self.good_cv(&other),
            2 | 3 => {
                draft = self.good_cc(circuit);
                let foreign = [other.discriminator, circuit.discriminator ^ 2];
                draft.your = self.random.pick(&foreign);
            }
            4 => draft.mep_id = draft.mep_id.map(|id| MepId::new(1 - id.kind(), id.value())),
            5 => draft = self.pseudowire_cv(circuit),
            _ => {
                let at = self.random.below(12) as usize;
                draft.mep_id = draft.mep_id.map(|id| {
                    let mut value = id.value().to_vec();
                    value[at] ^= 1;
                    MepId::new(id.kind(), &value)
                });
            }
        }
        draft
    }

    pub(super) fn send_fault(&mut self) {
        let circuit = self.pick_circuit();
        let time = self.reading(&circuit);
        let mut draft = self.good_fault();
        if self.random.chance(40) {
            self.repeat_key(&circuit, &mut draft);
        }
        let octets = draft.octets();
        let message = self.with_filler(octets);
        self.receive(&circuit, time, message);
    }

    /// Gives the draft the key of a condition that the session holds, at times
    /// with another Global_ID.
    fn repeat_key(&mut self, circuit: &Circuit, draft: &mut FaultDraft) {
        let held: Vec<_> = match self.session(circuit) {
            Some(session) => session.conditions.iter().flatten().copied().collect(),
            None => return,
        };
        if held.is_empty() {
            return;
        }
        let mut key = self.random.pick(&held).key;
        if self.random.chance(40) {
            key.origin.global = self.any_global();
        }
        draft.kind = kind_number(key.kind);
        draft.tlvs = origin_tlvs(&key.origin);
        if self.random.chance(30) {
            draft.tlvs.push(self.unknown_tlv());
        }
        self.shuffle(&mut draft.tlvs);
    }

    pub(super) fn send_damaged(&mut self) {
        let circuit = self.pick_circuit();
        let time = self.reading(&circuit);
        let message = self.damaged_message(&circuit);
        match self.random.chance(20) {
            true => self.receive(&circuit, time, message),
            false => {
                self.call(Kind::Receive, time, circuit.label, &message);
                if self.random.chance(20) {
                    self.observe(&circuit);
                }
            }
        }
    }

    /// CVs of a pseudowire, right and wrong, some of them padded.
    fn send_pseudowire(&mut self) {
        let circuit = self.pick_circuit();
        for _ in 0..self.random.between(1, 4) {
            let time = self.reading(&circuit);
            let message = self.pseudowire(&circuit);
            self.receive(&circuit, time, message);
        }
    }

    /// Random octets, at times behind a good channel header.
    fn send_random_octets(&mut self) {
        let circuit = self.pick_circuit();
        let time = self.reading(&circuit);
        let length = self
            .random
            .pick(&[0, 3, 4, 8, 9, 27, 28, 32, 43, 44, 46, 60, 78, 2_048]);
        let mut message = self.random.octets(length);
        if self.random.chance(70) && length >= 4 {
            let channel = self.random.pick(&[0x22, 0x23, 0x58]);
            message[..4].copy_from_slice(&[0x10, 0, 0, channel]);
        }
        self.call(Kind::Receive, time, circuit.label, &message);
    }

    /// Calls on labels that are not open or not even possible.
    fn call_unknown_label(&mut self) {
        let circuit = self.pick_circuit();
        let label = self.odd_label();
        let kind = self.random.pick(&Kind::ALL[2..]);
        let time = self.reading(&circuit);
        let body = match kind {
            Kind::Receive => self.good_message(&circuit),
            _ => self.unread_body(),
        };
        self.call(kind, time, label, &body);
    }

    /// One good message, cut at every length there is.
    fn cut_at_every_length(&mut self) {
        let circuit = self.pick_circuit();
        let message = self.good_message(&circuit);
        for length in 0..=message.len().min(80) {
            let time = self.table.clock();
            self.call(Kind::Receive, time, circuit.label, &message[..length]);
        }
        self.observe(&circuit);
    }

    /// One good message with each field wrong in turn.
    fn spoil_every_field(&mut self) {
        let circuit = self.pick_circuit();
        let message = self.good_message(&circuit);
        for field in fields(&message).into_iter().take(28) {
            for value in values(field, get(&message, field)) {
                let mut spoilt = message.clone();
                set(&mut spoilt, field, value);
                let time = self.table.clock();
                self.call(Kind::Receive, time, circuit.label, &spoilt);
            }
        }
        self.observe(&circuit);
    }

    /// Starts something that ends by itself and looks at both sides of its
    /// end, with a call of some kind bringing each reading.
    fn visit_edge(&mut self) {
        let circuit = self.pick_circuit();
        self.start_something(&circuit);
        let clock = self.table.clock();
        let mut coming = match self.session(&circuit) {
            Some(session) => edges::of(session),
            None => return,
        };
        coming.retain(|&(_, edge)| edge > clock);
        if coming.is_empty() {
            return;
        }
        let (_, edge) = self.random.pick(&coming);
        for time in edge - 1..=edge + 1 {
            if self.random.chance(80) {
                self.bring_reading(&circuit, time);
                self.observe(&circuit);
            }
        }
    }

    /// An event from which something is timed.
    fn start_something(&mut self, circuit: &Circuit) {
        let time = self.good_reading(circuit);
        let message = match self.random.below(4) {
            0 => self.misconnected(circuit).octets([0; 3]),
            1 => self.good_cv(circuit).octets([0; 3]),
            2 => self.good_cc(circuit).octets([0; 3]),
            _ => {
                let mut draft = self.good_fault();
                draft.flags &= !CLEAR;
                draft.octets()
            }
        };
        self.receive(circuit, time, message);
    }

    /// Brings a reading by a tick, a message on the circuit, or a call on
    /// another one.
    fn bring_reading(&mut self, circuit: &Circuit, time: u64) {
        let other = self.pick_circuit();
        match self.random.below(8) {
            0..=3 => {
                self.call(Kind::Tick, time, circuit.label, &[]);
            }
            4 => {
                let message = self.good_cc(circuit).octets([1; 3]);
                self.call(Kind::Receive, time, circuit.label, &message);
            }
            5 => {
                let message = self.good_message(circuit);
                self.call(Kind::Receive, time, circuit.label, &message);
            }
            6 => {
                let message = self.good_message(&other);
                self.call(Kind::Receive, time, other.label, &message);
            }
            _ => {
                let kind = self.random.pick(&[Kind::Lock, Kind::Unlock]);
                self.call(kind, time, circuit.label, &[]);
            }
        }
    }

    /// More conditions than a session holds, then one cleared, one renewed
    /// and another new one.
    pub(super) fn fill_conditions(&mut self) {
        let circuit = self.pick_circuit();
        let refresh = self.random.pick(&[1, 2, 20]);
        let mut drafts = Vec::new();
        let carriers = self.random.chance(40);
        for number in 0..self.random.between(4, 6) as u32 {
            // Interfaces of one carrier, or one interface of all of them.
            let tlvs = match (carriers, number) {
                (false, _) => vec![interface_tlv(7, number)],
                (true, 0) => vec![interface_tlv(7, 0)],
                (true, _) => vec![interface_tlv(7, 0), global_tlv(number - 1)],
            };
            drafts.push(FaultDraft {
                kind: self.random.pick(&[1, 2]),
                flags: self.random.pick(&[0, LINK_DOWN]),
                refresh,
                tlvs,
            });
        }
        for draft in &drafts {
            let time = self.good_reading(&circuit);
            self.receive(&circuit, time, draft.octets());
        }
        for draft in &mut drafts {
            if self.random.chance(50) {
                draft.flags ^= self.random.pick(&[CLEAR, CLEAR, LINK_DOWN]);
                draft.refresh = self.random.pick(&[1, 20]);
                let time = self.reading(&circuit);
                self.receive(&circuit, time, draft.octets());
            }
        }
    }

    /// Brings a session UP and keeps it there for some messages.
    fn stay_up(&mut self) {
        let circuit = self.pick_circuit();
        for _ in 0..self.random.between(2, 8) {
            let time = self.soon();
            self.bring_up(&circuit, time);
        }
        if self.random.chance(40) {
            self.go_down(&circuit);
        }
    }

    /// Lets the remote end take the session down.
    pub(super) fn go_down(&mut self, circuit: &Circuit) {
        let mut draft = self.good_cc(circuit);
        draft.state = self.random.pick(&[0, 1]);
        let time = self.reading(circuit);
        let message = self.bfd_octets(&draft);
        self.receive(circuit, time, message);
        self.observe(circuit);
    }

    /// Polls, and asks for the reply, with something between at times.
    fn poll(&mut self) {
        let circuit = self.pick_circuit();
        for _ in 0..self.random.between(1, 2) {
            let mut draft = self.good_cc(&circuit);
            draft.flags |= POLL;
            let time = self.good_reading(&circuit);
            self.call(Kind::Receive, time, circuit.label, &draft.octets([2; 3]));
        }
        if self.random.chance(30) {
            let kind = self.random.pick(&[Kind::Lock, Kind::WriteCv, Kind::Tick]);
            let time = self.good_reading(&circuit);
            self.call(kind, time, circuit.label, &[]);
        }
        if self.random.chance(30) {
            self.send_cc();
        }
        for _ in 0..2 {
            let time = self.random.draw();
            self.call(Kind::WriteCc, time, circuit.label, &[]);
        }
    }
}
