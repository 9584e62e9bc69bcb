//! Single calls, each with the reading that it brings.

use super::super::dhc::{self, DhcDraft};
use super::{named, GroupMaker};
use crate::group::Group;
use crate::message::State;
use crate::party::Party;
use crate::session::Session;

/// Node_IDs of peers.
const PEERS: [u32; 4] = [55, 55, 56, u32::MAX];

impl GroupMaker {
    pub(super) fn tick(&mut self, time: u64) {
        self.call_on_group(time, "tick");
    }

    /// Opens a label that is closed, if one is found.
    pub(super) fn open(&mut self, time: u64) {
        let mut label = self.pick_label();
        for _ in 0..3 {
            if self.session(label).is_some() {
                label = self.pick_label();
            }
        }
        self.open_label(time, label);
    }

    /// Labels of the two parties have one discriminator in turn.
    pub(super) fn open_label(&mut self, time: u64, label: u32) {
        let my = self.discriminator(label);
        let seconds = 1_000_000;
        let period = self
            .random
            .pick(&[seconds, seconds, seconds, seconds, 1_000, 10_000_000]);
        let mode = self.random.pick(&[0, 0, 0, 0, 1, 2]);
        let follows = self.random.pick(&["", " follow-link-down", " follow-lock"]);
        let words = format!("open my={my} period={period} mode={mode}{follows}");
        self.call(time, label, &words);
    }

    fn discriminator(&self, label: u32) -> u32 {
        let place = self.labels.iter().position(|known| *known == label);
        place.map_or(99, |at| at as u32 / 2 + 1)
    }

    pub(super) fn close(&mut self, time: u64) {
        let label = self.pick_label();
        self.call(time, label, "close");
    }

    pub(super) fn lock(&mut self, time: u64) {
        let label = self.pick_service();
        self.call(time, label, "lock");
    }

    /// Mostly of a label that is locked.
    pub(super) fn unlock(&mut self, time: u64) {
        let sessions = self.table.sessions();
        let locked = sessions.filter(|session| session.is_locked());
        let locked: Vec<u32> = locked.map(|session| session.settings.label).collect();
        let label = match locked.is_empty() {
            true => self.pick_service(),
            false => self.random.pick(&locked),
        };
        self.call(time, label, "unlock");
    }

    pub(super) fn hear(&mut self, time: u64) {
        let label = self.pick_service();
        self.hear_on(time, label);
    }

    /// A CC that leads the session UP, at times to INIT or down.
    pub(super) fn hear_on(&mut self, time: u64, label: u32) {
        let my = self.discriminator(label);
        let states = match self.session(label).map(|session| session.state) {
            Some(State::Init | State::Up) => ["up", "up", "up", "init", "down"],
            _ => ["init", "init", "init", "init", "down"],
        };
        let state = self.random.pick(&states);
        let extra = self.random.pick(&["", "", "", "", " mult=1", " diag=1"]);
        self.receive(time, label, &format!("cc {state} my=9 your={my}{extra}"));
    }

    /// A CC on each label that is open and not locked.
    pub(super) fn hear_all(&mut self, time: u64) {
        for label in self.labels.clone() {
            if self.session(label).is_some_and(|s| !s.is_locked()) {
                self.hear_on(time, label);
            }
        }
    }

    pub(super) fn verify(&mut self, time: u64) {
        let label = self.pick_service();
        let my = self.discriminator(label);
        self.receive(time, label, &format!("cv up my=9 your={my}"));
    }

    /// A message of another circuit.
    pub(super) fn cross(&mut self, time: u64) {
        let label = self.pick_service();
        self.cross_on(time, label);
    }

    pub(super) fn cross_on(&mut self, time: u64, label: u32) {
        let crossed = ["cc down my=9 your=99", "cv up my=9 mep=1/20/1/2"];
        let words = self.random.pick(&crossed);
        self.receive(time, label, words);
    }

    pub(super) fn send_fault(&mut self, time: u64) {
        let label = self.pick_service();
        let faults = ["ais L", "lkr", "ais L refresh=20 if=1/7", "ais R"];
        let words = self.random.pick(&faults);
        self.receive(time, label, words);
    }

    /// A group over two labels of one party, on one without a group and of an ID
    /// that is free, if all goes well; at times behind a crossed message.
    pub(super) fn set(&mut self, time: u64) {
        let mut service = self.pick_label();
        for _ in 0..4 {
            let taken = |session: &Session| session.group.is_there();
            if self.session(service).is_none_or(taken) {
                service = self.pick_label();
            }
        }
        let own = |label: &u32| Party::of(*label) == Party::of(service) && *label != service;
        let others: Vec<u32> = self.labels.iter().copied().filter(own).collect();
        let dni = self.random.pick(&others);
        let id = self.any_id();
        if self.random.chance(12) {
            self.cross_on(time, service);
        }
        self.set_group(time, service, dni, id, "");
    }

    pub(super) fn set_group(&mut self, time: u64, service: u32, dni: u32, id: u32, party: &str) {
        let role = self.random.pick(&[0, 0, 0, 1, 1, 2, 255]);
        let peer = self.random.pick(&PEERS);
        let words = format!("group id={id} role={role} peer={peer} dni={dni}{party}");
        self.call(time, service, &words);
    }

    /// A group with something wrong: a label that is not open, another party's or
    /// the same one, a second on a service PW or of an ID, another caller.
    pub(super) fn set_oddly(&mut self, time: u64) {
        let mut service = self.pick_label();
        let mut dni = self.pick_label();
        let mut id = self.any_id();
        let mut party = String::new();
        match self.random.below(6) {
            0 => dni = self.random.pick(&[0, 15, 999, 1_048_576, u32::MAX]),
            1 => service = self.random.pick(&[0, 15, 999, 1_048_576, u32::MAX]),
            2 => dni = service,
            3 => party = format!(" party={}", self.random.pick(&[0, 1, 2, 255])),
            _ => {
                if let Some((label, group)) = self.pick_group() {
                    (id, dni) = (group.id, group.dni);
                    service = self.random.pick(&[label, service]);
                }
            }
        }
        self.set_group(time, service, dni, id, &party);
    }

    /// The words for a group that mostly is there.
    fn group_words(&mut self) -> String {
        let odd = self.random.chance(12);
        match self.pick_group() {
            Some((label, group)) if !odd => format!("id={}{}", group.id, named(Party::of(label))),
            _ => {
                let party = Party(self.random.pick(&[0, 1, 2]));
                format!("id={}{}", self.any_id(), named(party))
            }
        }
    }

    pub(super) fn set_ac(&mut self, time: u64) {
        let group = self.group_words();
        let ac = self.random.pick(&[0, 0, 1, 1, 1, 2, 255]);
        self.call_on_group(time, &format!("ac {group} ac={ac}"));
    }

    pub(super) fn give_back(&mut self, time: u64) {
        let group = self.group_words();
        self.call_on_group(time, &format!("return {group}"));
    }

    /// A good DHC message of a group on its DNI-PW.
    pub(super) fn coordinate(&mut self, time: u64) {
        match self.pick_group() {
            Some((_, group)) => self.coordinate_with(time, &group),
            None => self.set(time),
        }
    }

    pub(super) fn coordinate_with(&mut self, time: u64, group: &Group) {
        let draft = dhc::good(&mut self.random, group.id, group.peer);
        self.send_dhc(time, group.dni, "", &draft);
    }

    fn send_dhc(&mut self, time: u64, label: u32, words: &str, draft: &DhcDraft) {
        let mut octets = draft.octets();
        let padding = self.random.pick(&[0, 0, 0, 1, 24]);
        octets.extend(self.random.octets(padding));
        self.receive_octets(time, label, words, &octets);
    }

    /// A DHC message of another ID, from another PE, on another label, in another's
    /// name, or one that cannot be read.
    pub(super) fn coordinate_wrongly(&mut self, time: u64) {
        let Some((service, group)) = self.pick_group() else {
            return self.set(time);
        };
        let mut draft = dhc::good(&mut self.random, group.id, group.peer);
        let mut label = group.dni;
        let mut words = "";
        match self.random.below(11) {
            0 => draft.group = self.any_id(),
            1 | 2 => {
                let other = self.random.pick(&[0, 55, 56, group.peer ^ 1]);
                draft = dhc::good(&mut self.random, group.id, other);
            }
            3 => self.take_in_another(&mut draft, group.peer),
            4 => label = self.random.pick(&[service, 999]),
            5 => label = self.pick_label(),
            6 => words = self.random.pick(&[" party=0", " party=1", " party=2"]),
            _ => {
                let octets = dhc::wrong(&mut self.random, draft);
                return self.receive_octets(time, label, words, &octets);
            }
        }
        self.send_dhc(time, label, words, &draft);
    }

    /// Two TLVs, of which one is not from the peer.
    fn take_in_another(&mut self, draft: &mut DhcDraft, peer: u32) {
        let mut sources = [peer, peer];
        sources[self.random.below(2) as usize] ^= 1;
        let [status, switching] = sources;
        draft.tlvs = vec![
            dhc::status_tlv(&mut self.random, status),
            dhc::switching_tlv(&mut self.random, switching),
        ];
    }

    /// A report or what is written: nothing but groups hangs on a group.
    pub(super) fn observe(&mut self, _: u64) {
        let label = self.pick_service();
        let kinds = ["report", "report", "write-cc", "write-cv"];
        let kind = self.random.pick(&kinds);
        let line = format!("{:>9}  {label:>7}  {kind}", "-");
        self.append(&line, "");
    }
}
