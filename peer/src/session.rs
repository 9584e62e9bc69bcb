//! One session: what it keeps, how it moves and what it says of itself.

use crate::group::Group;
use crate::machine::{self, Input, Mode};
use crate::mep_id::LONGEST_VALUE;
use crate::message::{Bfd, Fault, FaultKind, Message, Origin, State, CHANNEL_CC, CHANNEL_CV};
use crate::refusal::Refusal;
use crate::settings::Settings;

/// How long a misconnectivity stands after the last message of another circuit.
pub const MISCONNECTIVITY_TIME: u64 = 3_500_000;
/// How long a condition stands for each second of its refresh time.
pub const CONDITION_TIME_PER_SECOND: u64 = 3_500_000;
/// The most conditions a session holds.
pub const CONDITIONS: usize = 4;
/// The detection multiplier before a CC gives one, and the one written.
pub const OWN_MULTIPLIER: u8 = 3;

/// The key of a fault condition: its type, Global_ID and interface. One that is
/// absent equals an absent one and no other.
#[derive(Clone, Copy, Debug, PartialEq, Eq)]
pub struct Key {
    pub kind: FaultKind,
    pub origin: Origin,
}

/// A fault condition as its last message left it.
#[derive(Clone, Copy, Debug, PartialEq, Eq)]
pub struct Condition {
    pub key: Key,
    pub arrived: u64,
    pub refresh: u8,
    pub link_down: bool,
}

impl Condition {
    /// The first reading at which the condition no longer stands.
    pub fn end(&self) -> u64 {
        self.arrived + CONDITION_TIME_PER_SECOND * u64::from(self.refresh)
    }

    pub fn stands(&self, now: u64) -> bool {
        now < self.end()
    }
}

/// The seven numbers of a report.
#[derive(Clone, Copy, Debug, PartialEq, Eq)]
pub struct Report {
    pub state: State,
    pub misconnectivity: bool,
    pub loss: bool,
    pub alarm: bool,
    pub remote_defect: bool,
    pub blocked: bool,
    pub conditions: usize,
}

impl Report {
    /// The seven numbers as they are printed.
    pub fn numbers(&self) -> String {
        let marks = [
            self.misconnectivity,
            self.loss,
            self.alarm,
            self.remote_defect,
            self.blocked,
        ];
        let marks = marks.map(|mark| u8::from(mark).to_string()).join(" ");
        format!("{} {marks} {}", self.state as u8, self.conditions)
    }
}

/// The octets of a CC, and of a CV before the value of its MEP-ID.
const CC_OCTETS: usize = 28;
const CV_HEAD: usize = 32;
/// The octets of the longest CV: 78.
const LONGEST_CV: usize = CV_HEAD + LONGEST_VALUE;

/// The octets of a written CC (28) or CV (44, for a pseudowire 46 to 78).
#[derive(Clone, Copy, Debug, PartialEq, Eq)]
pub struct Written {
    octets: [u8; LONGEST_CV],
    length: usize,
}

impl Written {
    pub fn octets(&self) -> &[u8] {
        &self.octets[..self.length]
    }
}

/// An open session.
#[derive(Clone, Debug, PartialEq, Eq)]
pub struct Session {
    pub settings: Settings,
    /// ADMIN DOWN means locked.
    pub state: State,
    /// The session is DOWN because a received state took it there.
    pub taken_down_by_peer: bool,
    /// When the running detection time began.
    pub detecting_since: u64,
    pub multiplier: u8,
    pub remote_discriminator: Option<u32>,
    pub remote_diagnostic: Option<u8>,
    pub reply_owed: bool,
    pub last_misconnected: Option<u64>,
    pub conditions: [Option<Condition>; CONDITIONS],
    /// The group of which this is the service PW, if it is one's.
    pub group: Group,
}

impl Session {
    /// A session as it is opened: DOWN, timed from its opening, and of no group.
    pub fn open(settings: Settings, now: u64) -> Session {
        Session {
            settings,
            state: State::Down,
            taken_down_by_peer: false,
            detecting_since: now,
            multiplier: OWN_MULTIPLIER,
            remote_discriminator: None,
            remote_diagnostic: None,
            reply_owed: false,
            last_misconnected: None,
            conditions: [None; CONDITIONS],
            group: Group::default(),
        }
    }

    pub fn is_locked(&self) -> bool {
        self.state == State::AdminDown
    }

    /// The last reading without a loss of continuity.
    pub fn detection_end(&self) -> u64 {
        self.detecting_since + u64::from(self.settings.period) * u64::from(self.multiplier)
    }

    /// Whether silence counts: not while locked, and not for a source in UP,
    /// which nothing times out.
    pub fn is_timed(&self) -> bool {
        let source_up = self.settings.mode == Mode::SOURCE && self.state == State::Up;
        !self.is_locked() && !source_up
    }

    /// Loss of continuity: more than the detection time has gone.
    pub fn has_loss(&self, now: u64) -> bool {
        self.is_timed() && now > self.detection_end()
    }

    /// Misconnectivity: a message of another circuit came a
    /// short time ago.
    pub fn has_misconnectivity(&self, now: u64) -> bool {
        self.last_misconnected
            .is_some_and(|date| now - date < MISCONNECTIVITY_TIME)
    }

    /// The conditions that stand.
    pub fn standing(&self, now: u64) -> impl Iterator<Item = &Condition> {
        self.conditions
            .iter()
            .flatten()
            .filter(move |condition| condition.stands(now))
    }

    /// TIMER is given where there is a loss of continuity, and a working PE gives
    /// up its PW.
    pub fn timer(&mut self, now: u64) {
        if self.has_loss(now) {
            self.give(Input::Timer);
            self.group.give_up();
        }
    }

    /// The group is set or returned: its PW goes by the defects that stand.
    pub fn start_group(&mut self, now: u64) {
        let defect = self.has_loss(now) || self.has_misconnectivity(now);
        self.group.start(defect);
    }

    /// Moves the session. One that stays DOWN keeps what it remembers.
    fn give(&mut self, input: Input) {
        let next = machine::next(self.settings.mode, self.state, input);
        if next != self.state {
            let received = matches!(input, Input::Received(_));
            self.taken_down_by_peer = received && next == State::Down;
        }
        self.state = next;
    }

    /// Locking a locked session does nothing.
    pub fn lock(&mut self) {
        self.state = State::AdminDown;
        self.taken_down_by_peer = false;
        self.remote_diagnostic = None;
        self.reply_owed = false;
    }

    /// Unlocking a session that is not locked does nothing.
    pub fn unlock(&mut self, now: u64) {
        if self.is_locked() {
            self.state = State::Down;
            self.multiplier = OWN_MULTIPLIER;
            self.detecting_since = now;
        }
    }

    /// Whether the session refuses a well-formed message: BFD while locked
    /// (14), a new condition where four stand (9).
    pub fn refuses(&self, message: &Message, now: u64) -> Option<Refusal> {
        match message {
            Message::Cc(_) | Message::Cv(..) => self.is_locked().then_some(Refusal::Locked),
            Message::Fault(fault) => {
                let known = self.standing(now).any(|c| c.key == key_of(fault));
                let full = self.standing(now).count() == CONDITIONS;
                (!fault.clear && !known && full).then_some(Refusal::ConditionsFull)
            }
        }
    }

    /// Takes in a message that is not refused.
    pub fn take(&mut self, message: &Message, now: u64) {
        match message {
            _ if self.settings.is_misconnected(message) => self.misconnect(now),
            Message::Cc(bfd) => self.process_cc(bfd, now),
            Message::Cv(..) => self.detecting_since = now,
            Message::Fault(fault) => self.take_fault(fault, now),
        }
    }

    /// A message of another circuit is dated, in whatever mode, and a working PE
    /// gives up its PW.
    fn misconnect(&mut self, now: u64) {
        self.last_misconnected = Some(now);
        self.give(Input::Misconnected);
        self.group.give_up();
    }

    fn process_cc(&mut self, bfd: &Bfd, now: u64) {
        self.detecting_since = now;
        self.multiplier = bfd.multiplier;
        self.remote_discriminator = Some(bfd.my_discriminator);
        self.remote_diagnostic = Some(bfd.diagnostic);
        self.reply_owed |= bfd.poll;
        self.give(match self.is_held_down(now) {
            true => Input::Timer,
            false => Input::Received(bfd.state),
        });
    }

    /// Whether a defect stands that keeps a coordinated session from coming up:
    /// then a received state counts no more than TIMER would.
    pub fn is_held_down(&self, now: u64) -> bool {
        let defect = self.has_misconnectivity(now) || self.has_followed_condition(now);
        self.settings.mode == Mode::COORDINATED && defect
    }

    fn take_fault(&mut self, fault: &Fault, now: u64) {
        let key = key_of(fault);
        self.forget_lapsed_and(key, now);
        if fault.clear {
            return;
        }
        let condition = Condition {
            key,
            arrived: now,
            refresh: fault.refresh,
            link_down: fault.link_down,
        };
        if let Some(free) = self.conditions.iter_mut().find(|c| c.is_none()) {
            *free = Some(condition);
        }
        if self.follows(&condition) {
            self.give(match fault.kind {
                FaultKind::AlarmIndication => Input::LinkDown,
                FaultKind::LockReport => Input::LockReport,
            });
        }
    }

    /// Gives back the places of lapsed conditions and of the given key.
    fn forget_lapsed_and(&mut self, key: Key, now: u64) {
        for place in &mut self.conditions {
            if place.is_some_and(|c| c.key == key || !c.stands(now)) {
                *place = None;
            }
        }
    }

    /// Whether the session follows the condition: link-down or lock.
    fn follows(&self, condition: &Condition) -> bool {
        match condition.key.kind {
            FaultKind::AlarmIndication => self.settings.follows_link_down && condition.link_down,
            FaultKind::LockReport => self.settings.follows_lock,
        }
    }

    fn has_followed_condition(&self, now: u64) -> bool {
        self.standing(now).any(|condition| self.follows(condition))
    }

    /// What the session reports at the clock.
    pub fn report(&self, now: u64) -> Report {
        let misconnectivity = self.has_misconnectivity(now);
        let loss = self.has_loss(now);
        let conditions = self.standing(now).count();
        let defect_told = matches!(self.remote_diagnostic, Some(1 | 5 | 9));
        Report {
            state: self.state,
            misconnectivity,
            loss,
            alarm: loss && conditions == 0,
            remote_defect: !self.is_locked() && !loss && defect_told,
            blocked: misconnectivity,
            conditions,
        }
    }

    /// The diagnostic that a written message carries.
    fn diagnostic(&self, now: u64) -> u8 {
        if self.is_locked() {
            7
        } else if self.has_misconnectivity(now) {
            9
        } else if self.has_followed_condition(now) {
            5
        } else if self.has_loss(now) {
            1
        } else if self.taken_down_by_peer {
            3
        } else {
            0
        }
    }

    /// Writes a CC. A reply owed is given with it.
    pub fn write_cc(&mut self, now: u64) -> Written {
        let mut octets = [0; LONGEST_CV];
        self.write_bfd(&mut octets, CHANNEL_CC, now);
        if self.reply_owed {
            octets[5] |= 0x10;
            self.reply_owed = false;
        }
        let length = CC_OCTETS;
        Written { octets, length }
    }

    /// Writes a CV. It never carries a reply.
    pub fn write_cv(&self, now: u64) -> Written {
        let mut octets = [0; LONGEST_CV];
        self.write_bfd(&mut octets, CHANNEL_CV, now);
        let value = self.settings.own.value();
        let length = CV_HEAD + value.len();
        octets[28..30].copy_from_slice(&self.settings.own.kind().to_be_bytes());
        octets[30..CV_HEAD].copy_from_slice(&(value.len() as u16).to_be_bytes());
        octets[CV_HEAD..length].copy_from_slice(value);
        Written { octets, length }
    }

    /// What the far end is asked to send: a source asks for nothing.
    fn required_interval(&self) -> u32 {
        match self.settings.mode {
            Mode::SOURCE => 0,
            _ => self.settings.period,
        }
    }

    /// Channel header and BFD packet, all flags clear.
    fn write_bfd(&self, octets: &mut [u8; LONGEST_CV], channel: u16, now: u64) {
        let remote = self.remote_discriminator.unwrap_or(0);
        octets[0] = 0x10;
        octets[2..4].copy_from_slice(&channel.to_be_bytes());
        octets[4] = 1 << 5 | self.diagnostic(now);
        octets[5] = (self.state as u8) << 6;
        octets[6] = OWN_MULTIPLIER;
        octets[7] = 24;
        octets[8..12].copy_from_slice(&self.settings.discriminator.to_be_bytes());
        octets[12..16].copy_from_slice(&remote.to_be_bytes());
        octets[16..20].copy_from_slice(&self.settings.period.to_be_bytes());
        octets[20..24].copy_from_slice(&self.required_interval().to_be_bytes());
    }
}

/// The key of the condition that a fault message starts, renews or ends.
pub fn key_of(fault: &Fault) -> Key {
    Key {
        kind: fault.kind,
        origin: fault.origin,
    }
}

#[cfg(test)]
mod tests {
    use super::*;
    use crate::mep_id::MepId;

    /// A session in UP, as no calls leave it where it is held down.
    fn session_up() -> Session {
        let mep_id = MepId::new(0, &[0; 12]);
        let settings = Settings {
            label: 100,
            discriminator: 17,
            period: 1_000,
            own: mep_id,
            expected: mep_id,
            follows_link_down: true,
            follows_lock: false,
            mode: Mode::COORDINATED,
        };
        let mut session = Session::open(settings, 0);
        session.state = State::Up;
        session.remote_discriminator = Some(5);
        session
    }

    fn cc(state: State) -> Message {
        Message::Cc(Bfd {
            diagnostic: 0,
            state,
            poll: false,
            multiplier: 3,
            my_discriminator: 5,
            your_discriminator: 17,
        })
    }

    const STATES: [State; 4] = [State::AdminDown, State::Down, State::Init, State::Up];

    #[test]
    fn the_hold_takes_up_down_as_timer_does() {
        for state in STATES {
            let mut session = session_up();
            session.last_misconnected = Some(0);
            session.take(&cc(state), 1);
            assert_eq!(session.state, State::Down);
            assert!(!session.taken_down_by_peer);
        }
    }

    #[test]
    fn without_a_hold_a_received_state_takes_up_down() {
        let mut session = session_up();
        session.take(&cc(State::AdminDown), 1);
        assert_eq!(session.state, State::Down);
        assert!(session.taken_down_by_peer);
    }
}
