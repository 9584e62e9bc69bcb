//! The call that accounts for a thing, found by looking back over the events.

use super::history::{Event, Front};
use super::question::{Question, Thing};
use crate::capture::Kind;
use crate::machine::Mode;
use crate::message::{self, Fault, Message, State};
use crate::session::{
    key_of, Key, Session, CONDITION_TIME_PER_SECOND, MISCONNECTIVITY_TIME, OWN_MULTIPLIER,
};
use crate::settings::Settings;

/// What is answered to a question.
#[derive(Clone, Copy, Debug, PartialEq, Eq)]
pub enum Answer<'a> {
    Because(Cause<'a>),
    /// Refusal 2.
    NotOpen,
    /// Refusal 15.
    DoesNotStand,
}

/// An accepted call that accounts for a thing.
#[derive(Clone, Copy, Debug, PartialEq, Eq)]
pub struct Cause<'a> {
    pub act: Act<'a>,
    /// The clock less the call's reading.
    pub age: u64,
    /// The first reading at which the thing no longer stands; of a loss, the
    /// first at which it stood.
    pub end: u64,
}

/// An accepted call on a label and what it is to the session.
#[derive(Clone, Copy, Debug, PartialEq, Eq)]
pub struct Act<'a> {
    pub event: &'a Event,
    pub part: Part,
}

#[derive(Clone, Copy, Debug, PartialEq, Eq)]
pub enum Part {
    Opening,
    Lock,
    Unlock,
    Crossed(Message),
    Heard(Message),
    Fault(Fault),
}

pub fn answer<'a>(front: &Front<'a>, question: &Question) -> Answer<'a> {
    let Some(life) = Life::of(front, question.label) else {
        return Answer::NotOpen;
    };
    let cause = match question.thing {
        Thing::Crossing => life.crossing(),
        Thing::Loss => life.loss(),
        Thing::HeldBack => life.held_back(),
        Thing::Condition(key) => life.condition(key),
    };
    cause.map_or(Answer::DoesNotStand, Answer::Because)
}

/// The accepted calls on a label from its opening on, and the clock.
pub struct Life<'a> {
    settings: Settings,
    acts: Vec<Act<'a>>,
    now: u64,
}

impl<'a> Life<'a> {
    /// The life of a label that is open at the end of the events.
    pub fn of(front: &Front<'a>, label: u32) -> Option<Life<'a>> {
        let accepted = |event: &&Event| event.accepted && event.label == label;
        let opens_or_closes = |event: &Event| matches!(event.kind, Kind::Open | Kind::Close);
        let back = front.events.iter().rev().filter(accepted);
        let last = back.clone().find(|event| opens_or_closes(event))?;
        if last.kind == Kind::Close {
            return None;
        }
        let settings = Settings::read_in(last.mode, label, &last.body)?;
        let since = back.take_while(|event| event.number >= last.number);
        let mut acts: Vec<Act> = since.filter_map(|event| act(&settings, event)).collect();
        acts.reverse();
        let now = front.clock();
        Some(Life {
            settings,
            acts,
            now,
        })
    }

    /// The latest crossed message that is young enough.
    pub fn crossing(&self) -> Option<Cause<'a>> {
        let young = |act: &&Act| self.age(act) < MISCONNECTIVITY_TIME;
        let act = self.crossed().find(young)?;
        Some(self.cause(act, act.event.time + MISCONNECTIVITY_TIME))
    }

    /// What the detection time runs from, if it has run out. Nothing times out a
    /// locked session, nor a source in UP.
    pub fn loss(&self) -> Option<Cause<'a>> {
        let act = self.restarts().max_by_key(|act| act.event.time)?;
        let time = u64::from(self.settings.period) * u64::from(self.multiplier());
        let timed = !self.locked_before(self.acts.len()) && !self.is_source_in_up();
        let lost = timed && self.age(act) > time;
        lost.then(|| self.cause(act, act.event.time + time + 1))
    }

    /// The last message of a key, if its condition stands.
    pub fn condition(&self, key: Key) -> Option<Cause<'a>> {
        let (act, fault) = self.faults().find(|(_, fault)| key_of(fault) == key)?;
        let cause = self.cause(act, fault_end(act, fault));
        (!fault.clear && self.now < cause.end).then_some(cause)
    }

    /// Of the conditions that stand under a loss the one that ends last, of
    /// equal ends the one with the later record.
    pub fn held_back(&self) -> Option<Cause<'a>> {
        self.loss()?;
        let standing = self.conditions().into_iter();
        standing.max_by_key(|cause| (cause.end, cause.act.event.number))
    }

    /// The last messages of all conditions that stand.
    pub fn conditions(&self) -> Vec<Cause<'a>> {
        let keys = self.keys().into_iter();
        keys.filter_map(|key| self.condition(key)).collect()
    }

    /// The keys of all fault messages.
    pub fn keys(&self) -> Vec<Key> {
        let mut keys = Vec::new();
        for (_, fault) in self.faults() {
            if !keys.contains(&key_of(fault)) {
                keys.push(key_of(fault));
            }
        }
        keys
    }

    /// The messages of a key that have R clear, lapsed ones too.
    pub fn of_key(&self, key: Key) -> Vec<Cause<'a>> {
        let messages = self.faults();
        let of_it = messages.filter(|(_, fault)| key_of(fault) == key && !fault.clear);
        of_it
            .map(|(act, fault)| self.cause(act, fault_end(act, fault)))
            .collect()
    }

    /// The crossed messages, the last one first.
    pub fn crossed(&self) -> impl Iterator<Item = &Act<'a>> {
        let back = self.acts.iter().rev();
        back.filter(|act| matches!(act.part, Part::Crossed(_)))
    }

    /// The opening, real unlocks and heard messages, in the order of calls.
    pub fn restarts(&self) -> impl Iterator<Item = &Act<'a>> {
        let restarts = |place: usize| match self.acts[place].part {
            Part::Opening | Part::Heard(_) => true,
            _ => self.is_real_unlock(place),
        };
        let places = (0..self.acts.len()).filter(move |&place| restarts(place));
        places.map(|place| &self.acts[place])
    }

    /// Whether this is a source that its acts leave in UP.
    fn is_source_in_up(&self) -> bool {
        self.settings.mode == Mode::SOURCE && self.state() == State::Up
    }

    /// The state that the acts leave. TIMER between two of them shows at the
    /// later one.
    fn state(&self) -> State {
        let opened = self.acts[0].event.time;
        let mut session = Session::open(self.settings, opened);
        for Act { event, part } in &self.acts {
            session.timer(event.time);
            match part {
                Part::Opening => {}
                Part::Lock => session.lock(),
                Part::Unlock => session.unlock(event.time),
                Part::Crossed(message) | Part::Heard(message) => session.take(message, event.time),
                Part::Fault(fault) => session.take(&Message::Fault(*fault), event.time),
            }
        }
        session.state
    }

    /// The fault messages, the last one first.
    fn faults(&self) -> impl Iterator<Item = (&Act<'a>, &Fault)> {
        self.acts.iter().rev().filter_map(|act| match &act.part {
            Part::Fault(fault) => Some((act, fault)),
            _ => None,
        })
    }

    /// That of the last CC heard since opening or real unlock, else 3.
    fn multiplier(&self) -> u8 {
        for place in (0..self.acts.len()).rev() {
            match self.acts[place].part {
                Part::Heard(Message::Cc(bfd)) => return bfd.multiplier,
                _ if self.is_real_unlock(place) => break,
                _ => {}
            }
        }
        OWN_MULTIPLIER
    }

    fn is_real_unlock(&self, place: usize) -> bool {
        self.acts[place].part == Part::Unlock && self.locked_before(place)
    }

    /// Whether the last lock or unlock before this place is a lock.
    fn locked_before(&self, place: usize) -> bool {
        let mut back = self.acts[..place].iter().rev();
        let last = back.find(|act| matches!(act.part, Part::Lock | Part::Unlock));
        last.is_some_and(|act| act.part == Part::Lock)
    }

    fn age(&self, act: &Act) -> u64 {
        self.now - act.event.time
    }

    fn cause(&self, act: &Act<'a>, end: u64) -> Cause<'a> {
        Cause {
            act: *act,
            age: self.age(act),
            end,
        }
    }
}

/// The first reading at which a fault message counts no more.
fn fault_end(act: &Act, fault: &Fault) -> u64 {
    act.event.time + CONDITION_TIME_PER_SECOND * u64::from(fault.refresh)
}

/// What an accepted call on a label is to its session; nothing for a report or
/// a write.
fn act<'a>(settings: &Settings, event: &'a Event) -> Option<Act<'a>> {
    let part = match event.kind {
        Kind::Open => Part::Opening,
        Kind::Lock => Part::Lock,
        Kind::Unlock => Part::Unlock,
        Kind::Receive => match message::read(&event.body).ok()?.message {
            Message::Fault(fault) => Part::Fault(fault),
            message if settings.is_misconnected(&message) => Part::Crossed(message),
            message => Part::Heard(message),
        },
        _ => return None,
    };
    Some(Act { event, part })
}
