//! The table of 64 places with its clock, and the calls on it.

mod groups;

use crate::capture::{Kind, Record};
use crate::machine::Mode;
use crate::message::{self, CHANNEL_DHC};
use crate::party::{Circuit, Party, SESSIONS_OF_ONE};
use crate::refusal::{Refusal, Refused};
use crate::session::{Report, Session, Written};
use crate::settings::Settings;
use crate::sound::{self, Scratch};
pub use groups::{GroupCall, GroupName, Told};

/// The number of places for sessions.
pub const PLACES: usize = 64;
/// The largest reading a call may bring.
pub const LARGEST_READING: u64 = i64::MAX as u64;

/// The answer to a call.
#[derive(Clone, Debug, PartialEq, Eq)]
pub enum Answer {
    Accepted,
    Report(Report),
    Written(Written),
    /// What a group tells of itself.
    Group(Told),
    Refused(Refused),
}

impl Answer {
    /// The number of the answer.
    pub fn number(&self) -> u8 {
        match self {
            Answer::Refused(refused) => refused.refusal.number(),
            _ => 0,
        }
    }

    pub fn is_accepted(&self) -> bool {
        !matches!(self, Answer::Refused(_))
    }
}

/// What a call says that a record of a capture has no place for.
#[derive(Clone, Copy, Debug, PartialEq, Eq)]
pub struct Beside {
    /// The mode of an open.
    pub mode: Mode,
    /// Who calls.
    pub party: Party,
}

impl Beside {
    /// What the records of captures say on a label: its own party calls, and
    /// every session is coordinated.
    pub fn of(label: u32) -> Beside {
        Beside {
            mode: Mode::COORDINATED,
            party: Party::of(label),
        }
    }
}

/// The sessions and the clock.
pub struct Table {
    clock: u64,
    places: [Option<Session>; PLACES],
    scratch: Scratch,
}

impl Default for Table {
    fn default() -> Table {
        Table::new()
    }
}

impl Table {
    /// An empty table at clock 0.
    pub fn new() -> Table {
        Table {
            clock: 0,
            places: std::array::from_fn(|_| None),
            scratch: Scratch::default(),
        }
    }

    pub fn clock(&self) -> u64 {
        self.clock
    }

    /// The open sessions, in the order of their places.
    pub fn sessions(&self) -> impl Iterator<Item = &Session> {
        self.places.iter().flatten()
    }

    /// The open session of a label.
    pub fn session(&self, label: u32) -> Option<&Session> {
        self.sessions().find(|s| s.settings.label == label)
    }

    /// Where the open session of a label is.
    pub fn place(&self, label: u32) -> Option<usize> {
        let party = Party::of(label);
        self.place_of(Circuit { label, party }).ok()
    }

    /// The session in a place, to be changed past every call.
    pub fn place_mut(&mut self, place: usize) -> Option<&mut Session> {
        self.places.get_mut(place)?.as_mut()
    }

    /// Does the call of one record of a capture.
    pub fn perform(&mut self, record: &Record) -> Answer {
        self.perform_with(record, Beside::of(record.label))
    }

    /// Does a call. Refusal 26 comes before all others.
    pub fn perform_with(&mut self, record: &Record, beside: Beside) -> Answer {
        if !self.is_sound() {
            return Answer::Refused(Refusal::Table.into());
        }
        let (time, label, party) = (record.time, record.label, beside.party);
        let circuit = Circuit { label, party };
        let answer = match record.kind {
            Kind::Tick => self.tick(time),
            Kind::Open => self.open(time, circuit, record.body, beside.mode),
            Kind::Close => self.close(time, circuit),
            Kind::Lock => self.lock(time, circuit),
            Kind::Unlock => self.unlock(time, circuit),
            Kind::Receive => self.receive(time, circuit, record.body),
            Kind::Report => self.report(circuit),
            Kind::WriteCc => self.write_cc(circuit),
            Kind::WriteCv => self.write_cv(circuit),
        };
        answer.unwrap_or_else(Answer::Refused)
    }

    fn is_sound(&mut self) -> bool {
        sound::is_sound(&self.places, self.clock, &mut self.scratch)
    }

    fn tick(&mut self, reading: u64) -> Result<Answer, Refused> {
        self.judge_reading(reading)?;
        self.accept(reading);
        Ok(Answer::Accepted)
    }

    fn open(
        &mut self,
        reading: u64,
        circuit: Circuit,
        body: &[u8],
        mode: Mode,
    ) -> Result<Answer, Refused> {
        self.judge_reading(reading)?;
        if !circuit.is_own() {
            return Err(Refusal::Setting.into());
        }
        let settings = Settings::read_in(mode, circuit.label, body).ok_or(Refusal::Setting)?;
        let place = self.place_to_open(&settings, circuit.party)?;
        self.accept(reading);
        self.places[place] = Some(Session::open(settings, reading));
        Ok(Answer::Accepted)
    }

    /// The lowest free place, or refusal 11, then 12. Only the caller's own
    /// sessions count: one of the other party has another label in any case.
    fn place_to_open(&self, settings: &Settings, party: Party) -> Result<usize, Refusal> {
        let own = || {
            self.sessions()
                .filter(|open| party.owns(open.settings.label))
        };
        let taken = own().any(|open| {
            open.settings.label == settings.label
                || open.settings.discriminator == settings.discriminator
        });
        if taken {
            return Err(Refusal::InUse);
        }
        if own().count() >= SESSIONS_OF_ONE {
            return Err(Refusal::TableFull);
        }
        let free = self.places.iter().position(Option::is_none);
        free.ok_or(Refusal::TableFull)
    }

    fn close(&mut self, reading: u64, circuit: Circuit) -> Result<Answer, Refused> {
        let place = self.place_for(reading, circuit)?;
        self.accept(reading);
        self.places[place] = None;
        Ok(Answer::Accepted)
    }

    fn lock(&mut self, reading: u64, circuit: Circuit) -> Result<Answer, Refused> {
        let place = self.place_for(reading, circuit)?;
        self.accept(reading);
        self.session_at(place)?.lock();
        Ok(Answer::Accepted)
    }

    fn unlock(&mut self, reading: u64, circuit: Circuit) -> Result<Answer, Refused> {
        let place = self.place_for(reading, circuit)?;
        self.accept(reading);
        self.session_at(place)?.unlock(reading);
        Ok(Answer::Accepted)
    }

    fn receive(
        &mut self,
        reading: u64,
        circuit: Circuit,
        octets: &[u8],
    ) -> Result<Answer, Refused> {
        let place = self.place_for(reading, circuit)?;
        if message::channel(octets)? == CHANNEL_DHC {
            return self.coordinate(reading, circuit, octets);
        }
        let message = message::read(octets)?.message;
        if let Some(refusal) = self.session_at(place)?.refuses(&message, reading) {
            return Err(refusal.into());
        }
        self.accept(reading);
        self.session_at(place)?.take(&message, reading);
        Ok(Answer::Accepted)
    }

    fn report(&mut self, circuit: Circuit) -> Result<Answer, Refused> {
        let (place, now) = (self.place_of(circuit)?, self.clock);
        Ok(Answer::Report(self.session_at(place)?.report(now)))
    }

    fn write_cc(&mut self, circuit: Circuit) -> Result<Answer, Refused> {
        let (place, now) = (self.place_of(circuit)?, self.clock);
        Ok(Answer::Written(self.session_at(place)?.write_cc(now)))
    }

    fn write_cv(&mut self, circuit: Circuit) -> Result<Answer, Refused> {
        let (place, now) = (self.place_of(circuit)?, self.clock);
        Ok(Answer::Written(self.session_at(place)?.write_cv(now)))
    }

    /// Refusal 1, then 2.
    fn place_for(&self, reading: u64, circuit: Circuit) -> Result<usize, Refusal> {
        self.judge_reading(reading)?;
        self.place_of(circuit)
    }

    fn judge_reading(&self, reading: u64) -> Result<(), Refusal> {
        if (self.clock..=LARGEST_READING).contains(&reading) {
            Ok(())
        } else {
            Err(Refusal::Reading)
        }
    }

    /// Where the session of a label is. To another party than its own the label
    /// is not open.
    fn place_of(&self, circuit: Circuit) -> Result<usize, Refusal> {
        let bears = |s: &Session| circuit.is_own() && s.settings.label == circuit.label;
        let place = self
            .places
            .iter()
            .position(|p| p.as_ref().is_some_and(bears));
        place.ok_or(Refusal::NoSession)
    }

    fn session_at(&mut self, place: usize) -> Result<&mut Session, Refusal> {
        self.places[place].as_mut().ok_or(Refusal::NoSession)
    }

    /// Takes the reading of an accepted call, before the call acts: it
    /// becomes the clock, and TIMER is given to every session. So is a loss looked
    /// for that takes a group's PW, whatever label the call is on.
    fn accept(&mut self, reading: u64) {
        self.clock = reading;
        for session in self.places.iter_mut().flatten() {
            session.timer(reading);
        }
    }
}
