//! The table of 64 places with its clock, and the calls on it, where nobody
//! else can touch them.

use super::index::Index;
use crate::capture::{Kind, Record};
use crate::dhc;
use crate::message::{self, CHANNEL_DHC};
use crate::party::{Party, SESSIONS_OF_ONE};
use crate::refusal::{Refusal, Refused};
use crate::session::Session;
use crate::settings::Settings;
use crate::table::{Answer, LARGEST_READING, PLACES};

/// The sessions and the clock.
pub struct Table {
    clock: u64,
    places: [Option<Session>; PLACES],
    index: Index,
}

impl Table {
    /// An empty table at clock 0.
    pub fn new() -> Table {
        Table {
            clock: 0,
            places: std::array::from_fn(|_| None),
            index: Index::new(),
        }
    }

    /// Does the call of one record.
    pub fn perform(&mut self, record: &Record) -> Answer {
        let (time, label) = (record.time, record.label);
        let answer = match record.kind {
            Kind::Tick => self.tick(time),
            Kind::Open => self.open(time, label, record.body),
            Kind::Close => self.close(time, label),
            Kind::Lock => self.change(time, label, |session| session.lock()),
            Kind::Unlock => self.change(time, label, |session| session.unlock(time)),
            Kind::Receive => self.receive(time, label, record.body),
            Kind::Report => self.ask(label, |session, now| Answer::Report(session.report(now))),
            Kind::WriteCc => self.ask(label, |session, now| Answer::Written(session.write_cc(now))),
            Kind::WriteCv => self.ask(label, |session, now| Answer::Written(session.write_cv(now))),
        };
        answer.unwrap_or_else(Answer::Refused)
    }

    fn tick(&mut self, reading: u64) -> Result<Answer, Refused> {
        self.judge_reading(reading)?;
        self.clock = reading;
        Ok(Answer::Accepted)
    }

    fn open(&mut self, reading: u64, label: u32, body: &[u8]) -> Result<Answer, Refused> {
        self.judge_reading(reading)?;
        let settings = Settings::read(label, body).ok_or(Refusal::Setting)?;
        let open = self.places.iter().flatten().map(|session| session.settings);
        let own = open.filter(|open| Party::of(open.label) == Party::of(label));
        if self.index.find(label).is_some()
            || own
                .clone()
                .any(|open| open.discriminator == settings.discriminator)
        {
            return Err(Refusal::InUse.into());
        }
        if own.count() >= SESSIONS_OF_ONE {
            return Err(Refusal::TableFull.into());
        }
        let free = self.places.iter().position(Option::is_none);
        let place = free.ok_or(Refusal::TableFull)?;
        self.clock = reading;
        self.places[place] = Some(Session::open(settings, reading));
        self.index.add(label, place);
        Ok(Answer::Accepted)
    }

    fn close(&mut self, reading: u64, label: u32) -> Result<Answer, Refused> {
        self.judge_reading(reading)?;
        let place = self.index.find(label).ok_or(Refusal::NoSession)?;
        self.clock = reading;
        self.places[place] = None;
        self.index.remove(label);
        Ok(Answer::Accepted)
    }

    fn receive(&mut self, reading: u64, label: u32, octets: &[u8]) -> Result<Answer, Refused> {
        self.judge_reading(reading)?;
        let session = self.session(label)?;
        if message::channel(octets)? == CHANNEL_DHC {
            // No record of a capture sets a group.
            dhc::read(octets)?;
            return Err(Refusal::NoGroup.into());
        }
        let message = message::read(octets)?.message;
        if let Some(refusal) = session.refuses(&message, reading) {
            return Err(refusal.into());
        }
        session.timer(reading);
        session.take(&message, reading);
        self.clock = reading;
        Ok(Answer::Accepted)
    }

    /// Lock and unlock.
    fn change(
        &mut self,
        reading: u64,
        label: u32,
        act: impl FnOnce(&mut Session),
    ) -> Result<Answer, Refused> {
        self.judge_reading(reading)?;
        let session = self.session(label)?;
        session.timer(reading);
        act(session);
        self.clock = reading;
        Ok(Answer::Accepted)
    }

    /// Report and the writes, which speak at the clock.
    fn ask(
        &mut self,
        label: u32,
        say: impl FnOnce(&mut Session, u64) -> Answer,
    ) -> Result<Answer, Refused> {
        let now = self.clock;
        let session = self.session(label)?;
        session.timer(now);
        Ok(say(session, now))
    }

    fn judge_reading(&self, reading: u64) -> Result<(), Refusal> {
        if (self.clock..=LARGEST_READING).contains(&reading) {
            Ok(())
        } else {
            Err(Refusal::Reading)
        }
    }

    /// The open session of a label. Who goes on with it gives it TIMER first: a
    /// loss stays until a call on its own session ends it, so that TIMER then
    /// does what it would have done at the first reading with the loss.
    fn session(&mut self, label: u32) -> Result<&mut Session, Refusal> {
        let place = self.index.find(label).ok_or(Refusal::NoSession)?;
        self.places[place].as_mut().ok_or(Refusal::NoSession)
    }
}
