//! The session of one label, followed through a log by the accepted calls on it.

use super::records::Logged;
use crate::capture::Kind;
use crate::message;
use crate::session::Session;
use crate::settings::Settings;

/// A session, or none, and the clock.
#[derive(Clone, Debug, PartialEq, Eq)]
pub struct Point {
    pub session: Option<Session>,
    pub clock: u64,
}

impl Point {
    /// Before the first record.
    pub const START: Point = Point {
        session: None,
        clock: 0,
    };

    /// Follows one record. TIMER is given by the session's own calls that bring
    /// a reading, as it would show then and not before.
    pub fn follow(&mut self, logged: &Logged, label: u32) {
        if logged.moves_clock() {
            // In a log of ours an accepted reading is never below the clock.
            self.clock = self.clock.max(logged.record.time);
        }
        if logged.is_on(label) {
            self.act(logged, label);
        }
    }

    fn act(&mut self, logged: &Logged, label: u32) {
        let (record, now) = (&logged.record, self.clock);
        match (record.kind, &mut self.session) {
            (Kind::Open, session) => {
                let settings = Settings::read(label, record.body);
                *session = settings.map(|settings| Session::open(settings, now));
            }
            (Kind::Close, session) => *session = None,
            (_, None) => {}
            (Kind::WriteCc, Some(session)) => session.reply_owed = false,
            (Kind::Lock, Some(session)) => {
                session.timer(now);
                session.lock();
            }
            (Kind::Unlock, Some(session)) => {
                session.timer(now);
                session.unlock(now);
            }
            (Kind::Receive, Some(session)) => {
                session.timer(now);
                if let Ok(read) = message::read(record.body) {
                    session.take(&read.message, now);
                }
            }
            (Kind::Tick | Kind::Report | Kind::WriteCv, Some(_)) => {}
        }
    }
}
