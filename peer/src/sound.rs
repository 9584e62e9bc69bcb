//! The check for refusal 26: does the table keep its own rules?

use crate::distinct::Distinct;
use crate::message::State;
use crate::party::{Party, SESSIONS_OF_ONE};
use crate::session::{Condition, Session};

/// Room for the tests of distinctness, kept between calls: labels of all, and
/// what else each party has of its own.
#[derive(Default)]
pub struct Scratch {
    labels: Distinct,
    ours: Own,
    theirs: Own,
}

/// The discriminators of one party, and the IDs of its groups.
#[derive(Default)]
struct Own {
    discriminators: Distinct,
    groups: Distinct,
    count: usize,
}

impl Own {
    fn start(&mut self) {
        self.discriminators.start();
        self.groups.start();
        self.count = 0;
    }

    /// Adds a session and says whether it is within the party's number, and its
    /// discriminator and the ID of its group, if it has one, are new.
    fn add(&mut self, session: &Session) -> bool {
        let group = &session.group;
        self.count += 1;
        self.count <= SESSIONS_OF_ONE
            && self.discriminators.add(session.settings.discriminator)
            && (!group.is_there() || self.groups.add(group.id))
    }
}

impl Scratch {
    fn start(&mut self) {
        self.labels.start();
        self.ours.start();
        self.theirs.start();
    }

    fn add(&mut self, session: &Session) -> bool {
        let settings = &session.settings;
        let own = match Party::OURS.owns(settings.label) {
            true => &mut self.ours,
            false => &mut self.theirs,
        };
        self.labels.add(settings.label) && own.add(session)
    }
}

/// Whether all open sessions have their fields in range, no date above the
/// clock and no label in common, and whether each party has at most 32 of them,
/// no two with one discriminator, and no two groups of one ID.
pub fn is_sound(places: &[Option<Session>], clock: u64, scratch: &mut Scratch) -> bool {
    scratch.start();
    let mut open = places.iter().flatten();
    open.all(|session| session_is_sound(session, clock) && scratch.add(session))
}

/// Whether the fields of one session are in range and no date is above the clock.
pub fn session_is_sound(session: &Session, clock: u64) -> bool {
    session.settings.in_range()
        && session.multiplier != 0
        && session.detecting_since <= clock
        && session.last_misconnected.is_none_or(|date| date <= clock)
        && session.remote_diagnostic.is_none_or(|d| d < 32)
        && remote_end_is_sound(session)
        && conditions_are_sound(session, clock)
        && session.group.is_sound(session.settings.label)
}

/// A remote discriminator is never 0, and INIT and UP need one.
fn remote_end_is_sound(session: &Session) -> bool {
    match session.remote_discriminator {
        Some(remote) => remote != 0,
        None => !matches!(session.state, State::Init | State::Up),
    }
}

/// Every condition in range and not dated above the clock, and no two
/// standing ones of one key.
fn conditions_are_sound(session: &Session, clock: u64) -> bool {
    let in_range = |c: &Condition| (1..=20).contains(&c.refresh) && c.arrived <= clock;
    session.conditions.iter().enumerate().all(|(at, place)| {
        place.as_ref().is_none_or(|condition| {
            let repeated = || {
                let mut before = session.conditions[..at].iter().flatten();
                before.any(|c| c.key == condition.key && c.stands(clock))
            };
            in_range(condition) && !(condition.stands(clock) && repeated())
        })
    })
}

#[cfg(test)]
mod tests {
    use super::*;
    use crate::group::{Activity, Group, Role};
    use crate::machine::Mode;
    use crate::mep_id::MepId;
    use crate::message::{FaultKind, Origin};
    use crate::session::Key;
    use crate::settings::Settings;

    const CLOCK: u64 = 1_000;

    /// The first 32 are ours, the others theirs with the same discriminators.
    fn session(number: u32) -> Session {
        let mep_id = MepId::new(0, &[0; 12]);
        let settings = Settings {
            label: 100 + number % 32 + number / 32 * 500_000,
            discriminator: 1 + number % 32,
            period: 1_000,
            own: mep_id,
            expected: mep_id,
            follows_link_down: false,
            follows_lock: false,
            mode: Mode::COORDINATED,
        };
        Session::open(settings, CLOCK)
    }

    fn condition(arrived: u64) -> Option<Condition> {
        let key = Key {
            kind: FaultKind::LockReport,
            origin: Origin::default(),
        };
        Some(Condition {
            key,
            arrived,
            refresh: 1,
            link_down: false,
        })
    }

    /// The verdict on 64 sound sessions after a change to the last one.
    fn verdict(change: impl Fn(&mut Session)) -> bool {
        verdict_on(|places| change(places[63].as_mut().unwrap()))
    }

    fn verdict_on(change: impl Fn(&mut [Option<Session>])) -> bool {
        let mut places: Vec<_> = (0..64).map(|n| Some(session(n))).collect();
        change(&mut places);
        is_sound(&places, CLOCK, &mut Scratch::default())
    }

    fn settings(places: &mut [Option<Session>], at: usize) -> &mut Settings {
        &mut places[at].as_mut().unwrap().settings
    }

    #[test]
    fn a_sound_table_passes() {
        assert!(verdict(|_| {}));
        assert!(verdict(|s| s.conditions[3] = condition(CLOCK)));
        assert!(is_sound(&[None, None], 0, &mut Scratch::default()));
    }

    #[test]
    fn shared_label_or_discriminator_is_found() {
        assert!(!verdict(|s| s.settings.label = 500_100));
        assert!(!verdict(|s| s.settings.discriminator = 1));
        assert!(!verdict_on(|t| settings(t, 31).label = 100));
        assert!(!verdict_on(|t| settings(t, 31).discriminator = 1));
    }

    #[test]
    fn more_than_32_of_one_party_are_found() {
        let moves = |from: usize, label| {
            verdict_on(|t| {
                settings(t, from).label = label;
                settings(t, from).discriminator = 99;
            })
        };
        assert!(!moves(63, 499_999));
        assert!(!moves(0, 500_000));
        assert!(moves(63, 500_000));
        assert!(moves(0, 499_999));
    }

    /// With 31 of each the same discriminator is in order across parties alone.
    #[test]
    fn a_discriminator_is_shared_across_parties_alone() {
        let opens = |label| {
            verdict_on(|t| {
                (t[0], t[63]) = (None, None);
                settings(t, 40).label = 500_050;
                settings(t, 40).discriminator = 77;
                *settings(t, 31) = Settings {
                    label,
                    discriminator: 77,
                    ..*settings(t, 31)
                };
            })
        };
        assert!(opens(499_999));
        assert!(!opens(500_000));
    }

    #[test]
    fn fields_out_of_range_are_found() {
        assert!(!verdict(|s| s.settings.label = 15));
        assert!(!verdict(|s| s.settings.label = 1_048_576));
        assert!(!verdict(|s| s.settings.discriminator = 0));
        assert!(!verdict(|s| s.settings.period = 999));
        assert!(!verdict(|s| s.settings.period = 10_000_001));
        assert!(!verdict(|s| s.settings.own = MepId::new(3, &[0; 14])));
        assert!(!verdict(|s| s.settings.expected = MepId::new(2, &[0; 12])));
        assert!(!verdict(|s| s.settings.own = MepId::new(2, &[1; 14])));
        assert!(!verdict(|s| s.settings.mode = Mode(3)));
        assert!(!verdict(|s| s.settings.mode = Mode(255)));
        assert!(!verdict(|s| s.multiplier = 0));
        assert!(!verdict(|s| s.remote_diagnostic = Some(32)));
        assert!(!verdict(|s| s.remote_discriminator = Some(0)));
        assert!(!verdict(|s| s.state = State::Up));
        assert!(!verdict(|s| s.state = State::Init));
    }

    #[test]
    fn the_same_is_asked_in_every_mode() {
        for mode in [Mode::COORDINATED, Mode::SOURCE, Mode::SINK] {
            assert!(verdict(|s| s.settings.mode = mode));
            for state in [State::Init, State::Up] {
                let come_up = |s: &mut Session, remote| {
                    (s.settings.mode, s.state) = (mode, state);
                    s.remote_discriminator = remote;
                };
                assert!(verdict(|s| come_up(s, Some(9))));
                assert!(!verdict(|s| come_up(s, None)));
            }
        }
    }

    #[test]
    fn pseudowires_of_every_length_are_sound() {
        for agi in 0..=32 {
            let mut value = vec![7; 14 + agi];
            value[13] = agi as u8;
            let mep_id = MepId::new(2, &value);
            assert!(verdict(|s| s.settings.own = mep_id));
            assert!(verdict(|s| s.settings.expected = mep_id));
        }
    }

    #[test]
    fn dates_above_the_clock_are_found() {
        assert!(!verdict(|s| s.detecting_since = CLOCK + 1));
        assert!(!verdict(|s| s.last_misconnected = Some(CLOCK + 1)));
        assert!(!verdict(|s| s.conditions[0] = condition(CLOCK + 1)));
    }

    #[test]
    fn two_standing_conditions_of_one_key_are_found() {
        assert!(!verdict(|s| {
            s.conditions[0] = condition(0);
            s.conditions[2] = condition(CLOCK);
        }));
    }

    #[test]
    fn conditions_of_two_operators_are_sound() {
        for global in [0, 7] {
            assert!(verdict(|s| {
                s.conditions[0] = condition(0);
                s.conditions[2] = condition(CLOCK).map(|mut c| {
                    c.key.origin.global = Some(global);
                    c
                });
            }));
        }
    }

    /// A group over the DNI-PW of the session with the number before it.
    fn grouped(places: &mut [Option<Session>], at: usize, id: u32) {
        let dni = settings(places, at - 1).label;
        places[at].as_mut().unwrap().group = Group {
            mark: 1,
            id,
            dni,
            ..Group::default()
        };
    }

    #[test]
    fn groups_are_told_apart_party_by_party() {
        let verdict = |first, second| {
            verdict_on(|t| {
                grouped(t, first, 7);
                grouped(t, second, 7);
            })
        };
        assert!(!verdict(1, 31));
        assert!(!verdict(33, 63));
        assert!(verdict(1, 33));
        assert!(verdict_on(
            |t| (1..32).for_each(|at| grouped(t, at, at as u32))
        ));
        // Where there is no group its ID is no ID.
        assert!(verdict_on(|t| {
            grouped(t, 1, 0);
            grouped(t, 2, 1);
            t[2].as_mut().unwrap().group.mark = 0;
            grouped(t, 3, 1);
        }));
    }

    #[test]
    fn a_group_out_of_order_is_found() {
        let verdict = |change: fn(&mut Group)| {
            verdict_on(|t| {
                grouped(t, 63, 7);
                change(&mut t[63].as_mut().unwrap().group);
            })
        };
        assert!(verdict(|_| {}));
        assert!(!verdict(|g| g.mark = 2));
        assert!(!verdict(|g| g.role = Role(2)));
        assert!(!verdict(|g| g.pw = Activity(2)));
        assert!(!verdict(|g| g.ac = Activity(2)));
        // 500,131 is the label of the record itself.
        assert!(!verdict(|g| g.dni = 500_131));
        assert!(!verdict(|g| g.dni = 499_999));
        assert!(!verdict(|g| g.dni = 1_048_576));
        assert!(verdict(|g| g.dni = 1_048_575));
        assert!(verdict(|g| g.dni = 500_000));
    }
}
