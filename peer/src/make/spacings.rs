//! Captures in which CCs come early, late, together and far apart, with what
//! breaks a pair and what does not between them.

use super::circuits::{circuits, Circuit};
use super::scenarios::Scenario;
use super::{Maker, Style};
use crate::capture::Kind;
use crate::random::Random;
use crate::spacing::numbers::{Numbers, LIMIT};
use crate::spacing::pairs::{self, Pair};
use crate::table::LARGEST_READING;
use crate::why::history::History;

/// The scenarios of these captures, each with its weight.
const SCENARIOS: [(Scenario, u64); 17] = [
    (Maker::keep_pace, 30),
    (Maker::come_together, 8),
    (Maker::come_between, 24),
    (Maker::lock_between, 8),
    (Maker::open_anew, 6),
    (Maker::leap, 3),
    (Maker::tick, 3),
    (Maker::open_well, 3),
    (Maker::open_oddly, 1),
    (Maker::close, 1),
    (Maker::lock, 1),
    (Maker::unlock, 4),
    (Maker::send_cc, 6),
    (Maker::send_misconnected, 2),
    (Maker::send_damaged, 2),
    (Maker::reopen, 1),
    (Maker::observe_any, 2),
];

/// The most CCs at one reading before a leap.
const MOST_TOGETHER: usize = 30;

impl Maker {
    /// A maker of few circuits.
    pub(super) fn with_spacings(seed: u64) -> Maker {
        // Another stream than those of the other captures.
        let mut random = Random::new(seed ^ 0x5ac1_95ac);
        let count = random.pick(&[1, 1, 2, 3]);
        let period = random.pick(&[1_000, 3_333, 100_000, 1_000_000, 10_000_000]);
        let circuits = circuits(&mut random, count);
        Maker {
            random,
            style: Style::Mixed,
            circuits,
            period,
            ..Maker::new(seed)
        }
    }

    pub(super) fn next_spacing(&mut self) {
        self.go_on(&SCENARIOS);
    }

    /// A CC that is heard if the session is open and not locked.
    fn hear(&mut self, circuit: &Circuit, time: u64) {
        let message = self.good_cc(circuit).octets([9; 3]);
        let time = time.min(LARGEST_READING);
        self.call(Kind::Receive, time, circuit.label, &message);
    }

    /// The period of an open session, or the usual one.
    fn period_of(&self, circuit: &Circuit) -> u64 {
        let session = self.session(circuit);
        u64::from(session.map_or(self.period, |session| session.settings.period))
    }

    /// A reading about a period later: on time, one off, some off, twice or
    /// many times as late, right now.
    fn about_a_period_later(&mut self, circuit: &Circuit) -> u64 {
        let period = self.period_of(circuit);
        let some = self.random.below(period);
        let late = self.random.pick(&[2, 3, 4, 100]);
        let steps = [
            period,
            period,
            period - 1,
            period + 1,
            some,
            period + some,
            period * late,
            0,
        ];
        self.table.clock() + self.random.pick(&steps)
    }

    fn keep_pace(&mut self) {
        let circuit = self.pick_circuit();
        for _ in 0..self.random.between(2, 5) {
            let time = self.about_a_period_later(&circuit);
            self.hear(&circuit, time);
        }
    }

    /// CCs at one reading.
    fn come_together(&mut self) {
        let circuit = self.pick_circuit();
        let time = self.about_a_period_later(&circuit);
        for _ in 0..self.random.between(2, 4) {
            self.hear(&circuit, time);
        }
    }

    /// Two CCs with something between them that breaks nothing: a CV, a crossed
    /// message, a refused one, an unlock, a reading late enough for a loss.
    fn come_between(&mut self) {
        let circuit = self.pick_circuit();
        let first = self.about_a_period_later(&circuit);
        self.hear(&circuit, first);
        for _ in 0..self.random.between(1, 3) {
            let time = self.soon().min(LARGEST_READING);
            let silence = time + 4 * self.period_of(&circuit);
            let message = match self.random.below(6) {
                0 => self.good_cv(&circuit).octets([9; 3]),
                1 => self.misconnected(&circuit).octets([9; 3]),
                2 => {
                    let mut crossed = self.good_cc(&circuit);
                    crossed.your = circuit.discriminator ^ 4;
                    crossed.octets([9; 3])
                }
                3 => self.damaged_message(&circuit),
                4 => {
                    self.call(Kind::Unlock, time, circuit.label, &[]);
                    continue;
                }
                _ => {
                    self.call(Kind::Tick, silence.min(LARGEST_READING), 0, &[]);
                    continue;
                }
            };
            self.call(Kind::Receive, time, circuit.label, &message);
        }
        let second = self.about_a_period_later(&circuit);
        self.hear(&circuit, second);
    }

    /// Two CCs with a lock between them, and at times one while locked.
    fn lock_between(&mut self) {
        let circuit = self.pick_circuit();
        let first = self.about_a_period_later(&circuit);
        self.hear(&circuit, first);
        let clock = self.table.clock();
        self.call(Kind::Lock, clock, circuit.label, &[]);
        if self.random.chance(40) {
            let refused = self.soon();
            self.hear(&circuit, refused);
        }
        let time = self.soon().min(LARGEST_READING);
        self.call(Kind::Unlock, time, circuit.label, &[]);
        for _ in 0..self.random.between(1, 3) {
            let time = self.about_a_period_later(&circuit);
            self.hear(&circuit, time);
        }
    }

    /// Two CCs with a close and a new opening between, mostly of another period.
    fn open_anew(&mut self) {
        let circuit = self.pick_circuit();
        let first = self.about_a_period_later(&circuit);
        self.hear(&circuit, first);
        let time = self.soon().min(LARGEST_READING);
        self.call(Kind::Close, time, circuit.label, &[]);
        let body = self.good_open_body(&circuit);
        self.call(Kind::Open, time, circuit.label, &body);
        for _ in 0..self.random.between(1, 3) {
            let time = self.about_a_period_later(&circuit);
            self.hear(&circuit, time);
        }
    }

    /// A CC so late that the sizes come to the limit, one below it or one above,
    /// if any reading does that; else one at a large reading. CCs at one reading
    /// come first, since they add sizes and no time.
    pub(super) fn leap(&mut self) {
        let circuit = self.pick_circuit();
        let clock = self.table.clock();
        for _ in 0..MOST_TOGETHER {
            if self.reading_for(&circuit, LIMIT + 1).is_some() {
                break;
            }
            self.hear(&circuit, clock);
        }
        let aim = LIMIT + self.random.pick(&[-1, 0, 0, 1, 1]);
        let any = self.random.pick(&[LARGEST_READING, 1 << 62, 1 << 53]);
        let time = self.reading_for(&circuit, aim).unwrap_or(any);
        self.late |= time > LARGEST_READING / 2;
        self.hear(&circuit, time);
    }

    /// The reading at which a CC would bring the sizes of a label to a number.
    fn reading_for(&self, circuit: &Circuit, sizes: i128) -> Option<u64> {
        let history = History::read(&self.capture[..], u64::MAX).ok()?;
        let pairs = pairs::of(&history.events, circuit.label);
        let last = pairs.last()?;
        let so_far = Numbers::of(pairs.iter().map(Pair::error)).sizes;
        let time = i128::from(last.later.time) + i128::from(last.period) + sizes - so_far;
        let time = u64::try_from(time).ok()?;
        (time >= self.table.clock() && time <= LARGEST_READING).then_some(time)
    }
}
