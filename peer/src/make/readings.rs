//! The choice of clock readings.

use super::{Circuit, Maker, Style};
use crate::edges;
use crate::table::LARGEST_READING;

impl Maker {
    /// A reading for a call on a circuit: the clock again, a little later, at
    /// an edge, much later, or out of range.
    pub(super) fn reading(&mut self, circuit: &Circuit) -> u64 {
        if self.late && self.random.chance(6) {
            return LARGEST_READING - 1 + self.random.below(3);
        }
        match (self.style, self.random.below(100)) {
            (Style::Steady, 0..=91) => self.soon(),
            (_, 0..=19) => self.table.clock(),
            (_, 20..=49) => self.soon(),
            (_, 50..=74) => self.own_edge(circuit),
            (_, 75..=92) => self.next_edge(),
            (_, 93..=95) => self.below_clock(),
            (_, 96) => self.above_largest(),
            _ => self.later(),
        }
    }

    /// A reading that is accepted and mostly close to the clock.
    pub(super) fn good_reading(&mut self, circuit: &Circuit) -> u64 {
        let reading = match self.random.below(4) {
            0 => self.table.clock(),
            1 | 2 => self.soon(),
            _ => self.own_edge(circuit),
        };
        reading.clamp(self.table.clock(), LARGEST_READING)
    }

    /// A step so small that all sessions can be served within their
    /// detection times.
    pub(super) fn soon(&mut self) -> u64 {
        let share = u64::from(self.period) / self.circuits.len() as u64;
        self.table.clock() + self.random.below(share + 2)
    }

    fn later(&mut self) -> u64 {
        let reach = match self.style {
            Style::Steady => u64::from(self.period),
            _ => self.random.pick(&[5_000_000, 30_000_000, 80_000_000]),
        };
        self.table.clock() + self.random.below(reach)
    }

    /// At, one before or one after an edge of the circuit's own session.
    fn own_edge(&mut self, circuit: &Circuit) -> u64 {
        let clock = self.table.clock();
        let mut coming = match self.session(circuit) {
            Some(session) => edges::of(session),
            None => Vec::new(),
        };
        coming.retain(|&(_, edge)| edge + 1 >= clock);
        if coming.is_empty() {
            return self.soon();
        }
        let (_, edge) = self.random.pick(&coming);
        self.beside(edge)
    }

    /// At, one before or one after the earliest edge of all sessions.
    fn next_edge(&mut self) -> u64 {
        let clock = self.table.clock();
        let all = self.table.sessions().flat_map(edges::of);
        let coming = all.map(|(_, edge)| edge).filter(|edge| edge + 1 > clock);
        match coming.min() {
            Some(edge) => self.beside(edge),
            None => self.soon(),
        }
    }

    fn beside(&mut self, edge: u64) -> u64 {
        let reading = edge - 1 + self.random.below(3);
        reading.max(self.table.clock())
    }

    fn below_clock(&mut self) -> u64 {
        let clock = self.table.clock();
        let any = self.random.below(clock);
        self.random.pick(&[clock.saturating_sub(1), 0, any])
    }

    fn above_largest(&mut self) -> u64 {
        let any = self.random.draw() | 1 << 63;
        self.random
            .pick(&[LARGEST_READING + 1, LARGEST_READING + 2, u64::MAX, any])
    }
}
