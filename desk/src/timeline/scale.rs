//! From readings to pixel columns, and where the marks of the time axis stand.

use super::clock::Clock;

/// How many columns the plot has; a bar or a tick is never narrower than one.
pub const COLUMNS: u32 = 1_000;
/// Marks are at least so many columns apart, so that their words do not touch.
const APART: u64 = 90;
const SECOND: u64 = 1_000_000;
const MINUTE: u64 = 60 * SECOND;
const HOUR: u64 = 60 * MINUTE;
const DAY: u64 = 24 * HOUR;

/// Steps of a wall clock from one second on.
const WALL: [u64; 19] = [
    SECOND,
    2 * SECOND,
    5 * SECOND,
    10 * SECOND,
    15 * SECOND,
    30 * SECOND,
    MINUTE,
    2 * MINUTE,
    5 * MINUTE,
    10 * MINUTE,
    15 * MINUTE,
    30 * MINUTE,
    HOUR,
    2 * HOUR,
    3 * HOUR,
    6 * HOUR,
    12 * HOUR,
    DAY,
    7 * DAY,
];

/// The stretch of readings that the page shows.
#[derive(Clone, Copy, Debug)]
pub struct Scale {
    pub first: u64,
    pub last: u64,
}

impl Scale {
    pub fn new(first: u64, last: u64) -> Scale {
        Scale {
            first,
            last: last.max(first),
        }
    }

    /// The column of a reading; what is outside is at the border.
    pub fn column(&self, reading: u64) -> u32 {
        (self.place(reading) as u32).min(COLUMNS - 1)
    }

    /// The place of a reading between 0 and the number of columns.
    pub fn place(&self, reading: u64) -> f64 {
        let span = (self.last - self.first).max(1) as f64;
        let behind = reading.clamp(self.first, self.last) - self.first;
        behind as f64 / span * f64::from(COLUMNS)
    }

    /// Readings of the marks of the axis, and the step between them.
    pub fn marks(&self, clock: &Clock) -> (Vec<u64>, u64) {
        let step = self.step(clock);
        let mut marks = Vec::new();
        let mut next = clock.first_mark(self.first, step);
        while let Some(mark) = next.filter(|mark| *mark <= self.last) {
            marks.push(mark);
            next = mark.checked_add(step);
        }
        (marks, step)
    }

    /// The least step at which marks are far enough apart.
    fn step(&self, clock: &Clock) -> u64 {
        let least = u128::from(self.last - self.first) * u128::from(APART);
        let least = least.div_ceil(u128::from(COLUMNS)) as u64;
        let wall = WALL
            .into_iter()
            .find(|step| clock.is_wall() && *step >= least);
        match wall {
            Some(step) if least >= SECOND => step,
            _ => decimal_step(least),
        }
    }
}

/// 1, 2 or 5 times a power of ten.
fn decimal_step(least: u64) -> u64 {
    let mut power: u64 = 1;
    loop {
        for factor in [1, 2, 5] {
            match power.checked_mul(factor) {
                Some(step) if step >= least => return step,
                Some(_) => {}
                None => return u64::MAX,
            }
        }
        power = power.saturating_mul(10);
    }
}

#[cfg(test)]
mod tests {
    use super::*;

    #[test]
    fn columns_of_readings() {
        let scale = Scale::new(1_000, 2_000);
        assert_eq!((scale.column(1_000), scale.column(1_500)), (0, 500));
        assert_eq!((scale.column(2_000), scale.column(0)), (COLUMNS - 1, 0));
        assert_eq!(Scale::new(5, 5).column(5), 0);
        assert_eq!(Scale::new(0, u64::MAX).column(u64::MAX), COLUMNS - 1);
    }

    #[test]
    fn marks_do_not_touch() {
        for clock in [
            Clock::of(None).unwrap(),
            Clock::of(Some("1700000000")).unwrap(),
        ] {
            for last in [
                0,
                1,
                7,
                999,
                1_001,
                59_000_000,
                3_600_000_000,
                90_000_000_000_000,
                u64::MAX,
            ] {
                let (marks, step) = Scale::new(0, last).marks(&clock);
                assert!(marks.len() <= 12, "{last}: {} marks", marks.len());
                assert!(marks.windows(2).all(|pair| pair[1] - pair[0] == step));
            }
        }
    }

    /// The morning: three and a half hours have a mark each half hour.
    #[test]
    fn wall_marks_are_round() {
        let scale = Scale::new(20_370_000_000, 33_000_000_000);
        let (marks, step) = scale.marks(&Clock::of(Some("0")).unwrap());
        assert_eq!(step, 30 * MINUTE);
        assert_eq!(marks[0], 21_600_000_000);
    }
}
