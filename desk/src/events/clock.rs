//! Readings as times of the wall clock.

use crate::tap::wall;

const MICROS: i128 = 1_000_000;
const DAY: i128 = 86_400 * MICROS;

/// The wall clock at reading 0, in microseconds since 1970-01-01T00:00:00Z.
#[derive(Clone, Copy, Debug)]
pub struct Epoch(i128);

impl Epoch {
    /// Seconds since 1970, or a date and a time of day.
    pub fn read(word: &str) -> Option<Epoch> {
        wall::parse(word).map(Epoch)
    }

    /// Microseconds since 1970.
    pub fn micros(&self) -> i128 {
        self.0
    }

    /// As RFC 3339 writes it; years above 9999 have more digits.
    pub fn wall_clock(&self, reading: u64) -> String {
        let time = self.0 + i128::from(reading);
        let (year, month, day) = date(time / DAY);
        let (seconds, micros) = (time % DAY / MICROS, time % MICROS);
        let (hour, minute, second) = (seconds / 3_600, seconds / 60 % 60, seconds % 60);
        format!("{year:04}-{month:02}-{day:02}T{hour:02}:{minute:02}:{second:02}.{micros:06}Z")
    }
}

/// Year, month and day of a number of days since 1970-01-01, by the Gregorian calendar. Years are
/// counted from March on, so that the leap day is the last of its year.
fn date(days: i128) -> (i128, i128, i128) {
    let days = days + 719_468;
    let (era, day) = (days / 146_097, days % 146_097);
    let year = (day - day / 1_460 + day / 36_524 - day / 146_096) / 365;
    let day = day - (365 * year + year / 4 - year / 100);
    let month = (5 * day + 2) / 153;
    let in_month = day - (153 * month + 2) / 5 + 1;
    let (month, next) = if month < 10 {
        (month + 3, 0)
    } else {
        (month - 9, 1)
    };
    (era * 400 + year + next, month, in_month)
}

#[cfg(test)]
mod tests {
    use super::*;

    fn at(epoch: &str, reading: u64) -> Option<String> {
        Epoch::read(epoch).map(|epoch| epoch.wall_clock(reading))
    }

    #[test]
    fn known_dates() {
        let told =
            |epoch, reading, text: &str| assert_eq!(at(epoch, reading).as_deref(), Some(text));
        told("0", 0, "1970-01-01T00:00:00.000000Z");
        told("951782400", 86_399_999_999, "2000-02-29T23:59:59.999999Z");
        told("951782400", 86_400_000_000, "2000-03-01T00:00:00.000000Z");
        told("4107542399.5", 500_000, "2100-03-01T00:00:00.000000Z");
        told("1234567890", 1, "2009-02-13T23:31:30.000001Z");
        told("253402300800", 0, "10000-01-01T00:00:00.000000Z");
        told("2026-11-16T05:40:00Z", 1, "2026-11-16T05:40:00.000001Z");
    }

    #[test]
    fn every_day_follows_its_day_before() {
        let lengths = [31, 28, 31, 30, 31, 30, 31, 31, 30, 31, 30, 31];
        let (mut year, mut month, mut day) = (1970, 1, 1);
        for days in 0..200_000 {
            assert_eq!(date(days), (year, month, day));
            let leap = year % 4 == 0 && (year % 100 != 0 || year % 400 == 0);
            let length = lengths[month as usize - 1] + i128::from(leap && month == 2);
            day += 1;
            if day > length {
                (month, day) = (month + 1, 1);
            }
            if month > 12 {
                (year, month) = (year + 1, 1);
            }
        }
    }

    #[test]
    fn the_greatest_numbers_do_not_overflow() {
        assert!(at("1099511627776.999999", u64::MAX).is_some());
    }

    #[test]
    fn what_is_no_number_of_seconds_is_refused() {
        for word in [
            "",
            "-1",
            "+1",
            "1.",
            ".5",
            "1.0000001",
            "1e3",
            "1099511627777",
            "18446744073709551616",
        ] {
            assert!(Epoch::read(word).is_none(), "{word}");
        }
    }
}
