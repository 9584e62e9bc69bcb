//! How readings are shown: in seconds of the capture's own clock, or as wall clock.

use crate::cli::Failure;
use crate::events::clock::Epoch;

const MICROSECONDS: u64 = 1_000_000;

/// Readings as they are or as wall clock.
#[derive(Clone, Debug)]
pub struct Clock {
    epoch: Option<Epoch>,
    /// Times of this day are shown without their date.
    day: String,
}

impl Clock {
    /// By the value of `--epoch`, where it is given.
    pub fn of(epoch: Option<&str>) -> Result<Clock, Failure> {
        let wrong =
            |word: &str| Failure::usage(format!("--epoch: no seconds since 1970: `{word}`"));
        let epoch = epoch
            .map(|word| Epoch::read(word).ok_or_else(|| wrong(word)))
            .transpose()?;
        Ok(Clock {
            epoch,
            day: String::new(),
        })
    }

    pub fn is_wall(&self) -> bool {
        self.epoch.is_some()
    }

    /// From here on times of the day of this reading are shown without their date.
    pub fn on_day_of(self, reading: u64) -> Clock {
        let day = self.wall(reading).map(|(day, _)| day).unwrap_or_default();
        Clock { day, ..self }
    }

    /// What a reading counts from, in words.
    pub fn words(&self) -> String {
        match self.wall(0) {
            None => "Times are readings of the capture's clock, in seconds.".to_string(),
            Some((day, time)) if self.day.is_empty() => {
                format!("Times are UTC; reading 0 is {day} {time}.")
            }
            Some((day, time)) => format!(
                "Times are UTC, of {} where no other day is named; reading 0 is {day} {time}.",
                self.day
            ),
        }
    }

    /// To the microsecond.
    pub fn exact(&self, reading: u64) -> String {
        match self.wall(reading) {
            None => format!("{} s", seconds(reading)),
            Some((day, time)) if day == self.day => time,
            Some((day, time)) => format!("{day} {time}"),
        }
    }

    /// As far as the marks of an axis with this step differ.
    pub fn mark(&self, reading: u64, step: u64) -> String {
        match self.wall(reading) {
            None => format!("{} s", cut(&seconds(reading), step)),
            Some((_, time)) => cut(&time, step),
        }
    }

    /// The day and the time of a reading.
    fn wall(&self, reading: u64) -> Option<(String, String)> {
        let text = self.epoch?.wall_clock(reading);
        let (day, time) = text.split_once('T')?;
        Some((day.to_string(), time.trim_end_matches('Z').to_string()))
    }

    /// The first reading from `reading` on that is a whole number of steps, by the wall clock where
    /// there is one.
    pub fn first_mark(&self, reading: u64, step: u64) -> Option<u64> {
        let step = i128::from(step.max(1));
        let offset = self.epoch.map_or(0, |epoch| epoch.micros());
        let from = offset + i128::from(reading);
        let mark = (from + step - 1) / step * step - offset;
        u64::try_from(mark).ok()
    }

    /// A reading of the command line: microseconds, with or without commas.
    pub fn reading(word: &str, option: &str) -> Result<u64, Failure> {
        let digits = word.replace(',', "");
        let plain = digits.bytes().all(|octet| octet.is_ascii_digit());
        let reading = digits.parse().ok().filter(|_| plain);
        reading.ok_or_else(|| {
            Failure::usage(format!("{option}: no reading in microseconds: `{word}`"))
        })
    }

    /// A line of `why` with each reading that stands behind `at` or `from` also as it is shown here.
    pub fn beside(&self, line: &str) -> String {
        let mut shown = String::with_capacity(line.len());
        let mut before = "";
        for (place, word) in line.split(' ').enumerate() {
            if place > 0 {
                shown.push(' ');
            }
            shown.push_str(word);
            let digits = word.trim_end_matches([',', ';']);
            match digits.parse() {
                Ok(reading) if matches!(before, "at" | "from") => {
                    shown.truncate(shown.len() - (word.len() - digits.len()));
                    let behind = word.get(digits.len()..).unwrap_or_default();
                    shown.push_str(&format!(" ({}){behind}", self.exact(reading)));
                }
                _ => {}
            }
            before = word;
        }
        shown
    }
}

/// A stretch of time in seconds, to the microsecond.
pub fn seconds(microseconds: u64) -> String {
    format!(
        "{}.{:06}",
        microseconds / MICROSECONDS,
        microseconds % MICROSECONDS
    )
}

/// Without the decimals that a step of so many microseconds leaves at zero.
fn cut(text: &str, step: u64) -> String {
    let mut decimals = 6;
    let mut rest = step.max(1);
    while decimals > 0 && rest % 10 == 0 {
        rest /= 10;
        decimals -= 1;
    }
    match text.split_once('.') {
        Some((whole, _)) if decimals == 0 => whole.to_string(),
        Some((whole, fraction)) => {
            format!("{whole}.{}", fraction.get(..decimals).unwrap_or(fraction))
        }
        None => text.to_string(),
    }
}

#[cfg(test)]
mod tests {
    use super::*;

    #[test]
    fn readings_in_seconds() {
        let clock = Clock::of(None).unwrap();
        assert_eq!(clock.exact(20_400_000_001), "20400.000001 s");
        assert_eq!(clock.mark(20_400_000_000, 5_000_000), "20400 s");
        assert_eq!(clock.mark(1_250_000, 50_000), "1.25 s");
        assert_eq!(clock.exact(u64::MAX), "18446744073709.551615 s");
    }

    #[test]
    fn wall_clock() {
        let clock = Clock::of(Some("951782399.5")).unwrap();
        assert_eq!(clock.exact(1_500_001), "2000-02-29 00:00:01.000001");
        assert_eq!(clock.mark(500_000, 1_000_000), "00:00:00");
        let clock = clock.on_day_of(0);
        assert_eq!(clock.exact(0), "23:59:59.500000");
        assert_eq!(clock.exact(500_000), "2000-02-29 00:00:00.000000");
        assert!(Clock::of(Some("now")).is_err());
    }

    #[test]
    fn readings_of_the_command_line() {
        assert_eq!(
            Clock::reading("20,400,000,001", "--from").unwrap(),
            20_400_000_001
        );
        for word in ["", "x", "-1", "+1", "1.5", "18446744073709551616"] {
            assert!(Clock::reading(word, "--from").is_err(), "{word}");
        }
    }

    #[test]
    fn readings_in_a_line_of_why() {
        let clock = Clock::of(Some("0")).unwrap();
        let line = clock.beside("at 20760000000, or when the loss ends");
        assert_eq!(
            line,
            "at 20760000000 (1970-01-01 05:46:00.000000), or when the loss ends"
        );
        let line = clock.beside("record 16 at 5, AIS; stood from 6");
        assert_eq!(line, "record 16 at 5 (1970-01-01 00:00:00.000005), AIS; stood from 6 (1970-01-01 00:00:00.000006)");
        assert_eq!(clock.beside("from LSP 1/30/4/2"), "from LSP 1/30/4/2");
    }

    #[test]
    fn marks_are_whole_by_the_wall_clock() {
        let clock = Clock::of(Some("30")).unwrap();
        assert_eq!(clock.first_mark(0, 60_000_000), Some(30_000_000));
        assert_eq!(clock.mark(30_000_000, 60_000_000), "00:01:00");
        assert_eq!(
            Clock::of(None).unwrap().first_mark(1, 60_000_000),
            Some(60_000_000)
        );
        assert_eq!(clock.first_mark(u64::MAX, 7), None);
    }
}
