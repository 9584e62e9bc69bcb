//! Wall clock times as words: seconds since 1970, or a date and a time of day in UTC.

use super::MICROSECONDS;

/// Seconds of a day, an hour and a minute.
const DAY: i64 = 86_400;
const HOUR: i64 = 3_600;
const MINUTE: i64 = 60;
/// Seconds since 1970 of a year that no tap has; dates have four digits for the year.
const FARTHEST: u64 = 1 << 40;

/// Microseconds since 1970 of `1,700,000,000.25`, `2026-11-16`, `2026-11-16T05:40` or
/// `2026-11-16T05:40:00.25Z`.
pub fn parse(word: &str) -> Option<i128> {
    let (whole, fraction) = match word.trim_end_matches('Z').split_once('.') {
        Some((whole, fraction)) => (whole, micros(fraction)?),
        None => (word.trim_end_matches('Z'), 0),
    };
    let seconds = match whole.contains('-') {
        true => date(whole)?,
        false => number(&whole.replace(',', ""), FARTHEST)?,
    };
    Some(i128::from(seconds) * MICROSECONDS + i128::from(fraction))
}

/// Seconds since 1970, with as many digits behind the point as are needed.
pub fn seconds(micros: i128) -> String {
    let whole = micros.div_euclid(MICROSECONDS);
    match micros.rem_euclid(MICROSECONDS) {
        0 => whole.to_string(),
        part => format!("{whole}.{part:06}"),
    }
}

/// A fraction of at most six digits.
fn micros(fraction: &str) -> Option<i64> {
    if fraction.is_empty() || fraction.len() > 6 {
        return None;
    }
    number(&format!("{fraction:0<6}"), 999_999)
}

/// A number of digits alone.
fn number(word: &str, highest: u64) -> Option<i64> {
    if word.is_empty() || !word.bytes().all(|digit| digit.is_ascii_digit()) {
        return None;
    }
    let number = word.parse::<u64>().ok()?;
    i64::try_from(number).ok().filter(|_| number <= highest)
}

/// Seconds since 1970 of a date, and a time of day behind a `T`.
fn date(word: &str) -> Option<i64> {
    let (day, time) = match word.split_once('T') {
        Some((day, time)) => (day, Some(time)),
        None => (word, None),
    };
    let mut parts = day.split('-');
    let mut part = |highest| number(parts.next()?, highest);
    let (year, month, day) = (part(9_999)?, part(12)?, part(31)?);
    if parts.next().is_some() || year < 1970 || month < 1 || day < 1 || day > days_of(year, month) {
        return None;
    }
    Some(days(year, month, day) * DAY + time.map_or(Some(0), time_of_day)?)
}

/// Seconds since midnight of `05:40` or `05:40:00`.
fn time_of_day(word: &str) -> Option<i64> {
    let mut parts = word.split(':');
    let hours = number(parts.next()?, 23)?;
    let minutes = number(parts.next()?, 59)?;
    let seconds = parts.next().map_or(Some(0), |part| number(part, 59))?;
    match parts.next() {
        None => Some(hours * HOUR + minutes * MINUTE + seconds),
        Some(_) => None,
    }
}

fn is_leap(year: i64) -> bool {
    year % 4 == 0 && (year % 100 != 0 || year % 400 == 0)
}

fn days_of(year: i64, month: i64) -> i64 {
    match month {
        2 if is_leap(year) => 29,
        2 => 28,
        4 | 6 | 9 | 11 => 30,
        _ => 31,
    }
}

/// Days since the first of January 1970.
fn days(year: i64, month: i64, day: i64) -> i64 {
    let years: i64 = (1970..year)
        .map(|year| 365 + i64::from(is_leap(year)))
        .sum();
    let months: i64 = (1..month).map(|month| days_of(year, month)).sum();
    years + months + day - 1
}
