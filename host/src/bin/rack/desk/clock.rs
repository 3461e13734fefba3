//! The clock of the machine, and the minutes of a desk that follows it.

use crate::Failure;
use std::time::{SystemTime, UNIX_EPOCH};

const MINUTE: i64 = 60;
const DAY: i64 = 24 * 60 * MINUTE;
/// In the last days of the year 9999.
const LAST: i64 = 253_402_000_000;

/// Seconds since 1970. A test sets them: RACK_CLOCK names a file that has them.
pub fn now() -> Result<i64, Failure> {
    if let Some(file) = std::env::var_os("RACK_CLOCK") {
        let text = std::fs::read_to_string(&file).map_err(|e| format!("the clock {} cannot be read: {e}", file.display()))?;
        return text.trim().parse().map_err(|_| format!("the clock {} has no seconds since 1970", file.display()));
    }
    Ok(match SystemTime::now().duration_since(UNIX_EPOCH) {
        Ok(passed) => passed.as_secs() as i64,
        Err(before) => -(before.duration().as_secs() as i64),
    })
}

/// The full minutes since 1970.
pub fn minute(seconds: i64) -> i64 {
    seconds.div_euclid(MINUTE)
}

/// That a desk stands at a minute since a time, and follows the clock of the machine from there.
#[derive(Clone, PartialEq, Eq, Debug)]
pub struct Since {
    /// Since 1970.
    seconds: i64,
    /// East of Greenwich, in minutes: how times are shown.
    offset: i64,
    minute: u32,
}

impl Since {
    /// `now`, `@SECONDS` since 1970, or as `2026-11-17T08:00`, with seconds where they are said. After `now` and such a time `Z` or an offset as
    /// `+02:00` may stand; without one it is UTC.
    pub fn new(time: &str, minute: u32) -> Result<Since, Failure> {
        let seconds_and_offset = if let Some(rest) = time.strip_prefix("now") {
            offset(rest).map(|offset| now().map(|now| (now, offset))).transpose()?
        } else if let Some(digits) = time.strip_prefix('@') {
            digits.parse().ok().filter(|seconds| (0..LAST).contains(seconds)).map(|seconds| (seconds, 0))
        } else {
            read(time)
        };
        let (seconds, offset) = seconds_and_offset.ok_or_else(|| form(time))?;
        Ok(Since { seconds, offset, minute })
    }

    /// The time and the minute as a settings file has them.
    pub fn fields(&self) -> String {
        let (date, time) = self.shown(self.seconds);
        let second = self.seconds.rem_euclid(MINUTE);
        let (sign, offset) = (if self.offset < 0 { '-' } else { '+' }, self.offset.abs());
        format!("{date}T{time}:{second:02}{sign}{:02}:{:02}\t{}", offset / 60, offset % 60, self.minute)
    }

    /// In which minute the desk is to be, full minutes being counted; it may lie before the first and past the last.
    pub fn minute_at(&self, seconds: i64) -> i64 {
        i64::from(self.minute) + (seconds - self.seconds).div_euclid(MINUTE)
    }

    /// The time of day of a minute, with its date unless it is that of the minute `today`.
    pub fn time_of(&self, minute: u32, today: Option<u32>) -> String {
        let shown = |minute: u32| self.shown(self.seconds + (i64::from(minute) - i64::from(self.minute)) * MINUTE);
        let (date, time) = shown(minute);
        match today {
            Some(today) if shown(today).0 == date => time,
            _ => format!("{date} {time}"),
        }
    }

    /// Minutes since 1970 by the clock on the wall, so that round ones are round times of day.
    pub fn on_the_wall(&self, minute: i64) -> i64 {
        (self.seconds + self.offset * MINUTE).div_euclid(MINUTE) + minute - i64::from(self.minute)
    }

    /// The date and the time of day.
    fn shown(&self, seconds: i64) -> (String, String) {
        let local = seconds + self.offset * MINUTE;
        let (year, month, day) = date(local.div_euclid(DAY));
        let minutes = local.rem_euclid(DAY) / MINUTE;
        (format!("{year:04}-{month:02}-{day:02}"), format!("{:02}:{:02}", minutes / 60, minutes % 60))
    }
}

/// How minutes are shown in a desk's present minute: with their times of day, where it follows the clock.
#[derive(Clone, Copy)]
pub struct Times<'a> {
    pub since: Option<&'a Since>,
    pub now: u32,
}

impl Times<'_> {
    /// `20 (08:20)`.
    pub fn short(&self, minute: u32) -> String {
        match self.since {
            Some(since) => format!("{minute} ({})", since.time_of(minute, Some(self.now))),
            None => minute.to_string(),
        }
    }

    /// `minute 20 (08:20)`.
    pub fn minute(&self, minute: u32) -> String {
        format!("minute {}", self.short(minute))
    }

    /// For a cell of a table: `08:20`, or `11-18 08:20` on another day; the minute, where the desk does not follow the clock.
    pub fn cell(&self, minute: u32) -> String {
        let Some(since) = self.since else {
            return minute.to_string();
        };
        let time = since.time_of(minute, Some(self.now));
        time.split_once('-').map_or(time.clone(), |(_, rest)| rest.to_string())
    }

    /// The present minute, with its date.
    pub fn present(&self) -> String {
        match self.since {
            Some(since) => format!("minute {} ({})", self.now, since.time_of(self.now, None)),
            None => self.minute(self.now),
        }
    }
}

fn form(time: &str) -> Failure {
    format!("'{time}' is no time: it is '@SECONDS', or 'now' or as 2026-11-17T08:00 with Z or an offset as +02:00 after it")
}

/// So many digits.
fn digits(text: &str, count: usize) -> Option<(i64, &str)> {
    let (front, rest) = text.split_at_checked(count)?;
    front.bytes().all(|byte| byte.is_ascii_digit()).then(|| (front.parse().unwrap_or(0), rest))
}

/// Numbers of two digits after a sign each.
fn after(text: &str, sign: char) -> Option<(i64, &str)> {
    digits(text.strip_prefix(sign)?, 2)
}

/// Seconds since 1970, and the offset in minutes.
fn read(text: &str) -> Option<(i64, i64)> {
    let (year, rest) = digits(text, 4)?;
    let (month, rest) = after(rest, '-')?;
    let (day, rest) = after(rest, '-')?;
    let (hour, rest) = after(rest, 'T')?;
    let (minute, rest) = after(rest, ':')?;
    let (second, rest) = if rest.starts_with(':') { after(rest, ':')? } else { (0, rest) };
    let offset = offset(rest)?;
    let days = days(year, month, day);
    if date(days) != (year, month, day) || hour > 23 || minute > 59 || second > 59 {
        return None;
    }
    Some((days * DAY + hour * 60 * MINUTE + minute * MINUTE + second - offset * MINUTE, offset))
}

fn offset(text: &str) -> Option<i64> {
    if text.is_empty() || text == "Z" {
        return Some(0);
    }
    let sign = if text.starts_with('-') { '-' } else { '+' };
    let (hours, rest) = after(text, sign)?;
    let (minutes, rest) = after(rest, ':')?;
    let offset = hours * 60 + minutes;
    (rest.is_empty() && hours <= 23 && minutes <= 59).then_some(if sign == '-' { -offset } else { offset })
}

/// Days since 1970 of a date, in years that begin with March, so that a leap day is the last. A date that there is not gives another's.
fn days(year: i64, month: i64, day: i64) -> i64 {
    let (year, month) = if month > 2 { (year, month - 3) } else { (year - 1, month + 9) };
    year * 365 + year.div_euclid(4) - year.div_euclid(100) + year.div_euclid(400) + (153 * month + 2) / 5 + day - 1 - 719_468
}

/// The date of so many days since 1970: the year and the month that begin last by then.
fn date(days_since: i64) -> (i64, i64, i64) {
    let mut year = 1970 + days_since.div_euclid(if days_since < 0 { 365 } else { 366 });
    while days(year + 1, 1, 1) <= days_since {
        year += 1;
    }
    let month = (1..=12).rev().find(|month| days(year, *month, 1) <= days_since).unwrap_or(1);
    (year, month, days_since - days(year, month, 1) + 1)
}

#[cfg(test)]
mod tests {
    use super::*;

    #[test]
    fn every_day_of_eight_centuries_comes_back() {
        let (first, last) = (days(1600, 3, 1), days(2400, 3, 1));
        assert_eq!(last - first, 2 * 146_097);
        let mut expected = (1600, 3, 1);
        for day in first..=last {
            let (year, month, d) = date(day);
            assert_eq!(days(year, month, d), day);
            assert!((year, month, d) >= expected, "{day}");
            expected = (year, month, d + 1);
        }
        assert_eq!((days(1970, 1, 1), days(2000, 2, 29) + 1, days(2026, 11, 17)), (0, days(2000, 3, 1), 20_774));
    }

    #[test]
    fn times_are_read_and_shown() {
        for (text, seconds, offset) in [
            ("1970-01-01T00:00", 0, 0),
            ("2026-11-17T08:00", 1_794_902_400, 0),
            ("2026-11-17T08:00:07Z", 1_794_902_407, 0),
            ("2026-11-17T10:00+02:00", 1_794_902_400, 120),
            ("2026-11-17T04:30:00-03:30", 1_794_902_400, -210),
        ] {
            assert_eq!(read(text), Some((seconds, offset)), "{text}");
        }
        for text in ["", "8:00", "2026-11-17", "2026-02-29T00:00", "2026-13-01T00:00", "2026-11-17T24:00", "2026-11-17T08:60", "x"] {
            assert_eq!(read(text), None, "{text}");
        }
        for text in ["2026-11-17 08:00", "2026-11-17T08:00+2", "2026-11-17T08:00Zz", "2026-11-17T08:00+02:60", "2026-11-17T08:0\u{661}"] {
            assert_eq!(read(text), None, "{text}");
        }
        let since = Since::new("2026-11-17T23:50:30+02:00", 7).unwrap();
        assert_eq!(since.fields(), "2026-11-17T23:50:30+02:00\t7");
        let shown = [since.time_of(7, Some(7)), since.time_of(17, Some(7)), since.time_of(7, None)];
        assert_eq!(shown, ["23:50", "2026-11-18 00:00", "2026-11-17 23:50"]);
        assert_eq!(
            (since.minute_at(since.seconds + 59), since.minute_at(since.seconds + 60), since.minute_at(since.seconds - 1)),
            (7, 8, 6)
        );
        assert_eq!((since.on_the_wall(7) % 1440, since.on_the_wall(17) % 1440), (23 * 60 + 50, 0));
        assert_eq!(Since::new("@60", 0).unwrap().fields(), "1970-01-01T00:01:00+00:00\t0");
        assert!(Since::new("now+02:00", 0).unwrap().fields().ends_with("+02:00\t0"));
        assert!(Since::new("now ", 0).is_err());
    }
}
