//! The axis of a picture: which minutes it shows, where each lies, and which are labelled.

use super::lanes::Lane;
use super::svg::Tenths;
use crate::desk::Times;

/// The last minute that a desk knows.
const LAST_MINUTE: i64 = 1_000_000;
/// So many minutes are shown at least.
const LEAST: i64 = 30;
/// What is farther off than so many times the middle one is cut off, so that the others stay readable.
const FAR: i64 = 8;
/// Of the time before now, at most this part of the time after it is shown.
const PAST: i64 = 3;
/// Labels are this far apart at least.
const APART: i64 = 72;

pub struct Axis {
    first: i64,
    until: i64,
    left: i64,
    width: i64,
}

pub struct Tick {
    pub minute: u32,
    pub label: String,
    /// Of the first tick of a date.
    pub date: Option<String>,
}

impl Axis {
    /// Of these lanes, between two places.
    pub fn new(lanes: &[Lane], now: u32, until: Option<u32>, left: i64, width: i64) -> Axis {
        let now = i64::from(now);
        let until = until.map_or_else(|| default_end(lanes, now), i64::from);
        let started = lanes.iter().filter_map(|lane| lane.span).map(|span| i64::from(span.start)).min().unwrap_or(now).min(now);
        let first = started.max(now - (until - now) / PAST).min(until - LEAST).max(0);
        Axis { first, until: until.max(first + 1), left, width }
    }

    /// Where a minute begins, on the axis or beside it.
    pub fn place(&self, minute: u32) -> Tenths {
        let (passed, all) = (i64::from(minute) - self.first, self.until - self.first);
        Tenths(self.left * 10 + (passed * self.width * 20 + all).div_euclid(2 * all))
    }

    pub fn starts_after(&self, minute: u32) -> bool {
        i64::from(minute) < self.first
    }

    pub fn ends_before(&self, minute: u32) -> bool {
        i64::from(minute) > self.until
    }

    /// The minute, or the end of the axis that is next to it.
    pub fn clamped(&self, minute: u32) -> u32 {
        i64::from(minute).clamp(self.first, self.until) as u32
    }

    pub fn until(&self) -> u32 {
        self.until as u32
    }

    pub fn left(&self) -> Tenths {
        Tenths(self.left * 10)
    }

    pub fn right(&self) -> Tenths {
        Tenths((self.left + self.width) * 10)
    }

    /// Round minutes, or round times of day.
    pub fn ticks(&self, times: &Times) -> Vec<Tick> {
        let most = self.width / APART;
        let step = steps(times.since.is_some()).find(|step| (self.until - self.first) / step < most).unwrap_or(LAST_MINUTE);
        let phase = times.since.map_or(self.first, |since| since.on_the_wall(self.first)).rem_euclid(step);
        let begin = self.first + (step - phase) % step;
        let (mut ticks, mut last) = (Vec::new(), None);
        for minute in (begin..=self.until).step_by(step as usize) {
            let minute = minute as u32;
            let (date, label) = shown(times, minute);
            let is_new = date != last;
            ticks.push(Tick { minute, label, date: date.clone().filter(|_| is_new) });
            last = date;
        }
        ticks
    }
}

/// A twentieth more than to the last end, promise or forecast that is not far off, and no further than to the last minute.
fn default_end(lanes: &[Lane], now: i64) -> i64 {
    let end = |lane: &Lane| lane.span.map(|span| span.cleared).max(lane.mark).map(|minute| (i64::from(minute) - now).max(0));
    let mut ends: Vec<i64> = lanes.iter().filter_map(end).collect();
    ends.sort();
    let middle = ends.get(ends.len() / 2).copied().unwrap_or(0);
    let last = ends.into_iter().rfind(|end| *end <= middle * FAR).unwrap_or(0);
    (now + (last + last / 20 + 1).max(LEAST)).min(LAST_MINUTE)
}

/// How far ticks may lie apart, from close to far.
fn steps(by_time: bool) -> Box<dyn Iterator<Item = i64>> {
    const HOUR: i64 = 60;
    const DAY: i64 = 24 * HOUR;
    if by_time {
        let within = [1, 2, 5, 10, 15, 30, HOUR, 2 * HOUR, 3 * HOUR, 6 * HOUR, 12 * HOUR];
        return Box::new(within.into_iter().chain([1, 2, 7, 14, 28, 56, 112].map(|days| days * DAY)));
    }
    Box::new((0..6).flat_map(|zeros| [1, 2, 5].map(|digit| digit * 10i64.pow(zeros))))
}

/// The date of a minute, if it has one, and its label.
fn shown(times: &Times, minute: u32) -> (Option<String>, String) {
    let Some(since) = times.since else {
        return (None, minute.to_string());
    };
    let text = since.time_of(minute, None);
    match text.split_once(' ') {
        Some((date, time)) => (Some(date.to_string()), time.to_string()),
        None => (None, text),
    }
}
