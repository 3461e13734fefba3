//! Desks at the edge of a condition: one value is put where the condition is met just so, or where it is broken by one.

use crate::common::model::{held, Job, Model, State, LAST_MINUTE, LAST_TICKET, LIVE_JOBS, LONGEST_CLEANUP, LONGEST_ESTIMATE, MOST_NODES};
use crate::common::random::Random;
use hingerota_host::Kind;

/// By `past`, 0 or 1, the condition is met just so, or broken.
pub fn put(desk: &mut Model, random: &mut Random) {
    let past = random.below(2);
    if desk.jobs.is_empty() || random.percent(15) {
        return desk_edge(desk, past, random);
    }
    let at = random.below(desk.jobs.len() as u32) as usize;
    let mut job = desk.jobs[at];
    match random.below(4) {
        0 => order_edge(desk, &mut job, past, random),
        1 | 2 if desk.kind == Kind::Loose => kept_edge(desk, &mut job, past, random),
        _ => times_edge(desk, &mut job, past, random),
    }
    desk.jobs[at] = job;
}

fn desk_edge(desk: &mut Model, past: u32, random: &mut Random) {
    let taken = |desk: &Model| desk.jobs.iter().filter(|j| !j.waits()).map(|j| j.nodes).sum::<u32>();
    match random.below(7) {
        0 => desk.nodes = random.one_of(&[MOST_NODES + past, 1 - past]),
        1 => desk.nodes = taken(desk).max(past) - past,
        2 => desk.clock = LAST_MINUTE + past,
        3 => desk.next = random.one_of(&[LAST_TICKET + 1 + past, 1 - past]),
        4 => desk.next = desk.jobs.last().map_or(0, |j| j.ticket) + 1 - past,
        5 => desk.cleanup = LONGEST_CLEANUP + past,
        _ => {
            let a = random.one_of(&[1 - past, LIVE_JOBS as u32 - 1 + past, desk.live(65)]);
            desk.places = [a, LIVE_JOBS as u32 - a];
        }
    }
}

fn order_edge(desk: &Model, job: &mut Job, past: u32, random: &mut Random) {
    match random.below(6) {
        0 => job.nodes = random.one_of(&[desk.nodes + past, 1 - past]),
        1 => job.estimate = random.one_of(&[LONGEST_ESTIMATE + past, 1 - past]),
        2 => job.least = job.estimate + past,
        3 => job.house = random.one_of(&[66, 66 + past]),
        // The ticket of the one before it, or the next after that.
        4 => {
            let before = desk.jobs.iter().map(|j| j.ticket).filter(|t| *t < job.ticket).max().unwrap_or(0);
            job.ticket = before + 1 - past;
        }
        _ => job.ticket = desk.next - 1 + past,
    }
}

/// Start, promise and end.
fn times_edge(desk: &Model, job: &mut Job, past: u32, random: &mut Random) {
    let (clock, cleanup, hold) = (desk.clock, desk.cleanup, desk.hold(job.estimate));
    let latest = LAST_MINUTE.saturating_sub(hold) + past;
    match job.state {
        State::Waiting if desk.kind == Kind::Loose => job.start = past,
        State::Waiting => match random.below(4) {
            0 => job.start = clock + 1 - past,
            1 => (job.start, job.promise) = (latest, LAST_MINUTE),
            2 => job.promise = (job.start + 1 - past).min(job.start),
            // Where another's nodes are free again, or the minute before.
            _ => {
                let other = random.one_of(&desk.jobs);
                job.start = desk.freed(&other).saturating_sub(past);
                job.promise = job.promise.max(job.start);
            }
        },
        State::Running => match random.below(5) {
            0 => job.start = clock + past,
            1 => job.start = (clock + 1).saturating_sub(held(job.estimate) + past),
            2 => job.start = latest,
            3 if desk.kind == Kind::Promise => job.promise = job.start.max(past) - past,
            _ => job.end = past,
        },
        State::Cleanup => match random.below(5) {
            0 => job.end = clock + past,
            1 => job.end = (clock + 1).saturating_sub(cleanup + past),
            2 => job.end = LAST_MINUTE - cleanup + past,
            3 if desk.kind == Kind::Promise => job.promise = job.start.max(past) - past,
            _ => job.start = job.end + past,
        },
    }
    // So that no other condition is broken by it.
    if desk.kind == Kind::Promise && !job.waits() && random.percent(70) {
        job.promise = job.promise.max(job.start);
    }
}

/// Intake minute, r and forecast.
fn kept_edge(desk: &Model, job: &mut Job, past: u32, random: &mut Random) {
    let unit = LONGEST_ESTIMATE + desk.cleanup;
    let queue: Vec<&Job> = desk.jobs.iter().filter(|j| j.waits()).collect();
    let shadow = queue.first().map_or(0, |head| shadow(desk, head.nodes));
    match random.below(6) {
        0 => job.intake = desk.clock + past,
        1 => job.r = random.one_of(&[LIVE_JOBS as u32 + past, 1 - past]),
        2 => job.forecast = random.one_of(&[LAST_MINUTE + past, past]),
        3 if queue.first().is_some_and(|head| head.ticket == job.ticket) => job.forecast = shadow.saturating_sub(past),
        // Its bound is just late enough.
        4 => {
            let before = queue.iter().filter(|j| j.ticket < job.ticket).count() as u32;
            bind(desk, job, (shadow + before * unit).saturating_sub(past));
        }
        // Or just early enough.
        _ => bind(desk, job, LAST_MINUTE.saturating_sub(desk.hold(job.estimate)) + past),
    }
}

/// The head's, as far as it has one.
fn shadow(desk: &Model, nodes: u32) -> u32 {
    let taken: u32 = desk.jobs.iter().filter(|j| !j.waits()).map(|j| j.nodes).sum();
    if taken <= desk.nodes && nodes <= desk.nodes {
        desk.shadow(nodes)
    } else {
        0
    }
}

/// Intake minute and r, the smallest that gives this bound, if one does.
fn bind(desk: &Model, job: &mut Job, bound: u32) {
    let unit = LONGEST_ESTIMATE + desk.cleanup;
    let r = bound.saturating_sub(desk.clock).div_ceil(unit).max(1);
    if let Some(intake) = bound.checked_sub(r * unit) {
        (job.intake, job.r) = (intake, r);
    }
}
