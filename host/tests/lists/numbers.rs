//! A desk in numbers, as a host has it, of the model's and back.

use crate::common::acceptance::accepted;
use crate::common::model::{Job, Model, Search, State, HOUSES, LONGEST_ESTIMATE};
use hingerota_host::{Kind, Numbers, Record};

pub const UNUSED: Record = Record {
    ticket: 0,
    nodes: 0,
    estimate: 0,
    state: 0,
    tenant: 0,
    least: 0,
    start: 0,
    promise: 0,
    end: 0,
    submitted: 0,
    rank: 0,
    forecast: 0,
};

/// The record of a job; none if a number is larger than what stands in its place.
pub fn record(job: &Job) -> Option<Record> {
    Some(Record {
        ticket: job.ticket,
        nodes: job.nodes.try_into().ok()?,
        estimate: job.estimate.try_into().ok()?,
        state: match job.state {
            State::Waiting => 1,
            State::Running => 2,
            State::Cleanup => 3,
        },
        tenant: job.house.try_into().ok()?,
        least: job.least.try_into().ok()?,
        start: job.start,
        promise: job.promise,
        end: job.end,
        submitted: job.intake,
        rank: job.r,
        forecast: job.forecast,
    })
}

/// The desk in numbers; none if it has more records than places, or a number larger than what stands in its place.
pub fn of(desk: &Model) -> Option<Numbers> {
    let mut jobs = [UNUSED; 64];
    for (place, job) in desk.jobs.iter().enumerate() {
        *jobs.get_mut(place)? = record(job)?;
    }
    let Model { nodes, cleanup, places: [quota_a, quota_b], clock, next, .. } = *desk;
    Some(Numbers { kind: u32::from(desk.kind == Kind::Loose), nodes, cleanup, quota_a, quota_b, clock, next, jobs })
}

fn job(record: &Record) -> Option<Job> {
    Some(Job {
        ticket: record.ticket,
        nodes: record.nodes.into(),
        estimate: record.estimate.into(),
        state: match record.state {
            1 => State::Waiting,
            2 => State::Running,
            3 => State::Cleanup,
            _ => return None,
        },
        house: HOUSES.into_iter().find(|house| *house == record.tenant.into())?,
        least: record.least.into(),
        start: record.start,
        promise: record.promise,
        end: record.end,
        intake: record.submitted,
        r: record.rank,
        forecast: record.forecast,
    })
}

/// The desk that has these numbers; none if no desk has: "holds its 64 records as one value, in ticket order, unused ones all zero".
pub fn desk(numbers: &Numbers) -> Option<Model> {
    let live = numbers.jobs.iter().position(|record| *record == UNUSED).unwrap_or(64);
    if numbers.jobs[live..].iter().any(|record| *record != UNUSED) {
        return None;
    }
    Some(Model {
        kind: match numbers.kind {
            0 => Kind::Promise,
            1 => Kind::Loose,
            _ => return None,
        },
        nodes: numbers.nodes,
        cleanup: numbers.cleanup,
        places: [numbers.quota_a, numbers.quota_b],
        longest: LONGEST_ESTIMATE,
        clock: numbers.clock,
        next: numbers.next,
        jobs: numbers.jobs[..live].iter().map(job).collect::<Option<_>>()?,
        search: Search::Changes,
        passes: 0,
    })
}

/// The desk that has these numbers, if it is accepted; else 23.
pub fn read(numbers: &Numbers) -> Result<Model, u32> {
    desk(numbers).filter(accepted).ok_or(23)
}
