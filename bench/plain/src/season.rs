//! A season: a list of jobs with their arrivals and actual run lengths, played through either scheduler from minute 0 until all are gone.

use crate::answer::{Events, Printout, Refusal};
use crate::limits::*;
use crate::lines::{fields, lines, number};
use crate::order::Order;
use crate::scheduler::Scheduler;
use crate::settings::Settings;
use crate::tenants::{Quotas, Tenant};
use std::collections::BTreeSet;

pub const MAX_SEASON: usize = 262_144;
const MAX_LINES: usize = 4_096;
/// The threshold of the bounded slowdown.
const SHORT_RUN: u32 = 10;

/// A line of the list.
struct Arrival {
    minute: u32,
    order: Order,
    /// True, whatever the estimate says.
    length: u32,
}

/// What the season knows of a job taken in.
struct Job {
    arrival: u32,
    start: u32,
    /// True, whatever the estimate says.
    length: u32,
    wall: u32,
}

impl Job {
    fn run(&self) -> u32 {
        self.length.min(self.wall)
    }

    fn ends_early(&self) -> bool {
        self.length < self.wall
    }
}

/// It hears of what happens, notes starts and prints ends.
struct Jobs<'a> {
    out: &'a mut Printout,
    /// By ticket, from 1 on.
    jobs: Vec<Job>,
    /// Of the running jobs that will not run for their wall time, by minute and ticket.
    ends: BTreeSet<(u32, u32)>,
}

impl Jobs<'_> {
    fn of(&mut self, ticket: u32) -> &mut Job {
        &mut self.jobs[ticket as usize - 1]
    }
}

impl Events for Jobs<'_> {
    fn took(&mut self, _: u32, _: Option<u32>) {}

    fn over(&mut self, ticket: u32, _: u32) {
        let job = self.of(ticket);
        let (wait, run) = (job.start - job.arrival, job.run());
        self.out.numbers(ticket, &[wait, (wait + run) * 100 / run.max(SHORT_RUN)]);
    }

    fn start(&mut self, ticket: u32, minute: u32) {
        let job = self.of(ticket);
        job.start = minute;
        if job.ends_early() {
            let end = minute + job.length;
            self.ends.insert((end, ticket));
        }
    }

    fn head(&mut self, _: u32, _: u32) {}
}

struct Season<'a> {
    scheduler: Scheduler,
    jobs: Jobs<'a>,
}

impl Season<'_> {
    /// The next minute in which the scheduler has something to do, or an actual run length is over.
    fn due(&self) -> Option<u32> {
        let end = self.jobs.ends.first().map(|(minute, _)| *minute);
        self.scheduler.due().into_iter().chain(end).min()
    }

    /// Up to that minute and through its step and the ends in it. Minutes in which nothing happens are passed over.
    fn reach(&mut self, minute: u32) {
        while let Some(due) = self.due().filter(|due| *due <= minute) {
            self.step_to(due);
            while let Some(&(end, ticket)) = self.jobs.ends.first().filter(|(end, _)| *end == due) {
                self.jobs.ends.remove(&(end, ticket));
                self.scheduler.complete(ticket, &mut self.jobs).expect("it runs");
            }
        }
        self.step_to(minute);
    }

    fn step_to(&mut self, minute: u32) {
        self.scheduler.advance(minute - self.scheduler.now(), &mut self.jobs);
    }

    fn arrives(&mut self, arrival: Arrival) -> Result<(), Refusal> {
        self.reach(arrival.minute);
        // It may start in that very call.
        let wall = wall_time(arrival.order.estimate);
        self.jobs.jobs.push(Job { arrival: arrival.minute, start: 0, length: arrival.length, wall });
        let taken = self.scheduler.submit(arrival.order, &mut self.jobs);
        if taken.is_err() {
            self.jobs.jobs.pop();
        }
        taken
    }

    fn until_all_are_gone(&mut self) {
        while let Some(due) = self.due() {
            self.reach(due);
        }
    }
}

fn open(line: &[u8]) -> Result<Scheduler, Refusal> {
    let [kind, nodes, cleanup, longest] = fields(line)?;
    let open = Scheduler::opening(kind)?;
    let settings = Settings { nodes: number(nodes)?, cleanup: number(cleanup)?, longest: number(longest)? };
    if settings.longest == 0 || settings.longest > MAX_ESTIMATE {
        return Err(Refusal::LongestEstimate);
    }
    settings.check_nodes()?;
    settings.check_cleanup()?;
    Ok(open(settings, 0, 1, Quotas::new(63, 1)))
}

/// What a line asks, where it is not refused before its minute comes. `latest` is the highest arrival of a line of the form so far.
fn arrival(line: &[u8], latest: &mut u32) -> Result<Arrival, Refusal> {
    let [minute, nodes, estimate, length] = fields(line)?;
    let (minute, nodes, estimate, length) = (number(minute)?, number(nodes)?, number(estimate)?, number(length)?);
    if minute < *latest {
        return Err(Refusal::Arrival);
    }
    *latest = minute;
    if length == 0 {
        return Err(Refusal::RunLength);
    }
    if minute > HORIZON {
        return Err(Refusal::Horizon);
    }
    Ok(Arrival { minute, order: Order { nodes, least: 0, estimate, tenant: Tenant::A }, length })
}

pub fn play(season: &[u8], out: &mut Printout) {
    let mut lines = lines(season);
    let Some(first) = lines.next() else { return };
    let scheduler = match first.and_then(open) {
        Ok(scheduler) => scheduler,
        Err(refusal) => return out.no(refusal),
    };
    let mut season = Season { scheduler, jobs: Jobs { out, jobs: Vec::with_capacity(MAX_LINES), ends: BTreeSet::new() } };
    let mut latest = 0;
    for (place, line) in lines.enumerate() {
        let line = if place < MAX_LINES { line } else { Err(Refusal::Form) };
        let done = line.and_then(|line| arrival(line, &mut latest)).and_then(|arrival| season.arrives(arrival));
        if let Err(refusal) = done {
            season.jobs.out.no(refusal);
        }
    }
    season.until_all_are_gone();
}
