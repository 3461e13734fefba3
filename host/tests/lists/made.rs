//! Desks that are made up, mostly such as are accepted and as no calls make: holds with gaps between them, promises later than planned
//! starts, tickets left out, forecasts and bounds later than they need be, or just so.

use crate::common::acceptance::bound;
use crate::common::model::{held, Job, Model, State, HOUSES, LAST_MINUTE, LAST_TICKET, LIVE_JOBS, LONGEST_ESTIMATE};
use crate::common::random::Random;
use hingerota_host::Kind;

/// What the desks of a list have in common.
struct Making<'a> {
    random: &'a mut Random,
    desk: Model,
    /// The most minutes of an estimate.
    estimates: u32,
    /// Of ten jobs of a Promise Desk, so many wait.
    waiting: u32,
    /// Each hold of a waiting job begins after all others, and a gap.
    spread: bool,
}

pub fn desk(random: &mut Random) -> Model {
    match random.below(20) {
        0 => return packed(random),
        1 => return crowded(random),
        _ => {}
    }
    let kind = random.one_of(&[Kind::Promise, Kind::Loose]);
    let nodes = random.one_of(&[1, 2, 4, 10, 28, 100, 1_024]);
    let clock = match random.below(6) {
        0 => 0,
        1 => random.between(1, 40),
        2 => LAST_MINUTE - random.below(60_000),
        3 => LAST_MINUTE - random.one_of(&[0, 1, 6, 29, 50]),
        _ => random.between(20_000, 900_000),
    };
    let a = random.one_of(&[1, 32, 40, 63]);
    let (_, desk) = Model::open(kind, nodes, clock, 1, random.one_of(&[0, 0, 1, 7, 30]), [a, 64 - a]);
    let (estimates, waiting) = (random.one_of(&[5, 40, 40, 500, LONGEST_ESTIMATE]), random.one_of(&[2, 6, 9, 10]));
    let (jobs, spread) = (random.one_of(&[1, 3, 8, 20, 64, 64]), random.percent(60));
    let mut making = Making { random, desk, estimates, waiting, spread };
    for _ in 0..jobs {
        making.job();
    }
    if kind == Kind::Loose {
        making.settle();
        making.tell();
    }
    if making.random.percent(15) {
        making.desk.next = LAST_TICKET + making.random.below(2);
    }
    making.desk
}

/// A Loose Desk on which one job holds nodes and the others wait, mostly all of them as long as can be, and no two beside each other:
/// planned one after another, each starts at its very bound, and the last mostly gives its nodes back in the last minute.
fn packed(random: &mut Random) -> Model {
    let (nodes, cleanup, waiting) = (random.one_of(&[1, 2, 10, 1_024]), random.one_of(&[0, 1, 30]), random.one_of(&[1, 2, 3, 8, 63]));
    let unit = LONGEST_ESTIMATE + cleanup;
    let shadow = LAST_MINUTE - waiting * unit - random.one_of(&[0, 0, 0, 1, 5_000]);
    let clock = shadow - random.one_of(&[1, cleanup + 1, 100, unit]);
    let ended = shadow - cleanup;
    let (state, end) = if clock < ended { (State::Running, 0) } else { (State::Cleanup, ended) };
    let a = random.between(1, 63);
    let (_, mut desk) = Model::open(Kind::Loose, nodes, clock, 1, cleanup, [a, 64 - a]);
    let shorter = random.one_of(&[0, 0, 0, 5, 100]);
    for place in 0..=waiting {
        let (ticket, house) = (place + 1, HOUSES[usize::from(place >= a)]);
        let estimate = if random.percent(shorter) { random.between(1, 10_050) } else { random.between(10_051, LONGEST_ESTIMATE) };
        let nodes = random.between(nodes / 2 + 1, nodes);
        let (intake, r) = (shadow - unit, place);
        let waits =
            Job { ticket, nodes, estimate, state: State::Waiting, house, least: 0, start: 0, promise: 0, end: 0, intake, r, forecast: 0 };
        desk.jobs.push(match place {
            0 => Job { estimate: LONGEST_ESTIMATE, state, start: shadow - unit, end, r: 1, ..waits },
            1 => Job { forecast: shadow, ..waits },
            _ => waits,
        });
    }
    desk.next = waiting + 2;
    desk
}

/// A Promise Desk on which 64 jobs hold nodes in the same minutes, those that wait each from a minute on that is not much later.
fn crowded(random: &mut Random) -> Model {
    let (machine, clock) = (random.one_of(&[64, 100, 1_024]), random.between(50, 900_000));
    let (cleanup, waiting) = (random.one_of(&[0, 7, 30]), random.one_of(&[1, 32, 60, 64]));
    let (_, mut desk) = Model::open(Kind::Promise, machine, clock, 1, cleanup, [32, 32]);
    desk.next = random.one_of(&[1, 900_000, LAST_TICKET - 63]);
    for place in 0..LIVE_JOBS as u32 {
        let (ticket, house) = (desk.next, HOUSES[usize::from(place >= 32)]);
        let (nodes, estimate) = (random.between(1, machine / 64), random.between(100, LONGEST_ESTIMATE));
        let waits = random.below(LIVE_JOBS as u32) < waiting;
        let start = if waits { clock + 1 + random.below(80) } else { clock - random.below(50) };
        let (state, end) = match random.below(4) {
            _ if waits => (State::Waiting, 0),
            0 if cleanup > 0 => (State::Cleanup, clock),
            _ => (State::Running, 0),
        };
        desk.jobs.push(Job { ticket, nodes, estimate, state, house, least: 0, start, promise: start, end, intake: 0, r: 0, forecast: 0 });
        desk.next = ticket + 1;
    }
    desk
}

impl Making<'_> {
    /// One more record, if a house and a ticket are left for it and its nodes are free.
    fn job(&mut self) {
        let left = |house: &usize| self.desk.live(HOUSES[*house]) < self.desk.places[*house];
        let houses: Vec<usize> = [0, 1].into_iter().filter(left).collect();
        if houses.is_empty() {
            return;
        }
        let house = HOUSES[self.random.one_of(&houses)];
        let gap = LAST_TICKET.saturating_sub(self.desk.next) / 70;
        let ticket = self.desk.next + self.random.one_of(&[0, 0, 0, 1, gap]);
        if ticket > LAST_TICKET {
            return;
        }
        let widest = self.random.one_of(&[self.desk.nodes, (self.desk.nodes / 8).max(1)]);
        let (nodes, estimate) = (self.random.between(1, widest), self.random.between(1, self.estimates));
        let least = self.random.one_of(&[0, 0, estimate, estimate / 2]);
        let state = self.state();
        let mut job = Job { ticket, nodes, estimate, state, house, least, start: 0, promise: 0, end: 0, intake: 0, r: 0, forecast: 0 };
        self.times(&mut job);
        if self.fits(&job) {
            self.desk.jobs.push(job);
            self.desk.next = ticket + 1 + self.random.one_of(&[0, 0, 1]);
        }
    }

    fn state(&mut self) -> State {
        let started = if self.random.percent(30) && self.desk.cleanup > 0 { State::Cleanup } else { State::Running };
        let waits = match self.desk.kind {
            Kind::Promise => self.random.below(10) < self.waiting,
            Kind::Loose => self.random.below(10) < 7,
        };
        if waits {
            State::Waiting
        } else {
            started
        }
    }

    /// Start, end and promise.
    fn times(&mut self, job: &mut Job) {
        let (clock, cleanup) = (self.desk.clock, self.desk.cleanup);
        let back = |minutes: u32| clock.saturating_sub(minutes);
        match job.state {
            State::Waiting if self.desk.kind == Kind::Loose => {}
            State::Waiting => job.start = self.planned(job),
            State::Running => {
                let last = held(job.estimate) - 1;
                job.start = back(self.random.one_of(&[0, last, last / 2]));
            }
            State::Cleanup => {
                job.end = back(self.random.one_of(&[0, cleanup - 1, (cleanup - 1) / 2]));
                let ran = self.random.between(0, 2 * held(job.estimate));
                job.start = job.end.saturating_sub(self.random.one_of(&[0, ran, LAST_MINUTE]));
            }
        }
        if self.desk.kind == Kind::Promise {
            job.promise = (job.start + self.random.one_of(&[0, 0, 1, 40, 20_000])).min(LAST_MINUTE);
        }
    }

    /// A minute later than now.
    fn planned(&mut self, job: &Job) -> u32 {
        let last = self.desk.jobs.iter().map(|j| self.desk.freed(j)).max().unwrap_or(0).max(self.desk.clock);
        if self.spread {
            return last + self.random.between(1, 9);
        }
        let some = self.desk.clock + 1 + self.random.below(3 * self.estimates);
        let latest = LAST_MINUTE.saturating_sub(self.desk.hold(job.estimate));
        self.random.one_of(&[self.desk.clock + 1, some, some, last.max(self.desk.clock + 1), latest])
    }

    /// In every minute in which its nodes are taken they are free. They are taken most where a hold begins.
    fn fits(&self, job: &Job) -> bool {
        if job.waits() && self.desk.kind == Kind::Loose {
            return true;
        }
        let all: Vec<&Job> = self.desk.jobs.iter().filter(|j| self.desk.kind == Kind::Promise || !j.waits()).chain([job]).collect();
        let taken = |t: u32| all.iter().filter(|j| j.start <= t && t < self.desk.freed(j)).map(|j| j.nodes).sum::<u32>();
        let ends = self.desk.freed(job) <= LAST_MINUTE;
        ends && all.iter().all(|j| taken(j.start.max(self.desk.clock)) <= self.desk.nodes)
    }

    /// Who could start has.
    fn settle(&mut self) {
        self.desk.settle_now();
        let desk = &mut self.desk;
        let late: Vec<u32> = desk.jobs.iter().filter(|j| !j.waits() && desk.freed(j) > LAST_MINUTE).map(|j| j.ticket).collect();
        desk.jobs.retain(|j| !late.contains(&j.ticket));
    }

    /// Intake minute, r and forecast; who waits and cannot have a bound that is far enough and not too far is left out, with those behind.
    fn tell(&mut self) {
        let unit = LONGEST_ESTIMATE + self.desk.cleanup;
        let clock = self.desk.clock;
        let head = self.desk.jobs.iter().find(|j| j.waits()).copied();
        let shadow = head.map_or(0, |head| self.desk.shadow(head.nodes));
        let (mut before, mut none_left) = (0, false);
        for mut job in std::mem::take(&mut self.desk.jobs) {
            job.intake = clock.saturating_sub(self.random.one_of(&[0, 0, 1, self.estimates, 300_000]));
            job.r = self.random.between(1, LIVE_JOBS as u32);
            if !job.waits() {
                job.forecast = self.random.one_of(&[0, 0, 1, job.start, LAST_MINUTE]);
                self.desk.jobs.push(job);
                continue;
            }
            let due = shadow + before * unit;
            let least = (due.saturating_sub(job.intake)).div_ceil(unit).max(1);
            job.r = least + self.random.one_of(&[0, 0, 1, 4]);
            // Its bound is just the minute that it has to reach.
            if self.random.percent(40) && due >= job.r * unit && due - job.r * unit <= clock {
                job.intake = due - job.r * unit;
            }
            if before == 0 {
                job.forecast = shadow + self.random.one_of(&[0, 0, 1, 500]);
            }
            let latest = bound(&self.desk, &job) + self.desk.hold(job.estimate);
            none_left |= job.r > LIVE_JOBS as u32 || latest > LAST_MINUTE || job.forecast > LAST_MINUTE;
            if !none_left {
                self.desk.jobs.push(job);
                before += 1;
            }
        }
    }
}
