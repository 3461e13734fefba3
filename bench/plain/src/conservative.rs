//! Conservative backfilling: every job gets a planned start when it is submitted, its promise.

use crate::answer::{Events, Refusal};
use crate::limits::*;
use crate::order::Order;
use crate::settings::Settings;
use crate::tenants::{Quotas, Tenant};

#[derive(Clone, Copy, PartialEq, Eq)]
enum State {
    Waiting,
    Running,
    /// Its run has ended, and its nodes are not free yet.
    Cleanup,
}

struct Job {
    ticket: u32,
    tenant: Tenant,
    nodes: u32,
    least: u32,
    /// Of a waiting job, the planned start.
    start: u32,
    /// The minute from which the nodes are free again. The run ends the minutes of cleanup before.
    until: u32,
    /// The minute in which it starts, ends or leaves, whichever is next.
    due: u32,
    state: State,
}

impl Job {
    fn start(&mut self, cleanup: u32) {
        (self.due, self.state) = (self.until - cleanup, State::Running);
    }
}

/// From `minute` on, `free` nodes are free.
struct Point {
    minute: u32,
    free: u32,
}

/// Free nodes from now on. The first point is now, neighbours differ, and the last point has every node of the machine.
struct Profile {
    points: Vec<Point>,
}

impl Profile {
    fn new(now: u32, nodes: u32) -> Self {
        let mut points = Vec::with_capacity(2 * MAX_LIVE + 3);
        points.push(Point { minute: now, free: nodes });
        Profile { points }
    }

    /// The smallest minute from which `nodes` are free for `hold` minutes.
    fn earliest(&self, nodes: u32, hold: u32) -> u32 {
        let points = &self.points;
        let mut anchor = 0;
        'search: loop {
            while points[anchor].free < nodes {
                anchor += 1;
            }
            let start = points[anchor].minute;
            for (i, point) in points.iter().enumerate().skip(anchor + 1) {
                if point.minute >= start + hold {
                    break;
                }
                if point.free < nodes {
                    anchor = i + 1;
                    continue 'search;
                }
            }
            return start;
        }
    }

    /// The smallest minute at which a job could stand that now stands from `start` on, or `start` itself. From there on its own nodes
    /// are enough, so that only what is free before counts.
    fn earliest_before(&self, start: u32, nodes: u32, hold: u32) -> u32 {
        let mut points = self.points.iter();
        while let Some(anchor) = points.find(|p| p.free >= nodes) {
            let end = start.min(anchor.minute + hold);
            let stop = points.find(|p| p.free < nodes || p.minute >= end);
            if !stop.is_some_and(|p| p.minute < end) {
                return start.min(anchor.minute);
            }
        }
        start
    }

    fn reserve(&mut self, from: u32, until: u32, nodes: u32) {
        let (first, last) = (self.split(from), self.split(until));
        for point in &mut self.points[first..last] {
            point.free -= nodes;
        }
        self.join(last);
        self.join(first);
    }

    fn release(&mut self, from: u32, until: u32, nodes: u32) {
        let (first, last) = (self.split(from), self.split(until));
        for point in &mut self.points[first..last] {
            point.free += nodes;
        }
        self.join(last);
        self.join(first);
    }

    /// The place of the point at `minute`, made if there was none.
    fn split(&mut self, minute: u32) -> usize {
        let at = self.points.partition_point(|p| p.minute < minute);
        if self.points.get(at).map_or(true, |p| p.minute != minute) {
            let free = self.points[at - 1].free;
            self.points.insert(at, Point { minute, free });
        }
        at
    }

    /// Removes a point that is like the one before it.
    fn join(&mut self, at: usize) {
        if at > 0 && self.points[at].free == self.points[at - 1].free {
            self.points.remove(at);
        }
    }

    fn advance(&mut self, now: u32) {
        let passed = self.points.partition_point(|p| p.minute <= now) - 1;
        self.points.drain(..passed);
        self.points[0].minute = now;
    }
}

pub struct Conservative {
    settings: Settings,
    now: u32,
    next: u32,
    quotas: Quotas,
    /// In ticket order.
    jobs: Vec<Job>,
    profile: Profile,
    /// The tickets that the passes after a departure have started.
    started: Vec<u32>,
}

impl Conservative {
    pub fn open(settings: Settings, now: u32, ticket: u32, quotas: Quotas) -> Self {
        let (jobs, profile, started) = (Vec::with_capacity(MAX_LIVE), Profile::new(now, settings.nodes), Vec::with_capacity(MAX_LIVE));
        Conservative { settings, now, next: ticket, quotas, jobs, profile, started }
    }

    pub fn now(&self) -> u32 {
        self.now
    }

    pub fn submit(&mut self, order: Order, out: &mut impl Events) -> Result<(), Refusal> {
        order.check(&self.settings)?;
        let Order { nodes, least, estimate, tenant } = order;
        if self.quotas.are_used_up(tenant) {
            return Err(Refusal::Full);
        }
        if self.next > MAX_TICKET {
            return Err(Refusal::Tickets);
        }
        let hold = self.settings.hold(estimate);
        let start = self.profile.earliest(nodes, hold);
        let until = start + hold;
        if until > HORIZON {
            return Err(Refusal::Horizon);
        }
        self.profile.reserve(start, until, nodes);
        let ticket = self.next;
        self.next += 1;
        self.quotas.take(tenant);
        out.took(ticket, Some(start));
        let mut job = Job { ticket, tenant, nodes, least, start, until, due: start, state: State::Waiting };
        if start == self.now {
            job.start(self.settings.cleanup);
            out.start(ticket, start);
        }
        self.jobs.push(job);
        Ok(())
    }

    pub fn complete(&mut self, ticket: u32, out: &mut impl Events) -> Result<(), Refusal> {
        let at = self.jobs.binary_search_by_key(&ticket, |j| j.ticket).map_err(|_| Refusal::NotRunning)?;
        if self.jobs[at].state != State::Running {
            return Err(Refusal::NotRunning);
        }
        if self.now < self.jobs[at].start + self.jobs[at].least {
            return Err(Refusal::BeforeLeast);
        }
        let until = self.now + self.settings.cleanup;
        self.profile.release(until, self.jobs[at].until, self.jobs[at].nodes);
        if self.settings.cleanup == 0 {
            self.quotas.give_back(self.jobs.remove(at).tenant);
        } else {
            let job = &mut self.jobs[at];
            (job.until, job.due, job.state) = (until, until, State::Cleanup);
        }
        out.over(ticket, self.now);
        self.replan(out);
        Ok(())
    }

    pub fn cancel(&mut self, ticket: u32, out: &mut impl Events) -> Result<(), Refusal> {
        let at = self.jobs.binary_search_by_key(&ticket, |j| j.ticket).map_err(|_| Refusal::NotWaiting)?;
        if self.jobs[at].state != State::Waiting {
            return Err(Refusal::NotWaiting);
        }
        let withdrawn = self.jobs.remove(at);
        self.quotas.give_back(withdrawn.tenant);
        self.profile.release(withdrawn.start, withdrawn.until, withdrawn.nodes);
        self.replan(out);
        Ok(())
    }

    /// Whoever waits moves up, and those who come to now are told of in ticket order: one that a later pass starts may have a lower one.
    fn replan(&mut self, out: &mut impl Events) {
        self.compress();
        self.started.sort_unstable();
        for ticket in self.started.drain(..) {
            out.start(ticket, self.now);
        }
    }

    /// Passes over the waiting jobs in ticket order, each put at its smallest minute, the others staying where they are, until a whole
    /// pass moves nobody. That is so once the turn comes to the last one moved: all others have had a turn since.
    fn compress(&mut self) {
        let mut last = None;
        loop {
            for at in 0..self.jobs.len() {
                if last == Some(at) {
                    return;
                }
                if self.moves_up(at) {
                    last = Some(at);
                }
            }
            if last.is_none() {
                return;
            }
        }
    }

    /// The job at that place, if it waits, goes to its smallest minute. One that comes to now starts.
    fn moves_up(&mut self, at: usize) -> bool {
        let job = &mut self.jobs[at];
        if job.state != State::Waiting {
            return false;
        }
        let hold = job.until - job.start;
        let start = self.profile.earliest_before(job.start, job.nodes, hold);
        if start == job.start {
            return false;
        }
        let until = start + hold;
        self.profile.reserve(start, until.min(job.start), job.nodes);
        self.profile.release(until.max(job.start), job.until, job.nodes);
        (job.start, job.until, job.due) = (start, until, start);
        if start == self.now {
            job.start(self.settings.cleanup);
            self.started.push(job.ticket);
        }
        true
    }

    /// The next minute in which something ends, starts or is free again.
    pub fn due(&self) -> Option<u32> {
        self.jobs.iter().map(|j| j.due).min()
    }

    /// As many ticks. Minutes in which nothing is due are passed over.
    pub fn advance(&mut self, minutes: u32, out: &mut impl Events) {
        let target = self.now + minutes;
        loop {
            match self.due() {
                Some(minute) if minute <= target => self.now = minute,
                _ => break,
            }
            let now = self.now;
            self.jobs.retain_mut(|j| {
                if j.state == State::Waiting || j.due > now {
                    return true;
                }
                if j.state == State::Running {
                    out.over(j.ticket, now);
                    (j.due, j.state) = (j.until, State::Cleanup);
                }
                if j.until == now {
                    self.quotas.give_back(j.tenant);
                }
                j.until > now
            });
            for job in self.jobs.iter_mut().filter(|j| j.due == now) {
                job.start(self.settings.cleanup);
                out.start(job.ticket, now);
            }
        }
        self.now = target;
        self.profile.advance(target);
    }
}
