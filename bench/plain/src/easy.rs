//! EASY backfilling: only the first waiting job, the head, gets a forecast; later ones pass it if that does not delay it.

use crate::answer::{Events, Refusal};
use crate::limits::*;
use crate::order::Order;
use crate::settings::Settings;
use crate::tenants::{Quotas, Tenant};

#[derive(Clone, Copy)]
struct Waiting {
    ticket: u32,
    tenant: Tenant,
    nodes: u32,
    least: u32,
    /// The wall time and the cleanup.
    hold: u32,
}

/// A job that runs, or whose nodes are not free yet after its run.
struct Holding {
    ticket: u32,
    tenant: Tenant,
    nodes: u32,
    /// The minute from which an early end is taken.
    endable: u32,
    /// The minute from which the nodes are free again. The run ends the minutes of cleanup before.
    until: u32,
}

pub struct Easy {
    settings: Settings,
    now: u32,
    next: u32,
    quotas: Quotas,
    free: u32,
    /// In ticket order.
    queue: Vec<Waiting>,
    /// By `until`, then ticket: those that end together stand in the order in which they are told.
    running: Vec<Holding>,
    /// By `until`, which is never after that of a running job: runs that go on end later.
    ended: Vec<Holding>,
    /// The ticket that was head after the last call, 0 if there was none.
    head: u32,
}

impl Easy {
    pub fn open(settings: Settings, now: u32, ticket: u32, quotas: Quotas) -> Self {
        Easy {
            settings,
            now,
            next: ticket,
            quotas,
            free: settings.nodes,
            queue: Vec::with_capacity(MAX_LIVE),
            running: Vec::with_capacity(MAX_LIVE),
            ended: Vec::with_capacity(MAX_LIVE),
            head: 0,
        }
    }

    pub fn now(&self) -> u32 {
        self.now
    }

    pub fn submit(&mut self, order: Order, out: &mut impl Events) -> Result<(), Refusal> {
        order.check(&self.settings)?;
        let Order { nodes, least, estimate, tenant } = order;
        if self.quotas.are_used_up(tenant) {
            return Err(Refusal::Full);
        }
        if self.next > MAX_TICKET {
            return Err(Refusal::Tickets);
        }
        let hold = self.settings.hold(estimate);
        let rank = self.queue.len() as u32 + 1;
        if self.now + rank * self.settings.longest_hold() + hold > HORIZON {
            return Err(Refusal::Horizon);
        }
        let ticket = self.next;
        self.next += 1;
        self.quotas.take(tenant);
        self.queue.push(Waiting { ticket, tenant, nodes, least, hold });
        out.took(ticket, None);
        self.settle(out);
        Ok(())
    }

    pub fn complete(&mut self, ticket: u32, out: &mut impl Events) -> Result<(), Refusal> {
        let at = self.running.iter().position(|j| j.ticket == ticket).ok_or(Refusal::NotRunning)?;
        if self.now < self.running[at].endable {
            return Err(Refusal::BeforeLeast);
        }
        let ended = self.running.remove(at);
        out.over(ticket, self.now);
        if self.settings.cleanup == 0 {
            self.free += ended.nodes;
            self.quotas.give_back(ended.tenant);
        } else {
            self.ended.push(Holding { until: self.now + self.settings.cleanup, ..ended });
        }
        self.settle(out);
        Ok(())
    }

    pub fn cancel(&mut self, ticket: u32, out: &mut impl Events) -> Result<(), Refusal> {
        let at = self.queue.binary_search_by_key(&ticket, |j| j.ticket).map_err(|_| Refusal::NotWaiting)?;
        self.quotas.give_back(self.queue.remove(at).tenant);
        self.settle(out);
        Ok(())
    }

    /// The next minutes in which a run ends, and in which nodes come free after one.
    fn ends(&self) -> (u32, u32) {
        let end = self.running.first().map_or(u32::MAX, |j| j.until - self.settings.cleanup);
        let freed = self.ended.first().map_or(u32::MAX, |j| j.until);
        (end, freed)
    }

    /// The next minute in which something is due: nobody starts in another.
    pub fn due(&self) -> Option<u32> {
        let (end, freed) = self.ends();
        Some(end.min(freed)).filter(|minute| *minute < u32::MAX)
    }

    /// As many ticks. A tick by which no nodes come free starts nothing: free nodes and the shadow are as before, and there is less room
    /// before the shadow. Those at which nothing ends either are passed over.
    pub fn advance(&mut self, minutes: u32, out: &mut impl Events) {
        let target = self.now + minutes;
        loop {
            let (end, freed) = self.ends();
            if end.min(freed) > target {
                break;
            }
            self.now = end.min(freed);
            if freed == self.now {
                let gone = self.ended.partition_point(|j| j.until == self.now);
                for job in self.ended.drain(..gone) {
                    self.free += job.nodes;
                    self.quotas.give_back(job.tenant);
                }
            }
            if end == self.now {
                let over = self.running.partition_point(|j| j.until == self.now + self.settings.cleanup);
                for job in self.running.drain(..over) {
                    out.over(job.ticket, self.now);
                    if self.settings.cleanup == 0 {
                        self.free += job.nodes;
                        self.quotas.give_back(job.tenant);
                    } else {
                        self.ended.push(job);
                    }
                }
            }
            self.settle(out);
        }
        self.now = target;
    }

    fn settle(&mut self, out: &mut impl Events) {
        let mut fit = 0;
        while let Some(&head) = self.queue.get(fit) {
            if head.nodes > self.free {
                break;
            }
            self.start(head, out);
            fit += 1;
        }
        self.queue.drain(..fit);
        if self.queue.is_empty() {
            self.head = 0;
            return;
        }
        let (shadow, mut extra) = self.shadow(self.queue[0].nodes);
        // One walk is enough: a job passed forward leaves the shadow where it is and never makes free or extra larger, so that whoever
        // did not qualify before does not qualify afterwards.
        let mut at = 1;
        while at < self.queue.len() && self.free > 0 {
            let Waiting { nodes, hold, .. } = self.queue[at];
            let before_shadow = self.now + hold <= shadow;
            if nodes <= self.free && (before_shadow || nodes <= extra) {
                if !before_shadow {
                    extra -= nodes;
                }
                let job = self.queue.remove(at);
                self.start(job, out);
            } else {
                at += 1;
            }
        }
        let head = self.queue[0].ticket;
        if head != self.head {
            self.head = head;
            out.head(head, shadow);
        }
    }

    /// The smallest minute at which `nodes` are free, and what is then free beyond them.
    fn shadow(&self, nodes: u32) -> (u32, u32) {
        let mut free = self.free;
        let mut shadow = self.now;
        for jobs in [&self.ended, &self.running] {
            for job in jobs {
                if free >= nodes && job.until > shadow {
                    return (shadow, free - nodes);
                }
                free += job.nodes;
                shadow = job.until;
            }
        }
        (shadow, free - nodes)
    }

    fn start(&mut self, job: Waiting, out: &mut impl Events) {
        let Waiting { ticket, tenant, nodes, least, hold } = job;
        let until = self.now + hold;
        self.free -= nodes;
        let at = self.running.partition_point(|j| (j.until, j.ticket) < (until, ticket));
        self.running.insert(at, Holding { ticket, tenant, nodes, endable: self.now + least, until });
        out.start(ticket, self.now);
    }
}
