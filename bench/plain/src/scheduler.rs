//! A scheduler of either kind.

use crate::answer::{Events, Refusal};
use crate::conservative::Conservative;
use crate::easy::Easy;
use crate::order::Order;
use crate::settings::Settings;
use crate::tenants::Quotas;

pub enum Scheduler {
    Conservative(Conservative),
    Easy(Easy),
}

impl Scheduler {
    /// Which kind a word says.
    pub fn opening(kind: &[u8]) -> Result<fn(Settings, u32, u32, Quotas) -> Scheduler, Refusal> {
        match kind {
            b"promise" => Ok(|settings, now, ticket, quotas| Scheduler::Conservative(Conservative::open(settings, now, ticket, quotas))),
            b"loose" => Ok(|settings, now, ticket, quotas| Scheduler::Easy(Easy::open(settings, now, ticket, quotas))),
            _ => Err(Refusal::Form),
        }
    }

    pub fn now(&self) -> u32 {
        match self {
            Scheduler::Conservative(s) => s.now(),
            Scheduler::Easy(s) => s.now(),
        }
    }

    pub fn submit(&mut self, order: Order, out: &mut impl Events) -> Result<(), Refusal> {
        match self {
            Scheduler::Conservative(s) => s.submit(order, out),
            Scheduler::Easy(s) => s.submit(order, out),
        }
    }

    pub fn complete(&mut self, ticket: u32, out: &mut impl Events) -> Result<(), Refusal> {
        match self {
            Scheduler::Conservative(s) => s.complete(ticket, out),
            Scheduler::Easy(s) => s.complete(ticket, out),
        }
    }

    pub fn cancel(&mut self, ticket: u32, out: &mut impl Events) -> Result<(), Refusal> {
        match self {
            Scheduler::Conservative(s) => s.cancel(ticket, out),
            Scheduler::Easy(s) => s.cancel(ticket, out),
        }
    }

    /// As many ticks.
    pub fn advance(&mut self, minutes: u32, out: &mut impl Events) {
        match self {
            Scheduler::Conservative(s) => s.advance(minutes, out),
            Scheduler::Easy(s) => s.advance(minutes, out),
        }
    }

    /// The next minute in which a job starts, ends or leaves by a tick, if there is one.
    pub fn due(&self) -> Option<u32> {
        match self {
            Scheduler::Conservative(s) => s.due(),
            Scheduler::Easy(s) => s.due(),
        }
    }
}
