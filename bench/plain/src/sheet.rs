//! A day sheet and its printout.

use crate::answer::{Printout, Refusal};
use crate::limits::*;
use crate::lines::{fields, letter, lines, number};
use crate::order::Order;
use crate::scheduler::Scheduler;
use crate::settings::Settings;
use crate::tenants::{Quotas, Tenant};

pub const MAX_SHEET: usize = 65_536;

fn open(line: &[u8]) -> Result<Scheduler, Refusal> {
    let [desk, kind, nodes, minute, ticket, cleanup, a, b] = fields(line)?;
    if desk != b"desk" {
        return Err(Refusal::Form);
    }
    let open = Scheduler::opening(kind)?;
    let (nodes, minute, ticket) = (number(nodes)?, number(minute)?, number(ticket)?);
    let (cleanup, a, b) = (number(cleanup)?, number(a)?, number(b)?);
    let settings = Settings { nodes, cleanup, longest: MAX_ESTIMATE };
    settings.check_nodes()?;
    if minute > HORIZON || ticket == 0 || ticket > MAX_TICKET {
        return Err(Refusal::Opening);
    }
    settings.check_cleanup()?;
    if a == 0 || b == 0 || a + b != MAX_LIVE as u32 {
        return Err(Refusal::Quotas);
    }
    Ok(open(settings, minute, ticket, Quotas::new(a, b)))
}

/// Nodes, most and house, or nodes, least, most and house. Without a least it is 0.
fn order(rest: &[u8]) -> Result<Order, Refusal> {
    let [nodes, least, estimate, house] = match fields(rest) {
        Ok([nodes, estimate, house]) => [nodes, b"0", estimate, house],
        Err(_) => fields(rest)?,
    };
    let (nodes, least, estimate, letter) = (number(nodes)?, number(least)?, number(estimate)?, letter(house)?);
    Ok(Order { nodes, least, estimate, tenant: Tenant::of(letter)? })
}

fn wait(minutes: u32, scheduler: &mut Scheduler, out: &mut Printout) -> Result<(), Refusal> {
    if minutes == 0 || minutes > MAX_ESTIMATE {
        return Err(Refusal::Minutes);
    }
    if scheduler.now() + minutes > HORIZON {
        return Err(Refusal::Horizon);
    }
    scheduler.advance(minutes, out);
    Ok(())
}

fn call(line: &[u8], scheduler: &mut Scheduler, out: &mut Printout) -> Result<(), Refusal> {
    if let Some(rest) = line.strip_prefix(b"in\t") {
        scheduler.submit(order(rest)?, out)
    } else if let Some(rest) = line.strip_prefix(b"end\t") {
        scheduler.complete(number(rest)?, out)
    } else if let Some(rest) = line.strip_prefix(b"drop\t") {
        scheduler.cancel(number(rest)?, out)
    } else if let Some(rest) = line.strip_prefix(b"wait\t") {
        wait(number(rest)?, scheduler, out)
    } else {
        Err(Refusal::Form)
    }
}

pub fn play(sheet: &[u8], out: &mut Printout) {
    let mut lines = lines(sheet);
    let Some(first) = lines.next() else { return };
    let mut scheduler = match first.and_then(open) {
        Ok(scheduler) => scheduler,
        Err(refusal) => return out.no(refusal),
    };
    for line in lines {
        if let Err(refusal) = line.and_then(|line| call(line, &mut scheduler, out)) {
            out.no(refusal);
        }
    }
}
