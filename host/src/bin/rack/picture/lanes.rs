//! What a picture shows of each live job: what its record says, and the held time that the library's status page has of it.

use crate::desk::Times;
use hingerota_host::{Desk, Kind, Record, TENANT_A};

#[derive(Clone, Copy, PartialEq, Eq, Debug)]
pub enum State {
    Waits,
    Runs,
    IsCleared,
}

/// From the start of a run to its end, and on to the end of its clearing.
#[derive(Clone, Copy, PartialEq, Eq, Debug)]
pub struct Span {
    pub start: u32,
    pub end: u32,
    pub cleared: u32,
}

pub struct Lane {
    pub ticket: u32,
    pub house: char,
    pub nodes: u32,
    /// For how long it runs, if it is not over early.
    pub held: u32,
    pub state: State,
    /// None of a job that waits on a Loose Desk, which plans none.
    pub span: Option<Span>,
    /// Its promise, or on a Loose Desk the head's forecast.
    pub mark: Option<u32>,
}

/// The live jobs in ticket order.
pub fn lanes(desk: &Desk) -> Vec<Lane> {
    let held = held_times(desk);
    desk.live().iter().zip(held).map(|(record, held)| lane(desk, record, held)).collect()
}

/// The held times on the status page: the sixth column of each line after the heading.
fn held_times(desk: &Desk) -> Vec<u32> {
    let page = desk.page();
    let text = String::from_utf8_lossy(&page);
    text.lines().skip(1).filter_map(|line| line.split_whitespace().nth(5)?.parse().ok()).collect()
}

fn lane(desk: &Desk, record: &Record, held: u32) -> Lane {
    let state = match record.state {
        1 => State::Waits,
        2 => State::Runs,
        _ => State::IsCleared,
    };
    let end = if state == State::IsCleared { record.end } else { record.start + held };
    let span = Span { start: record.start, end, cleared: end + desk.cleanup() };
    let plans = desk.kind() == Kind::Promise || state != State::Waits;
    Lane {
        ticket: record.ticket,
        house: if u32::from(record.tenant) == TENANT_A { 'A' } else { 'B' },
        nodes: record.nodes.into(),
        held,
        state,
        span: plans.then_some(span),
        mark: mark(desk.kind(), record),
    }
}

/// A job that ran when a Loose Desk was changed was promised nothing: its record has 0, and it started later.
fn mark(kind: Kind, record: &Record) -> Option<u32> {
    match kind {
        Kind::Promise => Some(record.promise).filter(|promise| *promise >= record.start),
        Kind::Loose => Some(record.forecast).filter(|forecast| record.waits() && *forecast != 0),
    }
}

impl Lane {
    /// `a` or `b`, for its colours.
    pub fn class(&self) -> &'static str {
        if self.house == 'A' {
            "a"
        } else {
            "b"
        }
    }

    /// All of it in a sentence.
    pub fn sentence(&self, times: &Times) -> String {
        let Lane { ticket, house, nodes, .. } = self;
        format!("stack {ticket} of house {house}, {nodes} node{}, {}", if *nodes == 1 { "" } else { "s" }, self.does(times))
    }

    fn does(&self, times: &Times) -> String {
        let at = |minute| times.minute(minute);
        match (self.state, self.span, self.mark) {
            (State::Waits, Some(span), Some(mark)) => {
                format!("waits: planned from {} to {}, promised {}", at(span.start), at(span.end), at(mark))
            }
            (State::Waits, _, Some(mark)) => format!("waits first, to run for {} minutes: starts by {}", self.held, at(mark)),
            (State::Waits, ..) => format!("waits, to run for {} minutes", self.held),
            (State::Runs, Some(span), _) => format!("runs from {} to {}", at(span.start), at(span.end)),
            (_, Some(span), _) => format!("ran from {} to {}, is cleared until {}", at(span.start), at(span.end), at(span.cleared)),
            (_, None, _) => "runs".to_string(),
        }
    }
}
