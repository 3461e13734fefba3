//! What the library's calls answer, in the header's numbers: the refusal, which is 0 where a call is taken, and what it gives beside that.

use hingerota_host::{Refusal, Tickets};

#[derive(Clone, Copy, PartialEq, Eq, Debug)]
pub struct Answer {
    pub refusal: u32,
    pub ticket: u32,
    pub promise: u32,
    pub reads: u32,
    pub head: u32,
    pub forecast: u32,
    pub ended: Tickets,
    pub started: Tickets,
}

pub const NO_TICKETS: Tickets = Tickets { count: 0, list: [0; 64] };
pub const NOTHING: Answer =
    Answer { refusal: 0, ticket: 0, promise: 0, reads: 0, head: 0, forecast: 0, ended: NO_TICKETS, started: NO_TICKETS };

impl Answer {
    pub fn is_taken(&self) -> bool {
        self.refusal == 0
    }

    /// The ticket and the forecast of a job that is head now and was not before.
    pub fn new_head(&self) -> Option<(u32, u32)> {
        (self.head != 0).then_some((self.head, self.forecast))
    }
}

impl From<Result<hingerota_host::Answer, Refusal>> for Answer {
    fn from(given: Result<hingerota_host::Answer, Refusal>) -> Answer {
        match given {
            Ok(hingerota_host::Answer { ticket, promise, reads, head, forecast, ended, started }) => {
                Answer { refusal: 0, ticket, promise, reads, head, forecast, ended, started }
            }
            Err(refusal) => Answer { refusal: refusal.number(), ..NOTHING },
        }
    }
}

/// Of minutes that pass at once.
#[derive(Clone, Copy, PartialEq, Eq, Debug)]
pub struct Advanced {
    pub answer: Answer,
    pub minutes: u32,
}

impl From<Result<hingerota_host::Advanced, Refusal>> for Advanced {
    fn from(given: Result<hingerota_host::Advanced, Refusal>) -> Advanced {
        Advanced { answer: given.map(|advanced| advanced.answer).into(), minutes: given.map_or(0, |advanced| advanced.minutes) }
    }
}

/// Of places that were lent.
#[derive(Clone, Copy, PartialEq, Eq, Debug)]
pub struct Shown {
    pub refusal: u32,
    pub count: usize,
}

impl From<Result<usize, Refusal>> for Shown {
    fn from(given: Result<usize, Refusal>) -> Shown {
        Shown { refusal: number(&given), count: given.unwrap_or(0) }
    }
}

#[derive(Clone, Copy, PartialEq, Eq, Debug)]
pub struct Earliest {
    pub refusal: u32,
    pub minute: u32,
}

impl From<Result<u32, Refusal>> for Earliest {
    fn from(given: Result<u32, Refusal>) -> Earliest {
        Earliest { refusal: number(&given), minute: given.unwrap_or(0) }
    }
}

#[derive(Clone, Copy, PartialEq, Eq, Debug)]
pub struct Longest {
    pub refusal: u32,
    /// 0 if there is none.
    pub estimate: u32,
}

impl From<Result<Option<u32>, Refusal>> for Longest {
    fn from(given: Result<Option<u32>, Refusal>) -> Longest {
        Longest { refusal: number(&given), estimate: given.ok().flatten().unwrap_or(0) }
    }
}

/// By which number it is refused, 0 if it is not.
pub fn number<T>(given: &Result<T, Refusal>) -> u32 {
    given.as_ref().err().map_or(0, |refusal| refusal.number())
}
