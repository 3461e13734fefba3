//! What calls give, out of the library's answers with a number: a refused call gives its refusal and nothing else.

use crate::raw::{self, Tickets};
use crate::{Desk, Refusal};
use std::error::Error;
use std::fmt::{self, Debug, Display, Formatter};
use std::ops::Deref;

/// What a call gives that is taken. What it does not give is 0.
#[derive(Clone, Copy, PartialEq, Eq, Debug)]
pub struct Answer {
    /// Of a submission or a correction.
    pub ticket: u32,
    /// On a Promise Desk, the minute by which that job starts.
    pub promise: u32,
    /// How many points of the profile were read to find it.
    pub reads: u32,
    /// On a Loose Desk, the first waiting job, if it was not the first before this call.
    pub head: u32,
    /// The minute by which the head starts.
    pub forecast: u32,
    /// Ascending.
    pub ended: Tickets,
    /// In the order of starting; on a Promise Desk, ascending.
    pub started: Tickets,
}

/// What minutes that pass at once give.
#[derive(Clone, Copy, PartialEq, Eq, Debug)]
pub struct Advanced {
    /// To the last of the minutes that have passed.
    pub answer: Answer,
    /// How many have passed.
    pub minutes: u32,
}

/// A refused opening or a refused text, with the desk that it hands back: 1 node, minute 0, first ticket 1, cleanup 0, quotas of 63 and 1.
#[derive(Clone, PartialEq, Eq, Debug)]
pub struct RefusedOpening {
    pub refusal: Refusal,
    pub desk: Desk,
}

impl Display for RefusedOpening {
    fn fmt(&self, f: &mut Formatter) -> fmt::Result {
        Display::fmt(&self.refusal, f)
    }
}

impl Error for RefusedOpening {}

impl Answer {
    /// The ticket and the forecast of a job that is head now and was not before.
    pub fn new_head(&self) -> Option<(u32, u32)> {
        match self.head {
            0 => None,
            ticket => Some((ticket, self.forecast)),
        }
    }

    fn is_nothing(&self) -> bool {
        let numbers = [self.ticket, self.promise, self.reads, self.head, self.forecast];
        numbers == [0; 5] && [self.ended, self.started].iter().all(|tickets| tickets.count == 0 && tickets.list == [0; 64])
    }
}

/// What a call gives, or why it is refused. A refused one is proved to give nothing else.
pub(crate) fn given<T>(refusal: u32, gives: T, is_nothing: impl Fn(&T) -> bool) -> Result<T, Refusal> {
    debug_assert!(refusal == 0 || is_nothing(&gives), "a refusal gives more than its number");
    Refusal::judged(refusal).map(|()| gives)
}

impl raw::Answer {
    pub(crate) fn given(self) -> Result<Answer, Refusal> {
        let raw::Answer { refusal, ticket, promise, reads, head, forecast, ended, started } = self;
        given(refusal, Answer { ticket, promise, reads, head, forecast, ended, started }, Answer::is_nothing)
    }
}

impl raw::Advanced {
    pub(crate) fn given(self) -> Result<Advanced, Refusal> {
        debug_assert!(self.answer.refusal == 0 || self.minutes == 0, "minutes pass by a refused call");
        Ok(Advanced { answer: self.answer.given()?, minutes: self.minutes })
    }
}

impl raw::Shown {
    pub(crate) fn given(self) -> Result<usize, Refusal> {
        given(self.refusal, self.count, |count| *count == 0)
    }
}

impl raw::Opened {
    pub(crate) fn given(self) -> Result<Desk, Box<RefusedOpening>> {
        let desk = Desk { raw: self.desk };
        match Refusal::judged(self.refusal) {
            Ok(()) => Ok(desk),
            Err(refusal) => Err(Box::new(RefusedOpening { refusal, desk })),
        }
    }
}

impl Tickets {
    pub fn as_slice(&self) -> &[u32] {
        &self.list[..self.count]
    }
}

impl Deref for Tickets {
    type Target = [u32];

    fn deref(&self) -> &[u32] {
        self.as_slice()
    }
}

impl Debug for Tickets {
    fn fmt(&self, f: &mut Formatter) -> fmt::Result {
        self.as_slice().fmt(f)
    }
}
