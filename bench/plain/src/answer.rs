//! What a call gives: refusals by number, and the events of accepted calls, reported as they happen.

#[derive(Clone, Copy, PartialEq, Eq, Debug)]
pub enum Refusal {
    Nodes = 1,
    Minutes = 2,
    Opening = 3,
    Tickets = 5,
    Horizon = 6,
    NotRunning = 7,
    Form = 9,
    NotWaiting = 11,
    Cleanup = 12,
    Quotas = 13,
    Tenant = 14,
    Full = 15,
    LongestEstimate = 16,
    Arrival = 17,
    RunLength = 18,
    LeastAboveMost = 19,
    BeforeLeast = 20,
}

/// Who hears of what happens in a call.
pub trait Events {
    fn took(&mut self, ticket: u32, promise: Option<u32>);
    fn over(&mut self, ticket: u32, minute: u32);
    fn start(&mut self, ticket: u32, minute: u32);
    fn head(&mut self, ticket: u32, forecast: u32);
}

/// The printout.
pub struct Printout {
    pub bytes: Vec<u8>,
}

impl Printout {
    pub fn new() -> Self {
        Printout { bytes: Vec::with_capacity(1 << 16) }
    }

    pub fn no(&mut self, refusal: Refusal) {
        self.word(b"no\t");
        self.number(refusal as u32);
        self.bytes.push(b'\n');
    }

    pub fn numbers(&mut self, first: u32, others: &[u32]) {
        self.number(first);
        for &n in others {
            self.bytes.push(b'\t');
            self.number(n);
        }
        self.bytes.push(b'\n');
    }

    fn line(&mut self, word: &[u8], ticket: u32, minute: u32) {
        self.word(word);
        self.number(ticket);
        self.bytes.push(b'\t');
        self.number(minute);
        self.bytes.push(b'\n');
    }

    fn word(&mut self, word: &[u8]) {
        self.bytes.extend_from_slice(word);
    }

    fn number(&mut self, mut n: u32) {
        let mut digits = [0u8; 10];
        let mut at = digits.len();
        loop {
            at -= 1;
            digits[at] = b'0' + (n % 10) as u8;
            n /= 10;
            if n == 0 {
                break;
            }
        }
        self.bytes.extend_from_slice(&digits[at..]);
    }
}

/// A sheet prints every event.
impl Events for Printout {
    fn took(&mut self, ticket: u32, promise: Option<u32>) {
        self.word(b"took\t");
        self.number(ticket);
        match promise {
            Some(minute) => {
                self.bytes.push(b'\t');
                self.number(minute);
            }
            None => self.word(b"\t-"),
        }
        self.bytes.push(b'\n');
    }

    fn over(&mut self, ticket: u32, minute: u32) {
        self.line(b"over\t", ticket, minute);
    }

    fn start(&mut self, ticket: u32, minute: u32) {
        self.line(b"start\t", ticket, minute);
    }

    fn head(&mut self, ticket: u32, forecast: u32) {
        self.line(b"head\t", ticket, forecast);
    }
}
