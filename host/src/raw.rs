//! The structs and functions of `include/hingerota.h`. `layout.rs` compares their layouts with those of the header.

/// What a desk is opened with.
#[repr(C)]
#[derive(Clone, Copy, PartialEq, Eq, Debug)]
pub struct Opening {
    /// The machine's nodes.
    pub nodes: u32,
    /// The minute at which the clock begins.
    pub minute: u32,
    /// The first ticket to be given.
    pub ticket: u32,
    /// For how many minutes nodes stay taken after a run, 0 to 30.
    pub cleanup: u32,
    /// How many live jobs each tenant may have: at least 1, and both sum to 64.
    pub quota_a: u32,
    pub quota_b: u32,
}

/// What is asked for a job.
#[repr(C)]
#[derive(Clone, Copy, PartialEq, Eq, Debug)]
pub struct Order {
    pub nodes: u32,
    /// The most that it runs, in minutes.
    pub estimate: u32,
    /// `TENANT_A` or `TENANT_B`.
    pub tenant: u32,
    /// The least that it runs, in minutes, at most the estimate.
    pub least: u32,
}

/// A corrected order for a waiting job.
#[repr(C)]
#[derive(Clone, Copy, PartialEq, Eq, Debug)]
pub struct Amendment {
    /// The ticket of the job.
    pub ticket: u32,
    pub nodes: u32,
    /// The most that it runs, in minutes.
    pub estimate: u32,
    /// The least that it runs, in minutes, at most the estimate.
    pub least: u32,
}

/// The question how long a job may be to start by this minute, asked before it is submitted.
#[repr(C)]
#[derive(Clone, Copy, PartialEq, Eq, Debug)]
pub struct Inquiry {
    pub nodes: u32,
    /// `TENANT_A` or `TENANT_B`.
    pub tenant: u32,
    /// The wanted minute.
    pub minute: u32,
}

/// A live job, or an unused place, which is all 0.
#[repr(C)]
#[derive(Clone, Copy, PartialEq, Eq, Debug)]
pub struct Record {
    pub ticket: u32,
    pub nodes: u16,
    pub estimate: u16,
    /// 0 unused, 1 waiting, 2 running, 3 in cleanup.
    pub state: u32,
    /// `TENANT_A` or `TENANT_B`, 0 in an unused record.
    pub tenant: u16,
    /// As it was ordered, 0 in an unused record.
    pub least: u16,
    pub start: u32,
    pub promise: u32,
    /// For a job in cleanup, the minute in which its run ended; otherwise 0.
    pub end: u32,
    /// On a Loose Desk, the minute of its submission; 0 on a Promise Desk.
    pub submitted: u32,
    /// On a Loose Desk, one more than the number of jobs that waited just before its submission; 0 on a Promise Desk.
    pub rank: u32,
    /// On a Loose Desk, its forecast if it has one; otherwise 0.
    pub forecast: u32,
}

/// A desk in numbers, as a host in C has it. Any numbers may stand here, also numbers that no desk has.
#[repr(C)]
#[derive(Clone, Copy, PartialEq, Eq, Debug)]
pub struct Desk {
    /// 0 Promise, 1 Loose.
    pub kind: u32,
    pub nodes: u32,
    pub cleanup: u32,
    pub quota_a: u32,
    pub quota_b: u32,
    pub clock: u32,
    pub next: u32,
    pub jobs: [Record; 64],
}

/// Tickets; the places past the count are 0.
#[repr(C)]
#[derive(Clone, Copy, PartialEq, Eq)]
pub struct Tickets {
    pub count: usize,
    pub list: [u32; 64],
}

#[repr(C)]
pub struct Answer {
    pub refusal: u32,
    pub ticket: u32,
    pub promise: u32,
    pub reads: u32,
    pub head: u32,
    pub forecast: u32,
    pub ended: Tickets,
    pub started: Tickets,
}

#[repr(C)]
pub struct Advanced {
    pub answer: Answer,
    pub minutes: u32,
}

#[repr(C)]
pub struct Opened {
    pub refusal: u32,
    pub desk: Desk,
}

/// So many nodes are free from that minute on.
#[repr(C)]
#[derive(Clone, Copy, PartialEq, Eq, Debug, Default)]
pub struct Point {
    pub minute: u32,
    pub free: u32,
}

/// The fewest and the most free nodes of a block of points.
#[repr(C)]
#[derive(Clone, Copy, PartialEq, Eq, Debug, Default)]
pub struct Block {
    pub fewest: u32,
    pub most: u32,
}

#[repr(C)]
pub struct Shown {
    pub refusal: u32,
    pub count: usize,
}

#[repr(C)]
pub struct Earliest {
    pub refusal: u32,
    pub minute: u32,
}

#[repr(C)]
pub struct Longest {
    pub refusal: u32,
    pub estimate: u32,
}

extern "C" {
    pub fn hingerota_open_promise(opening: Opening) -> Opened;
    pub fn hingerota_open_loose(opening: Opening) -> Opened;
    pub fn hingerota_submit(d: *mut Desk, order: Order) -> Answer;
    pub fn hingerota_complete(d: *mut Desk, ticket: u32) -> Answer;
    pub fn hingerota_cancel(d: *mut Desk, ticket: u32) -> Answer;
    pub fn hingerota_amend(d: *mut Desk, amendment: Amendment) -> Answer;
    pub fn hingerota_tick(d: *mut Desk) -> Answer;
    pub fn hingerota_advance(d: *mut Desk, minutes: u32) -> Advanced;
    pub fn hingerota_migrate(d: *mut Desk);
    pub fn hingerota_profile(d: *const Desk, points: *mut Point, room: usize) -> Shown;
    pub fn hingerota_index(d: *const Desk, blocks: *mut Block, room: usize) -> Shown;
    pub fn hingerota_wait_refusal(d: *const Desk, minutes: u32) -> u32;
    pub fn hingerota_earliest_start(d: *const Desk, ticket: u32) -> Earliest;
    pub fn hingerota_longest_estimate(d: *const Desk, inquiry: Inquiry) -> Longest;
    pub fn hingerota_status_page(d: *const Desk, page: *mut u8, room: usize) -> Shown;
    pub fn hingerota_why(d: *const Desk, text: *mut u8, room: usize) -> Shown;
    pub fn hingerota_checkpoint(d: *const Desk, text: *mut u8, room: usize) -> Shown;
    pub fn hingerota_restore(text: *const u8, bytes: usize) -> Opened;
    pub fn hingerota_check(d: *const Desk) -> u32;
}
