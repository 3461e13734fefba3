//! The limits of a scheduler, and wall times.

pub const MAX_NODES: u32 = 1_024;
pub const HORIZON: u32 = 1_000_000;
pub const MAX_LIVE: usize = 64;
pub const MAX_ESTIMATE: u32 = 10_080;
pub const MAX_TICKET: u32 = 999_999;
pub const MAX_CLEANUP: u32 = 30;

/// An estimate is rounded up: to 120 by fives, to 480 by tens, to 10,080 by thirties.
pub fn wall_time(estimate: u32) -> u32 {
    let width = match estimate {
        0..=120 => 5,
        121..=480 => 10,
        _ => 30,
    };
    estimate.div_ceil(width) * width
}
