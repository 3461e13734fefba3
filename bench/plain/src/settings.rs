//! What an opening fixes.

use crate::answer::Refusal;
use crate::limits::*;

#[derive(Clone, Copy)]
pub struct Settings {
    pub nodes: u32,
    pub cleanup: u32,
    /// The longest estimate of a job.
    pub longest: u32,
}

impl Settings {
    pub fn check_nodes(&self) -> Result<(), Refusal> {
        if self.nodes == 0 || self.nodes > MAX_NODES {
            return Err(Refusal::Nodes);
        }
        Ok(())
    }

    pub fn check_cleanup(&self) -> Result<(), Refusal> {
        if self.cleanup > MAX_CLEANUP {
            return Err(Refusal::Cleanup);
        }
        Ok(())
    }

    /// For how long a job of that estimate takes its nodes.
    pub fn hold(&self, estimate: u32) -> u32 {
        wall_time(estimate) + self.cleanup
    }

    /// The longest of these.
    pub fn longest_hold(&self) -> u32 {
        self.hold(self.longest)
    }
}
