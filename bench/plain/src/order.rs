//! What is asked for a job, and the refusals that it alone decides.

use crate::answer::Refusal;
use crate::settings::Settings;
use crate::tenants::Tenant;

#[derive(Clone, Copy)]
pub struct Order {
    pub nodes: u32,
    /// An early end is not taken before so many minutes have run.
    pub least: u32,
    /// The most that it runs: what it is planned with.
    pub estimate: u32,
    pub tenant: Tenant,
}

impl Order {
    /// Under these settings.
    pub fn check(&self, settings: &Settings) -> Result<(), Refusal> {
        if self.nodes == 0 || self.nodes > settings.nodes {
            return Err(Refusal::Nodes);
        }
        if self.estimate == 0 || self.estimate > settings.longest {
            return Err(Refusal::Minutes);
        }
        if self.least > self.estimate {
            return Err(Refusal::LeastAboveMost);
        }
        Ok(())
    }
}
