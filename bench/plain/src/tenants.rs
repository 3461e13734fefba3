//! The two tenants of a machine, and how many jobs each may still submit.

use crate::answer::Refusal;

#[derive(Clone, Copy)]
pub enum Tenant {
    A,
    B,
}

impl Tenant {
    pub fn of(letter: u8) -> Result<Self, Refusal> {
        match letter {
            b'A' => Ok(Tenant::A),
            b'B' => Ok(Tenant::B),
            _ => Err(Refusal::Tenant),
        }
    }
}

/// What is left of the tenants' quotas: a live job, in cleanup too, takes one of its tenant's.
pub struct Quotas {
    left: [u32; 2],
}

impl Quotas {
    pub fn new(a: u32, b: u32) -> Self {
        Quotas { left: [a, b] }
    }

    pub fn are_used_up(&self, tenant: Tenant) -> bool {
        self.left[tenant as usize] == 0
    }

    pub fn take(&mut self, tenant: Tenant) {
        self.left[tenant as usize] -= 1;
    }

    pub fn give_back(&mut self, tenant: Tenant) {
        self.left[tenant as usize] += 1;
    }
}
