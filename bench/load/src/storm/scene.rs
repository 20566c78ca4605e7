//! What all clients of a storm share.

use crate::options::Options;
use crate::storm::deliveries::Deliveries;
use crate::storm::payloads::Filling;
use crate::storm::subjects::Subjects;
use crate::storm::tables::{GROUPS, MOST_MESSAGES};
use std::time::{Duration, Instant};

/// What all clients of a storm share.
pub struct Scene {
    /// Where the clients of the three servers come to.
    pub ports: [u16; 3],
    pub seed: u64,
    /// How many clients there are.
    pub clients: usize,
    pub subjects: Subjects,
    pub filling: Filling,
    pub deliveries: Deliveries,
    end: Instant,
}

impl Scene {
    /// What the clients of this storm share, which starts now.
    pub fn new(options: &Options) -> Self {
        Scene {
            ports: options.ports,
            seed: options.seed,
            clients: options.clients,
            subjects: Subjects::new(options.seed),
            filling: Filling::new(options.seed),
            deliveries: Deliveries::new(GROUPS.len(), options.clients, MOST_MESSAGES),
            end: Instant::now() + Duration::from_secs(options.seconds),
        }
    }

    /// How long the storm still lasts; no time once it has ended.
    pub fn left(&self) -> Duration {
        self.end.saturating_duration_since(Instant::now())
    }

    pub fn has_ended(&self) -> bool {
        self.left().is_zero()
    }
}
