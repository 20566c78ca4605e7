//! Which messages were delivered to which queue group.

use std::sync::atomic::{AtomicU64, Ordering::Relaxed};

/// How many bits a word has.
const BITS: u64 = 64;

/// A bit for each message of each client and each queue group: whether a member was given it. All
/// clients share it.
pub struct Deliveries {
    /// How many messages each client may publish.
    messages: u64,
    /// By group and client.
    words: Vec<Vec<Box<[AtomicU64]>>>,
}

impl Deliveries {
    /// No message was delivered to any of so many groups.
    pub fn new(groups: usize, clients: usize, messages: u64) -> Self {
        let of_client = |_| (0..=messages / BITS).map(|_| AtomicU64::new(0)).collect();
        let of_group = |_| (0..clients).map(of_client).collect();
        Deliveries {
            messages,
            words: (0..groups).map(of_group).collect(),
        }
    }

    /// Notes that a member of the group was given the message of this client and number: whether
    /// none was before. None where there is no such group or message.
    pub fn note(&self, group: usize, client: usize, number: u64) -> Option<bool> {
        if number >= self.messages {
            return None;
        }
        let words = self.words.get(group)?.get(client)?;
        let bit = 1 << (number % BITS);
        let before = words[(number / BITS) as usize].fetch_or(bit, Relaxed);
        Some(before & bit == 0)
    }
}

#[cfg(test)]
mod tests {
    use super::*;

    #[test]
    fn each_message_is_delivered_to_a_group_once() {
        let deliveries = Deliveries::new(2, 3, 128);
        assert_eq!(deliveries.note(1, 2, 64), Some(true));
        assert_eq!(deliveries.note(1, 2, 64), Some(false));
        // another group, another client, another number
        assert_eq!(deliveries.note(0, 2, 64), Some(true));
        assert_eq!(deliveries.note(1, 1, 64), Some(true));
        assert_eq!(deliveries.note(1, 2, 127), Some(true));
    }

    #[test]
    fn what_there_is_not_is_not_delivered() {
        let deliveries = Deliveries::new(2, 3, 128);
        assert_eq!(deliveries.note(2, 0, 0), None);
        assert_eq!(deliveries.note(0, 3, 0), None);
        assert_eq!(deliveries.note(0, 0, 128), None);
    }
}
