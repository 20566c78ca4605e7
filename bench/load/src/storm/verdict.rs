//! What a storm came to.

/// What a server did that it must not do.
#[derive(Clone, Copy, Debug, PartialEq, Eq)]
pub enum Fault {
    /// A payload is of no message that was published whole.
    Strange,
    /// A payload has other bytes than were published.
    WrongBytes,
    /// A message came to a client that had no subscription of its number that matches the subject,
    /// or no longer; or on a subject that it was not published on.
    NoMatch,
    /// A message came behind a later one of the same connection, to the same subscription.
    Disordered,
    /// A message came twice to one subscription, or to two members of one queue group.
    Doubled,
    /// A command was refused.
    Refused,
    /// Bytes came that are no frame.
    Malformed,
    /// Nothing came for 20 seconds where something had to, or nothing was taken for 10.
    Stuck,
    /// A client that came got no connection, or one on which it was not greeted.
    Unreachable,
}

impl Fault {
    /// How faults are called, in the order of the enum.
    const NAMES: [&'static str; 9] = [
        "strange",
        "wrong_bytes",
        "no_match",
        "out_of_order",
        "doubled",
        "refused",
        "malformed",
        "stuck",
        "unreachable",
    ];

    pub fn name(self) -> &'static str {
        Self::NAMES[self as usize]
    }
}

/// What came to clients, and what was wrong with it.
#[derive(Clone, Debug, Default, PartialEq, Eq)]
pub struct Verdict {
    /// How many connections there were.
    pub lives: u64,
    /// How many messages were published, those on their way when a connection broke among them.
    pub sent: u64,
    /// How many messages came, each counted at each subscription.
    pub heard: u64,
    /// How many connections were told that they read too slowly.
    pub slow: u64,
    /// How many connections a server has closed.
    pub closed: u64,
    /// What the first fault was; empty where there was none.
    pub first: String,
    faults: [u64; Fault::NAMES.len()],
}

impl Verdict {
    /// Notes a fault. It is described so, where it is the first.
    pub fn note(&mut self, fault: Fault, description: impl FnOnce() -> String) {
        self.faults[fault as usize] += 1;
        if self.first.is_empty() {
            self.first = description();
        }
    }

    /// How often each fault came, by its name.
    pub fn faults(&self) -> impl Iterator<Item = (&'static str, u64)> + '_ {
        Fault::NAMES.into_iter().zip(self.faults)
    }

    /// How many faults came.
    pub fn fault_count(&self) -> u64 {
        self.faults.iter().sum()
    }

    /// Adds what came to other clients.
    pub fn add(&mut self, other: &Verdict) {
        self.lives += other.lives;
        self.sent += other.sent;
        self.heard += other.heard;
        self.slow += other.slow;
        self.closed += other.closed;
        for (count, more) in self.faults.iter_mut().zip(other.faults) {
            *count += more;
        }
        if self.first.is_empty() {
            self.first.clone_from(&other.first);
        }
    }
}

#[cfg(test)]
mod tests {
    use super::*;

    #[test]
    fn faults_are_called_as_they_are() {
        assert_eq!(Fault::Strange.name(), "strange");
        assert_eq!(Fault::Disordered.name(), "out_of_order");
        assert_eq!(Fault::Unreachable.name(), "unreachable");
    }

    #[test]
    fn verdicts_are_added() {
        let mut one = Verdict {
            lives: 2,
            sent: 30,
            ..Verdict::default()
        };
        one.note(Fault::Doubled, || "this one".to_string());
        one.note(Fault::Stuck, || "not this one".to_string());
        let mut sum = Verdict {
            lives: 1,
            heard: 7,
            ..Verdict::default()
        };
        sum.add(&one);
        sum.add(&one);
        assert_eq!((sum.lives, sum.sent, sum.heard), (5, 60, 7));
        assert_eq!(sum.first, "this one");
        assert_eq!(sum.fault_count(), 4);
        let found = sum.faults().filter(|&(_, count)| count > 0);
        assert_eq!(found.collect::<Vec<_>>(), [("doubled", 2), ("stuck", 2)]);
    }
}
