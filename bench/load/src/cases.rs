//! The cases: who publishes, who subscribes, and to what.

use crate::batch::{SUBJECT, SUBJECT_OF_PATTERN};

/// What the receivers of a flow want.
#[derive(Clone, Copy, Debug, PartialEq, Eq)]
pub enum Wants {
    /// Each receiver wants every message.
    All,
    /// The receivers are one queue group, each of them with so many members.
    Members(usize),
    /// Each receiver wants what goes to its own part of the subjects, so many.
    Subjects(usize),
    /// Each receiver wants what its own patterns match, so many, of which each has ten subjects.
    Patterns(usize),
}

/// Messages that flow from publishers to receivers.
#[derive(Clone, Copy, Debug, PartialEq, Eq)]
pub struct Flow {
    /// How many publishers there are, all of them at the first server.
    pub publishers: usize,
    /// How many receivers there are, at the three servers in turn.
    pub receivers: usize,
    pub wants: Wants,
    /// Over how many subjects the messages are spread.
    pub subjects: u64,
}

/// What is measured.
#[derive(Clone, Copy, Debug, PartialEq, Eq)]
pub enum Case {
    /// How fast messages flow.
    Flow(Flow),
    /// How long a reply takes. Requests go to the first server, and replies come from the second.
    RoundTrips,
    /// What servers do whose clients come and go, flood and stall: nothing is measured, each
    /// message is judged.
    Storm,
}

/// How many subscriptions there are where there are many, on so many connections.
const MANY: u64 = 60_000;
const CONNECTIONS_OF_MANY: usize = 4;
const SUBSCRIPTIONS_EACH: usize = 15_000;

/// How many of many subjects are hot.
const HOT: u64 = 16;

/// How many patterns each of these connections has, and over how many subjects the messages go then.
const PATTERNS_EACH: usize = 250;
const SUBJECTS_OF_PATTERNS: u64 = 10_000;

/// All cases, by their names.
pub const CASES: [(&str, Case); 12] = [
    ("publish", fan(1, 0)),
    ("one-to-one", fan(1, 1)),
    ("one-to-eight", fan(1, 8)),
    ("four-to-four", fan(4, 4)),
    ("queue-group", group(4, 2)),
    ("requests", Case::RoundTrips),
    (
        "random-subjects",
        many(Wants::Subjects(SUBSCRIPTIONS_EACH), MANY),
    ),
    (
        "hot-subjects",
        many(Wants::Subjects(SUBSCRIPTIONS_EACH), HOT),
    ),
    (
        "patterns",
        many(Wants::Patterns(PATTERNS_EACH), SUBJECTS_OF_PATTERNS),
    ),
    ("mesh-queue-group", group(3, 2)),
    ("mesh-requests", Case::RoundTrips),
    ("storm", Case::Storm),
];

/// A case in which each receiver wants every message.
const fn fan(publishers: usize, receivers: usize) -> Case {
    Case::Flow(Flow {
        publishers,
        receivers,
        wants: Wants::All,
        subjects: 1,
    })
}

/// A case with one publisher and one queue group.
const fn group(receivers: usize, members_each: usize) -> Case {
    Case::Flow(Flow {
        publishers: 1,
        receivers,
        wants: Wants::Members(members_each),
        subjects: 1,
    })
}

/// A case with many subscriptions, in which the messages go to so many of the subjects.
const fn many(wants: Wants, subjects: u64) -> Case {
    Case::Flow(Flow {
        publishers: 1,
        receivers: CONNECTIONS_OF_MANY,
        wants,
        subjects,
    })
}

impl Flow {
    /// The subject that the first message would go to. The others have other digits.
    pub fn first_subject(&self) -> &'static str {
        match self.wants {
            Wants::Patterns(_) => SUBJECT_OF_PATTERN,
            _ => SUBJECT,
        }
    }

    /// Whether one of all receivers has to get each message; else each of them has to.
    pub fn is_shared(&self) -> bool {
        self.wants != Wants::All
    }

    /// How many sets of receivers there are of which one has to get each message.
    pub fn groups(&self) -> usize {
        if self.is_shared() {
            1
        } else {
            self.receivers
        }
    }

    /// How many subscriptions each receiver has.
    pub fn subscriptions(&self) -> usize {
        match self.wants {
            Wants::All => 1,
            Wants::Members(count) | Wants::Subjects(count) | Wants::Patterns(count) => count,
        }
    }
}
