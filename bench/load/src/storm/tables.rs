//! What clients do, and how often: the tables that a storm is drawn from.

/// What a client does next.
#[derive(Clone, Copy, Debug)]
pub enum Action {
    /// Publishes so many messages in one piece.
    Publish(u64),
    /// Subscribes to a drawn pattern.
    Subscribe,
    /// Subscribes to a drawn pattern as a member of a drawn queue group.
    Join,
    /// Ends one of its subscriptions.
    Unsubscribe,
    /// Reads what there is, so often.
    Read(u64),
    /// Waits until the server has done all that was asked, and reads meanwhile.
    Settle,
    /// Neither reads nor writes, for less than so many milliseconds.
    Rest(u64),
    /// Subscribes to all subjects, and rests so.
    Stall(u64),
    /// Sends no more, and reads until the server closes the connection.
    HalfClose,
    /// Breaks off in the middle of a command, and goes.
    BreakOff,
    /// Closes the connection.
    Go,
}

/// What a pattern matches of the subjects.
#[derive(Clone, Copy, Debug)]
pub enum Reach {
    /// One subject.
    One,
    /// Those with the same first token.
    First,
    /// Those with the same second token.
    Second,
    /// All.
    All,
}

/// How often a client does what.
pub const ACTIONS: [(Action, u64); 15] = [
    (Action::Publish(1), 160),
    (Action::Publish(20), 160),
    (Action::Publish(2_000), 6),
    (Action::Subscribe, 100),
    (Action::Join, 100),
    (Action::Unsubscribe, 70),
    (Action::Read(4), 240),
    (Action::Settle, 60),
    (Action::Rest(20), 40),
    (Action::Rest(2_000), 4),
    (Action::Stall(3_000), 4),
    (Action::Stall(15_000), 1),
    (Action::HalfClose, 12),
    (Action::BreakOff, 16),
    (Action::Go, 28),
];

/// How often a pattern matches what.
pub const REACHES: [(Reach, u64); 4] = [
    (Reach::One, 60),
    (Reach::First, 20),
    (Reach::Second, 15),
    (Reach::All, 5),
];

/// How many bytes stand behind the head of a payload, and how often.
pub const SIZES: [(usize, u64); 5] = [(0, 300), (16, 400), (200, 200), (4_096, 90), (60_000, 10)];

/// The most bytes behind the head of a payload.
pub const MOST_SIZE: usize = 60_000;

/// The queue groups.
pub const GROUPS: [&str; 4] = ["crew.0", "crew.1", "crew.2", "crew.3"];

/// How many messages a client publishes at most in all its lives.
pub const MOST_MESSAGES: u64 = 4_194_304;
