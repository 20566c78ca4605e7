//! Which messages have come to a connection.

use crate::connection::CALLS_SUBSCRIPTION;
use crate::frames::Message;

/// How many bits a word has.
const BITS: u64 = 64;

/// Which messages have come to a connection.
///
/// The messages of each publisher have the numbers from 0. Of the messages of one publisher to one
/// subscription each has to have a greater number than the one before.
#[derive(Debug)]
pub struct Tally {
    publishers: usize,
    messages: u64,
    /// By publisher, a bit for each message.
    seen: Vec<Vec<u64>>,
    /// By subscription and publisher, one more than the greatest number that came.
    next: Vec<u64>,
    /// By publisher, how many messages came that were not told.
    untold: Vec<u64>,
    /// How many messages came for the first time.
    pub arrived: u64,
    /// How many messages came once more.
    pub doubled: u64,
    /// How many messages came behind one with a greater number.
    pub disordered: u64,
    /// How many payloads are of no message that was published.
    pub strange: u64,
}

impl Tally {
    /// A tally for subscriptions of the numbers up to this one, and so many messages of each
    /// publisher.
    pub fn new(subscriptions: usize, publishers: usize, messages: u64) -> Self {
        let words = (messages / BITS) as usize + 1;
        Tally {
            publishers,
            messages,
            seen: vec![vec![0; words]; publishers],
            next: vec![0; (subscriptions + 1) * publishers],
            untold: vec![0; publishers],
            arrived: 0,
            doubled: 0,
            disordered: 0,
            strange: 0,
        }
    }

    /// Notes a message. Calls are none of those that are counted.
    pub fn hear(&mut self, message: &Message<'_>) {
        if message.subscription == CALLS_SUBSCRIPTION {
            return;
        }
        let noted = numbers_of(message.payload)
            .and_then(|(number, publisher)| self.note(message.subscription, publisher, number));
        if noted.is_none() {
            self.strange += 1;
        }
    }

    /// Notes the message of this publisher and number; none where there is no such message or
    /// subscription.
    fn note(&mut self, subscription: usize, publisher: usize, number: u64) -> Option<()> {
        if number >= self.messages {
            return None;
        }
        let word = self
            .seen
            .get_mut(publisher)?
            .get_mut((number / BITS) as usize)?;
        let bit = 1 << (number % BITS);
        if *word & bit != 0 {
            self.doubled += 1;
            return Some(());
        }
        *word |= bit;
        self.arrived += 1;
        self.untold[publisher] += 1;
        let next = self
            .next
            .get_mut(subscription * self.publishers + publisher)?;
        if number < *next {
            self.disordered += 1;
        } else {
            *next = number + 1;
        }
        Some(())
    }

    /// By publisher, how many messages came since the last call.
    pub fn take_untold(&mut self) -> impl Iterator<Item = (usize, u64)> + '_ {
        self.untold.iter_mut().map(std::mem::take).enumerate()
    }

    /// Adds what has come to another connection: how many messages had come to both.
    pub fn join(&mut self, other: &Tally) -> u64 {
        let mut both = 0;
        for (seen, more) in self
            .seen
            .iter_mut()
            .flatten()
            .zip(other.seen.iter().flatten())
        {
            both += u64::from((*seen & *more).count_ones());
            *seen |= *more;
        }
        both
    }
}

/// The numbers at the head of a payload: the message's and its publisher's.
fn numbers_of(payload: &[u8]) -> Option<(u64, usize)> {
    let (number, rest) = payload.split_first_chunk()?;
    let (publisher, _) = rest.split_first_chunk()?;
    let publisher = usize::try_from(u64::from_le_bytes(*publisher)).ok()?;
    Some((u64::from_le_bytes(*number), publisher))
}

#[cfg(test)]
mod tests {
    use super::*;

    /// The tally hears the message of this publisher and number, on this subscription.
    fn hear(tally: &mut Tally, subscription: usize, publisher: u64, number: u64) {
        let payload = [number.to_le_bytes(), publisher.to_le_bytes()].concat();
        tally.hear(&Message {
            subject: b"bench.00000",
            subscription,
            reply: b"",
            payload: &payload,
        });
    }

    /// What arrived, was doubled, disordered and strange.
    fn counts(tally: &Tally) -> [u64; 4] {
        [
            tally.arrived,
            tally.doubled,
            tally.disordered,
            tally.strange,
        ]
    }

    #[test]
    fn each_message_is_counted_once() {
        let mut tally = Tally::new(2, 2, 100);
        for (subscription, publisher, number) in [(1, 0, 0), (1, 1, 0), (1, 0, 99), (2, 0, 5)] {
            hear(&mut tally, subscription, publisher, number);
        }
        assert_eq!(counts(&tally), [4, 0, 0, 0]);
        assert_eq!(tally.take_untold().collect::<Vec<_>>(), [(0, 3), (1, 1)]);
        assert_eq!(tally.take_untold().collect::<Vec<_>>(), [(0, 0), (1, 0)]);
    }

    #[test]
    fn a_message_that_comes_again_is_doubled() {
        let mut tally = Tally::new(2, 1, 100);
        for (subscription, number) in [(1, 7), (1, 7), (2, 7)] {
            hear(&mut tally, subscription, 0, number);
        }
        assert_eq!(counts(&tally), [1, 2, 0, 0]);
    }

    #[test]
    fn order_is_that_of_one_publisher_on_one_subscription() {
        let mut tally = Tally::new(2, 2, 100);
        // 3 comes behind 4; 1 of the other publisher, and 2 on the other subscription, come behind
        // nothing
        for (subscription, publisher, number) in [(1, 0, 4), (1, 0, 3), (1, 1, 1), (2, 0, 2)] {
            hear(&mut tally, subscription, publisher, number);
        }
        assert_eq!(counts(&tally), [4, 0, 1, 0]);
    }

    #[test]
    fn what_was_never_published_is_strange() {
        let mut tally = Tally::new(1, 1, 64);
        hear(&mut tally, 1, 0, 64);
        hear(&mut tally, 1, 1, 0);
        tally.hear(&Message {
            subject: b"bench.00000",
            subscription: 1,
            reply: b"",
            payload: &[0; 15],
        });
        assert_eq!(counts(&tally), [0, 0, 0, 3]);
        // a message to a subscription that was never made has come all the same
        hear(&mut tally, 2, 0, 63);
        assert_eq!(counts(&tally), [1, 0, 0, 4]);
    }

    #[test]
    fn calls_are_not_counted() {
        let mut tally = Tally::new(1, 1, 64);
        hear(&mut tally, 0, 0, 0);
        assert_eq!(counts(&tally), [0; 4]);
    }

    #[test]
    fn what_two_have_got_is_found() {
        let [mut one, mut other] = [(); 2].map(|()| Tally::new(1, 2, 200));
        for (publisher, number) in [(0, 0), (0, 130), (1, 5)] {
            hear(&mut one, 1, publisher, number);
        }
        for (publisher, number) in [(0, 130), (1, 5), (1, 6), (0, 1)] {
            hear(&mut other, 1, publisher, number);
        }
        assert_eq!(one.join(&other), 2);
        assert_eq!(one.join(&other), 4);
    }
}
