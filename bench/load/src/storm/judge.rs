//! Hears what comes to one client, and holds it against what was published.

use crate::connection::Complaints;
use crate::frames::Message;
use crate::storm::payloads::Head;
use crate::storm::scene::Scene;
use crate::storm::subjects::Pattern;
use crate::storm::tables::MOST_MESSAGES;
use crate::storm::verdict::{Fault, Verdict};
use std::cmp::Ordering;
use std::io::{self, ErrorKind};

/// How many subscriptions a client makes at most in one life.
const MOST_SUBSCRIPTIONS: usize = 40;

/// What a server tells a client that reads too slowly.
const SLOW_CONSUMER: &[u8] = b"'Slow Consumer'";

/// How far a subscription is.
#[derive(Clone, Copy, Debug, PartialEq, Eq)]
enum Stage {
    /// It was made.
    Open,
    /// It was ended, which the server may not know yet.
    Ending,
    /// It was ended, and the server knows it.
    Ended,
}

/// A subscription of a client.
struct Subscription {
    pattern: Pattern,
    /// Of which queue group it is a member.
    group: Option<usize>,
    stage: Stage,
    /// By client, what came last.
    last: Vec<Last>,
}

/// What came last from one client to one subscription.
#[derive(Clone, Copy, Default)]
struct Last {
    /// In which of its lives it was published; 0 where nothing came.
    life: u64,
    number: u64,
}

/// Hears what comes to one client.
pub struct Judge<'a> {
    scene: &'a Scene,
    place: usize,
    /// The subscriptions of this life. The first has the number 1.
    subscriptions: Vec<Subscription>,
    pub verdict: Verdict,
}

impl<'a> Judge<'a> {
    /// Hears what comes to the client at this place, which has not lived yet.
    pub fn new(scene: &'a Scene, place: usize) -> Self {
        Judge {
            scene,
            place,
            subscriptions: Vec::new(),
            verdict: Verdict::default(),
        }
    }

    /// Begins a life, without a subscription.
    pub fn begin_life(&mut self) {
        self.verdict.lives += 1;
        self.subscriptions.clear();
    }

    /// Ends a life, of which this came, with what the server complained of besides.
    ///
    /// The error is want of memory of the system, which is no fault of the server; whatever else
    /// ended the life is noted.
    pub fn end_life(&mut self, lived: io::Result<()>, complaints: &Complaints) -> io::Result<()> {
        if let Err(error) = lived {
            match error.kind() {
                ErrorKind::OutOfMemory => return Err(error),
                ErrorKind::TimedOut | ErrorKind::WouldBlock => self.note(Fault::Stuck, b""),
                ErrorKind::InvalidData => self.note(Fault::Malformed, b""),
                _ => self.verdict.closed += 1,
            }
        }
        if complaints.count > 0 {
            if complaints.first == SLOW_CONSUMER {
                self.verdict.slow += 1;
            } else {
                self.note(Fault::Refused, &complaints.first);
            }
        }
        Ok(())
    }

    /// Notes that the client came and got no connection, for this error. Want of memory of the
    /// system is given back.
    pub fn note_unreachable(&mut self, error: io::Error) -> io::Result<()> {
        if error.kind() == ErrorKind::OutOfMemory {
            return Err(error);
        }
        self.note(Fault::Unreachable, b"");
        Ok(())
    }

    /// Notes a fault that is of no message, of which the server said this.
    fn note(&mut self, fault: Fault, said: &[u8]) {
        let (name, client, life) = (fault.name(), self.place, self.verdict.lives);
        let said = String::from_utf8_lossy(said);
        let description = || format!("{name} {said}, client {client} in life {life}");
        self.verdict.note(fault, description);
    }

    /// Makes a subscription: the number that it has; none where the client has made as many as it
    /// may.
    pub fn open(&mut self, pattern: Pattern, group: Option<usize>) -> Option<usize> {
        if self.subscriptions.len() >= MOST_SUBSCRIPTIONS {
            return None;
        }
        self.subscriptions.push(Subscription {
            pattern,
            group,
            stage: Stage::Open,
            last: vec![Last::default(); self.scene.clients],
        });
        Some(self.subscriptions.len())
    }

    /// How many subscriptions the client has made in this life.
    pub fn made(&self) -> usize {
        self.subscriptions.len()
    }

    /// Ends the subscription of this number: whether it was open.
    pub fn end(&mut self, number: usize) -> bool {
        match subscription_of(&mut self.subscriptions, number) {
            Some(subscription) if subscription.stage == Stage::Open => {
                subscription.stage = Stage::Ending;
                true
            }
            _ => false,
        }
    }

    /// The server has done all that was asked: nothing comes any more to what was ended.
    pub fn settled(&mut self) {
        for subscription in &mut self.subscriptions {
            if subscription.stage == Stage::Ending {
                subscription.stage = Stage::Ended;
            }
        }
    }

    /// Judges a message.
    pub fn hear(&mut self, message: &Message<'_>) {
        self.verdict.heard += 1;
        if let Err(fault) = self.judged(message) {
            self.note_message(fault, message);
        }
    }

    /// Notes a fault of this message.
    fn note_message(&mut self, fault: Fault, message: &Message<'_>) {
        let (name, client, life) = (fault.name(), self.place, self.verdict.lives);
        let (subscription, size) = (message.subscription, message.payload.len());
        let from = || match Head::read(message.payload) {
            Some(head) => format!("of {head}"),
            None => "without a head".to_string(),
        };
        self.verdict.note(fault, || {
            format!(
                "{name}: to subscription {subscription} of client {client} in life {life}, \
                 {size} bytes {}",
                from()
            )
        });
    }

    /// What is wrong with this message.
    fn judged(&mut self, message: &Message<'_>) -> Result<(), Fault> {
        let head = self.head_of(message)?;
        let subscription = subscription_of(&mut self.subscriptions, message.subscription);
        let subscription = subscription.ok_or(Fault::NoMatch)?;
        if subscription.stage == Stage::Ended || !subscription.pattern.matches(head.subject) {
            return Err(Fault::NoMatch);
        }
        subscription.last[head.client].follow(&head)?;
        let Some(group) = subscription.group else {
            return Ok(());
        };
        match self.scene.deliveries.note(group, head.client, head.number) {
            Some(true) => Ok(()),
            Some(false) => Err(Fault::Doubled),
            None => Err(Fault::Strange),
        }
    }

    /// What the payload of this message says of it, where it is as it was published.
    fn head_of(&self, message: &Message<'_>) -> Result<Head, Fault> {
        let head = Head::read(message.payload).ok_or(Fault::Strange)?;
        if head.client >= self.scene.clients || head.number >= MOST_MESSAGES {
            return Err(Fault::Strange);
        }
        let subject = self.scene.subjects.text(head.subject);
        if subject.map(str::as_bytes) != Some(message.subject) {
            return Err(Fault::NoMatch);
        }
        if !self.scene.filling.is_whole(&head, message.payload) {
            return Err(Fault::WrongBytes);
        }
        Ok(head)
    }
}

/// The subscription of this number.
fn subscription_of(subscriptions: &mut [Subscription], number: usize) -> Option<&mut Subscription> {
    subscriptions.get_mut(number.checked_sub(1)?)
}

impl Last {
    /// Sees that this message comes behind the one before it. Of an earlier life of its client than
    /// that, it may come at any time: it came on another connection.
    fn follow(&mut self, head: &Head) -> Result<(), Fault> {
        match head.life.cmp(&self.life) {
            Ordering::Less => return Ok(()),
            Ordering::Equal if head.number == self.number => return Err(Fault::Doubled),
            Ordering::Equal if head.number < self.number => return Err(Fault::Disordered),
            Ordering::Equal | Ordering::Greater => {}
        }
        (self.life, self.number) = (head.life, head.number);
        Ok(())
    }
}

#[cfg(test)]
mod tests {
    use super::*;
    use crate::options::{self, Request};
    use crate::storm::subjects::SUBJECT_COUNT;
    use crate::storm::tables::Reach;

    /// Three clients.
    fn scene() -> Scene {
        let words = ["storm", "--clients", "3"].map(String::from);
        match options::read(words) {
            Ok(Request::Run(options)) => Scene::new(&options),
            other => panic!("{other:?}"),
        }
    }

    /// The head of a message of the last of three clients, on the subject 1.2, with 5 bytes behind
    /// the head.
    fn head(life: u64, number: u64) -> Head {
        Head {
            client: 2,
            life,
            number,
            subject: 8,
            size: 5,
        }
    }

    fn payload_of(scene: &Scene, head: &Head) -> Vec<u8> {
        let mut frame = Vec::new();
        scene.filling.put_message(&mut frame, "s", head);
        let line = frame.iter().position(|&byte| byte == b'\n').unwrap();
        frame[line + 1..frame.len() - 2].to_vec()
    }

    /// What the judge finds in this payload.
    fn fault_of(
        judge: &mut Judge<'_>,
        subject: usize,
        subscription: usize,
        payload: &[u8],
    ) -> Result<(), Fault> {
        let subject = judge.scene.subjects.text(subject).unwrap().to_string();
        judge.judged(&Message {
            subject: subject.as_bytes(),
            subscription,
            reply: b"",
            payload,
        })
    }

    /// What the judge finds in the message of this head, as it was published.
    fn heard(judge: &mut Judge<'_>, subscription: usize, head: Head) -> Result<(), Fault> {
        let payload = payload_of(judge.scene, &head);
        fault_of(judge, head.subject, subscription, &payload)
    }

    #[test]
    fn what_was_published_is_no_fault() {
        let scene = scene();
        let mut judge = Judge::new(&scene, 0);
        assert_eq!(judge.open(Pattern::ALL, None), Some(1));
        for subject in 0..SUBJECT_COUNT {
            let number = subject as u64;
            let size = [0, 16, 200, 4_096, 60_000][subject % 5];
            let head = Head {
                subject,
                size,
                ..head(1, number)
            };
            assert_eq!(heard(&mut judge, 1, head), Ok(()));
        }
    }

    #[test]
    fn what_nobody_published_is_strange() {
        let scene = scene();
        let mut judge = Judge::new(&scene, 0);
        judge.open(Pattern::ALL, None);
        assert_eq!(fault_of(&mut judge, 8, 1, &[0; 39]), Err(Fault::Strange));
        let other = Head {
            client: 3,
            ..head(1, 0)
        };
        assert_eq!(heard(&mut judge, 1, other), Err(Fault::Strange));
        assert_eq!(
            heard(&mut judge, 1, head(1, MOST_MESSAGES)),
            Err(Fault::Strange)
        );
        assert_eq!(heard(&mut judge, 1, head(1, MOST_MESSAGES - 1)), Ok(()));
    }

    #[test]
    fn bytes_are_those_that_were_published() {
        let scene = scene();
        let mut judge = Judge::new(&scene, 0);
        judge.open(Pattern::ALL, None);
        let mut payload = payload_of(&scene, &head(1, 0));
        assert_eq!(
            fault_of(&mut judge, 8, 1, &payload[..44]),
            Err(Fault::WrongBytes)
        );
        payload[42] ^= 0x20;
        assert_eq!(fault_of(&mut judge, 8, 1, &payload), Err(Fault::WrongBytes));
    }

    #[test]
    fn messages_come_to_subscriptions_that_match() {
        let scene = scene();
        let mut judge = Judge::new(&scene, 0);
        let [of_8, of_9] = [8, 9].map(|subject| Pattern {
            reach: Reach::One,
            subject,
        });
        judge.open(of_9, None);
        judge.open(of_8, None);
        for subscription in [0, 1, 3] {
            assert_eq!(
                heard(&mut judge, subscription, head(1, 0)),
                Err(Fault::NoMatch)
            );
        }
        assert_eq!(heard(&mut judge, 2, head(1, 0)), Ok(()));
        // a payload of the subject 8 comes on the subject 9
        let payload = payload_of(&scene, &head(1, 1));
        assert_eq!(fault_of(&mut judge, 9, 1, &payload), Err(Fault::NoMatch));
    }

    #[test]
    fn nothing_comes_once_the_server_knows_that_a_subscription_was_ended() {
        let scene = scene();
        let mut judge = Judge::new(&scene, 0);
        judge.open(Pattern::ALL, None);
        assert!(judge.end(1));
        assert!(!judge.end(1));
        assert!(!judge.end(2));
        assert!(!judge.end(0));
        assert_eq!(heard(&mut judge, 1, head(1, 0)), Ok(()));
        judge.settled();
        assert_eq!(heard(&mut judge, 1, head(1, 1)), Err(Fault::NoMatch));
        assert!(!judge.end(1));
    }

    #[test]
    fn order_is_that_of_one_life_of_one_client_to_one_subscription() {
        let scene = scene();
        let mut judge = Judge::new(&scene, 0);
        judge.open(Pattern::ALL, None);
        judge.open(Pattern::ALL, None);
        assert_eq!(heard(&mut judge, 1, head(2, 7)), Ok(()));
        assert_eq!(heard(&mut judge, 1, head(2, 6)), Err(Fault::Disordered));
        assert_eq!(heard(&mut judge, 1, head(2, 7)), Err(Fault::Doubled));
        // to another subscription, of another client, of an earlier life, and of a later one
        assert_eq!(heard(&mut judge, 2, head(2, 6)), Ok(()));
        assert_eq!(
            heard(
                &mut judge,
                1,
                Head {
                    client: 1,
                    ..head(2, 3)
                }
            ),
            Ok(())
        );
        assert_eq!(heard(&mut judge, 1, head(1, 5)), Ok(()));
        assert_eq!(heard(&mut judge, 1, head(3, 9)), Ok(()));
        assert_eq!(heard(&mut judge, 1, head(3, 8)), Err(Fault::Disordered));
    }

    #[test]
    fn a_queue_group_has_a_message_once() {
        let scene = scene();
        let [mut one, mut other] = [0, 1].map(|place| Judge::new(&scene, place));
        one.open(Pattern::ALL, Some(2));
        one.open(Pattern::ALL, Some(2));
        other.open(Pattern::ALL, Some(2));
        other.open(Pattern::ALL, Some(3));
        other.open(Pattern::ALL, None);
        assert_eq!(heard(&mut one, 1, head(1, 0)), Ok(()));
        assert_eq!(heard(&mut one, 2, head(1, 0)), Err(Fault::Doubled));
        assert_eq!(heard(&mut other, 1, head(1, 0)), Err(Fault::Doubled));
        // another group, and a subscription of none
        assert_eq!(heard(&mut other, 2, head(1, 0)), Ok(()));
        assert_eq!(heard(&mut other, 3, head(1, 0)), Ok(()));
    }

    #[test]
    fn a_life_has_its_own_subscriptions() {
        let scene = scene();
        let mut judge = Judge::new(&scene, 0);
        judge.open(Pattern::ALL, None);
        assert_eq!(heard(&mut judge, 1, head(1, 0)), Ok(()));
        judge.begin_life();
        assert_eq!(heard(&mut judge, 1, head(1, 1)), Err(Fault::NoMatch));
        for number in 1..=MOST_SUBSCRIPTIONS {
            assert_eq!(judge.open(Pattern::ALL, None), Some(number));
        }
        assert_eq!(judge.open(Pattern::ALL, None), None);
        assert_eq!(judge.made(), MOST_SUBSCRIPTIONS);
        assert_eq!(heard(&mut judge, 1, head(1, 0)), Ok(()));
    }

    #[test]
    fn the_first_fault_is_described() {
        let scene = scene();
        let mut judge = Judge::new(&scene, 1);
        judge.begin_life();
        judge.open(Pattern::ALL, None);
        let payload = payload_of(&scene, &head(1, 0));
        let mut message = Message {
            subject: b"storm.1.1.2",
            subscription: 4,
            reply: b"",
            payload: &payload,
        };
        judge.hear(&message);
        message.payload = b"";
        judge.hear(&message);
        assert_eq!(judge.verdict.heard, 2);
        assert_eq!(judge.verdict.fault_count(), 2);
        let first = "no_match: to subscription 4 of client 1 in life 1, 45 bytes \
            of message 0 of client 2 in life 1, on subject 8, 5 bytes";
        assert_eq!(judge.verdict.first, first);
    }

    /// The verdict on a life that ended so.
    fn verdict_of(lived: io::Result<()>, complaints: &[&[u8]]) -> Verdict {
        let scene = scene();
        let mut judge = Judge::new(&scene, 0);
        judge.begin_life();
        let complaints = Complaints {
            count: complaints.len() as u64,
            first: complaints.first().map_or(Vec::new(), |text| text.to_vec()),
        };
        judge.end_life(lived, &complaints).unwrap();
        judge.verdict
    }

    #[test]
    fn a_life_ends_as_its_connection_does() {
        let good = verdict_of(Ok(()), &[]);
        assert_eq!((good.fault_count(), good.closed, good.slow), (0, 0, 0));
        let closed = verdict_of(Err(ErrorKind::UnexpectedEof.into()), &[SLOW_CONSUMER]);
        assert_eq!(
            (closed.fault_count(), closed.closed, closed.slow),
            (0, 1, 1)
        );
        for (kind, first) in [
            (ErrorKind::TimedOut, "stuck , client 0 in life 1"),
            (ErrorKind::WouldBlock, "stuck , client 0 in life 1"),
            (ErrorKind::InvalidData, "malformed , client 0 in life 1"),
        ] {
            let verdict = verdict_of(Err(kind.into()), &[]);
            assert_eq!((verdict.fault_count(), verdict.closed), (1, 0));
            assert_eq!(verdict.first, first);
        }
        let refused = verdict_of(Ok(()), &[b"'Invalid Subject'", b"'Slow Consumer'"]);
        let first = "refused 'Invalid Subject', client 0 in life 1";
        assert_eq!((refused.fault_count(), refused.first.as_str()), (1, first));
    }

    #[test]
    fn want_of_memory_is_no_fault_of_the_server() {
        let scene = scene();
        let mut judge = Judge::new(&scene, 0);
        let no_memory = || io::Error::from(ErrorKind::OutOfMemory);
        assert!(judge
            .end_life(Err(no_memory()), &Complaints::default())
            .is_err());
        assert!(judge.note_unreachable(no_memory()).is_err());
        assert_eq!(judge.verdict.fault_count(), 0);
        assert!(judge
            .note_unreachable(ErrorKind::ConnectionRefused.into())
            .is_ok());
        assert_eq!(judge.verdict.fault_count(), 1);
    }
}
