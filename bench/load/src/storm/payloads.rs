//! What payloads hold: a head that says which message it is, and bytes that follow from its number.

use crate::storm::draw::Draw;
use crate::storm::tables::MOST_SIZE;
use std::fmt::{self, Display};

/// How many bytes the head has: five numbers of eight bytes.
pub const HEAD_BYTES: usize = 40;

/// At how many places the bytes behind a head may begin.
const PLACES: u64 = 251;

/// The stream that the bytes come from: no client's.
const STREAM: u64 = 1_000_000;

/// Which message a payload is of.
#[derive(Clone, Copy, Debug, PartialEq, Eq)]
pub struct Head {
    /// The client that published it, and in which of its lives, from 1.
    pub client: usize,
    pub life: u64,
    /// Its number among the messages of this client.
    pub number: u64,
    /// The subject that it was published on.
    pub subject: usize,
    /// How many bytes stand behind the head.
    pub size: usize,
}

impl Head {
    /// The head of this payload; none where the payload has no room for one.
    pub fn read(payload: &[u8]) -> Option<Head> {
        let (client, rest) = split_number(payload)?;
        let (life, rest) = split_number(rest)?;
        let (number, rest) = split_number(rest)?;
        let (subject, rest) = split_number(rest)?;
        let (size, _) = split_number(rest)?;
        Some(Head {
            client,
            life,
            number,
            subject,
            size,
        })
    }

    fn bytes(&self) -> [u8; HEAD_BYTES] {
        let numbers = [
            self.client as u64,
            self.life,
            self.number,
            self.subject as u64,
            self.size as u64,
        ];
        let mut bytes = [0; HEAD_BYTES];
        for (place, number) in bytes.chunks_exact_mut(8).zip(numbers) {
            place.copy_from_slice(&number.to_le_bytes());
        }
        bytes
    }
}

impl Display for Head {
    fn fmt(&self, formatter: &mut fmt::Formatter<'_>) -> fmt::Result {
        let Head {
            client,
            life,
            number,
            subject,
            size,
        } = self;
        write!(
            formatter,
            "message {number} of client {client} in life {life}, on subject {subject}, {size} bytes"
        )
    }
}

/// The number at the beginning of these bytes, and what follows it.
fn split_number<T: TryFrom<u64>>(bytes: &[u8]) -> Option<(T, &[u8])> {
    let (number, rest) = bytes.split_first_chunk()?;
    Some((u64::from_le_bytes(*number).try_into().ok()?, rest))
}

/// The bytes of which each payload has a part behind its head.
pub struct Filling {
    bytes: Vec<u8>,
}

impl Filling {
    /// The bytes of the storm of this seed.
    pub fn new(seed: u64) -> Self {
        let mut draw = Draw::new(seed, STREAM);
        let count = MOST_SIZE + PLACES as usize;
        Filling {
            bytes: (0..count).map(|_| draw.below(256) as u8).collect(),
        }
    }

    /// What stands behind this head; none where so many bytes cannot stand there.
    fn part(&self, head: &Head) -> Option<&[u8]> {
        let start = (head.number % PLACES) as usize;
        self.bytes.get(start..)?.get(..head.size)
    }

    /// Puts the command behind the others that publishes the message of this head, on a subject of
    /// this text.
    pub fn put_message(&self, commands: &mut Vec<u8>, subject: &str, head: &Head) {
        let part = self.part(head).unwrap_or_default();
        let size = HEAD_BYTES + part.len();
        commands.extend_from_slice(format!("PUB {subject} {size}\r\n").as_bytes());
        commands.extend_from_slice(&head.bytes());
        commands.extend_from_slice(part);
        commands.extend_from_slice(b"\r\n");
    }

    /// Whether this is the whole payload of the message of this head, which was read from it.
    pub fn is_whole(&self, head: &Head, payload: &[u8]) -> bool {
        self.part(head)
            .is_some_and(|part| payload.get(HEAD_BYTES..) == Some(part))
    }
}

#[cfg(test)]
mod tests {
    use super::*;

    const HEAD: Head = Head {
        client: 3,
        life: 2,
        number: 252,
        subject: 8,
        size: 5,
    };

    #[test]
    fn a_message_has_its_head_and_a_part_of_the_filling() {
        let filling = Filling::new(1);
        let mut commands = b"PING\r\n".to_vec();
        filling.put_message(&mut commands, "storm.1.1.2", &HEAD);
        // the remainder of 252 by 251 is 1
        let part = &filling.bytes[1..6];
        let head = b"\x03\0\0\0\0\0\0\0\x02\0\0\0\0\0\0\0\xfc\0\0\0\0\0\0\0\
            \x08\0\0\0\0\0\0\0\x05\0\0\0\0\0\0\0";
        let expected = [b"PING\r\nPUB storm.1.1.2 45\r\n", &head[..], part, b"\r\n"].concat();
        assert_eq!(commands, expected);
        let payload = &commands[commands.len() - 47..commands.len() - 2];
        assert_eq!(Head::read(payload), Some(HEAD));
        assert!(filling.is_whole(&HEAD, payload));
    }

    #[test]
    fn the_filling_is_drawn_from_a_stream_of_its_own() {
        let mut draw = Draw::new(1, 1_000_000);
        let first = [draw.below(256) as u8, draw.below(256) as u8];
        let filling = Filling::new(1);
        assert_eq!(filling.bytes.len(), 60_251);
        assert!(filling.bytes.starts_with(&first));
    }

    #[test]
    fn a_payload_that_was_changed_is_not_whole() {
        let filling = Filling::new(1);
        let mut commands = Vec::new();
        filling.put_message(&mut commands, "s", &HEAD);
        let whole = &commands[b"PUB s 45\r\n".len()..commands.len() - 2];
        assert!(filling.is_whole(&HEAD, whole));
        assert!(!filling.is_whole(&HEAD, &whole[..44]));
        assert!(!filling.is_whole(&HEAD, &[whole, b"x"].concat()));
        let mut other = whole.to_vec();
        other[44] ^= 1;
        assert!(!filling.is_whole(&HEAD, &other));
        let too_large = Head {
            size: usize::MAX,
            ..HEAD
        };
        assert!(!filling.is_whole(&too_large, whole));
    }

    #[test]
    fn a_payload_without_room_has_no_head() {
        assert_eq!(Head::read(&[0; 39]), None);
        assert!(Head::read(&[0; 40]).is_some());
    }
}
