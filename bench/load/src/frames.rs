//! What a server sends to a client, by the client protocol of NATS.

/// The most digits that a subscription's number or a payload's size has here.
const MOST_DIGITS: usize = 9;

/// A message to a subscription.
#[derive(Clone, Copy, Debug, PartialEq, Eq)]
pub struct Message<'a> {
    pub subject: &'a [u8],
    /// The number that the client has given the subscription (`sid`).
    pub subscription: usize,
    /// Where a reply to it goes; empty where none is wanted.
    pub reply: &'a [u8],
    pub payload: &'a [u8],
}

/// What a server sends.
#[derive(Clone, Copy, Debug, PartialEq, Eq)]
pub enum Frame<'a> {
    Message(Message<'a>),
    /// The server asks whether the client is there.
    Ping,
    /// The answer to a PING.
    Pong,
    /// A line `-ERR`, with what stands behind the word.
    Refusal(&'a [u8]),
    /// A line `INFO` or `+OK`.
    Other,
}

/// The bytes are no frame.
#[derive(Clone, Copy, Debug, PartialEq, Eq)]
pub struct Malformed;

/// The frames at the beginning of some bytes, one after another, up to the first that is not whole.
pub struct Frames<'a> {
    rest: &'a [u8],
}

impl<'a> Frames<'a> {
    pub fn new(bytes: &'a [u8]) -> Self {
        Frames { rest: bytes }
    }

    /// The bytes behind the frames that were given.
    pub fn rest(&self) -> &'a [u8] {
        self.rest
    }
}

impl<'a> Iterator for Frames<'a> {
    type Item = Result<Frame<'a>, Malformed>;

    #[inline]
    fn next(&mut self) -> Option<Self::Item> {
        let (frame, rest) = match first_frame(self.rest).transpose()? {
            Ok(found) => found,
            Err(malformed) => return Some(Err(malformed)),
        };
        self.rest = rest;
        Some(Ok(frame))
    }
}

/// The first frame and what is behind it; none where more bytes are needed.
#[inline]
fn first_frame(bytes: &[u8]) -> Result<Option<(Frame<'_>, &[u8])>, Malformed> {
    let Some((line, rest)) = split_line(bytes) else {
        return Ok(None);
    };
    let (word, arguments) = split_word(line);
    let frame = match word {
        b"MSG" => return message(arguments, rest),
        b"PING" => Frame::Ping,
        b"PONG" => Frame::Pong,
        b"-ERR" => Frame::Refusal(arguments),
        b"INFO" | b"+OK" => Frame::Other,
        _ => return Err(Malformed),
    };
    Ok(Some((frame, rest)))
}

/// The message whose line has these arguments, with the payload that follows, and what is behind
/// it.
#[inline]
fn message<'a>(
    arguments: &'a [u8],
    rest: &'a [u8],
) -> Result<Option<(Frame<'a>, &'a [u8])>, Malformed> {
    let (subject, arguments) = split_word(arguments);
    let (subscription, arguments) = split_word(arguments);
    let (reply, size) = match split_word(arguments) {
        (size, b"") => (&b""[..], size),
        (reply, size) => (reply, size),
    };
    let subscription = number(subscription).ok_or(Malformed)?;
    let size = number(size).ok_or(Malformed)?;
    let Some((payload, rest)) = rest.split_at_checked(size) else {
        return Ok(None);
    };
    match rest {
        [b'\r', b'\n', rest @ ..] => {
            let message = Message {
                subject,
                subscription,
                reply,
                payload,
            };
            Ok(Some((Frame::Message(message), rest)))
        }
        [_, _, ..] => Err(Malformed),
        _ => Ok(None),
    }
}

/// The first line without its end, and what follows it.
#[inline]
fn split_line(bytes: &[u8]) -> Option<(&[u8], &[u8])> {
    let end = bytes.iter().position(|&byte| byte == b'\n')?;
    let line = &bytes[..end];
    let line = line.strip_suffix(b"\r").unwrap_or(line);
    Some((line, &bytes[end + 1..]))
}

/// The first word of a line, and what follows the blank behind it.
#[inline]
fn split_word(line: &[u8]) -> (&[u8], &[u8]) {
    match line.iter().position(|&byte| byte == b' ') {
        Some(end) => (&line[..end], &line[end + 1..]),
        None => (line, b""),
    }
}

/// The number that these digits are; none where there is another byte, no digit or too many.
#[inline]
fn number(digits: &[u8]) -> Option<usize> {
    if digits.is_empty() || digits.len() > MOST_DIGITS {
        return None;
    }
    digits.iter().try_fold(0, |number, byte| {
        let digit = byte.wrapping_sub(b'0');
        (digit <= 9).then(|| number * 10 + usize::from(digit))
    })
}

#[cfg(test)]
mod tests {
    use super::*;

    /// All frames of these bytes, and how many bytes are left behind them.
    fn frames(bytes: &[u8]) -> (Vec<Result<Frame<'_>, Malformed>>, usize) {
        let mut frames = Frames::new(bytes);
        let mut found = Vec::new();
        for frame in frames.by_ref() {
            found.push(frame);
            if frame.is_err() {
                break;
            }
        }
        (found, frames.rest().len())
    }

    const STREAM: &[u8] = b"INFO {\"server_id\":\"a\"}\r\n+OK\r\nMSG foo.bar 7 3\r\na\r\n\r\n\
        MSG q 12 _INBOX.1 0\r\n\r\nPING\r\nPONG\r\n-ERR 'Slow Consumer'\r\n";

    const OF_STREAM: [Frame<'_>; 7] = [
        Frame::Other,
        Frame::Other,
        Frame::Message(Message {
            subject: b"foo.bar",
            subscription: 7,
            reply: b"",
            payload: b"a\r\n",
        }),
        Frame::Message(Message {
            subject: b"q",
            subscription: 12,
            reply: b"_INBOX.1",
            payload: b"",
        }),
        Frame::Ping,
        Frame::Pong,
        Frame::Refusal(b"'Slow Consumer'"),
    ];

    #[test]
    fn frames_of_each_kind_are_read() {
        assert_eq!(frames(STREAM), (OF_STREAM.map(Ok).to_vec(), 0));
    }

    #[test]
    fn a_stream_in_two_parts_has_the_same_frames() {
        for cut in 0..STREAM.len() {
            let (mut found, left) = frames(&STREAM[..cut]);
            let (rest, _) = frames(&STREAM[cut - left..]);
            found.extend(rest);
            assert_eq!(found, OF_STREAM.map(Ok), "cut at {cut}");
        }
    }

    #[test]
    fn a_line_may_end_without_a_carriage_return() {
        assert_eq!(
            frames(b"PING\nPONG\n"),
            (vec![Ok(Frame::Ping), Ok(Frame::Pong)], 0)
        );
    }

    #[test]
    fn what_is_no_frame_is_refused() {
        for bytes in [
            &b"MESSAGE\r\n"[..],
            b"\r\n",
            b"ping\r\n",
            b"MSG foo 1\r\n",
            b"MSG foo x 0\r\n\r\n",
            b"MSG foo 1 -1\r\n\r\n",
            b"MSG foo 1 1234567890\r\n",
            b"MSG foo 1 reply 3 4\r\nabc\r\n",
            b"MSG foo 1 1\r\nabc\r\n",
        ] {
            let text = String::from_utf8_lossy(bytes);
            assert_eq!(frames(bytes).0, [Err(Malformed)], "{text:?}");
        }
    }

    #[test]
    fn numbers_have_up_to_nine_digits() {
        assert_eq!(number(b"0"), Some(0));
        assert_eq!(number(b"999999999"), Some(999_999_999));
        assert_eq!(number(b"0000000001"), None);
        assert_eq!(number(b"1a"), None);
        assert_eq!(number(b""), None);
    }
}
