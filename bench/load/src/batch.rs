//! The frames that a publisher sends.

/// The first subject. The others have other digits.
pub const SUBJECT: &str = "bench.00000";

/// The first subject where there are patterns: the last digit is a token of its own.
pub const SUBJECT_OF_PATTERN: &str = "bench.0000.0";

/// Where the five digits of a subject's number are in a frame: behind `PUB bench.`, among so many
/// bytes.
const DIGITS_AT: usize = 10;
const DIGITS_WITHIN: usize = 6;

/// The fewest bytes that a payload has: its message's number, and that of its publisher.
pub const LEAST_SIZE: usize = 16;

/// What pads a payload.
const PADDING: u8 = b'x';

/// About how many bytes are written at once.
const WRITE_BYTES: u64 = 65_536;

/// The most bytes of payloads that are on the way from all publishers together.
const BYTES_ON_THE_WAY: u64 = 4_194_304;

/// How many messages of this size are on the way at once, where so many may be.
pub fn window_of(window: u64, size: usize) -> u64 {
    window.min(BYTES_ON_THE_WAY / size as u64).max(1)
}

/// How many messages of this size are sent with one write, where so many may be on the way.
pub fn batch_of(window: u64, size: usize) -> u64 {
    let fitting = WRITE_BYTES / (size as u64 + 32);
    fitting.min(window / 2).max(1)
}

/// Chooses subjects as it were at random, the same ones each time: a linear congruential generator
/// by Knuth (MMIX).
struct Chooser {
    state: u64,
    subjects: u64,
}

impl Chooser {
    fn next(&mut self) -> u64 {
        self.state = self
            .state
            .wrapping_mul(6_364_136_223_846_793_005)
            .wrapping_add(1_442_695_040_888_963_407);
        (self.state >> 33) % self.subjects
    }
}

/// Frames of equal length, which are sent with one write.
pub struct Batch {
    bytes: Vec<u8>,
    frame_length: usize,
    /// Where in a frame the message's number is.
    number_at: usize,
    chooser: Chooser,
}

impl Batch {
    /// So many frames of this publisher, with these words behind `PUB` and payloads of this size,
    /// of at least 16 bytes. Where there is more than one subject, the words begin with one, and
    /// each frame goes to one of so many.
    pub fn new(words: &str, publisher: usize, size: usize, count: u64, subjects: u64) -> Self {
        let mut frame = format!("PUB {words} {size}\r\n").into_bytes();
        let number_at = frame.len();
        frame.extend_from_slice(&[0; 8]);
        frame.extend_from_slice(&(publisher as u64).to_le_bytes());
        frame.resize(number_at + size, PADDING);
        frame.extend_from_slice(b"\r\n");
        Batch {
            bytes: frame.repeat(count as usize),
            frame_length: frame.len(),
            number_at,
            chooser: Chooser { state: 1, subjects },
        }
    }

    /// The first frames, so many, with the numbers from this one on, each to a subject of its own
    /// choice.
    pub fn with_numbers(&mut self, first: u64, count: u64) -> &[u8] {
        let end = self.frame_length * count as usize;
        let frames = self.bytes[..end].chunks_exact_mut(self.frame_length);
        for (frame, number) in frames.zip(first..) {
            frame[self.number_at..][..8].copy_from_slice(&number.to_le_bytes());
            if self.chooser.subjects > 1 {
                put_digits(
                    &mut frame[DIGITS_AT..][..DIGITS_WITHIN],
                    self.chooser.next(),
                );
            }
        }
        &self.bytes[..end]
    }
}

/// Puts the last digits of a number where there are digits.
fn put_digits(place: &mut [u8], mut number: u64) {
    for digit in place.iter_mut().rev().filter(|byte| byte.is_ascii_digit()) {
        *digit = b'0' + (number % 10) as u8;
        number /= 10;
    }
}

#[cfg(test)]
mod tests {
    use super::*;

    #[test]
    fn frames_have_numbers_and_publishers() {
        let mut batch = Batch::new(SUBJECT, 3, 18, 2, 1);
        let expected = b"PUB bench.00000 18\r\n\x05\x01\0\0\0\0\0\0\x03\0\0\0\0\0\0\0xx\r\n\
            PUB bench.00000 18\r\n\x06\x01\0\0\0\0\0\0\x03\0\0\0\0\0\0\0xx\r\n";
        assert_eq!(batch.with_numbers(261, 2), expected);
        let expected = b"PUB bench.00000 18\r\n\0\0\0\0\0\0\0\0\x03\0\0\0\0\0\0\0xx\r\n";
        assert_eq!(batch.with_numbers(0, 1), expected);
    }

    #[test]
    fn subjects_are_chosen() {
        // From the state 1: 6,364,136,223,846,793,005 + 1,442,695,040,888,963,407 =
        // 7,806,831,264,735,756,412. Without its last 33 bits that is 908,834,774, and the
        // remainder by 60,000 is 14,774.
        let mut batch = Batch::new(SUBJECT, 0, 16, 1, 60_000);
        assert!(batch
            .with_numbers(0, 1)
            .starts_with(b"PUB bench.14774 16\r\n"));
    }

    #[test]
    fn digits_are_padded() {
        let mut place = *b"00000 ";
        put_digits(&mut place, 42);
        assert_eq!(&place, b"00042 ");
        put_digits(&mut place, 59_999);
        assert_eq!(&place, b"59999 ");
        let mut place = *b"0000.0";
        put_digits(&mut place, 4_207);
        assert_eq!(&place, b"0420.7");
    }

    #[test]
    fn windows_and_batches_fit() {
        // 4,194,304 / 65,536 = 64, and 4,194,304 / 4,096 = 1,024
        assert_eq!(window_of(512, 16), 512);
        assert_eq!(window_of(512, 65_536), 64);
        assert_eq!(window_of(5_000, 4_096), 1_024);
        assert_eq!(window_of(0, 16), 1);
        // 65,536 / 48 = 1,365.3, and 65,536 / 4,128 = 15.9
        assert_eq!(batch_of(u64::MAX, 16), 1_365);
        assert_eq!(batch_of(512, 16), 256);
        assert_eq!(batch_of(512, 4_096), 15);
        assert_eq!(batch_of(1, 1_048_576), 1);
    }
}
