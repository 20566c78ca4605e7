//! The subjects of a storm and the patterns over them, each of two tokens behind the storm's own
//! beginning.

use crate::storm::draw::Draw;
use crate::storm::tables::{Reach, REACHES};

/// The tokens, any of which stands first and second.
const TOKENS: [&str; 6] = ["0", "1", "2", "3", "4", "5"];

/// How many subjects there are. A subject's number is that of its first token, times the number of
/// tokens, and that of its second token.
pub const SUBJECT_COUNT: usize = TOKENS.len() * TOKENS.len();

/// The numbers of a subject's tokens.
fn tokens_of(subject: usize) -> (usize, usize) {
    (subject / TOKENS.len(), subject % TOKENS.len())
}

/// A pattern that matches a subject, and those that its reach says.
#[derive(Clone, Copy, Debug)]
pub struct Pattern {
    pub reach: Reach,
    pub subject: usize,
}

impl Pattern {
    /// The pattern that matches all subjects.
    pub const ALL: Pattern = Pattern {
        reach: Reach::All,
        subject: 0,
    };

    /// A drawn pattern.
    pub fn drawn(draw: &mut Draw) -> Self {
        Pattern {
            reach: draw.weighted(&REACHES),
            subject: draw.place(SUBJECT_COUNT),
        }
    }

    /// Whether it matches this subject.
    pub fn matches(self, subject: usize) -> bool {
        let (first, second) = tokens_of(self.subject);
        let (its_first, its_second) = tokens_of(subject);
        match self.reach {
            Reach::One => self.subject == subject,
            Reach::First => first == its_first,
            Reach::Second => second == its_second,
            Reach::All => true,
        }
    }

    /// Its two tokens.
    fn tokens(self) -> (&'static str, &'static str) {
        let (first, second) = tokens_of(self.subject);
        match self.reach {
            Reach::One => (TOKENS[first], TOKENS[second]),
            Reach::First => (TOKENS[first], "*"),
            Reach::Second => ("*", TOKENS[second]),
            Reach::All => ("*", ">"),
        }
    }
}

/// The subjects of a storm, which a storm of another seed does not have.
pub struct Subjects {
    seed: u64,
    texts: Vec<String>,
}

impl Subjects {
    /// The subjects of the storm of this seed.
    pub fn new(seed: u64) -> Self {
        let text = |subject| {
            let (first, second) = tokens_of(subject);
            format!("storm.{seed}.{}.{}", TOKENS[first], TOKENS[second])
        };
        Subjects {
            seed,
            texts: (0..SUBJECT_COUNT).map(text).collect(),
        }
    }

    /// The text of this subject; none where there is no such subject.
    pub fn text(&self, subject: usize) -> Option<&str> {
        self.texts.get(subject).map(String::as_str)
    }

    /// The text of this pattern.
    pub fn pattern_text(&self, pattern: Pattern) -> String {
        let (first, second) = pattern.tokens();
        format!("storm.{}.{first}.{second}", self.seed)
    }
}

#[cfg(test)]
mod tests {
    use super::*;

    /// The pattern of this reach and subject, as text, and the subjects that it matches.
    fn pattern(reach: Reach, subject: usize) -> (String, Vec<usize>) {
        let pattern = Pattern { reach, subject };
        let text = Subjects::new(9).pattern_text(pattern);
        let matched = (0..SUBJECT_COUNT).filter(|&other| pattern.matches(other));
        (text, matched.collect())
    }

    #[test]
    fn subjects_have_two_tokens() {
        let subjects = Subjects::new(7);
        // 8 is 1 times 6, and 2
        assert_eq!(subjects.text(8), Some("storm.7.1.2"));
        assert_eq!(subjects.text(35), Some("storm.7.5.5"));
        assert_eq!(subjects.text(36), None);
    }

    #[test]
    fn patterns_match_as_their_texts_do() {
        assert_eq!(pattern(Reach::One, 8), ("storm.9.1.2".into(), vec![8]));
        let first = vec![6, 7, 8, 9, 10, 11];
        assert_eq!(pattern(Reach::First, 8), ("storm.9.1.*".into(), first));
        let second = vec![2, 8, 14, 20, 26, 32];
        assert_eq!(pattern(Reach::Second, 8), ("storm.9.*.2".into(), second));
        let all = (0..36).collect();
        assert_eq!(pattern(Reach::All, 8), ("storm.9.*.>".into(), all));
    }
}
