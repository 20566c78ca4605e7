//! Lines of JSON, one object each.

use std::fmt::{self, Display, Write};

/// An object whose members are written one after another.
pub struct Object {
    text: String,
}

impl Object {
    pub fn new() -> Self {
        Object {
            text: String::from("{"),
        }
    }

    /// The object with a further member, whose value is a text.
    pub fn text(self, name: &str, value: &str) -> Self {
        self.member(name, Quoted(value))
    }

    /// The object with a further member, whose value is a number.
    pub fn number(self, name: &str, value: impl Into<u128>) -> Self {
        self.member(name, value.into())
    }

    /// The object with further members, whose values are numbers.
    pub fn numbers<N: Into<u128>>(
        self,
        members: impl IntoIterator<Item = (&'static str, N)>,
    ) -> Self {
        members
            .into_iter()
            .fold(self, |object, (name, value)| object.number(name, value))
    }

    fn member(mut self, name: &str, value: impl Display) -> Self {
        let comma = if self.text.len() > 1 { ", " } else { "" };
        self.text += &format!("{comma}{}: {value}", Quoted(name));
        self
    }
}

impl Display for Object {
    fn fmt(&self, formatter: &mut fmt::Formatter<'_>) -> fmt::Result {
        write!(formatter, "{}}}", self.text)
    }
}

/// A text in quotes, with the escapes of RFC 8259, section 7.
struct Quoted<'a>(&'a str);

impl Display for Quoted<'_> {
    fn fmt(&self, formatter: &mut fmt::Formatter<'_>) -> fmt::Result {
        formatter.write_char('"')?;
        for character in self.0.chars() {
            match character {
                '"' | '\\' => write!(formatter, "\\{character}")?,
                '\0'..='\x1f' => write!(formatter, "\\u{:04x}", u32::from(character))?,
                _ => formatter.write_char(character)?,
            }
        }
        formatter.write_char('"')
    }
}

#[cfg(test)]
mod tests {
    use super::*;

    #[test]
    fn members_stand_in_the_order_in_which_they_are_given() {
        let object = Object::new()
            .text("case", "storm")
            .number("sent", 3u64)
            .numbers([("lost", 0u64), ("doubled", 1)]);
        let line = r#"{"case": "storm", "sent": 3, "lost": 0, "doubled": 1}"#;
        assert_eq!(object.to_string(), line);
    }

    #[test]
    fn texts_are_escaped() {
        let object = Object::new().text("refusal", "a \"b\" \\ c\td é");
        let line = r#"{"refusal": "a \"b\" \\ c\u0009d é"}"#;
        assert_eq!(object.to_string(), line);
    }
}
