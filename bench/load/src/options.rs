//! The command line.

use crate::batch::LEAST_SIZE;
use crate::cases::{Case, CASES};
use std::fmt::{self, Display};
use std::io::{self, Read, Write};
use std::ops::RangeInclusive;

/// What `--version` tells.
pub const VERSION: &str = concat!("nats_load ", env!("CARGO_PKG_VERSION"));

/// What `--help` tells.
pub const HELP: &str = "\
Loads servers that speak the client protocol of NATS, and counts what comes

Usage: nats_load [OPTIONS] <CASE>

Arguments:
  <CASE>  [possible values: publish, one-to-one, one-to-eight, four-to-four, queue-group, \
requests, random-subjects, hot-subjects, patterns, mesh-queue-group, mesh-requests, storm]

Options:
      --held          Tells when all clients are ready, and waits for a line before anything is sent
      --port <N>      Where the clients of the first server come to [default: 4222]
      --second <N>    Where those of the second server come to, if there is one
      --third <N>     Where those of the third server come to, if there is one
      --size <N>      How many bytes a payload has [default: 16]
      --messages <N>  How many messages each publisher sends, or how many requests are made \
[default: 100000]
      --window <N>    How many messages are on the way at most, of all publishers together \
[default: 512]
      --seconds <N>   How many seconds a storm lasts [default: 60]
      --seed <N>      What the clients of a storm draw from [default: 1]
      --clients <N>   How many clients a storm has [default: 24]
  -h, --help          Print help
  -V, --version       Print version
";

const USAGE: &str = "Usage: nats_load [OPTIONS] <CASE>";

/// The ranges of the numbers.
const PORTS: RangeInclusive<u64> = 1..=65_535;
const SIZES: RangeInclusive<u64> = LEAST_SIZE as u64..=1_048_576;
const COUNTS: RangeInclusive<u64> = 1..=1_000_000_000;
const SECONDS: RangeInclusive<u64> = 1..=1_000_000;
const SEEDS: RangeInclusive<u64> = 0..=u64::MAX;
const CLIENTS: RangeInclusive<u64> = 1..=1_000;

/// What is to be run.
#[derive(Clone, Copy, Debug, PartialEq, Eq)]
pub struct Options {
    /// The case, and its name.
    pub case: Case,
    pub name: &'static str,
    /// Where the clients of three servers come to, which may be the same one.
    pub ports: [u16; 3],
    /// How many bytes a payload has.
    pub size: usize,
    /// How many messages each publisher sends, or how many requests are made.
    pub messages: u64,
    /// How many messages may be on the way.
    pub window: u64,
    /// Whether a line is waited for before anything is sent.
    pub is_held: bool,
    /// How many seconds a storm lasts, what its clients draw from, and how many there are.
    pub seconds: u64,
    pub seed: u64,
    pub clients: usize,
}

/// What a command line asks for.
#[derive(Clone, Copy, Debug, PartialEq, Eq)]
pub enum Request {
    Run(Options),
    Help,
    Version,
}

/// Why a command line is refused.
#[derive(Clone, Debug, PartialEq, Eq)]
pub struct Refusal(String);

impl Display for Refusal {
    fn fmt(&self, formatter: &mut fmt::Formatter<'_>) -> fmt::Result {
        let Refusal(cause) = self;
        write!(
            formatter,
            "error: {cause}\n\n{USAGE}\n\nFor more information, try '--help'."
        )
    }
}

impl Options {
    /// Where the clients of the server come to that is the turn of this place.
    pub fn port_of(&self, place: usize) -> u16 {
        self.ports[place % self.ports.len()]
    }

    /// Where the command line says so: tells that all clients are ready, and waits for a byte, or
    /// the end of input.
    pub fn hold(&self) -> io::Result<()> {
        if self.is_held {
            writeln!(io::stdout(), "{{\"ready\": true}}")?;
            let _count = io::stdin().read(&mut [0])?;
        }
        Ok(())
    }
}

/// What the words of a command line behind the program's name ask for.
///
/// A word for help or the version counts from where it stands, whatever follows. The first word
/// that is refused is told; that there is no case is told last.
pub fn read(words: impl IntoIterator<Item = String>) -> Result<Request, Refusal> {
    let mut words = words.into_iter().peekable();
    let mut given = Given::default();
    let mut is_option = true;
    while let Some(word) = words.next() {
        match word.as_str() {
            "--help" | "-h" if is_option => return Ok(Request::Help),
            "--version" | "-V" if is_option => return Ok(Request::Version),
            "--" if is_option => is_option = false,
            _ if is_option && looks_like_option(&word) => {
                let (name, attached) = match word.split_once('=') {
                    Some((name, value)) => (name, Some(value.to_string())),
                    None => (word.as_str(), None),
                };
                let next = || words.next_if(|word| !looks_like_option(word));
                given.set_option(name, attached, next)?;
            }
            _ => given.set_case(&word)?,
        }
    }
    given.into_options().map(Request::Run)
}

fn looks_like_option(word: &str) -> bool {
    word.starts_with('-') && word != "-"
}

/// What was given until now.
#[derive(Default)]
struct Given {
    case: Option<(&'static str, Case)>,
    ports: [Option<u16>; 3],
    size: Option<usize>,
    messages: Option<u64>,
    window: Option<u64>,
    is_held: bool,
    seconds: Option<u64>,
    seed: Option<u64>,
    clients: Option<usize>,
}

impl Given {
    fn set_case(&mut self, name: &str) -> Result<(), Refusal> {
        if self.case.is_some() {
            return Err(unexpected(name));
        }
        let found = CASES.into_iter().find(|(known, _)| *known == name);
        self.case = Some(found.ok_or_else(|| {
            let names = CASES.map(|(name, _)| name).join(", ");
            Refusal(format!(
                "invalid value '{name}' for '<CASE>'\n  [possible values: {names}]"
            ))
        })?);
        Ok(())
    }

    /// Sets the option of this name. Where it has a value, that is attached to it or comes next.
    fn set_option(
        &mut self,
        name: &str,
        attached: Option<String>,
        next: impl FnOnce() -> Option<String>,
    ) -> Result<(), Refusal> {
        if name == "--held" {
            return self.set_held(attached.as_deref());
        }
        let value = || attached.or_else(next);
        match name {
            "--port" => set(&mut self.ports[0], PORTS, name, value),
            "--second" => set(&mut self.ports[1], PORTS, name, value),
            "--third" => set(&mut self.ports[2], PORTS, name, value),
            "--size" => set(&mut self.size, SIZES, name, value),
            "--messages" => set(&mut self.messages, COUNTS, name, value),
            "--window" => set(&mut self.window, COUNTS, name, value),
            "--seconds" => set(&mut self.seconds, SECONDS, name, value),
            "--seed" => set(&mut self.seed, SEEDS, name, value),
            "--clients" => set(&mut self.clients, CLIENTS, name, value),
            _ => Err(unexpected(name)),
        }
    }

    fn set_held(&mut self, attached: Option<&str>) -> Result<(), Refusal> {
        if let Some(value) = attached {
            let cause =
                format!("unexpected value '{value}' for '--held' found; no more were expected");
            return Err(Refusal(cause));
        }
        if self.is_held {
            return Err(repeated("--held"));
        }
        self.is_held = true;
        Ok(())
    }

    fn into_options(self) -> Result<Options, Refusal> {
        let missing = "the following required arguments were not provided:\n  <CASE>";
        let (name, case) = self.case.ok_or_else(|| Refusal(missing.to_string()))?;
        let [first, second, third] = self.ports;
        let first = first.unwrap_or(4222);
        Ok(Options {
            case,
            name,
            ports: [first, second.unwrap_or(first), third.unwrap_or(first)],
            size: self.size.unwrap_or(16),
            messages: self.messages.unwrap_or(100_000),
            window: self.window.unwrap_or(512),
            is_held: self.is_held,
            seconds: self.seconds.unwrap_or(60),
            seed: self.seed.unwrap_or(1),
            clients: self.clients.unwrap_or(24),
        })
    }
}

/// Sets an option that is a number to the value that is given, unless it was set before.
fn set<T: TryFrom<u64>>(
    option: &mut Option<T>,
    range: RangeInclusive<u64>,
    name: &str,
    value: impl FnOnce() -> Option<String>,
) -> Result<(), Refusal> {
    if option.is_some() {
        return Err(repeated(&format!("{name} <N>")));
    }
    let missing = || format!("a value is required for '{name} <N>' but none was supplied");
    let text = value().ok_or_else(|| Refusal(missing()))?;
    let refused =
        |cause: &dyn Display| Refusal(format!("invalid value '{text}' for '{name} <N>': {cause}"));
    let number: u64 = text.parse().map_err(|error| refused(&error))?;
    let (least, most) = range.into_inner();
    let value = T::try_from(number)
        .ok()
        .filter(|_| (least..=most).contains(&number));
    let outside = || refused(&format_args!("{number} is not in {least}..={most}"));
    *option = Some(value.ok_or_else(outside)?);
    Ok(())
}

fn unexpected(word: &str) -> Refusal {
    Refusal(format!("unexpected argument '{word}' found"))
}

fn repeated(option: &str) -> Refusal {
    Refusal(format!(
        "the argument '{option}' cannot be used multiple times"
    ))
}

#[cfg(test)]
mod tests {
    use super::*;

    fn read_words(words: &str) -> Result<Request, Refusal> {
        read(words.split_whitespace().map(String::from))
    }

    fn options(words: &str) -> Options {
        match read_words(words) {
            Ok(Request::Run(options)) => options,
            other => panic!("{words}: {other:?}"),
        }
    }

    /// Why these words are refused, up to the end of a line.
    fn refusal(words: &str) -> String {
        match read_words(words) {
            Err(Refusal(cause)) => cause.lines().next().unwrap_or_default().to_string(),
            Ok(request) => panic!("{words}: {request:?}"),
        }
    }

    #[test]
    fn what_is_left_out_has_a_default() {
        let expected = Options {
            case: Case::Storm,
            name: "storm",
            ports: [4222; 3],
            size: 16,
            messages: 100_000,
            window: 512,
            is_held: false,
            seconds: 60,
            seed: 1,
            clients: 24,
        };
        assert_eq!(options("storm"), expected);
    }

    #[test]
    fn options_stand_before_and_behind_the_case() {
        let given =
            options("--port 1 --size=4096 requests --held --third 65535 --messages 7 --window=9");
        assert_eq!((given.name, given.case), ("requests", Case::RoundTrips));
        assert_eq!(given.ports, [1, 1, 65_535]);
        assert_eq!(
            [given.port_of(1), given.port_of(2), given.port_of(3)],
            [1, 65_535, 1]
        );
        assert_eq!((given.size, given.messages, given.window), (4_096, 7, 9));
        assert!(given.is_held);
        let given =
            options("--second 2 --seconds 3 --seed 18446744073709551615 --clients 4 -- storm");
        assert_eq!(given.ports, [4222, 2, 4222]);
        assert_eq!((given.seconds, given.seed, given.clients), (3, u64::MAX, 4));
    }

    #[test]
    fn each_case_has_its_name_in_the_help() {
        for (name, case) in CASES {
            assert_eq!(options(name).case, case);
        }
        let names = CASES.map(|(name, _)| name).join(", ");
        assert!(HELP.contains(&format!("[possible values: {names}]")));
    }

    #[test]
    fn help_and_version_come_before_what_follows() {
        for words in ["-h", "--help", "storm --help --port x"] {
            assert_eq!(read_words(words), Ok(Request::Help));
        }
        for words in ["-V", "--version", "--port 1 --version --help"] {
            assert_eq!(read_words(words), Ok(Request::Version));
        }
    }

    #[test]
    fn numbers_are_within_their_ranges() {
        for (words, cause) in [
            (
                "--port 0",
                "invalid value '0' for '--port <N>': 0 is not in 1..=65535",
            ),
            (
                "--third 65536",
                "invalid value '65536' for '--third <N>': 65536 is not in 1..=65535",
            ),
            (
                "--size 15",
                "invalid value '15' for '--size <N>': 15 is not in 16..=1048576",
            ),
            (
                "--clients 1001",
                "invalid value '1001' for '--clients <N>': 1001 is not in 1..=1000",
            ),
            (
                "--window x",
                "invalid value 'x' for '--window <N>': invalid digit found in string",
            ),
            (
                "--seed 18446744073709551616",
                "invalid value '18446744073709551616' for '--seed <N>': \
                 number too large to fit in target type",
            ),
        ] {
            assert_eq!(refusal(&format!("{words} storm")), cause);
        }
    }

    #[test]
    fn other_words_are_refused() {
        for (words, cause) in [
            ("", "the following required arguments were not provided:"),
            (
                "--held",
                "the following required arguments were not provided:",
            ),
            ("publishing", "invalid value 'publishing' for '<CASE>'"),
            ("publish publish", "unexpected argument 'publish' found"),
            ("publish --ports 1", "unexpected argument '--ports' found"),
            ("publish -x", "unexpected argument '-x' found"),
            ("publish -- --held", "unexpected argument '--held' found"),
            (
                "publish --port",
                "a value is required for '--port <N>' but none was supplied",
            ),
            (
                "publish --port=",
                "invalid value '' for '--port <N>': cannot parse integer from empty string",
            ),
            (
                "publish --held=1",
                "unexpected value '1' for '--held' found; no more were expected",
            ),
            (
                "--port --held",
                "a value is required for '--port <N>' but none was supplied",
            ),
            (
                "--port 1 --port 1",
                "the argument '--port <N>' cannot be used multiple times",
            ),
            (
                "--held --held",
                "the argument '--held' cannot be used multiple times",
            ),
        ] {
            assert_eq!(refusal(words), cause);
        }
    }
}
