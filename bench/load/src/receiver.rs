//! A receiver.

use crate::batch::SUBJECT;
use crate::cases::{Flow, Wants};
use crate::connection::{Brought, Connection};
use crate::options::Options;
use crate::progress::Progress;
use crate::tally::Tally;
use std::io;
use std::time::Instant;

/// How many bytes of subscriptions are sent at once.
const WRITE_BYTES: usize = 65_536;

/// A receiver, with what has come to it.
pub struct Receiver {
    pub connection: Connection,
    /// To which of the groups it belongs of which one has to get each message.
    group: usize,
    pub tally: Tally,
    /// When the last bytes came.
    pub last: Option<Instant>,
    /// Whether the server has closed the connection.
    pub is_closed: bool,
}

impl Receiver {
    /// The receiver at this place, which connects to its server and subscribes.
    pub fn new(flow: &Flow, options: &Options, place: usize) -> io::Result<Self> {
        let mut connection = Connection::new(options.port_of(place))?;
        subscribe(&mut connection, flow, place)?;
        Ok(Receiver {
            connection,
            group: if flow.is_shared() { 0 } else { place },
            tally: Tally::new(flow.subscriptions(), flow.publishers, options.messages),
            last: None,
            is_closed: false,
        })
    }

    /// Reads until all publishers are done and nothing comes any more, or the server closes the
    /// connection.
    pub fn run(&mut self, progress: &Progress) -> io::Result<()> {
        loop {
            match self.connection.fill() {
                Brought::Bytes => {
                    self.connection.listen(|message| self.tally.hear(message))?;
                    self.last = Some(Instant::now());
                    progress.add(self.group, self.tally.take_untold());
                }
                Brought::Nothing if progress.has_ended() => return Ok(()),
                Brought::Nothing => {}
                Brought::End => {
                    self.is_closed = true;
                    return Ok(());
                }
            }
        }
    }
}

/// Makes the subscriptions of the receiver at this place, which have the numbers from 1 on.
fn subscribe(connection: &mut Connection, flow: &Flow, place: usize) -> io::Result<()> {
    let mut lines = Vec::new();
    for number in 1..=flow.subscriptions() {
        lines.extend_from_slice(line_of(flow, place, number).as_bytes());
        if lines.len() >= WRITE_BYTES {
            connection.send(&lines)?;
            lines.clear();
        }
    }
    connection.send(&lines)?;
    connection.settle()
}

/// The line of one subscription of the receiver at this place.
fn line_of(flow: &Flow, place: usize, number: usize) -> String {
    match flow.wants {
        Wants::All => format!("SUB {SUBJECT} {number}\r\n"),
        Wants::Members(_) => format!("SUB {SUBJECT} crew {number}\r\n"),
        Wants::Subjects(count) => {
            let subject = place * count + number - 1;
            format!("SUB bench.{subject:05} {number}\r\n")
        }
        Wants::Patterns(count) => {
            let pattern = place * count + number - 1;
            format!("SUB bench.{pattern:04}.* {number}\r\n")
        }
    }
}

#[cfg(test)]
mod tests {
    use super::*;

    #[test]
    fn subscriptions_are_what_receivers_want() {
        let flow = |wants| Flow {
            publishers: 1,
            receivers: 4,
            wants,
            subjects: 1,
        };
        let line = line_of(&flow(Wants::All), 2, 1);
        assert_eq!(line, "SUB bench.00000 1\r\n");
        let line = line_of(&flow(Wants::Members(2)), 2, 2);
        assert_eq!(line, "SUB bench.00000 crew 2\r\n");
        // the third receiver of 15,000 subjects each begins with the subject 30,000
        let line = line_of(&flow(Wants::Subjects(15_000)), 2, 1);
        assert_eq!(line, "SUB bench.30000 1\r\n");
        let line = line_of(&flow(Wants::Subjects(15_000)), 0, 43);
        assert_eq!(line, "SUB bench.00042 43\r\n");
        // the third receiver of 250 patterns each begins with the pattern 500
        let line = line_of(&flow(Wants::Patterns(250)), 2, 1);
        assert_eq!(line, "SUB bench.0500.* 1\r\n");
    }
}
