//! Requests, and how long their replies take.

use crate::batch::Batch;
use crate::connection::{closed, Brought, Connection};
use crate::figures::Figures;
use crate::frames::Message;
use crate::options::Options;
use crate::progress::Progress;
use crate::tally::Tally;
use crate::threads;
use std::io;
use std::thread;
use std::time::{Duration, Instant};

/// What stands behind `PUB` in a request: the subject, and where the reply goes.
const REQUEST: &str = "bench.service _INBOX.bench.1";

/// How many reads may bring nothing before a reply counts as lost: two seconds of them.
const READS_IN_VAIN: u32 = 20;

/// Runs a case of requests.
///
/// The error is that of a connection, or of the system where there is no thread.
pub fn run(options: &Options) -> io::Result<Figures> {
    let mut asker = Asker::new(options)?;
    let mut answerer = Answerer::new(options)?;
    asker.connection.reach(&mut answerer.connection)?;
    answerer.connection.reach(&mut asker.connection)?;
    options.hold()?;
    let progress = Progress::new(0, 1);
    let publishing = progress.publishing();
    thread::scope(|scope| {
        let answering = threads::spawn(scope, || answerer.run(&progress))?;
        let asking = threads::spawn(scope, || {
            let _publishing = publishing;
            asker.run(options.messages)
        })?;
        threads::join(answering)?;
        threads::join(asking)
    })?;
    Ok(figures_of(asker, answerer))
}

fn figures_of(asker: Asker, answerer: Answerer) -> Figures {
    let mut figures = Figures {
        sent: asker.sent,
        sending: asker.time,
        delivered: asker.tally.arrived,
        delivering: asker.time,
        lost: asker.sent.saturating_sub(asker.tally.arrived),
        doubled: asker.tally.doubled,
        disordered: asker.tally.disordered,
        strange: asker.tally.strange,
        closed: answerer.is_closed.into(),
        trips: asker.trips,
        ..Figures::default()
    };
    figures.keep(answerer.connection);
    figures.keep(asker.connection);
    figures
}

/// Makes requests at the first server, one after another.
struct Asker {
    connection: Connection,
    request: Batch,
    tally: Tally,
    /// How long each reply took.
    trips: Vec<Duration>,
    sent: u64,
    /// How long all of them took.
    time: Duration,
}

impl Asker {
    fn new(options: &Options) -> io::Result<Self> {
        let mut connection = Connection::new(options.ports[0])?;
        connection.send(b"SUB _INBOX.bench.* 1\r\n")?;
        Ok(Asker {
            connection,
            request: Batch::new(REQUEST, 0, options.size, 1, 1),
            tally: Tally::new(1, 1, options.messages),
            trips: Vec::new(),
            sent: 0,
            time: Duration::ZERO,
        })
    }

    /// Makes so many requests.
    fn run(&mut self, requests: u64) -> io::Result<()> {
        let first = Instant::now();
        for number in 0..requests {
            let start = Instant::now();
            self.sent = number + 1;
            self.connection.send(self.request.with_numbers(number, 1))?;
            if self.await_reply()? {
                self.trips.push(start.elapsed());
            }
        }
        self.time = first.elapsed();
        self.connection.settle()
    }

    /// Waits for a reply: whether one came.
    fn await_reply(&mut self) -> io::Result<bool> {
        let arrived = self.tally.arrived;
        let mut in_vain = 0;
        while self.tally.arrived == arrived {
            match self.connection.fill() {
                Brought::Bytes => {
                    self.connection.listen(|message| self.tally.hear(message))?;
                }
                Brought::Nothing if in_vain < READS_IN_VAIN => in_vain += 1,
                Brought::Nothing => return Ok(false),
                Brought::End => return Err(closed()),
            }
        }
        Ok(true)
    }
}

/// Replies to what comes to it at the second server.
struct Answerer {
    connection: Connection,
    /// Whether the server has closed the connection.
    is_closed: bool,
}

impl Answerer {
    fn new(options: &Options) -> io::Result<Self> {
        let mut connection = Connection::new(options.ports[1])?;
        connection.send(b"SUB bench.service 1\r\n")?;
        Ok(Answerer {
            connection,
            is_closed: false,
        })
    }

    /// Replies until all requests were made, or the server closes the connection.
    fn run(&mut self, progress: &Progress) -> io::Result<()> {
        let mut replies = Vec::new();
        loop {
            match self.connection.fill() {
                Brought::Bytes => {
                    self.connection
                        .listen(|request| put_reply(&mut replies, request))?;
                    self.connection.send(&replies)?;
                    replies.clear();
                }
                Brought::Nothing if progress.has_ended() => return Ok(()),
                Brought::Nothing => {}
                Brought::End => {
                    self.is_closed = true;
                    return Ok(());
                }
            }
        }
    }
}

/// Puts the reply to a request behind the others: the payload of the request comes back. What wants
/// no reply gets none.
fn put_reply(replies: &mut Vec<u8>, request: &Message<'_>) {
    if request.reply.is_empty() {
        return;
    }
    let size = request.payload.len().to_string();
    let parts = [
        b"PUB ",
        request.reply,
        b" ",
        size.as_bytes(),
        b"\r\n",
        request.payload,
        b"\r\n",
    ];
    for part in parts {
        replies.extend_from_slice(part);
    }
}

#[cfg(test)]
mod tests {
    use super::*;

    #[test]
    fn replies_have_the_payloads_of_requests() {
        let mut replies = Vec::new();
        let mut request = Message {
            subject: b"bench.service",
            subscription: 1,
            reply: b"_INBOX.bench.1",
            payload: b"abcdefghijkl",
        };
        put_reply(&mut replies, &request);
        request.reply = b"";
        put_reply(&mut replies, &request);
        assert_eq!(replies, b"PUB _INBOX.bench.1 12\r\nabcdefghijkl\r\n");
    }
}
