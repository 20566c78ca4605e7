//! A publisher.

use crate::batch::{batch_of, window_of, Batch};
use crate::cases::Flow;
use crate::connection::Connection;
use crate::options::Options;
use crate::progress::Progress;
use std::io;
use std::time::Instant;

/// A publisher, with what it sends.
pub struct Publisher {
    pub connection: Connection,
    place: usize,
    batch: Batch,
    /// How many messages it sends, how many of them with one write, and how many may be on the way.
    messages: u64,
    at_once: u64,
    window: u64,
    /// How many messages it has sent.
    pub sent: u64,
    /// When the server had taken all of them.
    pub ended: Option<Instant>,
}

impl Publisher {
    /// The publisher at this place, which connects to the first server.
    pub fn new(flow: &Flow, options: &Options, place: usize) -> io::Result<Self> {
        let all = window_of(options.window, options.size);
        let window = (all / flow.publishers as u64).max(1);
        // where nobody receives, nothing is on the way
        let free = if flow.receivers == 0 {
            u64::MAX
        } else {
            window
        };
        let at_once = batch_of(free, options.size);
        Ok(Publisher {
            connection: Connection::new(options.ports[0])?,
            place,
            batch: Batch::new(
                flow.first_subject(),
                place,
                options.size,
                at_once,
                flow.subjects,
            ),
            messages: options.messages,
            at_once,
            window,
            sent: 0,
            ended: None,
        })
    }

    /// Sends all messages, and waits until all of them have come or no more come.
    pub fn run(&mut self, progress: &Progress) -> io::Result<()> {
        self.send_all(progress)?;
        self.connection.settle()?;
        self.ended = Some(Instant::now());
        progress.wait_for(self.place, self.sent);
        Ok(())
    }

    /// Sends all messages, as far as the receivers follow.
    fn send_all(&mut self, progress: &Progress) -> io::Result<()> {
        while self.sent < self.messages {
            let count = self.at_once.min(self.messages - self.sent);
            let sent = self.sent + count;
            if !progress.wait_for(self.place, sent.saturating_sub(self.window)) {
                break;
            }
            self.connection
                .send(self.batch.with_numbers(self.sent, count))?;
            self.sent = sent;
        }
        Ok(())
    }
}
