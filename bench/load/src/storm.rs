//! A storm of clients, which judges every message that comes to one of them.
//!
//! Each client draws what it does next from a table: it publishes, subscribes, joins queue groups,
//! reads, leaves in the middle of a command, floods, or never reads. When it has gone, it comes
//! again. Whatever it hears is held against what was published: bytes, subject, order, and that no
//! queue group has a message twice. The same seed draws the same actions; which messages meet which
//! subscriptions is up to the servers' and the threads' time.
//!
//! In reading order: `tables` is what clients do and how often, and `draw` how it is drawn;
//! `subjects` and `payloads` are what they publish; `deliveries` notes what each queue group was
//! given, and `scene` is what all clients share; `judge` hears, and `verdict` is what it found;
//! `client` lives.

mod client;
mod deliveries;
mod draw;
mod judge;
mod payloads;
mod scene;
mod subjects;
mod tables;
mod verdict;

use crate::cases::{Flow, Wants};
use crate::figures::rate;
use crate::flow;
use crate::json::Object;
use crate::options::Options;
use crate::threads;
use client::Client;
use scene::Scene;
use std::io;
use std::thread;
use std::time::Duration;
use verdict::Verdict;

/// What flows behind a storm, from the first server to each: of it nothing may be lost, since
/// nobody is slow.
const BEHIND: Flow = Flow {
    publishers: 1,
    receivers: 3,
    wants: Wants::All,
    subjects: 1,
};

/// How many messages flow behind a storm, and how many of them are on the way at most.
const MESSAGES: u64 = 1_000;
const WINDOW: u64 = 64;

/// What a storm came to, and what flowed behind it.
pub struct Outcome {
    verdict: Verdict,
    /// How much went wrong in what flowed behind it; 1 where it did not flow.
    behind: u64,
}

/// Runs a storm, and then a flow of messages at the same servers.
///
/// The error is that of a client that does not even come for the first time, or of the system where
/// it lacks memory or a thread.
pub fn run(options: &Options) -> io::Result<Outcome> {
    let verdict = verdict_of(&Scene::new(options))?;
    let behind = Options {
        messages: MESSAGES,
        window: WINDOW,
        is_held: false,
        ..*options
    };
    let behind = flow::run(&BEHIND, &behind).map_or(1, |figures| figures.flaws());
    Ok(Outcome { verdict, behind })
}

/// What came to all clients, each in a thread.
fn verdict_of(scene: &Scene) -> io::Result<Verdict> {
    thread::scope(|scope| {
        let mut running = Vec::new();
        for place in 0..scene.clients {
            running.push(threads::spawn(scope, move || {
                Client::new(scene, place)?.run()
            })?);
        }
        let mut sum = Verdict::default();
        for client in running {
            sum.add(&threads::join(client)?);
        }
        Ok(sum)
    })
}

impl Outcome {
    /// Whether no fault was found.
    pub fn is_good(&self) -> bool {
        self.behind == 0 && self.verdict.fault_count() == 0
    }

    /// What is told of the storm.
    pub fn told(&self, options: &Options) -> Object {
        let verdict = &self.verdict;
        let time = Duration::from_secs(options.seconds);
        Object::new()
            .text("case", options.name)
            .numbers([
                ("seed", u128::from(options.seed)),
                ("clients", options.clients as u128),
                ("seconds", options.seconds.into()),
                ("connections", verdict.lives.into()),
                ("sent", verdict.sent.into()),
                ("delivered", verdict.heard.into()),
                ("delivered_per_second", rate(verdict.heard, time)),
                ("slow_consumers", verdict.slow.into()),
                ("closed", verdict.closed.into()),
                ("faults_behind", self.behind.into()),
            ])
            .numbers(verdict.faults())
            .text("first_fault", &verdict.first)
    }
}
