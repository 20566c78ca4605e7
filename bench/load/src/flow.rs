//! Messages that flow from publishers to receivers.

use crate::cases::Flow;
use crate::figures::Figures;
use crate::options::Options;
use crate::progress::Progress;
use crate::publisher::Publisher;
use crate::receiver::Receiver;
use crate::tally::Tally;
use crate::threads;
use std::io;
use std::thread;
use std::time::Instant;

/// Runs a case in which messages flow.
///
/// The error is that of a connection, or of the system where there is no thread.
pub fn run(flow: &Flow, options: &Options) -> io::Result<Figures> {
    let receivers = (0..flow.receivers).map(|place| Receiver::new(flow, options, place));
    let mut receivers = receivers.collect::<io::Result<Vec<_>>>()?;
    let publishers = (0..flow.publishers).map(|place| Publisher::new(flow, options, place));
    let mut publishers = publishers.collect::<io::Result<Vec<_>>>()?;
    // where one publisher is heard, those beside it at the same server are
    if let Some(first) = publishers.first_mut() {
        for receiver in &mut receivers {
            first.connection.reach(&mut receiver.connection)?;
        }
    }
    options.hold()?;
    let progress = Progress::new(flow.groups(), flow.publishers);
    let start = Instant::now();
    run_all(&mut receivers, &mut publishers, &progress)?;
    Ok(figures_of(flow, receivers, publishers, start))
}

/// Runs all receivers and publishers to their end, each in a thread.
fn run_all(
    receivers: &mut [Receiver],
    publishers: &mut [Publisher],
    progress: &Progress,
) -> io::Result<()> {
    // made before any receiver runs, so that it sees them end also where there is no thread for one
    // of them
    let publishing: Vec<_> = publishers.iter().map(|_| progress.publishing()).collect();
    thread::scope(|scope| {
        let mut running = Vec::new();
        for receiver in receivers {
            running.push(threads::spawn(scope, || receiver.run(progress))?);
        }
        for (publisher, publishing) in publishers.iter_mut().zip(publishing) {
            running.push(threads::spawn(scope, move || {
                let _publishing = publishing;
                publisher.run(progress)
            })?);
        }
        running.into_iter().try_for_each(threads::join)
    })
}

/// The figures of all receivers and publishers.
fn figures_of(
    flow: &Flow,
    receivers: Vec<Receiver>,
    publishers: Vec<Publisher>,
    start: Instant,
) -> Figures {
    let mut figures = Figures::default();
    let mut joined: Option<Tally> = None;
    for receiver in receivers {
        if let Some(last) = receiver.last {
            figures.delivering = figures.delivering.max(last - start);
        }
        figures.closed += u64::from(receiver.is_closed);
        figures.keep(receiver.connection);
        add_tally(&mut figures, &mut joined, receiver.tally, flow);
    }
    for publisher in publishers {
        figures.sent += publisher.sent;
        if let Some(ended) = publisher.ended {
            figures.sending = figures.sending.max(ended - start);
        }
        figures.keep(publisher.connection);
    }
    let wanted = figures.sent * flow.groups() as u64;
    figures.lost = wanted.saturating_sub(figures.delivered);
    figures
}

/// Adds what has come to a receiver. Where the receivers are one set, a message that two of them
/// have got is doubled.
fn add_tally(figures: &mut Figures, joined: &mut Option<Tally>, tally: Tally, flow: &Flow) {
    figures.delivered += tally.arrived;
    figures.doubled += tally.doubled;
    figures.disordered += tally.disordered;
    figures.strange += tally.strange;
    if !flow.is_shared() {
        return;
    }
    match joined {
        Some(joined) => {
            let both = joined.join(&tally);
            figures.doubled += both;
            figures.delivered -= both;
        }
        None => *joined = Some(tally),
    }
}
