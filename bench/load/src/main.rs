//! Loads servers that speak the client protocol of NATS: `nats_load CASE --port PORT` makes
//! publishers and subscribers, each with a connection and a thread of its own, and tells in one
//! line of JSON how fast messages came and which of them were lost, doubled or out of order.
//! `nats_load storm` has clients that come and go, flood and stall, and judges each message that
//! comes to one of them; its status is 1 where a server did what it must not do.
//!
//! ```text
//! nats_load one-to-eight --port 4222
//! nats_load storm --port 4222 --second 4223 --third 4224 --seconds 600
//! ```
//!
//! In reading order: `options` are what is asked for, and `cases` who publishes what to whom. A
//! `connection` reads `frames`. In a `flow` go messages from each `publisher`, who writes a `batch`
//! at once, to each `receiver`; they wait for one another (`progress`) and count (`tally`). In
//! `round_trips` go requests and replies. `figures` tell what came of it, and `storm` is the storm,
//! with its judge.

#![forbid(unsafe_code)]

mod batch;
mod cases;
mod connection;
mod figures;
mod flow;
mod frames;
mod json;
mod options;
mod pcg;
mod progress;
mod publisher;
mod receiver;
mod round_trips;
mod storm;
mod tally;
mod threads;

use cases::Case;
use options::{Options, Request, HELP, VERSION};
use std::env;
use std::ffi::OsString;
use std::io::{self, Write};
use std::process::ExitCode;

/// The exit status of a command line that is refused. One that asks for help has it too, and is
/// told on standard error, as `nats_mesh` does.
const REFUSED: u8 = 2;

fn main() -> ExitCode {
    let words: Result<Vec<_>, _> = env::args_os().skip(1).map(OsString::into_string).collect();
    let Ok(words) = words else {
        eprintln!("nats_load: a word of the command line is no text");
        return ExitCode::FAILURE;
    };
    match options::read(words) {
        Ok(Request::Run(options)) => run(&options),
        Ok(Request::Version) => {
            println!("{VERSION}");
            ExitCode::SUCCESS
        }
        Ok(Request::Help) => {
            eprint!("{HELP}");
            ExitCode::from(REFUSED)
        }
        Err(refusal) => {
            eprintln!("{refusal}");
            ExitCode::from(REFUSED)
        }
    }
}

/// Runs the case: 0 where it was run and nothing was found that must not be, and else 1.
fn run(options: &Options) -> ExitCode {
    match measure(options) {
        Ok(true) => ExitCode::SUCCESS,
        Ok(false) => ExitCode::FAILURE,
        Err(error) => {
            eprintln!("nats_load: {error}");
            ExitCode::FAILURE
        }
    }
}

/// Runs the case, and tells its figures. Whether nothing was found that must not be, where anything
/// is looked for.
fn measure(options: &Options) -> io::Result<bool> {
    let mut figures = match options.case {
        Case::Flow(flow) => flow::run(&flow, options)?,
        Case::RoundTrips => round_trips::run(options)?,
        Case::Storm => {
            let outcome = storm::run(options)?;
            writeln!(io::stdout(), "{}", outcome.told(options))?;
            return Ok(outcome.is_good());
        }
    };
    writeln!(io::stdout(), "{}", figures.told(options.name, options.size))?;
    Ok(true)
}
