//! A host: RTP in from a UDP socket, payloads or sound out in order, a line of figures each second on standard error.
//!
//! It sleeps for as long as the queue's timeouts say, opens new sessions by itself (`Receiver`), and shows the signs by which trouble with
//! real senders is known (docs/USING.md). `cargo run --example listen -- --help` has the options.

mod burst;
mod callers;
mod figures;
mod nacks;
mod options;
mod report;
mod wav;

use bizhgemu::Clock;
use burst::Burst;
use callers::Callers;
use options::{Options, USAGE};
use std::io;
use std::net::UdpSocket;
use std::process::ExitCode;
use std::time::Duration;

const SECOND: Duration = Duration::from_secs(1);
/// A timeout of zero may come with nothing to do (docs/USING.md, "Driving it").
const SHORTEST_WAIT: Duration = Duration::from_millis(1);

fn main() -> ExitCode {
    let words: Vec<String> = std::env::args().skip(1).collect();
    if words.iter().any(|word| word == "--help" || word == "-h") {
        println!("{USAGE}");
        return ExitCode::SUCCESS;
    }
    let options = match Options::read(words.into_iter()) {
        Ok(options) => options,
        Err(text) => {
            eprintln!("listen: {text}");
            return ExitCode::from(2);
        }
    };
    match options.write_settings().unwrap_or_else(|| listen(&options)) {
        Ok(()) => ExitCode::SUCCESS,
        Err(error) => {
            eprintln!("listen: {error}");
            ExitCode::FAILURE
        }
    }
}

fn listen(options: &Options) -> io::Result<()> {
    let socket = UdpSocket::bind(&options.address).map_err(|error| options::of_file(&options.address, error))?;
    let clock = Clock::start();
    let mut callers = Callers::new(options, &socket, clock.now())?;
    let mut burst = Burst::new();
    let mut next_report = SECOND;
    loop {
        let now = clock.now();
        callers.serve(now)?;
        if now >= next_report {
            next_report += SECOND;
            callers.report(now)?;
        }
        if options.seconds.is_some_and(|seconds| now >= seconds) {
            return callers.end();
        }
        let wait = callers.timeout(now).min(next_report.saturating_sub(now));
        socket.set_read_timeout(Some(wait.max(SHORTEST_WAIT)))?;
        burst.receive(&socket)?;
        callers.take(clock.now(), &burst);
    }
}
