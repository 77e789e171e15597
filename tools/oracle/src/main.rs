//! The oracle: the original queue behind the checks of 01's table, driven by a trace (docs/TRACE.md).
//!
//! The modules `rtp` and `rtp_session` are the original's files, brought here by tools/oracle/build; the others are ours.

extern crate box_std as std;

mod answers;
mod attempts;
mod datagram;
mod nack_entries;
mod session;
mod settings_line;
mod trace;

#[allow(dead_code, unused_imports)]
mod rtp;
#[allow(dead_code, unreachable_code)]
mod rtp_session {
    pub(crate) mod inbound {
        pub(crate) mod queue;
        pub(crate) mod stats;

        pub(crate) use queue::config::{
            RtpInboundPassthroughConfig, RtpInboundQueueMode, RtpInboundSortedQueueConfig,
            RtpInboundStreamDynamicConfig, RtpInboundStreamSortedQueueMode,
        };
    }
}

// `opt_min`, cut from the original's lib.rs
include!("opt_min.rs");

use session::Session;
use std::io::{self, BufRead, BufWriter, Write};
use std::sync::atomic::{AtomicUsize, Ordering::Relaxed};
use trace::{Call, Line};

/// D of the open session: what the original's `MAX_ENTRIES` became. One session is open at a time.
static DEPTH: AtomicUsize = AtomicUsize::new(1024);

pub(crate) fn max_entries() -> usize {
    DEPTH.load(Relaxed)
}

fn main() -> io::Result<()> {
    let mut input = io::stdin().lock();
    let mut output = BufWriter::with_capacity(1 << 16, io::stdout().lock());
    let mut session: Option<Session> = None;
    let mut line = Vec::new();

    loop {
        line.clear();
        if input.read_until(b'\n', &mut line)? == 0 {
            break;
        }
        if line.last() == Some(&b'\n') {
            line.pop();
        }
        match trace::read(&line) {
            Line::PassedOver => {}
            Line::Unreadable => output.write_all(b"unreadable\n")?,
            Line::Call(Call::Open(fields, dynamic)) => match Session::open(fields, dynamic) {
                Ok(opened) => {
                    DEPTH.store(opened.depth(), Relaxed);
                    session = Some(opened);
                    output.write_all(b"opened\n")?;
                }
                Err(number) => writeln!(output, "refused {number}")?,
            },
            Line::Call(Call::ReadNacks(places, entries)) => {
                match nack_entries::read(&entries, places) {
                    Ok(numbers) => answers::numbers(&mut output, "numbers", &numbers)?,
                    Err(number) => writeln!(output, "refused {number}")?,
                }
            }
            Line::Call(Call::ReadSettings(line)) => match settings_line::read(&line) {
                Ok(settings) => answers::numbers(&mut output, "settings", &settings)?,
                Err(number) => writeln!(output, "refused {number}")?,
            },
            Line::Call(Call::WriteSettings([places, settings @ ..])) => {
                match settings_line::write(settings, places) {
                    Ok(line) => answers::bytes(&mut output, "line", line.as_bytes())?,
                    Err(number) => writeln!(output, "refused {number}")?,
                }
            }
            Line::Call(call) => match &mut session {
                None => output.write_all(b"no session\n")?,
                Some(session) => {
                    if let Err(number) = session.call(call, &mut output)? {
                        writeln!(output, "refused {number}")?;
                    }
                }
            },
        }
    }
    output.flush()
}
