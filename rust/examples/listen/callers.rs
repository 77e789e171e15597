//! Who is heard, and what goes out: one receiver to a caller.

use crate::burst::{Burst, Came};
use crate::figures::Writer;
use crate::nacks::{Asking, Nacks};
use crate::options::Options;
use crate::report::Report;
use crate::wav::Wav;
use bizhgemu::{Config, Event, Header, Queue, Receiver, Taken, Why};
use std::collections::BTreeMap;
use std::io::{self, Write};
use std::net::{SocketAddr, UdpSocket};
use std::time::Duration;

/// A caller that said nothing for so long gives its place to another.
const SILENT: Duration = Duration::from_secs(60);

struct Caller {
    receiver: Receiver,
    report: Report,
    heard_at: Duration,
    /// Where the last packet came from that was taken.
    source: Option<SocketAddr>,
}

pub struct Callers<'a> {
    options: &'a Options,
    asking: Asking<'a>,
    output: Box<dyn Write>,
    figures: Option<Writer>,
    list: Vec<Caller>,
    wavs: BTreeMap<u32, Wav>,
    /// Datagrams that belong to nobody.
    elsewhere: u64,
}

impl<'a> Callers<'a> {
    pub fn new(options: &'a Options, socket: &'a UdpSocket, now: Duration) -> io::Result<Callers<'a>> {
        // settings out of range are told at once, not at the first datagram
        Queue::open(&options.config).map_err(io::Error::other)?;
        let figures = options.figures.as_deref().map(Writer::create).transpose()?;
        let output = options.output()?;
        let asking = Asking::new(options.nacks(), options.own_ssrc, socket);
        let mut callers =
            Callers { options, asking, output, figures, list: Vec::new(), wavs: BTreeMap::new(), elsewhere: 0 };
        if options.senders_known() {
            warn_of_one_bit(&options.config);
        }
        if options.callers == 1 {
            callers.open(options.config, now)?;
        }
        Ok(callers)
    }

    fn open(&mut self, config: Config, now: Duration) -> io::Result<&mut Caller> {
        let receiver = Receiver::open(&config, self.options.rules, now).map_err(io::Error::other)?;
        let report = Report::new(self.options.nacks() != Nacks::Untold);
        self.list.push(Caller { receiver, report, heard_at: now, source: None });
        Ok(self.list.last_mut().expect("just opened"))
    }

    /// Hands datagrams that came together to whom they belong, each caller its own in their order.
    pub fn take(&mut self, now: Duration, burst: &Burst) {
        let mut datagrams = burst.datagrams();
        let sender = |(datagram, _): &Came| Header::of(datagram).map(|header| header.ssrc);
        let alone = self.options.callers == 1;
        if !alone {
            datagrams.sort_by_key(sender);
        }
        for part in datagrams.chunk_by(|one, next| alone || sender(one) == sender(next)) {
            self.take_of_one(now, part);
        }
    }

    fn take_of_one(&mut self, now: Duration, part: &[Came]) {
        let Some(caller) = self.caller_of(now, part[0].0) else {
            self.elsewhere += part.len() as u64;
            return;
        };
        caller.heard_at = now;
        let datagrams: Vec<&[u8]> = part.iter().map(|(datagram, _)| *datagram).collect();
        let taken = caller.receiver.take_burst(now, &datagrams);
        caller.report.came(part.len());
        for ((datagram, source), taken) in part.iter().zip(taken) {
            // whoever is refused is not asked
            if matches!(taken, Taken::Queued | Taken::Recovered) {
                caller.source = Some(*source);
            }
            caller.report.taken(taken, datagram);
        }
    }

    fn caller_of(&mut self, now: Duration, datagram: &[u8]) -> Option<&mut Caller> {
        if self.options.callers == 1 {
            return self.list.first_mut();
        }
        let header = Header::of(datagram)?;
        if let Some(place) = self.list.iter().position(|caller| caller.receiver.config().ssrc == header.ssrc) {
            return Some(&mut self.list[place]);
        }
        if header.payload_type != self.options.config.payload_type {
            return None;
        }
        if self.list.len() == self.options.callers {
            let silent = self.list.iter().position(|caller| now.saturating_sub(caller.heard_at) > SILENT)?;
            self.list.remove(silent);
        }
        let mut config = self.options.config;
        config.ssrc = header.ssrc;
        if let Some(rtx) = &mut config.rtx {
            rtx.ssrc = header.ssrc;
        }
        eprintln!("listening to SSRC {:#010x}", header.ssrc);
        self.open(config, now).ok()
    }

    /// NACKs, then packets until none is due.
    pub fn serve(&mut self, now: Duration) -> io::Result<()> {
        for caller in &mut self.list {
            self.asking.serve(now, &mut caller.receiver, caller.source);
            while let Some(heard) = caller.receiver.poll(now) {
                self.output.write_all(heard.packet.payload)?;
                caller.report.handed_out(now, &heard);
                if let Some(prefix) = &self.options.wav {
                    let (ssrc, rate) = (heard.packet.ssrc, self.options.config.clock_rate);
                    if !self.wavs.contains_key(&ssrc) {
                        let sound = self.options.sound().expect("checked with the options");
                        let wav = Wav::create(prefix, ssrc, sound, rate)?;
                        eprintln!("writing {}; to hear it: ffplay -autoexit {}", wav.name, wav.name);
                        self.wavs.insert(ssrc, wav);
                    }
                    self.wavs.get_mut(&ssrc).expect("just made").write(&heard)?;
                }
            }
            while let Some(event) = caller.receiver.event() {
                tell(event);
                caller.report.event(event);
                if !self.options.senders_known() {
                    warn_of_one_bit(caller.receiver.config());
                }
            }
        }
        self.output.flush()
    }

    /// How long there is nothing to do unless a datagram comes.
    pub fn timeout(&mut self, now: Duration) -> Duration {
        self.list.iter_mut().filter_map(|caller| caller.receiver.timeout(now)).min().unwrap_or(Duration::MAX)
    }

    pub fn report(&mut self, now: Duration) -> io::Result<()> {
        if self.list.is_empty() {
            eprintln!("{:4} s  nobody yet, {} datagrams of no caller", now.as_secs(), self.elsewhere);
        }
        for caller in &mut self.list {
            let several = self.options.callers > 1;
            let figures = caller.report.print(now, &mut caller.receiver, several, &self.options.rules);
            if let (Some(writer), Some(figures)) = (&mut self.figures, figures) {
                writer.write(&figures)?;
            }
        }
        self.wavs.values_mut().try_for_each(Wav::settle)
    }

    pub fn end(&mut self) -> io::Result<()> {
        if let Some(told) = self.asking.told() {
            eprintln!("{told}");
        }
        for told in self.list.iter().filter_map(|caller| caller.report.bursts_told()) {
            eprintln!("{told}");
        }
        self.wavs.values_mut().try_for_each(Wav::settle)
    }
}

/// What a receiver did by itself.
fn tell(event: Event) {
    let Event::Reopened { why, ssrc, waiting, .. } = event else {
        return; // counted
    };
    let why = match why {
        Why::Restart => "the sender restarted, its numbers were dropped one after the other".to_string(),
        Why::Stall => "packets waited and none was due: the sender's timestamps went back, or D is small".to_string(),
        Why::Sender => return eprintln!("listening to SSRC {ssrc:#010x}"),
        Why::Age => "the old one was near its 52 days".to_string(),
        Why::ClockWentBack => "the clock went back".to_string(),
        Why::Refused(refusal) => refusal.to_string(),
        why => format!("{why:?}"),
    };
    eprintln!("new session, SSRC {ssrc:#010x}: {why}; {waiting} packets of the old one are handed out");
}

/// Settings under which one bit turned over on the way can make a media packet a repair. Nothing is refused for it.
fn warn_of_one_bit(config: &Config) {
    let Some(rtx) = config.rtx.filter(|_| !config.two_bits_apart()) else {
        return;
    };
    let senders = match rtx.ssrc == config.ssrc {
        true => "one SSRC".to_string(),
        false => format!("SSRCs {:#010x} and {:#010x}", config.ssrc, rtx.ssrc),
    };
    eprintln!(
        "listen: payload types {} and {} under {senders} differ in fewer than two bits: one bit turned over on the way can make a media \
         packet a repair, and nothing shows it; choose payload types or SSRCs that differ in two",
        config.payload_type, rtx.payload_type
    );
}
