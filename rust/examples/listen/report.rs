//! The line of figures, and the signs of trouble that a stream shows.

use crate::figures::{Figures, HELD, HELD_STEP_MS};
use bizhgemu::{Config, Event, Header, Heard, LastReceived, Mode, Queue, Receiver, Refusal, Rules, Taken};
use std::time::Duration;

/// Media packets dropped one after the other from which on the sender is taken to have restarted.
const RESTART: u64 = 25;
/// Numbers NACKed from which on a sender that repaired none is taken not to hear them.
const UNANSWERED: u64 = 20;

/// What the queue does not count by itself.
pub struct Report {
    asks: bool,
    /// Dropped in this session, and in a row.
    dropped: u64,
    dropped_in_a_row: u64,
    /// Payload type and SSRC of the latest datagram refused for them, RTCP aside; bytes of the latest that was too large.
    other_payload_type: Option<u8>,
    other_ssrc: Option<u32>,
    too_large: usize,
    /// Whether it was said what to do about packets that are too large.
    advised: bool,
    /// Numbers NACKed when it was last said that no repair comes.
    unanswered: u64,
    held: [u64; HELD],
    /// The delay that the latest packet was handed out with.
    delay: Option<Duration>,
    bursts: Bursts,
    before: Before,
}

/// Datagrams taken together, two and more: how often, how many in all, the most at a time, and that since the line before.
#[derive(Default)]
struct Bursts {
    calls: u64,
    datagrams: u64,
    most: usize,
    most_now: usize,
}

impl Report {
    /// `asks`: whether the sender hears of NACKs.
    pub fn new(asks: bool) -> Report {
        Report {
            asks,
            dropped: 0,
            dropped_in_a_row: 0,
            other_payload_type: None,
            other_ssrc: None,
            too_large: 0,
            advised: false,
            unanswered: 0,
            held: [0; HELD],
            delay: None,
            bursts: Bursts::default(),
            before: Before::default(),
        }
    }

    /// So many datagrams came together.
    pub fn came(&mut self, together: usize) {
        let bursts = &mut self.bursts;
        bursts.most_now = bursts.most_now.max(together);
        if together > 1 {
            bursts.calls += 1;
            bursts.datagrams += together as u64;
            bursts.most = bursts.most.max(together);
        }
    }

    /// What is told at the end.
    pub fn bursts_told(&self) -> Option<String> {
        let Bursts { calls, datagrams, most, .. } = self.bursts;
        (calls > 0).then(|| format!("{datagrams} datagrams came together in {calls} bursts, the most at a time {most}"))
    }
}

/// The figures of the line before.
#[derive(Default)]
struct Before {
    refused: Vec<u64>,
    session: u64,
    received: u64,
    lost: u64,
    pushed_out: u64,
    nacked: u64,
    recovered: u64,
    last: Option<LastReceived>,
}

impl Report {
    pub fn taken(&mut self, taken: Taken, datagram: &[u8]) {
        match taken {
            Taken::Queued => self.dropped_in_a_row = 0,
            Taken::Dropped => {
                self.dropped += 1;
                self.dropped_in_a_row += 1;
            }
            Taken::Strange => self.other_ssrc = Header::of(datagram).map(|header| header.ssrc),
            Taken::Refused(refusal) => self.refused(refusal, datagram),
            _ => {}
        }
    }

    fn refused(&mut self, refusal: Refusal, datagram: &[u8]) {
        let header = Header::of(datagram);
        match refusal {
            Refusal::PayloadType => {
                let media = header.filter(|header| !header.may_be_rtcp());
                self.other_payload_type = media.map(|header| header.payload_type).or(self.other_payload_type);
            }
            Refusal::Ssrc => self.other_ssrc = header.map(|header| header.ssrc),
            Refusal::PayloadTooLarge => self.too_large = datagram.len() - 12,
            _ => {}
        }
    }

    pub fn handed_out(&mut self, now: Duration, heard: &Heard<'_>) {
        self.delay = Some(heard.packet.delay);
        if let Some(came) = heard.packet.received_at {
            let held = now.saturating_sub(came).as_secs_f64() * 1e3 / HELD_STEP_MS;
            self.held[(held as usize).min(HELD - 1)] += 1;
        }
    }

    pub fn event(&mut self, event: Event) {
        if let Event::Reopened { .. } = event {
            self.dropped = 0;
            self.dropped_in_a_row = 0;
        }
    }

    /// Prints the line of this second and the signs in it; none where nothing came yet.
    pub fn print(&mut self, now: Duration, receiver: &mut Receiver, several: bool, rules: &Rules) -> Option<Figures> {
        let Some(figures) = self.figures(now, receiver) else {
            eprintln!("{:4} s  {}", now.as_secs(), Refusal::Session);
            return None;
        };
        let mut line = format!("{:4} s  ", now.as_secs());
        if several {
            line += &format!("{:#010x} ", figures.ssrc);
        }
        if !receiver.has_sender() {
            line += "nobody yet";
        } else {
            line += &told(&figures, receiver.config().mode);
        }
        eprintln!("{line}{}", refusals(&figures.refused));
        if self.before.session != figures.session {
            let refused = std::mem::take(&mut self.before.refused);
            self.before = Before { refused, session: figures.session, nacked: figures.nacked, ..Before::default() };
            self.before.recovered = figures.recovered;
        }
        for sign in self.signs(&figures, receiver, rules) {
            eprintln!("        {sign}");
        }
        self.remember(&figures, receiver.queue());
        let anything = receiver.has_sender() || figures.refused.iter().any(|count| *count > 0);
        anything.then_some(figures)
    }

    fn figures(&mut self, now: Duration, receiver: &mut Receiver) -> Option<Figures> {
        let figures = receiver.figures()?;
        let tally = *receiver.tally();
        Some(Figures {
            second: now.as_secs(),
            ssrc: receiver.config().ssrc,
            session: tally.sessions,
            received: figures.packets_received,
            dropped: figures.packets_dropped,
            lost: figures.packets_lost,
            loss: figures.loss,
            jitter_ms: figures.jitter.as_secs_f64() * 1e3,
            round_trip_ms: receiver.rtx_stats().and_then(|rtx| rtx.rtt).map(|rtt| rtt.as_secs_f64() * 1e3),
            delay_ms: self.delay.map(|delay| delay.as_secs_f64() * 1e3),
            waiting: receiver.queue().waiting().len(),
            missing: receiver.queue().gaps().len(),
            out: tally.handed_out,
            nacked: tally.nacked,
            recovered: tally.recovered,
            not_needed: tally.not_needed,
            // those of a settings line are none of a stream's
            refused: Refusal::all()
                .filter(|refusal| refusal.number() < 20)
                .map(|refusal| tally.refused(refusal))
                .collect(),
            most_together: std::mem::take(&mut self.bursts.most_now),
            held: std::mem::replace(&mut self.held, [0; HELD]),
        })
    }

    fn remember(&mut self, figures: &Figures, queue: &Queue) {
        self.before = Before {
            refused: figures.refused.clone(),
            session: figures.session,
            received: figures.received,
            lost: figures.lost,
            pushed_out: self.pushed_out(figures),
            nacked: figures.nacked,
            recovered: figures.recovered,
            last: queue.last_received(),
        };
    }

    /// Packets dropped at the front: those that the answers did not call dropped.
    fn pushed_out(&self, figures: &Figures) -> u64 {
        figures.dropped.saturating_sub(self.dropped)
    }

    /// By how much a refusal rose.
    fn rose(&self, figures: &Figures, refusal: Refusal) -> u64 {
        let place = usize::from(refusal.number()) - 1;
        figures.refused[place] - self.before.refused.get(place).unwrap_or(&0)
    }

    /// docs/USING.md, "What real senders do".
    fn signs(&mut self, figures: &Figures, receiver: &Receiver, rules: &Rules) -> Vec<String> {
        let (queue, config) = (receiver.queue(), receiver.config());
        let mut signs = Vec::new();
        let missing = figures.lost > self.before.lost || queue.gaps().len() > 0;
        if let Some(pt) = self.other_payload_type
            && self.rose(figures, Refusal::PayloadType) > 0
            && missing
        {
            signs.push(format!(
                "refused 6 rises beside loss: payload type {pt} is in the stream too, and its numbers count as lost"
            ));
        }
        signs.extend(self.size_sign(figures));
        let alone = figures.received == self.before.received;
        if let Some(ssrc) = self.other_ssrc
            && self.rose(figures, Refusal::Ssrc) > 0
            && alone
        {
            signs.push(format!("nothing but refused 7: the sender now is {ssrc:#010x}"));
        }
        if rules.restart.is_none() && self.dropped_in_a_row >= RESTART {
            signs.push(format!("{} dropped in a row: the sender restarted", self.dropped_in_a_row));
        }
        signs.extend(self.depth_sign(figures, config));
        signs.extend(self.nack_sign(figures, queue));
        signs.extend(self.unanswered_sign(figures, config));
        signs.extend(self.clock_rate_sign(queue, config));
        signs
    }

    fn size_sign(&mut self, figures: &Figures) -> Option<String> {
        let (large, bytes) = (self.rose(figures, Refusal::PayloadTooLarge), self.too_large);
        if large == 0 {
            return None;
        }
        if figures.received > self.before.received {
            return Some(format!(
                "{large} payloads over 320 bytes (the last: {bytes}): shorter packets or a lower bit rate at the sender"
            ));
        }
        let advice = match std::mem::replace(&mut self.advised, true) {
            true => "",
            false => {
                ". GStreamer's payloaders go up to mtu=1400: give max-ptime=20000000; ffmpeg's to pkt_size=1472: give ?pkt_size=172 for PCMU. \
                 At 112 kbit/s and more not even 20 ms always fit"
            }
        };
        Some(format!(
            "nothing but refused 5, payloads over 320 bytes (the last: {bytes}): shorter packets or a lower bit rate at the sender{advice}"
        ))
    }

    fn depth_sign(&self, figures: &Figures, config: &Config) -> Option<String> {
        let pushed_out = self.pushed_out(figures).saturating_sub(self.before.pushed_out);
        if pushed_out == 0 {
            return None;
        }
        let depth = config.max_entries;
        Some(match config.mode {
            Mode::Passthrough => format!("{pushed_out} pushed out: D = {depth} came between two polls"),
            mode => format!(
                "{pushed_out} pushed out before they were due: D = {depth} is not above delay / packet time, or they came all at once; keep \
                 at least {} at 20 ms",
                longest_delay(mode, config.delay).as_millis().div_ceil(20) + 1
            ),
        })
    }

    fn nack_sign(&self, figures: &Figures, queue: &Queue) -> Option<String> {
        let nacked = figures.nacked - self.before.nacked;
        let settled = figures.recovered - self.before.recovered + figures.lost.saturating_sub(self.before.lost);
        if nacked > 20 + 10 * settled {
            // From an estimate a NACK is repeated after a millisecond at the earliest, so this is no storm, but repairs are slower than it says.
            let cause = match queue.round_trip() {
                Some(_) => "the measured round trip is too short for this path; a new session measures anew",
                None => "the resend delay is too short for this path",
            };
            Some(format!(
                "{nacked} numbers NACKed, {settled} recovered or lost: NACKs are repeated faster than repairs come; {cause}"
            ))
        } else if figures.recovered > 2 && queue.round_trip().is_none() {
            Some("repairs come, no round trip is measured: each was NACKed twice; the resend delay is below the round trip".into())
        } else {
            None
        }
    }

    fn unanswered_sign(&mut self, figures: &Figures, config: &Config) -> Option<String> {
        let answered = !self.asks || config.rtx.is_none() || figures.recovered + figures.not_needed > 0;
        if answered || figures.nacked < UNANSWERED.max(self.unanswered + 1) {
            return None;
        }
        self.unanswered = figures.nacked;
        Some(format!(
            "{} numbers NACKed and never a repair: is RTCP heard where it goes (--nack), and are payload type and SSRC those of the \
             sender's repairs?",
            figures.nacked
        ))
    }

    fn clock_rate_sign(&self, queue: &Queue, config: &Config) -> Option<String> {
        let (before, last) = (self.before.last?, queue.last_received()?);
        let seconds = last.instant.checked_sub(before.instant)?.as_secs_f64();
        let rate = last.timestamp.checked_sub(before.timestamp)? as f64 / seconds;
        let expected = f64::from(config.clock_rate);
        let off = seconds > 0.5 && (rate / expected - 1.0).abs() > 0.3;
        off.then(|| format!("timestamps advance by {rate:.0} a second, the clock rate is {expected}: is it the RTP clock of this format?"))
    }
}

/// The longest that a packet is kept.
fn longest_delay(mode: Mode, fixed: Duration) -> Duration {
    match mode {
        Mode::Dynamic(dynamic) => dynamic.max,
        _ => fixed,
    }
}

fn told(figures: &Figures, mode: Mode) -> String {
    let milliseconds = |ms: Option<f64>| ms.map_or("-".to_string(), |ms| format!("{ms:.2} ms"));
    // a fixed one is known
    let delay = match mode {
        Mode::Dynamic(_) => format!(" delay {}", milliseconds(figures.delay_ms)),
        _ => String::new(),
    };
    format!(
        "received {} dropped {} lost {} loss {:.4} jitter {:.2} ms{delay} round trip {} waiting {} missing {} out {}",
        figures.received,
        figures.dropped,
        figures.lost,
        figures.loss,
        figures.jitter_ms,
        milliseconds(figures.round_trip_ms),
        figures.waiting,
        figures.missing,
        figures.out
    )
}

fn refusals(refused: &[u64]) -> String {
    let counts = (1..).zip(refused).filter(|(_, count)| **count > 0);
    counts.fold(String::new(), |line, (number, count)| format!("{line} refused {number}: {count}"))
}
