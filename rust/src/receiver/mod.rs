mod rules;

use crate::answers::{Figures, Media, Packet, Repair, RtxStats};
use crate::config::{Config, Mode};
use crate::header::Header;
use crate::queue::{ENTRY_BYTES, Queue};
use crate::refusal::Refusal;
use crate::rtcp::Reporter;
use crate::time::LATEST;
use alloc::boxed::Box;
use alloc::collections::VecDeque;
use alloc::vec::Vec;
use core::time::Duration;
pub use rules::{Event, Heard, Rules, Sender, Taken, Tally, Why};

#[cfg(test)]
mod tests;

/// From this age on a session is replaced as soon as nothing waits or is missing.
const OLD: Duration = LATEST.checked_sub(Duration::from_secs(3600)).unwrap();
/// The most packets that are kept as a sign of a new session.
const MOST_KEPT: usize = 64;
/// The most events that wait to be asked for; for one more the oldest goes.
const MOST_EVENTS: usize = 256;

/// A datagram and when it came, on the host's clock.
type Came = (Duration, Box<[u8]>);

/// One stream as a box hears it: a [`Queue`], and what every host has to do around one. It opens a new session where the old one
/// cannot go on, where the sender restarted and, by the [`Rules`], where it changed its SSRC; it pushes again what found no place;
/// and it tells what it did. After the opening no call is refused: what becomes of a datagram is [`Taken`].
///
/// Instants are durations since any start, from one clock; the 52 days of a session are its own affair. A host loops:
///
/// ```
/// use bizhgemu::{Config, Receiver, Rules};
/// use std::time::Duration;
///
/// let mut receiver = Receiver::open(&Config::pcmu(1), Rules::default(), Duration::ZERO)?;
/// # let mut datagrams = vec![(0, [0x80, 0, 0, 7, 0, 0, 0, 0, 0, 0, 0, 1, 0x2a]), (40, [0x80, 0, 0, 9, 0, 0, 1, 64, 0, 0, 0, 1, 0x2a])].into_iter();
/// # let mut heard = Vec::new();
/// # while let Some((ms, datagram)) = datagrams.next() {
/// # let now = Duration::from_millis(ms);
/// receiver.take(now, &datagram); // what came from the socket
/// # }
/// # let now = Duration::from_millis(200);
/// for number in receiver.nacks(now) {
///     // ask for it
/// }
/// while let Some(heard_now) = receiver.poll(now) {
///     // conceal `lost_before` packets, then play `packet`
/// #   heard.push((heard_now.packet.sequence_number, heard_now.lost_before));
/// }
/// while let Some(event) = receiver.event() {
///     // log it
/// }
/// let wait = receiver.timeout(now); // then wait for a datagram, at most so long
/// # assert_eq!(heard, [(7, 0), (9, 1)]);
/// # assert_eq!(wait, None);
/// # Ok::<(), bizhgemu::Refusal>(())
/// ```
#[derive(Clone, Debug)]
pub struct Receiver {
    rules: Rules,
    config: Config,
    queue: Queue,
    /// When the session's clock started, and the latest instant, both on the host's clock.
    start: Duration,
    latest: Duration,
    /// Whether a sender is known, and when a packet of it last came.
    known: bool,
    heard_at: Duration,
    /// When a packet was last handed out, or none waited.
    progress: Duration,
    /// The extended number last handed out in this session.
    before: Option<u64>,
    /// Dropped one after the other; and from another sender.
    dropped: Vec<Came>,
    strange: Vec<Came>,
    held: VecDeque<(Came, Refusal)>,
    /// What waited in a session that ended, and what is lent to the host.
    left: VecDeque<Out>,
    out: Out,
    numbers: Vec<u16>,
    events: VecDeque<Event>,
    tally: Tally,
}

/// A packet on its way to the host.
#[derive(Clone, Debug, Default)]
struct Out {
    received_at: Option<Duration>,
    delay: Duration,
    timestamp: u32,
    ssrc: u32,
    sequence_number: u16,
    payload_type: u8,
    marker: bool,
    payload: Vec<u8>,
    lost_before: u64,
    session: u64,
}

impl Out {
    fn heard(&self) -> Heard<'_> {
        let packet = Packet {
            received_at: self.received_at,
            delay: self.delay,
            timestamp: self.timestamp,
            ssrc: self.ssrc,
            sequence_number: self.sequence_number,
            payload_type: self.payload_type,
            marker: self.marker,
            payload: &self.payload,
        };
        Heard { packet, lost_before: self.lost_before, session: self.session }
    }
}

/// The host's calls.
impl Receiver {
    /// Opens a receiver, whose first session begins now.
    ///
    /// # Errors
    ///
    /// [`Refusal::Settings`] (1) where a setting is out of its range.
    pub fn open(config: &Config, rules: Rules, now: Duration) -> Result<Receiver, Refusal> {
        Ok(Receiver {
            rules,
            config: *config,
            queue: Queue::open(config)?,
            start: now,
            latest: now,
            known: rules.sender == Sender::Fixed,
            heard_at: now,
            progress: now,
            before: None,
            dropped: Vec::new(),
            strange: Vec::new(),
            held: VecDeque::new(),
            left: VecDeque::new(),
            out: Out::default(),
            numbers: Vec::new(),
            events: VecDeque::new(),
            tally: Tally { sessions: 1, ..Tally::default() },
        })
    }

    /// Takes a datagram as it came from the socket, media or repair: repairs are known by payload type and SSRC.
    pub fn take(&mut self, now: Duration, datagram: &[u8]) -> Taken {
        let at = self.instant(now);
        let answer = match self.push(at, datagram) {
            Err(refusal) if ends_session(refusal) => {
                self.renew(Why::Refused(refusal));
                self.push(self.latest - self.start, datagram)
            }
            answer => answer,
        };
        self.after(datagram, answer)
    }

    /// Takes datagrams that came together, media and repairs in the order in which they came. Answers, and all that is handed out and told
    /// later, are those of single calls of [`take`](Receiver::take) at that instant; media packets of the present sender that follow each
    /// other go into the queue by one [`push_burst`](Queue::push_burst).
    ///
    /// ```
    /// use bizhgemu::{Config, Receiver, Rules, Taken};
    /// use std::time::Duration;
    ///
    /// let mut receiver = Receiver::open(&Config::pcmu(1), Rules::default(), Duration::ZERO)?;
    /// let datagram = |number: u8| [0x80, 0, 0, number, 0, 0, 0, 0, 0, 0, 0, 1, 0x2a];
    /// let came = [datagram(7), datagram(8), datagram(7)];
    /// assert_eq!(receiver.take_burst(Duration::ZERO, &came), [Taken::Queued, Taken::Queued, Taken::Dropped]);
    /// # Ok::<(), bizhgemu::Refusal>(())
    /// ```
    pub fn take_burst(&mut self, now: Duration, datagrams: &[impl AsRef<[u8]>]) -> Vec<Taken> {
        let mut rest: &[_] = &datagrams.iter().map(AsRef::as_ref).collect::<Vec<&[u8]>>();
        let mut taken = Vec::with_capacity(rest.len());
        while let Some(first) = rest.first() {
            let own = rest.iter().take_while(|datagram| self.is_own_media(datagram)).count();
            let mut answers = if own > 1 { self.take_together(now, &rest[..own]) } else { Vec::new() };
            // a repair, a stranger's, one alone, or one that may end the session
            if answers.is_empty() {
                answers.push(self.take(now, first));
            }
            rest = &rest[answers.len()..];
            taken.extend(answers);
        }
        taken
    }

    /// Hands out the next packet, if one is due. Call it until it hands out nothing.
    pub fn poll(&mut self, now: Duration) -> Option<Heard<'_>> {
        let at = self.instant(now);
        if self.left.is_empty() && !self.hand_out(at) {
            self.push_again();
            if !self.hand_out(self.latest - self.start) {
                self.look_for_stall();
            }
        }
        self.out = self.left.pop_front()?;
        self.tally.handed_out += 1;
        self.tally.lost += self.out.lost_before;
        Some(self.out.heard())
    }

    /// The numbers to ask the sender for again; empty where none is due. Call it, or [`nack_packets`](Receiver::nack_packets) in its
    /// place, even if you send no NACKs.
    pub fn nacks(&mut self, now: Duration) -> &[u16] {
        let at = self.instant(now);
        self.numbers.clear();
        match self.queue.poll_nack(at) {
            Ok(numbers) => self.numbers.extend_from_slice(numbers),
            Err(refusal) => self.renew(Why::Refused(refusal)),
        }
        self.tally.nacked += self.numbers.len() as u64;
        &self.numbers
    }

    /// The same as RTCP datagrams, to be sent to the sender as they are: generic NACKs (RFC 4585, section 6.2.1) of the present sender;
    /// none where no number is due, and seldom more than one.
    ///
    /// ```
    /// use bizhgemu::{Config, Receiver, Rules, rtcp::Reporter};
    /// use std::time::Duration;
    ///
    /// let mut receiver = Receiver::open(&Config::pcmu(42), Rules::default(), Duration::ZERO)?;
    /// let reporter = Reporter::reduced_size(7);
    /// receiver.take(Duration::ZERO, &[0x80, 0, 0, 7, 0, 0, 0, 0, 0, 0, 0, 42, 0x2a]);
    /// receiver.take(Duration::from_millis(40), &[0x80, 0, 0, 9, 0, 0, 1, 64, 0, 0, 0, 42, 0x2a]);
    /// let datagrams = receiver.nack_packets(Duration::from_millis(45), &reporter);
    /// assert_eq!(datagrams, [[0x81, 205, 0, 3, 0, 0, 0, 7, 0, 0, 0, 42, 0, 8, 0, 0]]);
    /// # Ok::<(), bizhgemu::Refusal>(())
    /// ```
    pub fn nack_packets(&mut self, now: Duration, reporter: &Reporter) -> Vec<Vec<u8>> {
        let at = self.instant(now);
        match self.queue.nack_wire(at) {
            Ok(entries) => {
                self.tally.nacked += named(entries);
                reporter.generic_nacks(self.config.ssrc, entries).collect()
            }
            Err(refusal) => {
                self.renew(Why::Refused(refusal));
                Vec::new()
            }
        }
    }

    /// How long there is nothing to do unless a datagram comes; none: until one comes. There may be nothing to do then, so have a
    /// shortest wait of your own.
    pub fn timeout(&mut self, now: Duration) -> Option<Duration> {
        if !self.left.is_empty() {
            return Some(Duration::ZERO);
        }
        let at = now.max(self.latest) - self.start;
        // refused: `poll` will find out and mend it
        self.queue.timeout(at).unwrap_or(Some(Duration::ZERO))
    }

    /// The next thing that was done without being asked. Up to 256 are kept, the latest.
    pub fn event(&mut self) -> Option<Event> {
        self.events.pop_front()
    }

    /// Opens a new session with other settings, as signalling may ask for.
    ///
    /// # Errors
    ///
    /// [`Refusal::Settings`] (1) where a setting is out of its range; then everything stays as it was.
    pub fn reopen(&mut self, config: &Config, now: Duration) -> Result<(), Refusal> {
        Queue::open(config)?;
        self.instant(now);
        self.config = *config;
        self.held.clear();
        self.known = true;
        self.replace(Why::Host, Vec::new());
        Ok(())
    }

    /// The settings of the present session; the SSRC is that of its sender.
    pub fn config(&self) -> &Config {
        &self.config
    }

    /// The queue of the present session, to look into.
    pub fn queue(&self) -> &Queue {
        &self.queue
    }

    /// The figures of the present session; none where it is damaged.
    pub fn figures(&self) -> Option<Figures> {
        self.queue.figures().ok()
    }

    /// The figures of repairs of the present session; none without RTX, or where it is damaged.
    pub fn rtx_stats(&mut self) -> Option<RtxStats> {
        self.queue.rtx_stats().ok().flatten()
    }

    /// What was counted, over all sessions.
    pub fn tally(&self) -> &Tally {
        &self.tally
    }

    /// Whether a sender is known: always with [`Sender::Fixed`], else from the first packet on.
    pub fn has_sender(&self) -> bool {
        self.known
    }
}

/// Instants and sessions.
impl Receiver {
    /// The instant of the host's clock on that of the session, which is replaced first where it cannot have it.
    fn instant(&mut self, now: Duration) -> Duration {
        if self.latest.saturating_sub(now) > self.rules.clock_tolerance {
            self.latest = now;
            self.heard_at = now;
            // what was kept bears instants that are to come
            self.dropped.clear();
            self.strange.clear();
            self.renew(Why::ClockWentBack);
        }
        self.latest = self.latest.max(now);
        let age = self.latest - self.start;
        if age > LATEST || age > OLD && self.idle() {
            self.renew(Why::Age);
        }
        self.latest - self.start
    }

    fn idle(&self) -> bool {
        self.queue.waiting().len() == 0 && self.queue.gaps().len() == 0 && self.held.is_empty()
    }

    /// A new session of the same sender.
    fn renew(&mut self, why: Why) {
        self.replace(why, Vec::new());
    }

    /// A new session, into which the kept datagrams are pushed; its clock starts with the first of them.
    fn replace(&mut self, why: Why, kept: Vec<Came>) {
        let waiting = self.hand_over();
        let figures = self.queue.figures().ok();
        self.queue.reopen(&self.config).expect("the settings were accepted before");
        self.start = kept.first().map_or(self.latest, |(came, _)| *came);
        (self.progress, self.before) = (self.latest, None);
        self.dropped.clear();
        self.strange.clear();
        self.tally.sessions += 1;
        for (came, datagram) in &kept {
            if let Ok(taken) = self.push(*came - self.start, datagram) {
                self.after_taken(taken);
            }
        }
        self.tell(Event::Reopened { at: self.latest, why, ssrc: self.config.ssrc, waiting, kept: kept.len(), figures });
    }

    /// What waits in a session that ends is handed out at once, due or not; nothing of a damaged one.
    fn hand_over(&mut self) -> usize {
        if self.queue.rtx_stats().is_err() {
            return 0;
        }
        // the session's own settings: those of the receiver may already be the next one's
        let config = self.queue.config();
        // a dynamic delay is told with the packets that `poll` hands out, and these are not
        let delay = if config.mode == Mode::SortedQueue { config.delay } else { Duration::ZERO };
        let waiting = self.queue.waiting().map(|waiting| {
            let out = Out {
                received_at: waiting.received_at.map(|received| self.start + received),
                delay,
                timestamp: waiting.timestamp as u32,
                ssrc: config.ssrc,
                sequence_number: waiting.number as u16,
                payload_type: config.payload_type,
                marker: waiting.marker,
                payload: waiting.payload.to_vec(),
                ..Out::default()
            };
            (waiting.number, out)
        });
        let waiting: Vec<(u64, Out)> = waiting.collect();
        let many = waiting.len();
        waiting.into_iter().for_each(|(number, out)| self.leave(number, out));
        many
    }

    fn tell(&mut self, event: Event) {
        if self.events.len() == MOST_EVENTS {
            self.events.pop_front();
        }
        self.events.push_back(event);
    }
}

/// Datagrams.
impl Receiver {
    fn push(&mut self, at: Duration, datagram: &[u8]) -> Result<Taken, Refusal> {
        if self.is_repair(datagram) {
            return Ok(match self.queue.push_rtx(at, datagram)? {
                Repair::Recovered => Taken::Recovered,
                Repair::Redundant => Taken::Redundant,
                Repair::TooLate => Taken::TooLate,
            });
        }
        self.queue.push(at, datagram).map(Taken::from)
    }

    /// Media packets of the present sender in one burst, up to the first whose answer may end the session: that one and those after it are
    /// left to be taken, and to the queue they have not come yet.
    fn take_together(&mut self, now: Duration, datagrams: &[&[u8]]) -> Vec<Taken> {
        let at = self.instant(now);
        let (session, storage) = (self.queue.session, self.queue.storage.clone());
        let none_waited = self.queue.waiting().len() == 0;
        let mut answers = self.push_burst(at, datagrams);
        let going_on = self.before_an_end(&answers);
        if going_on < answers.len() {
            (self.queue.session, self.queue.storage) = (session, storage);
            answers = self.push_burst(at, &datagrams[..going_on]);
        }
        if none_waited && self.queue.waiting().len() > 0 {
            self.progress = self.latest;
        }
        datagrams.iter().zip(answers).map(|(datagram, answer)| self.after(datagram, answer.map(Taken::from))).collect()
    }

    fn push_burst(&mut self, at: Duration, datagrams: &[&[u8]]) -> Vec<Result<Media, Refusal>> {
        let ends = datagrams.iter().scan(0, |end, datagram| {
            *end += datagram.len() as u64;
            Some(*end)
        });
        let ends: Vec<u64> = ends.collect();
        self.queue.push_burst(at, &datagrams.concat(), &ends).expect("the ends ascend to that of the buffer")
    }

    /// How many answers come before one that may end the session: a refusal that does, or the last sign of a restart.
    fn before_an_end(&self, answers: &[Result<Media, Refusal>]) -> usize {
        let most = self.rules.restart.map_or(usize::MAX, |most| most.clamp(1, MOST_KEPT));
        let mut dropped = self.dropped.len();
        let goes_on = |answer: &&Result<Media, Refusal>| {
            dropped = match answer {
                Ok(Media::Queued) => 0,
                Ok(Media::Dropped) => dropped + 1,
                Err(refusal) if ends_session(*refusal) => usize::MAX,
                Err(_) => dropped,
            };
            dropped < most
        };
        answers.iter().take_while(goes_on).count()
    }

    /// What follows from the queue's answer to a datagram.
    fn after(&mut self, datagram: &[u8], answer: Result<Taken, Refusal>) -> Taken {
        match answer {
            Ok(Taken::Dropped) => self.after_dropped(datagram),
            Ok(taken) => {
                self.after_taken(taken);
                taken
            }
            Err(Refusal::Ssrc) => self.after_strange(datagram),
            Err(refusal @ (Refusal::GapsFull | Refusal::EntriesFull)) => self.hold(refusal, datagram),
            Err(refusal) => self.refused(refusal),
        }
    }

    /// Whether it can only be answered as media of the present sender, or as no packet.
    fn is_own_media(&self, datagram: &[u8]) -> bool {
        !self.is_repair(datagram) && Header::of(datagram).is_none_or(|header| header.ssrc == self.config.ssrc)
    }

    fn is_repair(&self, datagram: &[u8]) -> bool {
        let (Some(header), Some(rtx)) = (Header::of(datagram), self.config.rtx) else {
            return false;
        };
        if rtx.payload_type != self.config.payload_type {
            return header.payload_type == rtx.payload_type;
        }
        // with one payload type for both the SSRC tells them apart
        header.ssrc == rtx.ssrc && rtx.ssrc != self.config.ssrc
    }

    fn after_taken(&mut self, taken: Taken) {
        match taken {
            Taken::Queued => {
                self.tally.queued += 1;
                (self.known, self.heard_at) = (true, self.latest);
                self.dropped.clear();
            }
            Taken::Dropped => self.tally.dropped += 1,
            Taken::Recovered => self.tally.recovered += 1,
            _ => self.tally.not_needed += 1,
        }
        if self.queue.waiting().len() == 1 {
            self.progress = self.latest;
        }
    }

    fn refused(&mut self, refusal: Refusal) -> Taken {
        self.tally.refused[usize::from(refusal.number())] += 1;
        Taken::Refused(refusal)
    }

    /// A restart, if ascending numbers were dropped one after the other.
    fn after_dropped(&mut self, datagram: &[u8]) -> Taken {
        self.tally.dropped += 1;
        self.heard_at = self.latest;
        let Some(most) = self.rules.restart else {
            return Taken::Dropped;
        };
        let ascends = |(_, last): &Came| (1..1000).contains(&number(datagram).wrapping_sub(number(last)));
        if !self.dropped.last().is_none_or(ascends) {
            self.dropped.clear();
        }
        self.dropped.push((self.latest, datagram.into()));
        if self.dropped.len() < most.clamp(1, MOST_KEPT) {
            return Taken::Dropped;
        }
        let kept = core::mem::take(&mut self.dropped);
        self.held.clear();
        self.replace(Why::Restart, kept);
        Taken::Queued
    }

    /// A packet of another sender, which takes over if the rule says so.
    fn after_strange(&mut self, datagram: &[u8]) -> Taken {
        let repair = self.is_repair(datagram);
        let (Sender::Follow { packets, silence }, false) = (self.rules.sender, repair) else {
            return self.refused(Refusal::Ssrc);
        };
        let ssrc = sender(datagram);
        if let Some((came, last)) = self.strange.last()
            && sender(last) != ssrc
        {
            if self.latest - *came < silence {
                return self.refused(Refusal::Ssrc); // one candidate at a time
            }
            self.strange.clear();
        }
        if self.strange.len() == MOST_KEPT {
            self.strange.remove(0);
        }
        self.strange.push((self.latest, datagram.into()));
        let enough = self.strange.len() >= packets.clamp(1, MOST_KEPT) && self.latest - self.heard_at >= silence;
        if self.known && !enough {
            self.refused(Refusal::Ssrc);
            return Taken::Strange;
        }
        self.take_over(ssrc);
        Taken::Queued
    }

    fn take_over(&mut self, ssrc: u32) {
        if let Some(rtx) = &mut self.config.rtx
            && rtx.ssrc == self.config.ssrc
        {
            rtx.ssrc = ssrc;
        }
        self.config.ssrc = ssrc;
        let kept = core::mem::take(&mut self.strange);
        (self.known, self.heard_at) = (true, self.latest);
        self.held.clear();
        self.replace(Why::Sender, kept);
    }

    fn hold(&mut self, refusal: Refusal, datagram: &[u8]) -> Taken {
        self.refused(refusal);
        self.heard_at = self.latest;
        if self.held.len() >= self.rules.held
            && let Some(((came, _), refusal)) = self.held.pop_front()
        {
            self.give_up(came, refusal);
        }
        if self.rules.held == 0 {
            return Taken::Refused(refusal);
        }
        self.held.push_back(((self.latest, datagram.into()), refusal));
        Taken::Held
    }

    fn give_up(&mut self, came: Duration, refusal: Refusal) {
        self.tally.given_up += 1;
        self.tell(Event::GivenUp { at: self.latest, came, refusal });
    }

    /// What found no place is pushed again, in the order in which it came.
    fn push_again(&mut self) {
        for ((came, datagram), refusal) in core::mem::take(&mut self.held) {
            match self.push(self.latest - self.start, &datagram) {
                Ok(taken) => {
                    self.tally.pushed_again += 1;
                    self.after_taken(taken);
                    self.tell(Event::PushedAgain { at: self.latest, came, refusal });
                }
                Err(refusal @ (Refusal::GapsFull | Refusal::EntriesFull)) => {
                    self.held.push_back(((came, datagram), refusal));
                }
                Err(refusal) => self.give_up(came, refusal),
            }
        }
    }
}

/// Handing out.
impl Receiver {
    /// Whether a packet is ready in `left`. A session whose poll is refused is replaced, and what it held is ready then.
    fn hand_out(&mut self, at: Duration) -> bool {
        match self.hand_out_at(at) {
            Ok(ready) => {
                if ready || self.queue.waiting().len() == 0 {
                    self.progress = self.latest;
                }
                ready
            }
            Err(refusal) => {
                self.renew(Why::Refused(refusal));
                !self.left.is_empty()
            }
        }
    }

    fn hand_out_at(&mut self, at: Duration) -> Result<bool, Refusal> {
        let front = self.queue.waiting().next().map(|waiting| waiting.number);
        let Some(packet) = self.queue.poll(at)? else {
            return Ok(false);
        };
        let number = front.expect("what is handed out had waited");
        let out = Out {
            received_at: packet.received_at.map(|received| self.start + received),
            delay: packet.delay,
            timestamp: packet.timestamp,
            ssrc: packet.ssrc,
            sequence_number: packet.sequence_number,
            payload_type: packet.payload_type,
            marker: packet.marker,
            payload: packet.payload.to_vec(),
            ..Out::default()
        };
        self.leave(number, out);
        Ok(true)
    }

    /// A packet leaves the queue; what was not handed out between it and the one before it counts as lost.
    fn leave(&mut self, number: u64, out: Out) {
        let next = self.before.map_or(number, |before| before + 1);
        self.left.push_back(Out { lost_before: number.saturating_sub(next), session: self.tally.sessions, ..out });
        self.before = Some(self.before.map_or(number, |before| before.max(number)));
    }

    fn look_for_stall(&mut self) {
        let Some(stall) = self.rules.stall else {
            return;
        };
        let delay = match self.config.mode {
            Mode::Dynamic(dynamic) => dynamic.max,
            _ => self.config.delay,
        };
        let waited = self.latest.saturating_sub(self.progress);
        if self.queue.waiting().len() > 0 && waited > delay + stall {
            self.renew(Why::Stall);
        }
    }
}

/// Whether a session cannot go on after this refusal.
fn ends_session(refusal: Refusal) -> bool {
    matches!(refusal, Refusal::Clock | Refusal::Count | Refusal::Session)
}

/// How many numbers entries name: the first of each, and one for each bit of its mask.
fn named(entries: &[u8]) -> u64 {
    let (entries, _) = entries.as_chunks::<ENTRY_BYTES>();
    entries.iter().map(|[_, _, high, low]| u64::from(1 + high.count_ones() + low.count_ones())).sum()
}

fn number(datagram: &[u8]) -> u16 {
    Header::of(datagram).map_or(0, |header| header.sequence_number)
}

fn sender(datagram: &[u8]) -> u32 {
    Header::of(datagram).map_or(0, |header| header.ssrc)
}
