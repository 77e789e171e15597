use crate::answers::{Figures, Media, Packet, Repair, RtxStats};
use crate::config::Config;
use crate::ffi;
use crate::refusal::Refusal;
use crate::time::nanoseconds;
use crate::version;
use alloc::boxed::Box;
use alloc::vec;
use alloc::vec::Vec;
use core::fmt;
use core::time::Duration;

/// The bytes of a pair on the wire: `nack_wire` is lent so many for each gap that may be open.
pub(crate) const ENTRY_BYTES: usize = 4;
/// The most numbers that a pair names.
const NUMBERS: usize = 17;

/// The longest payload: what `poll` is lent to write into.
pub(crate) const LONGEST_PAYLOAD: usize = 320;

/// The storage of a session, of the exact lengths that its settings ask for.
#[derive(Clone)]
#[cfg_attr(test, derive(Debug, PartialEq))]
pub(crate) struct Storage {
    pub(crate) entries: Box<[u64]>,
    pub(crate) payloads: Box<[u8]>,
    pub(crate) gaps: Box<[u64]>,
    pub(crate) remembered: Box<[u64]>,
}

impl Storage {
    fn new(config: &Config) -> Result<Storage, Refusal> {
        version::check();
        let lengths = ffi::bizhgemu_lengths(config.max_entries, config.max_gaps);
        Refusal::check(lengths.refusal)?;
        Ok(Storage {
            entries: vec![0; lengths.entries].into(),
            payloads: vec![0; lengths.payloads].into(),
            gaps: vec![0; lengths.gaps].into(),
            remembered: vec![0; lengths.remembered].into(),
        })
    }

    pub(crate) fn open(&mut self, config: ffi::Config) -> ffi::Opened {
        let Storage { entries, payloads, gaps, remembered } = self;
        // SAFETY: four live slices of the lengths passed, each of another allocation; the function asks nothing else.
        unsafe {
            ffi::bizhgemu_open(
                config,
                entries.as_mut_ptr(),
                entries.len(),
                payloads.as_mut_ptr(),
                payloads.len(),
                gaps.as_mut_ptr(),
                gaps.len(),
                remembered.as_mut_ptr(),
                remembered.len(),
            )
        }
    }
}

/// Makes a call of the boundary that is lent session and storage, with the call's own arguments after them.
macro_rules! lend {
    ($function:ident, $session:expr, $storage:expr $(, $argument:expr)*) => {{
        let Storage { entries, payloads, gaps, remembered } = &mut $storage;
        // SAFETY: four live slices of the lengths passed, each of another allocation; the arguments after them are numbers, or
        // pointers and lengths of live slices apart from the four and from each other. The function asks nothing else of any value.
        unsafe {
            ffi::$function(
                $session,
                entries.as_mut_ptr(),
                entries.len(),
                payloads.as_mut_ptr(),
                payloads.len(),
                gaps.as_mut_ptr(),
                gaps.len(),
                remembered.as_mut_ptr(),
                remembered.len(),
                $($argument),*
            )
        }
    }};
}
#[cfg(test)]
pub(crate) use lend;

/// The receive queue of one RTP stream. It owns its session and storage; it allocates when it is opened or cloned.
///
/// Instants are durations since a start that you choose, not over 52 days back, from one [`Clock`](crate::Clock). `push`,
/// `push_rtx`, `poll`, `poll_nack` and `nack_wire` advance the queue's clock where they are accepted, `push_burst` where one of its datagrams
/// is; an instant before it is refused under 8, and so is one above [`LATEST`](crate::LATEST). The timeouts don't advance it.
///
/// The refusals under "Errors" stand in the order in which they are checked; [`Refusal::Truncated`] is checked a second time, for
/// CSRCs and extension, after [`Refusal::Version`]. Every call that may refuse looks through session and storage first,
/// [`figures`](Queue::figures) through the session alone, and refuses what is damaged under 16, [`Refusal::Session`]; since a queue
/// owns both, that means that memory was overwritten, or that floats were not rounded to nearest. The calls that only read take
/// `&mut self` because every accepted call leaves zeros in unused storage; `figures` and the readings that cannot refuse take
/// `&self`.
#[derive(Clone)]
pub struct Queue {
    pub(crate) session: ffi::Session,
    pub(crate) storage: Storage,
    payload: [u8; LONGEST_PAYLOAD],
    numbers: Box<[u16]>,
    wire: Box<[u8]>,
}

impl Queue {
    /// Opens a queue. Its storage takes 704 · D + 32 · G + 16,384 bytes for D and G of the settings.
    ///
    /// # Errors
    ///
    /// [`Refusal::Settings`] (1) where a setting is out of its range.
    ///
    /// # Panics
    ///
    /// Where the linked archive is of another version than this crate.
    pub fn open(config: &Config) -> Result<Queue, Refusal> {
        let mut storage = Storage::new(config)?;
        let opened = storage.open(config.words());
        Refusal::check(opened.refusal)?;
        Ok(Queue {
            session: opened.session,
            storage,
            payload: [0; LONGEST_PAYLOAD],
            numbers: vec![0; config.max_gaps].into(),
            wire: vec![0; ENTRY_BYTES * config.max_gaps].into(),
        })
    }

    /// Opens a new session in place of this one, with a clock that starts anew: nothing of the old one is left. The storage is used
    /// again where D and G are the same, so that nothing is allocated. Where the settings are refused the queue stays as it was.
    ///
    /// # Errors
    ///
    /// [`Refusal::Settings`] (1) where a setting is out of its range.
    pub fn reopen(&mut self, config: &Config) -> Result<(), Refusal> {
        let lengths = ffi::bizhgemu_lengths(config.max_entries, config.max_gaps);
        Refusal::check(lengths.refusal)?;
        // the lengths that it has, not those of its settings: they may be damaged
        if (lengths.entries, lengths.gaps) != (self.storage.entries.len(), self.storage.gaps.len()) {
            *self = Queue::open(config)?;
            return Ok(());
        }
        let opened = self.storage.open(config.words());
        Refusal::check(opened.refusal)?;
        self.session = opened.session;
        Ok(())
    }

    /// The settings that it was opened with.
    pub fn config(&self) -> Config {
        Config::of_words(&self.session.config)
    }

    /// Takes a media datagram, header and all.
    ///
    /// # Errors
    ///
    /// [`Refusal::Clock`] (8), [`Refusal::Truncated`] (2), [`Refusal::Version`] (3), [`Refusal::Padding`] (4), [`Refusal::PayloadTooLarge`] (5),
    /// [`Refusal::PayloadType`] (6), [`Refusal::Ssrc`] (7),
    /// [`Refusal::Count`] (14), [`Refusal::GapsFull`] (12).
    pub fn push(&mut self, now: Duration, datagram: &[u8]) -> Result<Media, Refusal> {
        let pushed =
            lend!(bizhgemu_push, self.session, self.storage, nanoseconds(now), datagram.as_ptr(), datagram.len());
        Refusal::check(pushed.refusal)?;
        self.session = pushed.session;
        Ok(if pushed.answer == 0 { Media::Queued } else { Media::Dropped })
    }

    /// Takes media datagrams that came together, as single calls of [`push`](Queue::push) in that order at one instant, but looks
    /// through session and storage once for all of them. `ends` says where each datagram ends in `buffer`: the first starts at byte
    /// 0, each further one where the one before it ends, and bytes after the last end are ignored. One answer comes back for each; a
    /// refused datagram stops none of the later ones.
    ///
    /// ```
    /// use bizhgemu::{Config, Media, Queue, Refusal};
    /// use std::time::Duration;
    ///
    /// let mut queue = Queue::open(&Config::pcmu(1))?;
    /// let datagram = |number: u8| [0x80, 0, 0, number, 0, 0, 0, 0, 0, 0, 0, 1, 0x2a];
    ///
    /// // Number 10, eleven bytes that are no packet, number 11, and 10 once more.
    /// let mut buffer = Vec::new();
    /// let mut ends = Vec::new();
    /// for part in [&datagram(10)[..], &[0x80; 11], &datagram(11), &datagram(10)] {
    ///     buffer.extend_from_slice(part);
    ///     ends.push(buffer.len() as u64);
    /// }
    /// let answers = queue.push_burst(Duration::ZERO, &buffer, &ends)?;
    /// assert_eq!(answers, [Ok(Media::Queued), Err(Refusal::Truncated), Ok(Media::Queued), Ok(Media::Dropped)]);
    /// # Ok::<(), bizhgemu::Refusal>(())
    /// ```
    ///
    /// # Errors
    ///
    /// [`Refusal::Output`] (15) where an end is below the one before it or past the buffer: then nothing was pushed. Every other
    /// refusal is one datagram's answer, also [`Refusal::Session`] (16) and [`Refusal::Clock`] (8).
    pub fn push_burst(
        &mut self,
        now: Duration,
        buffer: &[u8],
        ends: &[u64],
    ) -> Result<Vec<Result<Media, Refusal>>, Refusal> {
        let mut answers = vec![0; ends.len()];
        let pushed = lend!(
            bizhgemu_push_burst,
            self.session,
            self.storage,
            nanoseconds(now),
            buffer.as_ptr(),
            buffer.len(),
            ends.as_ptr(),
            ends.len(),
            answers.as_mut_ptr(),
            answers.len()
        );
        Refusal::check(pushed.refusal)?;
        self.session = pushed.session;
        Ok(answers.into_iter().map(media).collect())
    }

    /// Takes a repair: the RTX packet as it was sent (RFC 4588).
    ///
    /// # Errors
    ///
    /// [`Refusal::Clock`] (8), [`Refusal::NoRtx`] (9), [`Refusal::Truncated`] (2), [`Refusal::Version`] (3), [`Refusal::Padding`] (4), [`Refusal::PayloadTooLarge`] (5),
    /// [`Refusal::PayloadType`] (6), [`Refusal::Ssrc`] (7),
    /// [`Refusal::NoMedia`] (10), [`Refusal::NoOriginalNumber`] (11), [`Refusal::Count`] (14), [`Refusal::EntriesFull`] (13).
    pub fn push_rtx(&mut self, now: Duration, datagram: &[u8]) -> Result<Repair, Refusal> {
        let pushed =
            lend!(bizhgemu_push_rtx, self.session, self.storage, nanoseconds(now), datagram.as_ptr(), datagram.len());
        Refusal::check(pushed.refusal)?;
        self.session = pushed.session;
        Ok(match pushed.answer {
            0 => Repair::Recovered,
            1 => Repair::Redundant,
            _ => Repair::TooLate,
        })
    }

    /// Hands out the next packet, if one is due. Call it until it hands out nothing.
    ///
    /// # Errors
    ///
    /// [`Refusal::Clock`] (8), [`Refusal::Count`] (14).
    pub fn poll(&mut self, now: Duration) -> Result<Option<Packet<'_>>, Refusal> {
        let polled = lend!(
            bizhgemu_poll,
            self.session,
            self.storage,
            nanoseconds(now),
            self.payload.as_mut_ptr(),
            self.payload.len()
        );
        Refusal::check(polled.refusal)?;
        self.session = polled.session;
        if polled.has_packet == 0 {
            return Ok(None);
        }
        let packet = polled.packet;
        Ok(Some(Packet {
            received_at: told(packet.has_received_at, packet.received_at).map(Duration::from_nanos),
            delay: Duration::from_nanos(packet.delay),
            timestamp: packet.timestamp,
            ssrc: packet.ssrc,
            sequence_number: packet.sequence_number,
            payload_type: packet.pt,
            marker: packet.marker != 0,
            payload: &self.payload[..packet.size],
        }))
    }

    /// The numbers to ask the sender for again, in ascending order of their extended numbers; empty where none is due. In
    /// passthrough call it even if you send no NACKs: numbers are given up there by the count of their NACKs.
    ///
    /// # Errors
    ///
    /// [`Refusal::Clock`] (8), [`Refusal::Count`] (14).
    pub fn poll_nack(&mut self, now: Duration) -> Result<&[u16], Refusal> {
        let polled = lend!(
            bizhgemu_poll_nack,
            self.session,
            self.storage,
            nanoseconds(now),
            self.numbers.as_mut_ptr(),
            self.numbers.len()
        );
        Refusal::check(polled.refusal)?;
        self.session = polled.session;
        Ok(&self.numbers[..polled.count])
    }

    /// The same numbers as [`poll_nack`](Queue::poll_nack) would give, as they go over the wire: entries of a generic NACK (RFC 4585,
    /// section 6.2.1), four bytes each, a number and a mask of the sixteen that follow it, as few of them as can name these numbers;
    /// empty where none is due. [`Reporter`](crate::rtcp::Reporter) makes RTCP packets of them.
    ///
    /// It does to the queue what `poll_nack` does, so call the one or the other.
    ///
    /// ```
    /// use bizhgemu::{Config, Queue, read_nacks, rtcp::Reporter};
    /// use std::time::Duration;
    ///
    /// let mut queue = Queue::open(&Config::pcmu(42))?;
    /// // 65,534 comes, then 2: 65,535, 0 and 1 are missing.
    /// queue.push(Duration::ZERO, &[0x80, 0, 0xff, 0xfe, 0, 0, 0, 0, 0, 0, 0, 42])?;
    /// queue.push(Duration::from_millis(80), &[0x80, 0, 0, 2, 0, 0, 2, 128, 0, 0, 0, 42])?;
    ///
    /// let entries = queue.nack_wire(Duration::from_millis(85))?;
    /// assert_eq!(entries, [0xff, 0xff, 0, 0b11]);
    /// assert_eq!(read_nacks(entries)?, [65_535, 0, 1]);
    /// for datagram in Reporter::compound(7, "box@example").generic_nacks(42, entries) {
    ///     // send it to the sender's RTCP port
    /// }
    /// # Ok::<(), bizhgemu::Refusal>(())
    /// ```
    ///
    /// # Errors
    ///
    /// [`Refusal::Clock`] (8), [`Refusal::Count`] (14).
    pub fn nack_wire(&mut self, now: Duration) -> Result<&[u8], Refusal> {
        let mut wire = core::mem::take(&mut self.wire);
        let bytes = self.nack_wire_into(now, &mut wire);
        self.wire = wire;
        Ok(&self.wire[..bytes?])
    }

    /// The same into bytes of your own, 4 for each of [`Config::max_gaps`] at least; answers how many were written. Those after them are
    /// kept.
    ///
    /// # Errors
    ///
    /// [`Refusal::Output`] (15), [`Refusal::Clock`] (8), [`Refusal::Count`] (14).
    pub fn nack_wire_into(&mut self, now: Duration, out: &mut [u8]) -> Result<usize, Refusal> {
        let polled =
            lend!(bizhgemu_nack_wire, self.session, self.storage, nanoseconds(now), out.as_mut_ptr(), out.len());
        Refusal::check(polled.refusal)?;
        self.session = polled.session;
        Ok(polled.bytes)
    }

    /// The time from `now` until [`poll`](Queue::poll) should be called; none while nothing waits. It may hand out nothing then.
    ///
    /// # Errors
    ///
    /// [`Refusal::Clock`] (8).
    pub fn timeout_receive(&mut self, now: Duration) -> Result<Option<Duration>, Refusal> {
        let answer = lend!(bizhgemu_timeout_receive, self.session, self.storage, nanoseconds(now));
        timeout(answer)
    }

    /// The time from `now` until [`poll_nack`](Queue::poll_nack) should be called; none while nothing is missing. It may name
    /// nothing then.
    ///
    /// # Errors
    ///
    /// [`Refusal::Clock`] (8).
    pub fn timeout_nack(&mut self, now: Duration) -> Result<Option<Duration>, Refusal> {
        let answer = lend!(bizhgemu_timeout_nack, self.session, self.storage, nanoseconds(now));
        timeout(answer)
    }

    /// The smaller of the two timeouts: how long a host may sleep if no datagram comes.
    ///
    /// # Errors
    ///
    /// [`Refusal::Clock`] (8).
    pub fn timeout(&mut self, now: Duration) -> Result<Option<Duration>, Refusal> {
        let receive = self.timeout_receive(now)?;
        let nack = self.timeout_nack(now)?;
        Ok(receive.into_iter().chain(nack).min())
    }

    /// The figures of repairs; none for a session without RTX.
    ///
    /// # Errors
    ///
    /// [`Refusal::Session`] (16) alone.
    pub fn rtx_stats(&mut self) -> Result<Option<RtxStats>, Refusal> {
        let stats = lend!(bizhgemu_rtx_stats, self.session, self.storage);
        Refusal::check(stats.refusal)?;
        if stats.has_stats == 0 {
            return Ok(None);
        }
        Ok(Some(RtxStats {
            packets_received_in_time: stats.packets_received_in_time,
            packets_received_too_late: stats.packets_received_too_late,
            packets_received_redundant: stats.packets_received_redundant,
            bytes_received: stats.bytes_received,
            rtt: told(stats.has_rtt, stats.rtt).map(Duration::from_nanos),
        }))
    }

    /// The extended number of the media packet with the highest number; none before the first. The first packet is in cycle 1: its
    /// extended number is its own and 65,536.
    ///
    /// # Errors
    ///
    /// [`Refusal::Session`] (16) alone.
    pub fn highest_sequence_number_received(&mut self) -> Result<Option<u64>, Refusal> {
        let highest = lend!(bizhgemu_highest_sequence_number_received, self.session, self.storage);
        Refusal::check(highest.refusal)?;
        Ok(told(highest.has_number, highest.number))
    }

    /// The figures a box shows.
    ///
    /// # Errors
    ///
    /// [`Refusal::Session`] (16) alone.
    pub fn figures(&self) -> Result<Figures, Refusal> {
        let figures = ffi::bizhgemu_figures(self.session);
        Refusal::check(figures.refusal)?;
        Ok(Figures {
            packets_received: figures.packets_received,
            packets_dropped: figures.packets_dropped,
            packets_lost: figures.packets_lost,
            bytes_received: figures.bytes_received,
            jitter: Duration::from_nanos(figures.jitter),
            loss: figures.loss,
        })
    }
}

/// The 16-bit numbers that the entries of a generic NACK name (RFC 4585, section 6.2.1), entry by entry: its first number, then those of
/// its mask from the lowest bit. What [`Queue::nack_wire`] wrote comes back in order, each number once; of entries that others wrote a
/// number may come twice. It is the sender's side: who is asked sends these again.
///
/// ```
/// assert_eq!(bizhgemu::read_nacks(&[0xff, 0xff, 0, 0b11, 0, 32, 0x80, 0])?, [65_535, 0, 1, 32, 48]);
/// assert_eq!(bizhgemu::read_nacks(&[0xff, 0xff, 0]), Err(bizhgemu::Refusal::NackEntries));
/// # Ok::<(), bizhgemu::Refusal>(())
/// ```
///
/// # Errors
///
/// [`Refusal::NackEntries`] (17) where the bytes are not a multiple of 4.
pub fn read_nacks(entries: &[u8]) -> Result<Vec<u16>, Refusal> {
    let mut numbers = vec![0; NUMBERS * (entries.len() / ENTRY_BYTES)];
    let many = read_nacks_into(entries, &mut numbers)?;
    numbers.truncate(many);
    Ok(numbers)
}

/// The same into a list of your own, of 17 numbers for each four bytes at least; answers how many were written. Those after them are kept.
///
/// # Errors
///
/// [`Refusal::Output`] (15), [`Refusal::NackEntries`] (17).
pub fn read_nacks_into(entries: &[u8], out: &mut [u16]) -> Result<usize, Refusal> {
    // SAFETY: two live slices of the lengths passed, which do not overlap; the function asks nothing else.
    let read = unsafe { ffi::bizhgemu_read_nacks(entries.as_ptr(), entries.len(), out.as_mut_ptr(), out.len()) };
    Refusal::check(read.refusal)?;
    Ok(read.numbers)
}

impl fmt::Debug for Queue {
    fn fmt(&self, f: &mut fmt::Formatter<'_>) -> fmt::Result {
        f.debug_struct("Queue").field("session", &self.session).finish_non_exhaustive()
    }
}

fn timeout(answer: ffi::Timeout) -> Result<Option<Duration>, Refusal> {
    Refusal::check(answer.refusal)?;
    Ok(told(answer.has_timeout, answer.timeout).map(Duration::from_nanos))
}

/// A value beside its flag.
pub(crate) fn told<T>(flag: u64, value: T) -> Option<T> {
    (flag != 0).then_some(value)
}

/// A datagram's answer number in a burst: 0 queued, 255 dropped, else the refusal.
fn media(number: u8) -> Result<Media, Refusal> {
    match number {
        0 => Ok(Media::Queued),
        255 => Ok(Media::Dropped),
        refusal => Refusal::check(refusal.into()).map(|()| Media::Queued),
    }
}
