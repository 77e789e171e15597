use crate::ffi;
use crate::queue::told;
use crate::time::nanoseconds;
use core::time::Duration;

/// How packets are handed out.
#[derive(Clone, Copy, Debug, PartialEq, Eq)]
#[non_exhaustive]
pub enum Mode {
    /// At once, in the order of their numbers among those that wait; late packets come out of order. Call
    /// [`poll_nack`](crate::Queue::poll_nack) even if you send no NACKs.
    Passthrough,
    /// In order, each [`Config::delay`] after it was due to arrive.
    SortedQueue,
    /// In order, each after it was due to arrive by a delay that follows jitter, loss and round trip. [`Config::max_nack_attempts`] is
    /// 1 to 4 here.
    Dynamic(Dynamic),
}

/// Between what the delay of [`Mode::Dynamic`] moves. It is two and a half times the jitter or, once a round trip was measured and if that
/// is more, twice the time of as many NACKs as recover the target at the present loss; and at least `min`, at most `max`.
///
/// ```
/// use bizhgemu::{Config, Dynamic, Mode};
///
/// let mut config = Config::opus(111, 0x1234_5678);
/// config.mode = Mode::Dynamic(Dynamic::default());
/// assert!(bizhgemu::Queue::open(&config).is_ok());
/// ```
#[derive(Clone, Copy, Debug, PartialEq, Eq)]
#[non_exhaustive]
pub struct Dynamic {
    /// The shortest delay, not above the longest. Default: 10 ms.
    pub min: Duration,
    /// The longest delay, at most 60 s. Default: 400 ms.
    pub max: Duration,
    /// Of ten thousand losses, how many the NACKs are to recover: 0 to 9,999. Default: 9,900, that is 0.99.
    pub target_recovery: u64,
}

impl Default for Dynamic {
    fn default() -> Dynamic {
        Dynamic { min: Duration::from_millis(10), max: Duration::from_millis(400), target_recovery: 9_900 }
    }
}

/// Where repairs come from (RFC 4588).
#[derive(Clone, Copy, Debug, PartialEq, Eq)]
#[non_exhaustive]
pub struct Rtx {
    /// Payload type of repairs, 0 to 127.
    pub payload_type: u8,
    /// SSRC of repairs.
    pub ssrc: u32,
}

impl Rtx {
    /// Repairs of this payload type from this SSRC.
    pub fn new(payload_type: u8, ssrc: u32) -> Rtx {
        Rtx { payload_type, ssrc }
    }
}

/// The settings of a queue. A value out of its range is refused under 1 by [`Queue::open`](crate::Queue::open).
///
/// Begin with the preset of the payload format, then set what differs. Payload type and SSRC are the sender's:
///
/// ```
/// use bizhgemu::{Config, Rtx};
/// use std::time::Duration;
///
/// let mut config = Config::opus(111, 0x1234_5678);
/// config.delay = Duration::from_millis(150);
/// config.rtx = Some(Rtx::new(112, 0x8765_4321));
/// assert!(bizhgemu::Queue::open(&config).is_ok());
/// ```
///
/// The default is that of 20 ms voice at a clock rate of 8,000 Hz. Durations are taken to the nanosecond.
#[derive(Clone, Copy, Debug, PartialEq, Eq)]
#[non_exhaustive]
pub struct Config {
    /// How packets are handed out. Default: [`Mode::SortedQueue`].
    pub mode: Mode,
    /// Clock rate of the RTP timestamps, 1 to 1,000,000 Hz: that of the payload format, not of the sound (G.722 has 8,000).
    /// A wrong one is refused nowhere; packets then wait too long or not at all. Default: 8,000.
    pub clock_rate: u32,
    /// Of [`Mode::SortedQueue`]: from when a packet was due, by its timestamp, to its hand-out; at most 60 s. Default: 100 ms.
    pub delay: Duration,
    /// Depth D: packets kept, 1 to 1,024. At least `delay` / packet time + 1, twice that with repairs. 16 is enough for 100 ms
    /// of 20 ms packets and costs less in every call. Default: 100.
    pub max_entries: usize,
    /// Most missing numbers at a time, G: 999 to 4,096. Default: 999.
    pub max_gaps: usize,
    /// From the detection of a gap to its first NACK, at most 60 s. Default: 5 ms.
    pub initial_nack_delay: Duration,
    /// From one NACK to the next while no round trip was measured, at most 60 s. Set it above the round trip. Default: 20 ms.
    pub default_nack_resend_delay: Duration,
    /// NACKs after which [`Mode::Passthrough`] gives a number up, 1 to 255; in [`Mode::Dynamic`] the most that the delay leaves time for,
    /// 1 to 4. Default: 3.
    pub max_nack_attempts: u32,
    /// Payload type of media packets, 0 to 127. Default: 0 (PCMU).
    pub payload_type: u8,
    /// SSRC of media packets. Default: 0.
    pub ssrc: u32,
    /// Where repairs come from, if the sender answers NACKs. Default: none.
    pub rtx: Option<Rtx>,
}

impl Default for Config {
    fn default() -> Config {
        Config {
            mode: Mode::SortedQueue,
            clock_rate: 8_000,
            delay: Duration::from_millis(100),
            max_entries: 100,
            max_gaps: 999,
            initial_nack_delay: Duration::from_millis(5),
            default_nack_resend_delay: Duration::from_millis(20),
            max_nack_attempts: 3,
            payload_type: 0,
            ssrc: 0,
            rtx: None,
        }
    }
}

/// Presets: payload type and clock rate of a format (RFC 3551, RFC 7587), everything else as in the default.
impl Config {
    /// PCMU (G.711 µ-law): payload type 0. 20 ms are 160 bytes; 40 ms just fit.
    pub fn pcmu(ssrc: u32) -> Config {
        Config::format(0, 8_000, ssrc)
    }

    /// PCMA (G.711 A-law): payload type 8. 20 ms are 160 bytes; 40 ms just fit.
    pub fn pcma(ssrc: u32) -> Config {
        Config::format(8, 8_000, ssrc)
    }

    /// G.722: payload type 9. Its RTP clock is 8,000 Hz though it samples at 16,000. 20 ms are 160 bytes; 40 ms just fit.
    pub fn g722(ssrc: u32) -> Config {
        Config::format(9, 8_000, ssrc)
    }

    /// Opus, whose payload type the two ends agree on: 48,000 Hz at any bandwidth. 20 ms are 320 bytes at a constant 128 kbit/s;
    /// a variable rate has peaks, and 112 kbit/s were seen to be too much.
    pub fn opus(payload_type: u8, ssrc: u32) -> Config {
        Config::format(payload_type, 48_000, ssrc)
    }

    fn format(payload_type: u8, clock_rate: u32, ssrc: u32) -> Config {
        Config { payload_type, clock_rate, ssrc, ..Config::default() }
    }
}

/// How far senders are apart. One bit turned over on the way is refused for certain only where any two senders, that is payload
/// types and SSRCs of media and repairs, differ in at least two bits. No settings are refused for it.
impl Config {
    /// Whether media and repairs of these settings differ in at least two bits of payload type and SSRC together. Where they do not,
    /// a media packet with one bit turned over can be taken for a repair, if it is pushed as one. Without repairs: true.
    ///
    /// ```
    /// use bizhgemu::{Config, Rtx};
    /// let mut config = Config::opus(96, 7);
    /// config.rtx = Some(Rtx::new(97, 7));
    /// assert!(!config.two_bits_apart()); // 96 and 97 differ in one bit
    /// config.rtx = Some(Rtx::new(99, 7));
    /// assert!(config.two_bits_apart());
    /// ```
    pub fn two_bits_apart(&self) -> bool {
        self.rtx.is_none_or(|rtx| bits_between(self.media(), rtx) >= 2)
    }

    /// In how many bits the senders of two sessions differ: the least over media and repairs of the one and of the other.
    pub fn bits_apart(&self, other: &Config) -> u32 {
        let pairs = self.senders().flat_map(|ours| other.senders().map(move |theirs| bits_between(ours, theirs)));
        pairs.min().expect("each has media")
    }

    fn media(&self) -> Rtx {
        Rtx { payload_type: self.payload_type, ssrc: self.ssrc }
    }

    fn senders(&self) -> impl Iterator<Item = Rtx> + use<> {
        core::iter::once(self.media()).chain(self.rtx)
    }
}

/// Of the 7 bits of a payload type and the 32 of an SSRC, those that differ.
fn bits_between(one: Rtx, other: Rtx) -> u32 {
    ((one.payload_type ^ other.payload_type) & 0x7f).count_ones() + (one.ssrc ^ other.ssrc).count_ones()
}

impl Mode {
    /// Its number, and what a dynamic delay has: zeros in another mode, where nothing looks at them.
    fn words(self) -> (u32, Dynamic) {
        let none = Dynamic { min: Duration::ZERO, max: Duration::ZERO, target_recovery: 0 };
        match self {
            Mode::Passthrough => (0, none),
            Mode::SortedQueue => (1, none),
            Mode::Dynamic(dynamic) => (2, dynamic),
        }
    }

    fn of_words(words: &ffi::Config) -> Mode {
        let nanos = Duration::from_nanos;
        match words.mode {
            0 => Mode::Passthrough,
            1 => Mode::SortedQueue,
            _ => Mode::Dynamic(Dynamic {
                min: nanos(words.min_delay),
                max: nanos(words.max_delay),
                target_recovery: words.target_recovery,
            }),
        }
    }
}

impl Config {
    pub(crate) fn words(&self) -> ffi::Config {
        let rtx = self.rtx.unwrap_or(Rtx { payload_type: 0, ssrc: 0 });
        let (mode, dynamic) = self.mode.words();
        ffi::Config {
            delay: nanoseconds(self.delay),
            initial_nack_delay: nanoseconds(self.initial_nack_delay),
            default_nack_resend_delay: nanoseconds(self.default_nack_resend_delay),
            min_delay: nanoseconds(dynamic.min),
            max_delay: nanoseconds(dynamic.max),
            target_recovery: dynamic.target_recovery,
            max_entries: self.max_entries,
            max_gaps: self.max_gaps,
            clock_rate: self.clock_rate,
            max_nack_attempts: self.max_nack_attempts,
            mode,
            has_rtx: u32::from(self.rtx.is_some()),
            ssrc: self.ssrc,
            rtx_ssrc: rtx.ssrc,
            pt: self.payload_type,
            rtx_pt: rtx.payload_type,
        }
    }

    /// The settings that a session holds.
    pub(crate) fn of_words(words: &ffi::Config) -> Config {
        let nanos = Duration::from_nanos;
        Config {
            mode: Mode::of_words(words),
            clock_rate: words.clock_rate,
            delay: nanos(words.delay),
            max_entries: words.max_entries,
            max_gaps: words.max_gaps,
            initial_nack_delay: nanos(words.initial_nack_delay),
            default_nack_resend_delay: nanos(words.default_nack_resend_delay),
            max_nack_attempts: words.max_nack_attempts,
            payload_type: words.pt,
            ssrc: words.ssrc,
            rtx: told(words.has_rtx.into(), Rtx { payload_type: words.rtx_pt, ssrc: words.rtx_ssrc }),
        }
    }
}
