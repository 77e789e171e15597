//! What a queue holds, for diagnosis: read from the session and the storage, whose layout docs/DESIGN.md has.

use crate::queue::{LONGEST_PAYLOAD, Queue, told};
use core::time::Duration;

/// The media packet with the highest number.
#[derive(Clone, Copy, Debug, PartialEq, Eq)]
#[non_exhaustive]
pub struct LastReceived {
    /// When it came.
    pub instant: Duration,
    /// Its extended timestamp.
    pub timestamp: u64,
    /// Its extended number.
    pub number: u64,
}

/// The round trip from a NACK to its repair, after RFC 6298.
#[derive(Clone, Copy, Debug, PartialEq, Eq)]
#[non_exhaustive]
pub struct RoundTrip {
    /// Smoothed.
    pub srtt: Duration,
    /// Its variation.
    pub variation: Duration,
}

/// A packet that waits.
#[derive(Clone, Copy, Debug, PartialEq, Eq)]
#[non_exhaustive]
pub struct Waiting<'a> {
    /// Extended number.
    pub number: u64,
    /// Extended timestamp.
    pub timestamp: u64,
    /// When it came; none for a repair.
    pub received_at: Option<Duration>,
    /// Marker bit.
    pub marker: bool,
    /// The payload.
    pub payload: &'a [u8],
}

/// A missing number.
#[derive(Clone, Copy, Debug, PartialEq, Eq)]
#[non_exhaustive]
pub struct Gap {
    /// Extended number.
    pub number: u64,
    /// When it was seen to be missing.
    pub detected_at: Duration,
    /// How often it was NACKed.
    pub nacks: u64,
    /// When it was last NACKed; none where it never was.
    pub nacked_at: Option<Duration>,
}

/// A lost number that was NACKed just once: a late repair of it still measures the round trip.
#[derive(Clone, Copy, Debug, PartialEq, Eq)]
#[non_exhaustive]
pub struct Remembered {
    /// Extended number.
    pub number: u64,
    /// When it was NACKed.
    pub nacked_at: Duration,
}

impl Queue {
    /// The instant of the latest accepted push or poll; zero at the opening.
    pub fn clock(&self) -> Duration {
        Duration::from_nanos(self.session.clock)
    }

    /// The media packet with the highest number; none before the first.
    pub fn last_received(&self) -> Option<LastReceived> {
        let session = &self.session;
        (session.has_last != 0).then(|| LastReceived {
            instant: Duration::from_nanos(session.last_instant),
            timestamp: session.last_timestamp,
            number: session.last_number,
        })
    }

    /// The extended number last handed out or pushed out; none before the first.
    pub fn last_returned(&self) -> Option<u64> {
        told(self.session.has_returned, self.session.returned)
    }

    /// The round trip; none before the first sample.
    pub fn round_trip(&self) -> Option<RoundTrip> {
        let session = &self.session;
        (session.has_rtt != 0).then(|| RoundTrip {
            srtt: Duration::from_nanos(session.srtt),
            variation: Duration::from_nanos(session.variation),
        })
    }

    /// The running jitter in ticks of the RTP clock. [`Figures::jitter`](crate::Figures::jitter) has it as a time.
    pub fn jitter_ticks(&self) -> f64 {
        f64::from_bits(self.session.jitter_bits)
    }

    /// The packets that wait, ascending by number.
    pub fn waiting(&self) -> impl ExactSizeIterator<Item = Waiting<'_>> {
        let places = self.storage.entries.chunks_exact(4);
        let payloads = self.storage.payloads.chunks_exact(LONGEST_PAYLOAD);
        places.zip(payloads).take(self.session.entries).map(|(words, payload)| Waiting {
            number: words[0],
            timestamp: words[1],
            received_at: words[2].checked_sub(1).map(Duration::from_nanos),
            marker: words[3] % 2 == 1,
            payload: &payload[..payload.len().min((words[3] / 2) as usize)],
        })
    }

    /// The missing numbers, ascending.
    pub fn gaps(&self) -> impl ExactSizeIterator<Item = Gap> {
        self.storage.gaps.chunks_exact(4).take(self.session.gaps).map(|words| Gap {
            number: words[0],
            detected_at: Duration::from_nanos(words[1]),
            nacks: words[2],
            nacked_at: told(words[2], words[3]).map(Duration::from_nanos),
        })
    }

    /// The remembered numbers, oldest first.
    pub fn remembered(&self) -> impl ExactSizeIterator<Item = Remembered> {
        self.storage
            .remembered
            .chunks_exact(2)
            .take(self.session.remembered)
            .map(|words| Remembered { number: words[0], nacked_at: Duration::from_nanos(words[1]) })
    }
}
