use core::time::Duration;

/// What became of a media packet.
#[derive(Clone, Copy, Debug, PartialEq, Eq)]
#[non_exhaustive]
pub enum Media {
    /// It waits to be handed out. With [`Config::max_entries`](crate::Config::max_entries) already waiting, the front one was
    /// pushed out, which may be this very packet.
    Queued,
    /// Its number is not missing: a duplicate, one before the first packet, or one handed out, given up or forgotten. Many in a
    /// row: the sender restarted, and a new session is due.
    Dropped,
}

/// What became of a repair.
#[derive(Clone, Copy, Debug, PartialEq, Eq)]
#[non_exhaustive]
pub enum Repair {
    /// The missing packet now waits to be handed out.
    Recovered,
    /// Nothing was missing under its number.
    Redundant,
    /// In sorted mode: this number or a later one was already handed out or pushed out.
    TooLate,
}

/// A packet that is handed out.
#[derive(Clone, Copy, Debug, PartialEq, Eq)]
#[non_exhaustive]
pub struct Packet<'a> {
    /// When the media packet came; none for a repair.
    pub received_at: Option<Duration>,
    /// For how long the queue keeps packets: [`Config::delay`](crate::Config::delay), or zero in passthrough.
    pub delay: Duration,
    /// RTP timestamp.
    pub timestamp: u32,
    /// SSRC of the media, also for a repair.
    pub ssrc: u32,
    /// RTP sequence number; of a repair, the original one.
    pub sequence_number: u16,
    /// Payload type of the media, also for a repair.
    pub payload_type: u8,
    /// Marker bit.
    pub marker: bool,
    /// The payload, 0 to 320 bytes. Some senders do send empty ones.
    pub payload: &'a [u8],
}

/// The figures a box shows.
#[derive(Clone, Copy, Debug, PartialEq)]
#[non_exhaustive]
pub struct Figures {
    /// Media packets queued.
    pub packets_received: u64,
    /// Media packets dropped, and packets pushed out at the front.
    pub packets_dropped: u64,
    /// Numbers that were given up.
    pub packets_lost: u64,
    /// Payload bytes of the media packets queued.
    pub bytes_received: u64,
    /// Running jitter. Packets with a timestamp not above that of the highest number so far do not count, and it falls more
    /// slowly than RFC 3550's.
    pub jitter: Duration,
    /// Running loss of the original stream, 0 to 1; a repaired packet counts as lost.
    pub loss: f32,
}

/// The figures of repairs.
#[derive(Clone, Copy, Debug, PartialEq, Eq)]
#[non_exhaustive]
pub struct RtxStats {
    /// Repairs that filled a gap.
    pub packets_received_in_time: u64,
    /// In sorted mode: repairs of numbers at or below the one last handed out or pushed out.
    pub packets_received_too_late: u64,
    /// Other repairs of numbers that were not missing.
    pub packets_received_redundant: u64,
    /// Payload bytes of the repairs in time.
    pub bytes_received: u64,
    /// Smoothed time from a NACK to its repair; none before the first sample.
    pub rtt: Option<Duration>,
}
