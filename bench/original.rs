//! The Rust original behind the oracle's datagram reader, compiled by bench/run beside the original's own files.
//!
//! Of the proved queue's work it lacks check 16 (session and storage looked through in each call), checks 8 and 12 to 14, and
//! the clearing of unused places. `Bytes` and `Instant` are the oracle's stand-ins: a payload is one allocation and one copy.

extern crate box_std as std;

mod attempts;
mod datagram;
#[allow(dead_code, unused_imports)]
mod rtp;
#[allow(dead_code, unreachable_code)]
mod rtp_session {
    pub(crate) mod inbound {
        pub(crate) mod queue;
        pub(crate) mod stats;

        pub(crate) use queue::config::{
            RtpInboundQueueMode, RtpInboundSortedQueueConfig, RtpInboundStreamSortedQueueMode,
        };
    }
}

include!("opt_min.rs");

use rtp::{RtpExtensions, RtpPacket, RtpTimestamp, SequenceNumber, Ssrc};
use rtp_session::inbound::queue::Queue;
use rtp_session::inbound::{RtpInboundQueueMode, RtpInboundSortedQueueConfig, RtpInboundStreamSortedQueueMode};
use std::sync::atomic::{AtomicUsize, Ordering::Relaxed};
use std::time::{Duration, Instant};

/// D of the session at work: what the original's `MAX_ENTRIES` became.
static DEPTH: AtomicUsize = AtomicUsize::new(1024);

pub(crate) fn max_entries() -> usize {
    DEPTH.load(Relaxed)
}

pub struct Original {
    queue: Queue,
    rtx_pt: u8,
    rtx_ssrc: u32,
}

impl Original {
    /// A sorted queue; the NACK timings are the original's defaults.
    pub fn open(delay: Duration, clock_rate: u32, pt: u8, ssrc: u32, rtx_pt: u8, rtx_ssrc: u32) -> Original {
        let mode = RtpInboundQueueMode::SortedQueue(RtpInboundSortedQueueConfig {
            mode: RtpInboundStreamSortedQueueMode::Fixed(delay),
            ..Default::default()
        });
        Original { queue: Queue::new(mode, pt, Ssrc(ssrc), clock_rate, true), rtx_pt, rtx_ssrc }
    }

    /// D, for all queues at once.
    pub fn set_depth(depth: usize) {
        DEPTH.store(depth, Relaxed);
    }

    pub fn push(&mut self, now: u64, bytes: &[u8]) -> Result<(), u8> {
        let packet = read(bytes, self.queue.pt, self.queue.ssrc.0, 320)?;
        self.queue.push(instant(now), packet);
        Ok(())
    }

    pub fn push_rtx(&mut self, now: u64, bytes: &[u8]) -> Result<(), u8> {
        let packet = read(bytes, self.rtx_pt, self.rtx_ssrc, 322)?;
        self.queue.push_rtx(instant(now), packet);
        Ok(())
    }

    /// The length of the payload, which is copied out.
    pub fn poll(&mut self, now: u64, out: &mut [u8; 320]) -> Option<usize> {
        let (packet, ..) = self.queue.poll(instant(now))?;
        out[..packet.payload.len()].copy_from_slice(&packet.payload);
        Some(packet.payload.len())
    }

    pub fn timeout_nack(&mut self, now: u64) -> Option<Duration> {
        self.queue.timeout_nack(instant(now))
    }

    pub fn poll_nack(&mut self, now: u64, numbers: &mut Vec<u16>) {
        if let Some(nack) = self.queue.poll_nack(instant(now)) {
            numbers.extend_from_slice(&nack.0);
        }
    }
}

fn instant(now: u64) -> Instant {
    Instant(i128::from(now))
}

fn read(bytes: &[u8], pt: u8, ssrc: u32, longest: usize) -> Result<RtpPacket, u8> {
    let packet = datagram::read(bytes, pt, ssrc, longest)?;
    Ok(RtpPacket {
        pt,
        sequence_number: SequenceNumber(packet.number),
        ssrc: Ssrc(ssrc),
        timestamp: RtpTimestamp(packet.timestamp),
        marker: packet.marker,
        extensions: RtpExtensions::default(),
        payload: packet.payload.to_vec().into(),
    })
}
