//! A session: 01's table of refusals before the original's calls.
//!
//! Of the table, 16 cannot be met from a trace, the driver owning its storage, and 15 only by the calls of document 02, whose lines say how
//! much they lend. Check 14 can, for timestamps alone: some two million packets, each near half a cycle on.

use crate::answers;
use crate::datagram::{self, Packet};
use crate::nack_entries;
use crate::rtp::{RtpExtensions, RtpPacket, RtpTimestamp, SequenceNumber, Ssrc};
use crate::rtp_session::inbound::queue::Queue;
use crate::rtp_session::inbound::{
    RtpInboundPassthroughConfig, RtpInboundQueueMode, RtpInboundSortedQueueConfig,
    RtpInboundStreamDynamicConfig, RtpInboundStreamSortedQueueMode,
};
use crate::trace::Call;
use std::collections::HashMap;
use std::io::{self, Write};
use std::time::{Duration, Instant};

const MAX_VALUE: u64 = (1 << 52) - 1;
const MAX_GAP_SIZE: u64 = 1000;
const LONGEST_PAYLOAD: usize = 320;

type Refusable<T> = Result<T, u8>;

pub struct Session {
    queue: Queue,
    sorted: bool,
    depth: usize,
    max_gaps: usize,
    /// Payload type and SSRC of repairs, where the session has them.
    rtx: Option<(u8, u32)>,
    /// The latest accepted instant.
    clock: u64,
}

impl Session {
    /// Check 1, then the original's `Queue::new`.
    pub fn open(fields: [u64; 13], dynamic: Option<[u64; 3]>) -> Refusable<Session> {
        let [mode, clock_rate, depth, max_gaps, ..] = fields;
        let [.., pt, ssrc, rtx, rtx_pt, rtx_ssrc] = fields;
        if !in_range(fields, dynamic) {
            return Err(1);
        }
        let queue = Queue::new(
            config(fields, dynamic),
            pt as u8,
            Ssrc(ssrc as u32),
            clock_rate as u32,
            rtx == 1,
        );
        Ok(Session {
            queue,
            sorted: mode != 0,
            depth: depth as usize,
            max_gaps: max_gaps as usize,
            rtx: (rtx == 1).then_some((rtx_pt as u8, rtx_ssrc as u32)),
            clock: 0,
        })
    }

    pub fn depth(&self) -> usize {
        self.depth
    }

    /// Makes a call and writes its answer; a refused one writes nothing and changes nothing.
    pub fn call(&mut self, call: Call, out: &mut impl Write) -> io::Result<Refusable<()>> {
        match call {
            Call::Open(..)
            | Call::ReadNacks(..)
            | Call::ReadSettings(_)
            | Call::WriteSettings(_) => unreachable!("main makes it"),
            Call::Media(now, bytes) => {
                answer(self.media(now, &bytes), |word| writeln!(out, "{word}"))
            }
            Call::Repair(now, bytes) => {
                answer(self.repair(now, &bytes), |word| writeln!(out, "{word}"))
            }
            Call::Burst(now, places, buffer, ends) => {
                answer(self.burst(now, places, &buffer, &ends), |numbers| {
                    answers::numbers(out, "answers", &numbers)
                })
            }
            Call::Poll(now) => answer(self.poll(now), |found| answers::packet(out, found)),
            Call::PollNack(now) => answer(self.poll_nack(now), |due| {
                answers::numbers(out, "nack", &due)
            }),
            Call::NackWire(now, places) => answer(self.nack_wire(now, places), |entries| {
                answers::bytes(out, "wire", &entries)
            }),
            Call::TimeoutReceive(now) => answer(self.instant(now), |now| {
                answers::timeout(out, self.queue.timeout_receive(now))
            }),
            Call::TimeoutNack(now) => answer(self.instant(now), |now| {
                answers::timeout(out, self.queue.timeout_nack(now))
            }),
            Call::RtxStats => answers::rtx_stats(out, self.queue.rtx_stats()).map(Ok),
            Call::Highest => {
                answers::highest(out, self.queue.highest_sequence_number_received()).map(Ok)
            }
            Call::State => answers::state(out, &self.queue, self.clock).map(Ok),
        }
    }

    /// Check 8.
    fn instant(&self, now: u64) -> Refusable<Instant> {
        if now > MAX_VALUE || now < self.clock {
            Err(8)
        } else {
            Ok(Instant(i128::from(now)))
        }
    }

    fn media(&mut self, now: u64, bytes: &[u8]) -> Refusable<&'static str> {
        let instant = self.instant(now)?;
        let packet = datagram::read(bytes, self.queue.pt, self.queue.ssrc.0, LONGEST_PAYLOAD)?;
        self.counts_of_media(&packet)?;
        self.gaps_of_media(&packet)?;

        self.clock = now;
        let before = self.queue.received;
        let packet = self.rtp_packet(self.queue.pt, self.queue.ssrc.0, &packet);
        self.queue.push(instant, packet);
        Ok(if self.queue.received > before {
            "queued"
        } else {
            "dropped"
        })
    }

    /// 02, point 4: a media call for each datagram of the buffer; 0 queued, 255 dropped, else the refusal.
    fn burst(&mut self, now: u64, places: u64, buffer: &[u8], ends: &[u64]) -> Refusable<Vec<u8>> {
        let fall = ends.windows(2).any(|pair| pair[1] < pair[0]);
        let pass = ends.iter().any(|end| *end > buffer.len() as u64);
        if fall || pass || places < ends.len() as u64 {
            return Err(15);
        }
        let mut start = 0;
        let mut numbers = Vec::new();
        for end in ends {
            let end = *end as usize;
            numbers.push(match self.media(now, &buffer[start..end]) {
                Ok("queued") => 0,
                Ok(_) => 255,
                Err(number) => number,
            });
            start = end;
        }
        Ok(numbers)
    }

    /// Check 14 of a media packet.
    fn counts_of_media(&self, packet: &Packet) -> Refusable<()> {
        let Some((_, timestamp, highest)) = self.queue.last() else {
            return Ok(());
        };
        let number = extended(highest, u64::from(packet.number), 16);
        within(extended(timestamp, u64::from(packet.timestamp), 32))?;
        within(number)?;

        let pushed_out = self.queue.entries().len() >= self.depth;
        let queued = number > highest || self.fills_gap(number);
        if queued {
            within(self.queue.received + 1)?;
            within(self.queue.received_bytes + packet.payload.len() as u64)?;
        }
        if !queued || pushed_out {
            within(self.queue.dropped + 1)?;
        }
        Ok(())
    }

    /// Check 12.
    fn gaps_of_media(&self, packet: &Packet) -> Refusable<()> {
        let Some((_, _, highest)) = self.queue.last() else {
            return Ok(());
        };
        let number = extended(highest, u64::from(packet.number), 16);
        let step = number.saturating_sub(highest);
        let full = self.queue.gaps().len() as u64 + step.saturating_sub(1) > self.max_gaps as u64;
        if (2..=MAX_GAP_SIZE).contains(&step) && full {
            Err(12)
        } else {
            Ok(())
        }
    }

    fn repair(&mut self, now: u64, bytes: &[u8]) -> Refusable<&'static str> {
        let instant = self.instant(now)?;
        let (pt, ssrc) = self.rtx.ok_or(9)?;
        let packet = datagram::read(bytes, pt, ssrc, LONGEST_PAYLOAD + 2)?;
        let (_, timestamp, highest) = self.queue.last().ok_or(10)?;
        let [high, low, ..] = *packet.payload else {
            return Err(11);
        };
        let number = extended(highest, u64::from(high) << 8 | u64::from(low), 16);
        self.counts_of_repair(
            number,
            extended(timestamp, u64::from(packet.timestamp), 32),
            &packet,
        )?;
        if self.fills_gap(number) && self.queue.entries().len() >= 2 * self.depth {
            return Err(13);
        }

        self.clock = now;
        let before = self.queue.rtx_stats().expect("the session has RTX");
        let packet = self.rtp_packet(pt, ssrc, &packet);
        self.queue.push_rtx(instant, packet);
        let after = self.queue.rtx_stats().expect("the session has RTX");
        Ok(
            if after.packets_received_in_time > before.packets_received_in_time {
                "recovered"
            } else if after.packets_received_redundant > before.packets_received_redundant {
                "redundant"
            } else {
                "too late"
            },
        )
    }

    /// Check 14 of a repair.
    fn counts_of_repair(&self, number: u64, timestamp: u64, packet: &Packet) -> Refusable<()> {
        within(number)?;
        within(timestamp)?;
        let stats = self.queue.rtx_stats().expect("the session has RTX");
        if self.late(number) {
            within(stats.packets_received_too_late + 1)
        } else if self.fills_gap(number) {
            within(stats.packets_received_in_time + 1)?;
            within(stats.bytes_received + packet.payload.len() as u64 - 2)
        } else {
            within(stats.packets_received_redundant + 1)
        }
    }

    fn poll(&mut self, now: u64) -> Refusable<Option<(RtpPacket, Option<Instant>, Duration)>> {
        let instant = self.instant(now)?;
        self.clock = now;
        Ok(self.queue.poll(instant))
    }

    fn poll_nack(&mut self, now: u64) -> Refusable<Vec<u16>> {
        let instant = self.instant(now)?;
        self.clock = now;
        Ok(self
            .queue
            .poll_nack(instant)
            .map_or(Vec::new(), |nack| nack.0))
    }

    /// 02, point 1: `poll_nack`, and its numbers as entries. The original has 16 bits of them; the extended numbers are those whose count of
    /// NACKs rose.
    fn nack_wire(&mut self, now: u64, places: u64) -> Refusable<Vec<u8>> {
        if places < 4 * self.max_gaps as u64 {
            return Err(15);
        }
        let before: HashMap<u64, u32> = self.nack_counts().collect();
        let listed = self.poll_nack(now)?;
        let due: Vec<u64> = self
            .nack_counts()
            .filter(|(number, count)| before[number] < *count)
            .map(|(number, _)| number)
            .collect();
        let low: Vec<u16> = due.iter().map(|number| *number as u16).collect();
        assert_eq!(
            low, listed,
            "the numbers that were counted are those listed"
        );
        Ok(nack_entries::write(&due))
    }

    /// Extended number of each gap, and how often it was NACKed.
    fn nack_counts(&self) -> impl Iterator<Item = (u64, u32)> {
        self.queue
            .gaps()
            .map(|(number, _, nacked)| (number, nacked.map_or(0, |(_, count)| count)))
    }

    /// In sorted mode nothing at or below the last returned number is queued.
    fn late(&self, number: u64) -> bool {
        self.sorted
            && self
                .queue
                .returned()
                .is_some_and(|returned| number <= returned)
    }

    fn fills_gap(&self, number: u64) -> bool {
        !self.late(number) && self.queue.has_gap(number)
    }

    fn rtp_packet(&self, pt: u8, ssrc: u32, packet: &Packet) -> RtpPacket {
        RtpPacket {
            pt,
            sequence_number: SequenceNumber(packet.number),
            ssrc: Ssrc(ssrc),
            timestamp: RtpTimestamp(packet.timestamp),
            marker: packet.marker,
            extensions: RtpExtensions::default(),
            payload: packet.payload.to_vec().into(),
        }
    }
}

/// Check 1, field by field of the opening.
fn in_range(fields: [u64; 13], dynamic: Option<[u64; 3]>) -> bool {
    let duration = 0..=60_000_000_000;
    let (modes, attempts) = match dynamic {
        None => (0..=1, 1..=255),
        Some(_) => (2..=2, 1..=4),
    };
    let dynamic_in_range = dynamic
        .is_none_or(|[min, max, target]| min <= max && duration.contains(&max) && target <= 9_999);
    let payload_type = 0..=127;
    let sender = 0..=u64::from(u32::MAX);
    let ranges = [
        modes,
        1..=1_000_000,
        1..=1024,
        999..=4096,
        duration.clone(),
        duration.clone(),
        duration,
        attempts,
        payload_type.clone(),
        sender.clone(),
        0..=1,
        payload_type,
        sender,
    ];
    dynamic_in_range
        && ranges
            .iter()
            .zip(fields)
            .all(|(range, value)| range.contains(&value))
}

/// The original's settings, of an opening in range.
fn config(fields: [u64; 13], dynamic: Option<[u64; 3]>) -> RtpInboundQueueMode {
    let [mode, _, _, _, delay, initial, resend, max, ..] = fields;
    let initial_nack_delay = Duration::from_nanos(initial);
    let default_nack_resend_delay = Duration::from_nanos(resend);
    let max_nack_attempts = max as u32;
    if mode == 0 {
        RtpInboundQueueMode::Passthrough(RtpInboundPassthroughConfig {
            initial_nack_delay,
            default_nack_resend_delay,
            max_nack_attempts,
            ..Default::default()
        })
    } else {
        RtpInboundQueueMode::SortedQueue(RtpInboundSortedQueueConfig {
            mode: match dynamic {
                None => RtpInboundStreamSortedQueueMode::Fixed(Duration::from_nanos(delay)),
                Some([min, max, target_recovery]) => {
                    RtpInboundStreamSortedQueueMode::Dynamic(RtpInboundStreamDynamicConfig {
                        min: Duration::from_nanos(min),
                        max: Duration::from_nanos(max),
                        target_recovery,
                    })
                }
            },
            initial_nack_delay,
            default_nack_resend_delay,
            max_nack_attempts,
        })
    }
}

/// 01, "Numbers": of the base and its two rivals the nearest to the reference, at equal distance the base.
fn extended(reference: u64, low: u64, bits: u32) -> u64 {
    let cycle = 1u64 << bits;
    let base = reference - reference % cycle + low;
    let rivals = [base.wrapping_sub(cycle), base.wrapping_add(cycle)];
    rivals.into_iter().fold(base, |nearest, rival| {
        if reference.abs_diff(rival) < reference.abs_diff(nearest) {
            rival
        } else {
            nearest
        }
    })
}

fn within(value: u64) -> Refusable<()> {
    if value > MAX_VALUE { Err(14) } else { Ok(()) }
}

fn answer<T>(
    result: Refusable<T>,
    write: impl FnOnce(T) -> io::Result<()>,
) -> io::Result<Refusable<()>> {
    match result {
        Ok(value) => write(value).map(Ok),
        Err(number) => Ok(Err(number)),
    }
}
