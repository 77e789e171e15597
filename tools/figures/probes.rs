// What tools/compare-figures appends to the Rust's files, which are otherwise as published, so that private fields can be set and read.
//=> rtp_session/inbound/queue/jitter.rs
impl Jitter {
    pub(super) fn probe(clock_rate: u32, jitter: f64) -> Jitter {
        Jitter { clock_rate: clock_rate as f64, jitter }
    }
    pub(super) fn running(&self) -> f64 {
        self.jitter
    }
}
//=> rtp_session/inbound/queue/packet_loss.rs
impl PacketLoss {
    pub(super) fn probe(loss: f32) -> PacketLoss {
        PacketLoss { loss }
    }
}
//=> rtp_session/inbound/queue/rtx_state.rs
impl RtxRtt {
    pub(super) fn probe((srtt, variation): (Duration, Duration)) -> RtxRtt {
        RtxRtt { srtt, variation }
    }
    pub(super) fn fields(&self) -> [Duration; 2] {
        [self.srtt, self.variation]
    }
}
impl RtxState {
    pub(super) fn probe(rtt: Option<RtxRtt>, counters: [u64; 4]) -> RtxState {
        RtxState {
            rtt,
            received_in_time: counters[0],
            received_too_late: counters[1],
            received_redundant: counters[2],
            bytes_received: counters[3],
            ..RtxState::new()
        }
    }
}
//=> rtp_session/inbound/queue/mod.rs
pub(crate) mod probe {
    use super::config::*;
    use super::rtx_state::RtxRtt;
    use super::*;

    fn nanos(d: Duration) -> Option<u64> {
        Some(d.as_nanos() as u64)
    }

    pub(crate) fn loss(loss: f32, lost: Option<u64>) -> f32 {
        let mut p = PacketLoss::probe(loss);
        match lost {
            None => p.record_received(),
            Some(n) => p.record_lost(n),
        }
        p.get()
    }

    pub(crate) fn jitter(rate: u32, x: f64, instants: [Instant; 2], timestamps: [u64; 2]) -> Vec<Option<u64>> {
        if rate == 0 {
            return vec![None];
        }
        let mut j = Jitter::probe(rate, x);
        let [timestamp, last] = timestamps.map(ExtendedRtpTimestamp);
        j.update(instants[0], timestamp, instants[1], last);
        let x = j.running();
        let within = 0.0 <= x && x <= rate as f64;
        vec![
            (!x.is_nan()).then(|| x.to_bits()),
            if within { nanos(j.get()) } else { None },
        ]
    }

    pub(crate) fn rtt(old: Option<(Duration, Duration)>, sample: Duration) -> Vec<Option<u64>> {
        let mut e = match old {
            None => RtxRtt::from_first_sample(sample),
            Some(old) => RtxRtt::probe(old),
        };
        if old.is_some() {
            e.update(sample);
        }
        e.fields().map(nanos).to_vec()
    }

    pub(crate) fn resend_delay(srtt: Duration, variation: Duration) -> u64 {
        nanos(RtxRtt::probe((srtt, variation)).nack_resend_delay()).unwrap()
    }

    pub(crate) fn timings(initial: Duration, default: Duration, rtt: Option<(Duration, Duration)>) -> Vec<Option<u64>> {
        let mode = RtpInboundQueueMode::Passthrough(RtpInboundPassthroughConfig {
            initial_nack_delay: initial,
            default_nack_resend_delay: default,
            ..Default::default()
        });
        let rtx = RtxState::probe(rtt.map(RtxRtt::probe), [0; 4]);
        let (initial, resend) = mode.nack_timings(Some(&rtx));
        vec![nanos(initial), nanos(resend)]
    }

    pub(crate) fn stats(counters: [u64; 4], size: usize, sample: Duration, now: Instant) -> Vec<Option<u64>> {
        let mut s = RtxState::probe(None, counters);
        s.record_in_time(size);
        s.record_redundant();
        s.record_too_late(ExtendedSequenceNumber(0), now);
        s.update_rtt(sample);
        let f = s.stats();
        vec![
            Some(f.packets_received_in_time),
            Some(f.packets_received_too_late),
            Some(f.packets_received_redundant),
            Some(f.bytes_received),
            f.rtt.and_then(nanos),
        ]
    }

    fn fixed(delay: Duration) -> RtpInboundSortedQueueConfig {
        RtpInboundSortedQueueConfig {
            mode: RtpInboundStreamSortedQueueMode::Fixed(delay),
            ..Default::default()
        }
    }

    pub(crate) fn limit(last: Instant, timestamp: u64, rate: u32, delay: Duration, now: Instant) -> Option<u64> {
        let delay = fixed(delay).target_delay(&Jitter::new(rate), &PacketLoss::default(), None);
        map_instant_to_rtp_timestamp(last, ExtendedRtpTimestamp(timestamp), rate, now - delay).map(|t| t.0)
    }

    pub(crate) fn timeout(last: Instant, timestamp: u64, earliest: u64, rate: u32, delay: Duration, now: Instant) -> Option<u64> {
        let mode = RtpInboundQueueMode::SortedQueue(fixed(delay));
        let mut queue = Queue::new(mode, 0, Ssrc(0), rate, false);
        queue.last_rtp_received = Some((last, ExtendedRtpTimestamp(timestamp), ExtendedSequenceNumber(0)));
        queue.queue.push_back(QueueEntry {
            received_at: None,
            timestamp: ExtendedRtpTimestamp(earliest),
            sequence_number: ExtendedSequenceNumber(0),
            packet: RtpPacket::empty(),
        });
        queue.timeout_receive(now).and_then(nanos)
    }
}
//=> rtp/mod.rs
// stands in for 007's record, of which the queue reads these fields
pub struct RtpPacket {
    pub pt: u8,
    pub sequence_number: SequenceNumber,
    pub ssrc: Ssrc,
    pub timestamp: RtpTimestamp,
    pub marker: bool,
    pub extensions: (),
    pub payload: Payload,
}
impl RtpPacket {
    pub(crate) fn empty() -> RtpPacket {
        RtpPacket {
            pt: 0,
            sequence_number: SequenceNumber(0),
            ssrc: Ssrc(0),
            timestamp: RtpTimestamp(0),
            marker: false,
            extensions: (),
            payload: Payload(Vec::new()),
        }
    }
}
pub struct Payload(Vec<u8>);
impl Payload {
    pub fn slice_ref(&self, part: &[u8]) -> Payload {
        Payload(part.to_vec())
    }
}
impl std::ops::Deref for Payload {
    type Target = [u8];
    fn deref(&self) -> &[u8] {
        &self.0
    }
}
