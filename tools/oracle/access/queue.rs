
// Appended by tools/oracle/build: reading access for the driver. Nothing above is altered but MAX_ENTRIES.
impl Queue {
    /// Instant, extended timestamp and extended number of the media packet with the highest number.
    pub(crate) fn last(&self) -> Option<(Instant, u64, u64)> {
        self.last_rtp_received
            .map(|(instant, timestamp, number)| (instant, timestamp.0, number.0))
    }

    pub(crate) fn returned(&self) -> Option<u64> {
        self.last_sequence_number_returned.map(|number| number.0)
    }

    /// Arrival, extended timestamp, extended number, packet.
    pub(crate) fn entries(
        &self,
    ) -> impl ExactSizeIterator<Item = (Option<Instant>, u64, u64, &RtpPacket)> {
        self.queue.iter().map(|entry| {
            (
                entry.received_at,
                entry.timestamp.0,
                entry.sequence_number.0,
                &entry.packet,
            )
        })
    }

    /// Extended number, instant detected, instant and count of the NACKs.
    pub(crate) fn gaps(
        &self,
    ) -> impl ExactSizeIterator<Item = (u64, Instant, Option<(Instant, u32)>)> {
        self.gaps.all()
    }

    pub(crate) fn has_gap(&self, number: u64) -> bool {
        self.gaps.contains(ExtendedSequenceNumber(number))
    }

    /// Smoothed round trip and variation.
    pub(crate) fn round_trip(&self) -> Option<(Duration, Duration)> {
        self.rtx.as_ref().and_then(RtxState::round_trip)
    }

    /// Extended number and NACK instant.
    pub(crate) fn remembered(&self) -> Vec<(u64, Instant)> {
        self.rtx
            .as_ref()
            .map(RtxState::remembered)
            .unwrap_or_default()
    }
}
