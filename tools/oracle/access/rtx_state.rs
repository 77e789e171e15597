
// Appended by tools/oracle/build: reading access for the driver.
impl RtxState {
    pub(super) fn round_trip(&self) -> Option<(Duration, Duration)> {
        self.rtt.map(|rtt| (rtt.srtt, rtt.variation))
    }

    pub(super) fn remembered(&self) -> Vec<(u64, Instant)> {
        self.lost_nacked_packets
            .iter()
            .map(|(number, nacked_at)| (number.0, *nacked_at))
            .collect()
    }
}
