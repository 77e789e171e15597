
// Appended by tools/oracle/build: reading access for the driver.
impl PacketGaps {
    pub(super) fn all(
        &self,
    ) -> impl ExactSizeIterator<Item = (u64, Instant, Option<(Instant, u32)>)> {
        self.gaps
            .iter()
            .map(|gap| (gap.sequence_number.0, gap.detected_at, gap.nacked_at))
    }
}
