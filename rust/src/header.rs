/// The first 12 bytes of an RTP datagram, read for routing: which [`Queue`](crate::Queue) it goes to, and whether as media or as a
/// repair. That the rest of it can be right is checked when it is pushed.
///
/// ```
/// use bizhgemu::Header;
/// let datagram = [0x80, 0x80 | 96, 0, 10, 0, 0, 0, 160, 0, 0, 0, 42, 1, 2, 3];
/// let header = Header::of(&datagram).expect("RTP");
/// assert_eq!((header.payload_type, header.ssrc), (96, 42));
/// assert!(header.marker && !header.may_be_rtcp());
/// ```
#[derive(Clone, Copy, Debug, PartialEq, Eq)]
#[non_exhaustive]
pub struct Header {
    /// Payload type, 0 to 127.
    pub payload_type: u8,
    /// Marker bit.
    pub marker: bool,
    /// RTP sequence number; of a repair its own, not that of the packet it repairs.
    pub sequence_number: u16,
    /// RTP timestamp.
    pub timestamp: u32,
    /// The sender.
    pub ssrc: u32,
}

impl Header {
    /// None for fewer than 12 bytes and for another version than 2, which a queue refuses under 2 and 3.
    pub fn of(datagram: &[u8]) -> Option<Header> {
        let [first, second, a, b, c, d, e, f, g, h, i, j] = *datagram.first_chunk::<12>()?;
        (first >> 6 == 2).then(|| Header {
            payload_type: second & 0x7f,
            marker: second & 0x80 != 0,
            sequence_number: u16::from_be_bytes([a, b]),
            timestamp: u32::from_be_bytes([c, d, e, f]),
            ssrc: u32::from_be_bytes([g, h, i, j]),
        })
    }

    /// Whether it reads as RTCP on a shared port would: payload types 64 to 95 (RFC 5761, section 4).
    pub fn may_be_rtcp(&self) -> bool {
        (64..=95).contains(&self.payload_type)
    }
}
