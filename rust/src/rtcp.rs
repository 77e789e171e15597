//! Generic NACKs as RTCP packets: transport-layer feedback (RFC 4585, sections 6.1 and 6.2.1).
//!
//! [`Queue::nack_wire`](crate::Queue::nack_wire) writes the entries; [`Reporter`] puts packets around them, and
//! [`Receiver::nack_packets`](crate::Receiver::nack_packets) does both. Who is asked takes what came apart by [`packets`],
//! [`GenericNack::read`] and [`read_nacks`](crate::read_nacks). The framing is Rust and tested, not proved; what writes and reads the
//! entries is proved.

use crate::queue::ENTRY_BYTES;
use alloc::vec::Vec;
use core::{error, fmt};

/// The most bytes of a datagram that a [`Reporter`] makes. The smallest path of IPv6 carries 1,280 bytes, of which its header and UDP's
/// take 48; what then remains to 1,232 is for SRTCP's index and tag. So no datagram is broken up on its way, and the loss of one part
/// does not lose the rest.
pub const LARGEST_DATAGRAM: usize = 1_200;

/// RTP's version, in the two high bits of each packet's first byte.
const VERSION: u8 = 2;
/// The bit that says that bytes were added to fill the packet up.
const PADDING: u8 = 0x20;
const RECEIVER_REPORT: u8 = 201;
const SOURCE_DESCRIPTION: u8 = 202;
const TRANSPORT_FEEDBACK: u8 = 205;
/// The format (FMT) of a generic NACK, among transport-layer feedback.
const GENERIC_NACK: u8 = 1;
/// The item of a source description that names its source.
const CNAME: u8 = 1;
/// What stands before the entries: four bytes of every RTCP packet, and the two SSRCs.
const FEEDBACK_HEADER: usize = 12;

/// A generic NACK, as it was received.
///
/// ```
/// use bizhgemu::rtcp::{GenericNack, packets};
///
/// // 7 asks 42 for the numbers 11 and 13
/// let datagram = [0x81, 205, 0, 3, 0, 0, 0, 7, 0, 0, 0, 42, 0, 11, 0, 0b10];
/// for packet in packets(&datagram).expect("RTCP") {
///     let nack = GenericNack::read(packet)?;
///     assert_eq!((nack.sender_ssrc, nack.media_ssrc), (7, 42));
///     assert_eq!(bizhgemu::read_nacks(nack.entries).expect("whole entries"), [11, 13]);
/// }
/// # Ok::<(), bizhgemu::rtcp::NotNack>(())
/// ```
#[derive(Clone, Copy, Debug, PartialEq, Eq)]
#[non_exhaustive]
pub struct GenericNack<'a> {
    /// Who asks ("SSRC of packet sender").
    pub sender_ssrc: u32,
    /// Whose packets are asked for ("SSRC of media source").
    pub media_ssrc: u32,
    /// What is asked for: one entry or more, four bytes each, as [`read_nacks`](crate::read_nacks) takes them.
    pub entries: &'a [u8],
}

impl<'a> GenericNack<'a> {
    /// Takes one RTCP packet apart; of a compound datagram [`packets`] gives them one by one.
    ///
    /// # Errors
    ///
    /// What makes it none, in the order in which it is looked at. Nothing panics, whatever the bytes are.
    pub fn read(packet: &'a [u8]) -> Result<GenericNack<'a>, NotNack> {
        let (length, first, kind) = described(packet).ok_or(NotNack::Truncated)?;
        if first >> 6 != VERSION {
            return Err(NotNack::Version);
        }
        if (kind, first & 0x1f) != (TRANSPORT_FEEDBACK, GENERIC_NACK) {
            return Err(NotNack::Kind);
        }
        if length != packet.len() {
            return Err(NotNack::Length);
        }
        let packet = without_padding(first, packet).ok_or(NotNack::Padding)?;
        let (header, entries) = packet.split_first_chunk::<FEEDBACK_HEADER>().ok_or(NotNack::Truncated)?;
        let [_, _, _, _, a, b, c, d, e, f, g, h] = *header;
        if entries.is_empty() {
            return Err(NotNack::Empty);
        }
        let (sender_ssrc, media_ssrc) = (u32::from_be_bytes([a, b, c, d]), u32::from_be_bytes([e, f, g, h]));
        Ok(GenericNack { sender_ssrc, media_ssrc, entries })
    }
}

/// Why an RTCP packet is not a generic NACK.
#[derive(Clone, Copy, Debug, PartialEq, Eq)]
#[non_exhaustive]
pub enum NotNack {
    /// It ends within its header: under 4 bytes, or under 12 of transport-layer feedback.
    Truncated,
    /// Its version is not 2.
    Version,
    /// It is of another type or format: a report, or feedback of another kind. Of a compound datagram most are.
    Kind,
    /// It is not as long as it says.
    Length,
    /// Its count of padding bytes cannot be right: no multiple of 4, 0, or more than there are.
    Padding,
    /// It names nothing.
    Empty,
}

impl fmt::Display for NotNack {
    fn fmt(&self, f: &mut fmt::Formatter<'_>) -> fmt::Result {
        f.write_str(match self {
            NotNack::Truncated => "the RTCP packet ends within its header",
            NotNack::Version => "the RTCP packet's version is not 2",
            NotNack::Kind => "the RTCP packet is not a generic NACK (type 205, format 1)",
            NotNack::Length => "the RTCP packet is not as long as it says",
            NotNack::Padding => "the RTCP packet's padding cannot be right",
            NotNack::Empty => "the generic NACK has no entry",
        })
    }
}

impl error::Error for NotNack {}

/// The RTCP packets of a datagram, one after the other (RFC 3550, section 6.1). None where their lengths do not add up to the
/// datagram's, one's version is not 2, or there is none: then nothing in it is to be trusted (appendix A.2).
pub fn packets(datagram: &[u8]) -> Option<impl Iterator<Item = &[u8]>> {
    let mut rest = datagram;
    while !rest.is_empty() {
        let (length, ..) = described(rest).filter(|(_, first, _)| first >> 6 == VERSION)?;
        rest = rest.get(length..)?;
    }
    let mut rest = datagram;
    let next = move || {
        let (length, ..) = described(rest)?;
        let (packet, after) = rest.split_at_checked(length)?;
        rest = after;
        Some(packet)
    };
    (!datagram.is_empty()).then(|| core::iter::from_fn(next))
}

/// What every RTCP packet begins with: how many bytes it says it has, its first byte, its type.
fn described(packet: &[u8]) -> Option<(usize, u8, u8)> {
    let [first, kind, high, low] = *packet.first_chunk::<4>()?;
    let words = usize::from(u16::from_be_bytes([high, low])) + 1;
    Some((4 * words, first, kind))
}

fn without_padding(first: u8, packet: &[u8]) -> Option<&[u8]> {
    if first & PADDING == 0 {
        return Some(packet);
    }
    let padding = usize::from(*packet.last()?);
    let is_right = padding > 0 && padding.is_multiple_of(4);
    packet.get(..packet.len().checked_sub(padding).filter(|_| is_right)?)
}

/// Who sends feedback: its SSRC, and what stands before each feedback packet in its datagram.
///
/// ```
/// use bizhgemu::rtcp::Reporter;
///
/// // number 11, and of the sixteen after it the second
/// let entries = [0, 11, 0, 0b10];
/// let reporter = Reporter::reduced_size(7);
/// let mut datagrams = reporter.generic_nacks(42, &entries);
/// assert_eq!(datagrams.next().unwrap(), [0x81, 205, 0, 3, 0, 0, 0, 7, 0, 0, 0, 42, 0, 11, 0, 0b10]);
/// assert_eq!(datagrams.next(), None);
/// ```
#[derive(Clone, Debug, PartialEq, Eq)]
pub struct Reporter {
    ssrc: u32,
    before: Vec<u8>,
}

impl Reporter {
    /// Sends compound datagrams, which every receiver of RTCP takes (RFC 3550, section 6.1): before the feedback stand a receiver report
    /// without a block and a source description that has the CNAME. Of a CNAME over 255 bytes the first 255 are taken, whole characters.
    /// The SSRC is to be drawn at random and must not be that of the media (section 8).
    pub fn compound(ssrc: u32, cname: &str) -> Reporter {
        let mut before = Vec::new();
        put(&mut before, 0, RECEIVER_REPORT, &ssrc.to_be_bytes());
        let cname = first_255(cname).as_bytes();
        let mut chunk = ssrc.to_be_bytes().to_vec();
        chunk.extend([CNAME, cname.len() as u8]);
        chunk.extend(cname);
        // a null byte ends the items, and more of them the word
        chunk.resize((chunk.len() + 1).next_multiple_of(4), 0);
        put(&mut before, 1, SOURCE_DESCRIPTION, &chunk);
        Reporter { ssrc, before }
    }

    /// Sends feedback packets by themselves (RFC 5506). They are shorter, but both sides must have agreed to it, in SDP by
    /// `a=rtcp-rsize`.
    pub fn reduced_size(ssrc: u32) -> Reporter {
        Reporter { ssrc, before: Vec::new() }
    }

    /// The SSRC that it sends under.
    pub fn ssrc(&self) -> u32 {
        self.ssrc
    }

    /// Datagrams that ask `media_ssrc` for what the entries name, as [`Queue::nack_wire`](crate::Queue::nack_wire) writes them: none
    /// without an entry, and as many as it takes to keep each within [`LARGEST_DATAGRAM`]. Bytes after the last whole entry are left
    /// out.
    pub fn generic_nacks<'a>(&'a self, media_ssrc: u32, entries: &'a [u8]) -> impl Iterator<Item = Vec<u8>> + 'a {
        let room = LARGEST_DATAGRAM - self.before.len() - FEEDBACK_HEADER;
        let whole = &entries[..entries.len() - entries.len() % ENTRY_BYTES];
        whole.chunks(room - room % ENTRY_BYTES).map(move |entries| {
            let mut datagram = self.before.clone();
            let ssrcs = [self.ssrc, media_ssrc].map(u32::to_be_bytes);
            put(&mut datagram, GENERIC_NACK, TRANSPORT_FEEDBACK, &[ssrcs.as_flattened(), entries].concat());
            datagram
        })
    }
}

/// The first 255 bytes, whole characters.
fn first_255(text: &str) -> &str {
    let end = (0..=text.len().min(255)).rfind(|end| text.is_char_boundary(*end));
    &text[..end.unwrap_or(0)]
}

/// One RTCP packet: version 2, no padding, a count or format of five bits, the type, the length in words less one, and the rest, which is
/// whole words and under 2^16 of them.
fn put(datagram: &mut Vec<u8>, count: u8, kind: u8, rest: &[u8]) {
    let [high, low] = ((rest.len() / 4) as u16).to_be_bytes();
    datagram.extend([VERSION << 6 | count, kind, high, low]);
    datagram.extend(rest);
}

#[cfg(test)]
#[allow(clippy::unusual_byte_groupings)] // bits stand as the RFCs draw them
mod tests {
    use super::*;

    /// The drawing of RFC 4585, 6.1 and 6.2.1, byte by byte.
    #[test]
    fn a_packet_is_as_the_rfc_draws_it() {
        let entries = [0xff, 0xfe, 0x80, 0x01, 0x00, 0x20, 0x00, 0x00];
        let reporter = Reporter::reduced_size(0x0102_0304);
        let datagrams: Vec<_> = reporter.generic_nacks(0xa1b2_c3d4, &entries).collect();
        let expected = [
            [0b10_0_00001, 205, 0, 4], // version, padding, FMT; PT; length: 5 words
            [0x01, 0x02, 0x03, 0x04],  // SSRC of packet sender
            [0xa1, 0xb2, 0xc3, 0xd4],  // SSRC of media source
            [0xff, 0xfe, 0x80, 0x01],  // PID 65534, BLP: 65535 and 14
            [0x00, 0x20, 0x00, 0x00],  // PID 32
        ];
        assert_eq!(datagrams, [expected.as_flattened()]);
        let nack = GenericNack::read(&datagrams[0]).unwrap();
        assert_eq!((nack.sender_ssrc, nack.media_ssrc, nack.entries), (0x0102_0304, 0xa1b2_c3d4, &entries[..]));
    }

    #[test]
    fn a_compound_datagram_is_as_the_rfc_draws_it() {
        let datagrams: Vec<_> = Reporter::compound(7, "box@1").generic_nacks(42, &[0, 11, 0, 2]).collect();
        let expected = [
            &[0b10_0_00000, 201, 0, 1, 0, 0, 0, 7][..], // RR: no block
            &[0b10_0_00001, 202, 0, 3, 0, 0, 0, 7, 1, 5, b'b', b'o', b'x', b'@', b'1', 0], // SDES: one chunk, CNAME
            &[0b10_0_00001, 205, 0, 3, 0, 0, 0, 7, 0, 0, 0, 42, 0, 11, 0, 2],
        ];
        assert_eq!(datagrams, [expected.concat()]);
        assert!(packets(&datagrams[0]).unwrap().eq(expected));
        let read: Vec<_> = packets(&datagrams[0]).unwrap().map(GenericNack::read).collect();
        assert_eq!(read[..2], [Err(NotNack::Kind), Err(NotNack::Kind)]);
        assert_eq!(read[2].unwrap().entries, [0, 11, 0, 2]);
    }

    /// The items of a source description end with a null byte, and its chunk with a whole word.
    #[test]
    fn a_cname_of_any_length_is_framed() {
        for length in 0..300 {
            let cname = "x".repeat(length);
            let datagrams: Vec<_> = Reporter::compound(7, &cname).generic_nacks(42, &[0; 2000]).collect();
            for datagram in &datagrams {
                let parts: Vec<_> = packets(datagram).unwrap().collect();
                assert_eq!(parts.len(), 3);
                let taken = length.min(255);
                assert_eq!((parts[1][8], usize::from(parts[1][9])), (1, taken));
                assert!(parts[1][10..10 + taken].iter().all(|byte| *byte == b'x'));
                assert!((1..=4).contains(&parts[1][10 + taken..].len()));
                assert!(parts[1][10 + taken..].iter().all(|byte| *byte == 0));
            }
        }
        // a character of two bytes is not cut in two
        let cname = "x".repeat(254) + "é";
        assert_eq!(Reporter::compound(7, &cname), Reporter::compound(7, &cname[..254]));
    }

    #[test]
    fn entries_are_spread_over_as_few_datagrams_as_hold_them() {
        for (reporter, most) in [(Reporter::reduced_size(7), 297usize), (Reporter::compound(7, "box@1"), 291)] {
            for count in [0, 1, most - 1, most, most + 1, 2 * most, 2 * most + 1, 4096] {
                let entries: Vec<u8> = (0..count as u32).flat_map(u32::to_be_bytes).collect();
                let datagrams: Vec<_> = reporter.generic_nacks(42, &entries).collect();
                assert_eq!(datagrams.len(), count.div_ceil(most));
                assert!(datagrams.iter().all(|datagram| datagram.len() <= LARGEST_DATAGRAM));
                let read = datagrams.iter().flat_map(|datagram| {
                    let nack = GenericNack::read(packets(datagram).unwrap().last().unwrap()).unwrap();
                    assert_eq!((nack.sender_ssrc, nack.media_ssrc), (7, 42));
                    nack.entries
                });
                assert!(read.eq(&entries));
            }
        }
    }

    #[test]
    fn what_is_no_whole_entry_is_left_out() {
        let reporter = Reporter::reduced_size(7);
        assert_eq!(reporter.generic_nacks(42, &[1, 2, 3]).count(), 0);
        let datagrams: Vec<_> = reporter.generic_nacks(42, &[1, 2, 3, 4, 5, 6, 7]).collect();
        assert_eq!(GenericNack::read(&datagrams[0]).unwrap().entries, [1, 2, 3, 4]);
    }

    const PACKET: [u8; 16] = [0x81, 205, 0, 3, 0, 0, 0, 7, 0, 0, 0, 42, 0, 11, 0, 2];

    #[test]
    fn what_is_no_generic_nack_is_told() {
        let but = |place: usize, byte: u8| {
            let mut packet = PACKET;
            packet[place] = byte;
            GenericNack::read(&packet).map(|nack| nack.entries.to_vec())
        };
        assert_eq!(but(15, 2), Ok(vec![0, 11, 0, 2]));
        assert_eq!(but(0, 0x41), Err(NotNack::Version));
        for format in [0, 2, 15, 31] {
            assert_eq!(but(0, 0x80 | format), Err(NotNack::Kind));
        }
        for kind in [200, 201, 204, 206, 77] {
            assert_eq!(but(1, kind), Err(NotNack::Kind));
        }
        for length in [0, 2, 4, 255] {
            assert_eq!(but(3, length), Err(NotNack::Length));
        }
        assert_eq!(but(2, 1), Err(NotNack::Length));
        assert_eq!(GenericNack::read(&[0x81, 205, 0]), Err(NotNack::Truncated));
        assert_eq!(GenericNack::read(&[0x81, 205, 0, 1, 0, 0, 0, 7]), Err(NotNack::Truncated));
        assert_eq!(GenericNack::read(&[0x81, 205, 0, 2, 0, 0, 0, 7, 0, 0, 0, 42]), Err(NotNack::Empty));
        assert_eq!(NotNack::Empty.to_string(), "the generic NACK has no entry");
    }

    #[test]
    fn padding_is_taken_off() {
        let padded = |bytes: &[u8]| {
            let mut packet = [&PACKET[..], bytes].concat();
            (packet[0], packet[3]) = (0xa1, (packet.len() / 4 - 1) as u8);
            GenericNack::read(&packet).map(|nack| nack.entries.to_vec())
        };
        assert_eq!(padded(&[0, 0, 0, 4]), Ok(vec![0, 11, 0, 2]));
        assert_eq!(padded(&[9, 9, 9, 9, 9, 9, 9, 8]), Ok(vec![0, 11, 0, 2]));
        for count in [0, 1, 2, 3, 5, 24, 255] {
            assert_eq!(padded(&[0, 0, 0, count]), Err(NotNack::Padding));
        }
        assert_eq!(padded(&[0, 0, 0, 8]), Err(NotNack::Empty));
        assert_eq!(padded(&[0, 0, 0, 12]), Err(NotNack::Truncated));
    }

    #[test]
    fn packets_add_up_to_their_datagram_or_are_not_trusted() {
        let two = [PACKET, PACKET].concat();
        assert!(packets(&two).unwrap().eq([PACKET, PACKET]));
        for length in (0..two.len()).filter(|length| *length != PACKET.len()) {
            assert!(packets(&two[..length]).is_none(), "{length}");
        }
        let mut other = two;
        other[16] = 0x41;
        assert!(packets(&other).is_none());
    }

    /// Bytes at random, half of them behind a header that fits: no panic, and what is read lies where it should.
    #[test]
    fn every_list_of_bytes_has_an_answer() {
        let mut state = 1u32;
        let mut next = move |most: usize| {
            state = state.wrapping_mul(1_664_525).wrapping_add(1_013_904_223);
            (state >> 8) as usize % most
        };
        const LIKELY: [u8; 12] = [0x81, 0xa1, 0x80, 205, 0, 1, 2, 3, 4, 8, 0x41, 0xff];
        let (mut read, mut split) = (0, 0);
        for _ in 0..200_000 {
            let mut bytes: Vec<u8> = (0..next(40)).map(|_| LIKELY[next(LIKELY.len())]).collect();
            let words = bytes.len() / 4;
            if words > 0 && next(2) == 0 {
                bytes[..4].copy_from_slice(&[LIKELY[next(2)], 205, 0, words as u8 - 1]);
            }
            if let Ok(nack) = GenericNack::read(&bytes) {
                read += 1;
                assert!(!nack.entries.is_empty() && nack.entries.len().is_multiple_of(4));
                assert_eq!(nack.entries, &bytes[12..12 + nack.entries.len()]);
            }
            if let Some(parts) = packets(&bytes) {
                split += 1;
                assert_eq!(parts.flatten().copied().collect::<Vec<_>>(), bytes);
            }
        }
        assert!(read > 1_000 && split > 1_000, "{read} {split}");
    }
}
