use core::fmt;

/// Why a call was turned back. A refused call changes nothing: not the queue, not its clock, not a byte of storage.
///
/// The order of the variants is that of [`number`](Refusal::number), not that in which a call is checked.
#[derive(Clone, Copy, Debug, PartialEq, Eq, Hash, PartialOrd, Ord)]
#[repr(u8)]
#[non_exhaustive]
pub enum Refusal {
    /// 1: a setting is out of its range; see [`Config`](crate::Config).
    Settings = 1,
    /// 2: the datagram ends within its header.
    Truncated,
    /// 3: the datagram's version is not 2.
    Version,
    /// 4: the count of padding bytes cannot be right.
    Padding,
    /// 5: the payload is over 320 bytes (of a repair: over 322).
    PayloadTooLarge,
    /// 6: the payload type is not the session's.
    PayloadType,
    /// 7: the SSRC is not the session's.
    Ssrc,
    /// 8: the instant is before that of an accepted push or poll, or above [`LATEST`](crate::LATEST).
    Clock,
    /// 9: a repair for a session that was opened without RTX.
    NoRtx,
    /// 10: a repair before any media packet.
    NoMedia,
    /// 11: a repair too short to name its original number.
    NoOriginalNumber,
    /// 12: the packet would open more gaps than the queue has places for.
    GapsFull,
    /// 13: a repair with `2 * max_entries` packets waiting.
    EntriesFull,
    /// 14: a number, timestamp or counter would pass 2^52 - 1, or a NACK count 2^32 - 1.
    Count,
    /// 15: the lent output is too short. [`Queue`](crate::Queue) never lends one that is, but for yours in
    /// [`nack_wire_into`](crate::Queue::nack_wire_into); or, of a burst, an end is below the one before it or past the buffer.
    Output,
    /// 16: session or storage is damaged. [`Queue`](crate::Queue) owns both, so memory was overwritten from elsewhere, or floats
    /// were not rounded to nearest.
    Session,
    /// 17: the entries of a NACK are not a multiple of 4 bytes.
    NackEntries,
    /// 20: a settings line has the wrong length or end, or a field that is no number; see [`Config::from_line`](crate::Config::from_line).
    SettingsLine = 20,
    /// 21: a settings line does not begin with a version that is known.
    LineVersion,
}

/// Every refusal with what it means and what to do about it.
const TABLE: [(Refusal, &str, &str); 19] = [
    (
        Refusal::Settings,
        "a setting is out of its range",
        "correct the settings; the ranges stand beside the fields of `Config`",
    ),
    (
        Refusal::Truncated,
        "the datagram ends within its RTP header",
        "drop it; if many come, something other than RTP is sent to this port",
    ),
    (
        Refusal::Version,
        "the datagram is not RTP version 2",
        "drop it; STUN and DTLS on a shared port look like this and do no harm",
    ),
    (
        Refusal::Padding,
        "the datagram's padding counts 0 bytes, or more than follow the header, or has no count",
        "drop it; the sender or the path is damaging packets",
    ),
    (
        Refusal::PayloadTooLarge,
        "the payload is over 320 bytes (of a repair: over 322)",
        "set the sender to shorter packets or a lower bit rate; numbers of such packets go missing, and may count as lost",
    ),
    (
        Refusal::PayloadType,
        "the payload type is not the session's",
        "drop it if it is RTCP; if loss rises beside it, the sender mixes payload types in one stream: switch the other one off",
    ),
    (
        Refusal::Ssrc,
        "the sender (SSRC) is not the session's",
        "drop it; if nothing else comes, the sender changed its SSRC: open a new session with it",
    ),
    (
        Refusal::Clock,
        "the instant is before that of an accepted push or poll, or past 2^52 - 1 nanoseconds (52 days)",
        "take instants from one clock that never goes back; open a new session with a new clock before 52 days are over",
    ),
    (
        Refusal::NoRtx,
        "a repair came for a session without RTX",
        "open the session with `Config::rtx`, or do not hand repairs to it",
    ),
    (Refusal::NoMedia, "a repair came before any media packet", "drop it; at the start of a stream this is harmless"),
    (
        Refusal::NoOriginalNumber,
        "a repair is too short to name the number it repairs",
        "drop it; senders that probe bandwidth with padding do this",
    ),
    (
        Refusal::GapsFull,
        "the packet would open more gaps than `max_gaps` allows",
        "poll as the timeouts say, then push the same datagram again: gaps close in sorted mode when a packet above them is handed \
         out, in passthrough after their last NACK; if it goes on, the path loses heavily or `max_gaps` is small",
    ),
    (
        Refusal::EntriesFull,
        "a repair came while twice `max_entries` packets wait",
        "poll until nothing is handed out; raise `max_entries`",
    ),
    (
        Refusal::Count,
        "a number, timestamp or counter would pass 2^52 - 1, or a NACK count 2^32 - 1",
        "open a new session",
    ),
    (
        Refusal::Output,
        "the lent output is too short",
        "lend `poll` at least 320 bytes, `poll_nack` `max_gaps` numbers, `nack_wire` 4 bytes for each of them, `read_nacks` 17 numbers for \
         each four bytes, a settings line 145 bytes, a burst an answer for each of its ends; a burst's ends ascend, up to its buffer's",
    ),
    (
        Refusal::Session,
        "session or storage is damaged, or not that of these settings",
        "open a new session; memory was overwritten, storage of another session was lent, or floats were not rounded to nearest",
    ),
    (
        Refusal::NackEntries,
        "the entries of a NACK are not a multiple of 4 bytes",
        "drop the packet; it was cut, or is no generic NACK (RFC 4585, section 6.2.1)",
    ),
    (
        Refusal::SettingsLine,
        "the settings line has the wrong length, no line feed at its end, or a field that is not a number after blanks",
        "correct the line, or have it written anew; each field is twelve columns wide, with no zero before another digit",
    ),
    (
        Refusal::LineVersion,
        "the settings line does not begin with eleven blanks and version 1 or 2",
        "take the file of this program's version; nothing else of the line was looked at",
    ),
];

impl Refusal {
    /// The highest number.
    pub(crate) const HIGHEST: usize = Refusal::LineVersion as usize;

    /// All of them, by number.
    pub fn all() -> impl ExactSizeIterator<Item = Refusal> {
        TABLE.iter().map(|(refusal, ..)| *refusal)
    }

    /// The number of the refusal: 1 to 17, 20 and 21 today.
    pub fn number(self) -> u8 {
        self as u8
    }

    /// The refusal of a number; none for 0, which is no refusal, and for a number that is none.
    pub fn from_number(number: u64) -> Option<Refusal> {
        Refusal::all().find(|refusal| u64::from(refusal.number()) == number)
    }

    /// What it means.
    pub fn meaning(self) -> &'static str {
        self.row().1
    }

    /// What to do about it.
    pub fn remedy(self) -> &'static str {
        self.row().2
    }

    fn row(self) -> &'static (Refusal, &'static str, &'static str) {
        TABLE.iter().find(|row| row.0 == self).expect("each has its row")
    }

    /// What an exported function answered: nothing, or the refusal.
    pub(crate) fn check(number: u64) -> Result<(), Refusal> {
        match Refusal::from_number(number) {
            Some(refusal) => Err(refusal),
            None if number == 0 => Ok(()),
            None => {
                unreachable!("libffi.a is not the library of this crate: it refused under {number}")
            }
        }
    }
}

impl fmt::Display for Refusal {
    fn fmt(&self, f: &mut fmt::Formatter<'_>) -> fmt::Result {
        write!(f, "refused under {}: {}; {}", self.number(), self.meaning(), self.remedy())
    }
}

impl core::error::Error for Refusal {}

#[cfg(test)]
mod tests {
    use super::*;
    use std::collections::BTreeSet;

    #[test]
    fn numbers_and_table_agree() {
        for (refusal, number) in Refusal::all().zip((1..=17).chain(20..)) {
            assert_eq!(refusal.number(), number);
            assert_eq!(Refusal::from_number(u64::from(refusal.number())), Some(refusal));
        }
        assert_eq!(Refusal::from_number(0), None);
        assert_eq!(Refusal::from_number(18), None);
        assert_eq!(Refusal::from_number(19), None);
        assert_eq!(Refusal::from_number(22), None);
        assert_eq!(Refusal::from_number(u64::MAX), None);
    }

    #[test]
    fn each_says_its_number_and_has_a_meaning_of_its_own() {
        let meanings: BTreeSet<_> = Refusal::all().map(Refusal::meaning).collect();
        assert_eq!(meanings.len(), 19);
        for (refusal, number) in Refusal::all().zip((1..=17).chain(20..)) {
            let text = refusal.to_string();
            let words = text.strip_prefix(&format!("refused under {number}: ")).expect("the number stands first");
            let remedy = words.strip_prefix(refusal.meaning()).expect("then the meaning");
            assert_eq!(remedy.strip_prefix("; "), Some(refusal.remedy()));
        }
    }
}
