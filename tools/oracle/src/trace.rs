//! Lines of a trace (docs/TRACE.md) to calls.

/// The longest line, its line feed not counted.
const LONGEST_LINE: usize = 65_535;

pub enum Line {
    PassedOver,
    Unreadable,
    Call(Call),
}

pub enum Call {
    /// MODE CLOCK D G DELAY INITIAL RESEND MAX PT SSRC RTX RTXPT RTXSSRC, and in mode 2 MIN MAXDELAY T
    Open([u64; 13], Option<[u64; 3]>),
    Media(u64, Vec<u8>),
    Repair(u64, Vec<u8>),
    /// NOW PLACES HEX and the ends
    Burst(u64, u64, Vec<u8>, Vec<u64>),
    Poll(u64),
    PollNack(u64),
    /// NOW PLACES
    NackWire(u64, u64),
    /// PLACES HEX; needs no session
    ReadNacks(u64, Vec<u8>),
    TimeoutReceive(u64),
    TimeoutNack(u64),
    RtxStats,
    Highest,
    State,
    /// HEX; needs no session
    ReadSettings(Vec<u8>),
    /// PLACES MODE CLOCK D G DELAY INITIAL RESEND MAX MIN MAXDELAY T; needs no session
    WriteSettings([u64; 12]),
}

pub fn read(line: &[u8]) -> Line {
    if line.is_empty() || line[0] == b'#' {
        Line::PassedOver
    } else if line.len() > LONGEST_LINE {
        Line::Unreadable
    } else {
        call(line).map_or(Line::Unreadable, Line::Call)
    }
}

fn call(line: &[u8]) -> Option<Call> {
    let fields: Vec<&[u8]> = line.split(|byte| *byte == b' ').collect();
    Some(match (fields[0], &fields[1..]) {
        (b"open", [b"2", ..]) => {
            let (first, dynamic) = fields[1..].split_at_checked(13)?;
            Call::Open(numbers(first)?, Some(numbers(dynamic)?))
        }
        (b"open", first) => Call::Open(numbers(first)?, None),
        (b"media", [now, hex]) => Call::Media(number(now)?, bytes(hex)?),
        (b"repair", [now, hex]) => Call::Repair(number(now)?, bytes(hex)?),
        (b"burst", [now, places, hex, ends @ ..]) => Call::Burst(
            number(now)?,
            number(places)?,
            bytes(hex)?,
            ends.iter().map(|end| number(end)).collect::<Option<_>>()?,
        ),
        (b"poll", [now]) => Call::Poll(number(now)?),
        (b"poll_nack", [now]) => Call::PollNack(number(now)?),
        (b"nack_wire", [now, places]) => Call::NackWire(number(now)?, number(places)?),
        (b"read_nacks", [places, hex]) => Call::ReadNacks(number(places)?, bytes(hex)?),
        (b"timeout_receive", [now]) => Call::TimeoutReceive(number(now)?),
        (b"timeout_nack", [now]) => Call::TimeoutNack(number(now)?),
        (b"rtx_stats", []) => Call::RtxStats,
        (b"highest", []) => Call::Highest,
        (b"state", []) => Call::State,
        (b"read_settings", [hex]) => Call::ReadSettings(bytes(hex)?),
        (b"write_settings", first) => Call::WriteSettings(numbers(first)?),
        _ => return None,
    })
}

/// Decimal, no sign, no leading zero, at most 64 bits.
fn number(field: &[u8]) -> Option<u64> {
    if field.is_empty() || field.len() > 1 && field[0] == b'0' {
        return None;
    }
    field.iter().try_fold(0u64, |value, digit| match digit {
        b'0'..=b'9' => value.checked_mul(10)?.checked_add(u64::from(digit - b'0')),
        _ => None,
    })
}

/// As many numbers as there are places.
fn numbers<const N: usize>(fields: &[&[u8]]) -> Option<[u64; N]> {
    let values: Option<Vec<u64>> = fields.iter().map(|field| number(field)).collect();
    values?.try_into().ok()
}

/// An even number of lower-case hexadecimal digits, or `-` for no bytes.
fn bytes(field: &[u8]) -> Option<Vec<u8>> {
    if field == b"-" {
        return Some(Vec::new());
    }
    if field.is_empty() || field.len() % 2 == 1 {
        return None;
    }
    field
        .chunks(2)
        .map(|pair| Some(digit(pair[0])? << 4 | digit(pair[1])?))
        .collect()
}

fn digit(character: u8) -> Option<u8> {
    match character {
        b'0'..=b'9' => Some(character - b'0'),
        b'a'..=b'f' => Some(character - b'a' + 10),
        _ => None,
    }
}
