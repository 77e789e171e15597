//! A line of a trace to a call.

/// The longest line, its line feed not counted.
const LONGEST_LINE: usize = 65_535;

pub enum Call {
    /// MODE CLOCK D G DELAY INITIAL RESEND MAX PT SSRC RTX RTXPT RTXSSRC, and in mode 2 MIN MAXDELAY T
    Open([u64; 13], Option<[u64; 3]>),
    Media(u64, Vec<u8>),
    /// NOW PLACES, the buffer and the ends
    Burst(u64, u64, Vec<u8>, Vec<u64>),
    Repair(u64, Vec<u8>),
    Poll(u64),
    PollNack(u64),
    /// NOW PLACES
    NackWire(u64, u64),
    /// PLACES, and the entries
    ReadNacks(u64, Vec<u8>),
    TimeoutReceive(u64),
    TimeoutNack(u64),
    RtxStats,
    Highest,
    State,
    ReadSettings(Vec<u8>),
    /// PLACES, MODE CLOCK D G DELAY INITIAL RESEND MAX, MIN MAXDELAY T
    WriteSettings(u64, [u64; 8], [u64; 3]),
}

/// None where the line is unreadable.
pub fn read(line: &[u8]) -> Option<Call> {
    if line.len() > LONGEST_LINE {
        return None;
    }
    let line = std::str::from_utf8(line).ok()?;
    let (word, rest) = match line.split_once(' ') {
        Some((word, rest)) => (word, rest.split(' ').collect()),
        None => (line, Vec::new()),
    };
    Some(match (word, rest.as_slice()) {
        ("open", ["2", ..]) => {
            let (first, dynamic) = rest.split_at_checked(13)?;
            Call::Open(numbers(first)?, Some(numbers(dynamic)?))
        }
        ("open", fields) => Call::Open(numbers(fields)?, None),
        ("media", [now, bytes]) => Call::Media(number(now)?, hex(bytes)?),
        ("burst", [now, places, bytes, ends @ ..]) => {
            let ends = ends.iter().map(|end| number(end)).collect::<Option<_>>()?;
            Call::Burst(number(now)?, number(places)?, hex(bytes)?, ends)
        }
        ("repair", [now, bytes]) => Call::Repair(number(now)?, hex(bytes)?),
        ("poll", [now]) => Call::Poll(number(now)?),
        ("poll_nack", [now]) => Call::PollNack(number(now)?),
        ("nack_wire", [now, places]) => Call::NackWire(number(now)?, number(places)?),
        ("read_nacks", [places, bytes]) => Call::ReadNacks(number(places)?, hex(bytes)?),
        ("timeout_receive", [now]) => Call::TimeoutReceive(number(now)?),
        ("timeout_nack", [now]) => Call::TimeoutNack(number(now)?),
        ("rtx_stats", []) => Call::RtxStats,
        ("highest", []) => Call::Highest,
        ("state", []) => Call::State,
        ("read_settings", [bytes]) => Call::ReadSettings(hex(bytes)?),
        ("write_settings", [places, settings @ ..]) => {
            let (first, dynamic) = settings.split_at_checked(8)?;
            Call::WriteSettings(number(places)?, numbers(first)?, numbers(dynamic)?)
        }
        _ => return None,
    })
}

/// Decimal digits alone, no leading zero, at most 2^64 - 1.
fn number(field: &str) -> Option<u64> {
    let digits = field.bytes().all(|byte| byte.is_ascii_digit());
    let leading = field.len() > 1 && field.starts_with('0');
    if digits && !leading { field.parse().ok() } else { None }
}

/// As many numbers as there are places.
fn numbers<const N: usize>(fields: &[&str]) -> Option<[u64; N]> {
    let numbers: Option<Vec<u64>> = fields.iter().map(|field| number(field)).collect();
    numbers?.try_into().ok()
}

/// Pairs of lower-case hexadecimal digits, or `-` for no bytes.
fn hex(field: &str) -> Option<Vec<u8>> {
    if field == "-" {
        return Some(Vec::new());
    }
    let digits = field.bytes().all(|byte| matches!(byte, b'0'..=b'9' | b'a'..=b'f'));
    if !digits || field.is_empty() || field.len() % 2 == 1 {
        return None;
    }
    let pairs = (0..field.len()).step_by(2);
    pairs.map(|at| u8::from_str_radix(&field[at..at + 2], 16).ok()).collect()
}
