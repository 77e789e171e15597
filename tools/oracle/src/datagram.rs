//! The reader of datagrams after RFC 3550, section 5.1, with checks 2 to 7 of 01's table.

pub struct Packet<'a> {
    pub marker: bool,
    pub number: u16,
    pub timestamp: u32,
    pub payload: &'a [u8],
}

/// The packet of a sender, or the number of the first check that catches the datagram.
pub fn read(bytes: &[u8], payload_type: u8, ssrc: u32, longest: usize) -> Result<Packet<'_>, u8> {
    if bytes.len() < 12 {
        return Err(2);
    }
    if bytes[0] >> 6 != 2 {
        return Err(3);
    }
    let rest = after_header(bytes).ok_or(2)?;
    let payload = if bytes[0] & 0x20 != 0 {
        before_padding(rest).ok_or(4)?
    } else {
        rest
    };
    if payload.len() > longest {
        return Err(5);
    }
    if bytes[1] & 0x7f != payload_type {
        return Err(6);
    }
    if word(bytes, 8) != ssrc {
        return Err(7);
    }
    Ok(Packet {
        marker: bytes[1] & 0x80 != 0,
        number: u16::from_be_bytes([bytes[2], bytes[3]]),
        timestamp: word(bytes, 4),
        payload,
    })
}

/// What stands after the CSRCs and the extension; none where the datagram ends before them.
fn after_header(bytes: &[u8]) -> Option<&[u8]> {
    let rest = bytes.get(12 + 4 * usize::from(bytes[0] & 0x0f)..)?;
    if bytes[0] & 0x10 == 0 {
        return Some(rest);
    }
    let length = rest.get(2..4)?;
    rest.get(4 + 4 * usize::from(u16::from_be_bytes([length[0], length[1]]))..)
}

/// The padding's last byte counts itself; none where it cannot be a count.
fn before_padding(rest: &[u8]) -> Option<&[u8]> {
    let count = usize::from(*rest.last()?);
    if count == 0 {
        None
    } else {
        rest.get(..rest.len().checked_sub(count)?)
    }
}

fn word(bytes: &[u8], at: usize) -> u32 {
    u32::from_be_bytes([bytes[at], bytes[at + 1], bytes[at + 2], bytes[at + 3]])
}
