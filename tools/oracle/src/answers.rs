//! Answers as lines (docs/TRACE.md).

use crate::rtp::{ExtendedSequenceNumber, RtpPacket};
use crate::rtp_session::inbound::queue::Queue;
use crate::rtp_session::inbound::stats::RtpInboundRtxStats;
use std::fmt::Display;
use std::io::{self, Write};
use std::time::{Duration, Instant};

pub fn packet(
    out: &mut impl Write,
    found: Option<(RtpPacket, Option<Instant>, Duration)>,
) -> io::Result<()> {
    let Some((packet, arrival, delay)) = found else {
        return writeln!(out, "nothing");
    };
    write!(
        out,
        "packet {} {} {} {} {} {} {} ",
        packet.pt,
        packet.sequence_number.0,
        packet.timestamp.0,
        packet.ssrc.0,
        u8::from(packet.marker),
        or_none(arrival.map(|instant| instant.0)),
        delay.as_nanos(),
    )?;
    hex(out, &packet.payload)
}

/// A word and the numbers behind it, or `nothing`.
pub fn numbers(out: &mut impl Write, word: &str, list: &[impl Display]) -> io::Result<()> {
    if list.is_empty() {
        return writeln!(out, "nothing");
    }
    out.write_all(word.as_bytes())?;
    for number in list {
        write!(out, " {number}")?;
    }
    writeln!(out)
}

/// A word and the bytes behind it, or `nothing`.
pub fn bytes(out: &mut impl Write, word: &str, bytes: &[u8]) -> io::Result<()> {
    if bytes.is_empty() {
        return writeln!(out, "nothing");
    }
    write!(out, "{word} ")?;
    hex(out, bytes)
}

pub fn timeout(out: &mut impl Write, timeout: Option<Duration>) -> io::Result<()> {
    match timeout {
        Some(timeout) => writeln!(out, "after {}", timeout.as_nanos()),
        None => writeln!(out, "none"),
    }
}

pub fn highest(out: &mut impl Write, number: Option<ExtendedSequenceNumber>) -> io::Result<()> {
    match number {
        Some(number) => writeln!(out, "highest {}", number.0),
        None => writeln!(out, "none"),
    }
}

pub fn rtx_stats(out: &mut impl Write, stats: Option<RtpInboundRtxStats>) -> io::Result<()> {
    let Some(stats) = stats else {
        return writeln!(out, "none");
    };
    writeln!(
        out,
        "rtx {} {} {} {} {}",
        stats.packets_received_in_time,
        stats.packets_received_too_late,
        stats.packets_received_redundant,
        stats.bytes_received,
        or_none(stats.rtt.map(|rtt| rtt.as_nanos())),
    )
}

pub fn state(out: &mut impl Write, queue: &Queue, clock: u64) -> io::Result<()> {
    write!(
        out,
        "state {clock} {} {} {} {} {:016x} {:08x}",
        queue.received,
        queue.received_bytes,
        queue.dropped,
        queue.lost,
        queue.jitter.ticks().to_bits(),
        queue.packet_loss.get().to_bits(),
    )?;
    let last = queue.last();
    let round_trip = queue.round_trip();
    let rtx = queue.rtx_stats();
    for field in [
        or_none(last.map(|(instant, _, _)| instant.0)),
        or_none(last.map(|(_, timestamp, _)| timestamp)),
        or_none(last.map(|(_, _, number)| number)),
        or_none(queue.returned()),
        or_none(round_trip.map(|(srtt, _)| srtt.as_nanos())),
        or_none(round_trip.map(|(_, variation)| variation.as_nanos())),
        or_none(rtx.map(|stats| stats.packets_received_in_time)),
        or_none(rtx.map(|stats| stats.packets_received_too_late)),
        or_none(rtx.map(|stats| stats.packets_received_redundant)),
        or_none(rtx.map(|stats| stats.bytes_received)),
    ] {
        write!(out, " {field}")?;
    }
    lists(out, queue)
}

/// The counts of the three lists, the end of the first line, and a line for each record.
fn lists(out: &mut impl Write, queue: &Queue) -> io::Result<()> {
    let remembered = queue.remembered();
    writeln!(
        out,
        " {} {} {}",
        queue.entries().len(),
        queue.gaps().len(),
        remembered.len()
    )?;
    for (arrival, timestamp, number, packet) in queue.entries() {
        let arrival = or_none(arrival.map(|instant| instant.0));
        write!(
            out,
            "entry {number} {timestamp} {arrival} {} ",
            u8::from(packet.marker)
        )?;
        hex(out, &packet.payload)?;
    }
    for (number, detected, nacked) in queue.gaps() {
        let instant = or_none(nacked.map(|(instant, _)| instant.0));
        let count = nacked.map_or(0, |(_, count)| count);
        writeln!(out, "gap {number} {} {instant} {count}", detected.0)?;
    }
    for (number, nacked) in remembered {
        writeln!(out, "remembered {number} {}", nacked.0)?;
    }
    Ok(())
}

fn or_none(value: Option<impl ToString>) -> String {
    value.map_or_else(|| "-".to_string(), |value| value.to_string())
}

/// Bytes as HEX, and the end of the line.
fn hex(out: &mut impl Write, bytes: &[u8]) -> io::Result<()> {
    const DIGITS: &[u8; 16] = b"0123456789abcdef";
    if bytes.is_empty() {
        return writeln!(out, "-");
    }
    let mut text = Vec::with_capacity(2 * bytes.len() + 1);
    for byte in bytes {
        text.push(DIGITS[usize::from(byte >> 4)]);
        text.push(DIGITS[usize::from(byte & 15)]);
    }
    text.push(b'\n');
    out.write_all(&text)
}
