//! A host that is driven by the lines of a trace (docs/TRACE.md).

mod line;

use bizhgemu::{Config, Dynamic, Media, Mode, Packet, Queue, Refusal, Repair, Rtx, read_nacks_into};
use line::Call;
use std::fmt::Display;
use std::time::Duration;

/// The queue of the latest accepted `open`.
#[derive(Default)]
pub struct Host(Option<Queue>);

impl Host {
    /// The lines that answer a line.
    pub fn answer(&mut self, line: &[u8]) -> Vec<String> {
        if line.is_empty() || line[0] == b'#' {
            return Vec::new();
        }
        let Some(call) = line::read(line) else {
            return vec!["unreadable".into()];
        };
        let answer = match (call, &mut self.0) {
            (Call::Open(fields, dynamic), _) => self.open(fields, dynamic),
            (Call::ReadSettings(line), _) => read_settings(&line).map(|line| vec![line]),
            (Call::WriteSettings(places, fields, dynamic), _) => {
                write_settings(places, fields, dynamic).map(|line| vec![line])
            }
            (Call::ReadNacks(places, bytes), _) => read_nacks(places, &bytes).map(|line| vec![line]),
            (_, None) => Ok(vec!["no session".into()]),
            (Call::State, Some(queue)) => state(queue),
            (call, Some(queue)) => make(queue, call).map(|line| vec![line]),
        };
        answer.unwrap_or_else(|refusal| vec![format!("refused {}", refusal.number())])
    }

    fn open(&mut self, fields: [u64; 13], dynamic: Option<[u64; 3]>) -> Result<Vec<String>, Refusal> {
        let config = config(fields, dynamic).ok_or(Refusal::Settings)?;
        self.0 = Some(Queue::open(&config)?);
        Ok(vec!["opened".into()])
    }
}

/// None where a field does not fit the type it has in `Config`, which is refused under 1 as well (docs/TRACE.md). The payload type
/// of repairs counts where there are none, too.
fn config(fields: [u64; 13], dynamic: Option<[u64; 3]>) -> Option<Config> {
    let [mode, clock_rate, max_entries, max_gaps, delay, initial, resend, max, ..] = fields;
    let [.., payload_type, ssrc, rtx, rtx_pt, rtx_ssrc] = fields;
    let repairs = Rtx::new(u8::try_from(rtx_pt).ok().filter(|pt| *pt <= 127)?, rtx_ssrc.try_into().ok()?);
    let mut config = Config::default();
    config.mode = match (mode, dynamic) {
        (0, None) => Mode::Passthrough,
        (1, None) => Mode::SortedQueue,
        (2, Some([min, max, target_recovery])) => {
            let mut dynamic = Dynamic::default();
            dynamic.min = Duration::from_nanos(min);
            dynamic.max = Duration::from_nanos(max);
            dynamic.target_recovery = target_recovery;
            Mode::Dynamic(dynamic)
        }
        _ => return None,
    };
    config.clock_rate = clock_rate.try_into().ok()?;
    config.delay = Duration::from_nanos(delay);
    config.max_entries = max_entries.try_into().ok()?;
    config.max_gaps = max_gaps.try_into().ok()?;
    config.initial_nack_delay = Duration::from_nanos(initial);
    config.default_nack_resend_delay = Duration::from_nanos(resend);
    config.max_nack_attempts = max.try_into().ok()?;
    config.payload_type = payload_type.try_into().ok()?;
    config.ssrc = ssrc.try_into().ok()?;
    config.rtx = match rtx {
        0 => None,
        1 => Some(repairs),
        _ => return None,
    };
    Some(config)
}

fn make(queue: &mut Queue, call: Call) -> Result<String, Refusal> {
    let at = Duration::from_nanos;
    Ok(match call {
        Call::Media(now, bytes) => match queue.push(at(now), &bytes)? {
            Media::Queued => "queued".into(),
            Media::Dropped => "dropped".into(),
            other => format!("{other:?}"),
        },
        Call::Burst(now, places, buffer, ends) => {
            // the crate makes the list of answers itself, so that a short one is the host's to refuse, ahead of every other check
            if places < ends.len() as u64 {
                return Err(Refusal::Output);
            }
            burst(&queue.push_burst(at(now), &buffer, &ends)?)
        }
        Call::Repair(now, bytes) => match queue.push_rtx(at(now), &bytes)? {
            Repair::Recovered => "recovered".into(),
            Repair::Redundant => "redundant".into(),
            Repair::TooLate => "too late".into(),
            other => format!("{other:?}"),
        },
        Call::Poll(now) => queue.poll(at(now))?.map_or("nothing".into(), packet),
        Call::PollNack(now) => listed("nack", queue.poll_nack(at(now))?),
        Call::NackWire(now, places) => {
            let mut out = lent(places, 4 * queue.config().max_gaps);
            match queue.nack_wire_into(at(now), &mut out)? {
                0 => "nothing".into(),
                bytes => format!("wire {}", hex(&out[..bytes])),
            }
        }
        Call::TimeoutReceive(now) => timeout(queue.timeout_receive(at(now))?),
        Call::TimeoutNack(now) => timeout(queue.timeout_nack(at(now))?),
        Call::RtxStats => rtx_stats(queue)?,
        Call::Highest => match queue.highest_sequence_number_received()? {
            Some(number) => format!("highest {number}"),
            None => "none".into(),
        },
        Call::Open(..) | Call::State | Call::ReadNacks(..) | Call::ReadSettings(_) | Call::WriteSettings(..) => {
            unreachable!("answered by the host")
        }
    })
}

fn packet(packet: Packet<'_>) -> String {
    format!(
        "packet {} {} {} {} {} {} {} {}",
        packet.payload_type,
        packet.sequence_number,
        packet.timestamp,
        packet.ssrc,
        u8::from(packet.marker),
        or_none(packet.received_at.map(|instant| instant.as_nanos())),
        packet.delay.as_nanos(),
        hex(packet.payload),
    )
}

/// So many places, but not more than the call asks for: it takes a longer output alike.
fn lent<T: Clone + Default>(places: u64, enough: usize) -> Vec<T> {
    vec![T::default(); usize::try_from(places).unwrap_or(enough).min(enough)]
}

fn read_nacks(places: u64, entries: &[u8]) -> Result<String, Refusal> {
    let mut numbers = lent(places, 17 * (entries.len() / 4));
    let many = read_nacks_into(entries, &mut numbers)?;
    Ok(listed("numbers", &numbers[..many]))
}

fn listed(word: &str, numbers: &[u16]) -> String {
    if numbers.is_empty() {
        return "nothing".into();
    }
    numbers.iter().fold(word.to_string(), |line, number| format!("{line} {number}"))
}

fn burst(answers: &[Result<Media, Refusal>]) -> String {
    let numbers = answers.iter().map(|answer| match answer {
        Ok(Media::Queued) => 0,
        Ok(_) => 255,
        Err(refusal) => refusal.number() as u16,
    });
    listed("answers", &numbers.collect::<Vec<u16>>())
}

fn read_settings(line: &[u8]) -> Result<String, Refusal> {
    let config = Config::from_line(line).map_err(|error| error.refusal)?;
    let (mode, [min, max, target]) = match config.mode {
        Mode::Passthrough => (0, [0; 3]),
        Mode::SortedQueue => (1, [0; 3]),
        Mode::Dynamic(d) => (2, [d.min.as_nanos() as u64, d.max.as_nanos() as u64, d.target_recovery]),
        _ => unreachable!("a mode that a trace has no number for"),
    };
    Ok(format!(
        "settings {mode} {} {} {} {} {} {} {} {min} {max} {target}",
        config.clock_rate,
        config.max_entries,
        config.max_gaps,
        config.delay.as_nanos(),
        config.initial_nack_delay.as_nanos(),
        config.default_nack_resend_delay.as_nanos(),
        config.max_nack_attempts,
    ))
}

fn write_settings(places: u64, fields: [u64; 8], dynamic: [u64; 3]) -> Result<String, Refusal> {
    let mut all = [0; 13];
    all[..8].copy_from_slice(&fields);
    let dynamic = (fields[0] == 2 || dynamic != [0; 3]).then_some(dynamic);
    let line = config(all, dynamic).ok_or(Refusal::Settings)?.to_line()?;
    if places < line.len() as u64 {
        return Err(Refusal::Output);
    }
    Ok(format!("line {}", hex(&line)))
}

fn timeout(timeout: Option<Duration>) -> String {
    timeout.map_or("none".into(), |timeout| format!("after {}", timeout.as_nanos()))
}

fn rtx_stats(queue: &mut Queue) -> Result<String, Refusal> {
    let Some(stats) = queue.rtx_stats()? else {
        return Ok("none".into());
    };
    Ok(format!(
        "rtx {} {} {} {} {}",
        stats.packets_received_in_time,
        stats.packets_received_too_late,
        stats.packets_received_redundant,
        stats.bytes_received,
        or_none(stats.rtt.map(|rtt| rtt.as_nanos())),
    ))
}

fn state(queue: &mut Queue) -> Result<Vec<String>, Refusal> {
    let rtx = queue.rtx_stats()?;
    let figures = queue.figures()?;
    let last = queue.last_received();
    let round_trip = rtx.and(queue.round_trip());
    let fields = [
        queue.clock().as_nanos().to_string(),
        figures.packets_received.to_string(),
        figures.bytes_received.to_string(),
        figures.packets_dropped.to_string(),
        figures.packets_lost.to_string(),
        format!("{:016x}", queue.jitter_ticks().to_bits()),
        format!("{:08x}", figures.loss.to_bits()),
        or_none(last.map(|last| last.instant.as_nanos())),
        or_none(last.map(|last| last.timestamp)),
        or_none(last.map(|last| last.number)),
        or_none(queue.last_returned()),
        or_none(round_trip.map(|round_trip| round_trip.srtt.as_nanos())),
        or_none(round_trip.map(|round_trip| round_trip.variation.as_nanos())),
        or_none(rtx.map(|stats| stats.packets_received_in_time)),
        or_none(rtx.map(|stats| stats.packets_received_too_late)),
        or_none(rtx.map(|stats| stats.packets_received_redundant)),
        or_none(rtx.map(|stats| stats.bytes_received)),
        queue.waiting().len().to_string(),
        queue.gaps().len().to_string(),
        queue.remembered().len().to_string(),
    ];
    let mut lines = vec![format!("state {}", fields.join(" "))];
    lines.extend(lists(queue));
    Ok(lines)
}

fn lists(queue: &Queue) -> impl Iterator<Item = String> {
    let entries = queue.waiting().map(|entry| {
        let arrival = or_none(entry.received_at.map(|instant| instant.as_nanos()));
        let marker = u8::from(entry.marker);
        format!("entry {} {} {arrival} {marker} {}", entry.number, entry.timestamp, hex(entry.payload))
    });
    let gaps = queue.gaps().map(|gap| {
        let nacked = or_none(gap.nacked_at.map(|instant| instant.as_nanos()));
        format!("gap {} {} {nacked} {}", gap.number, gap.detected_at.as_nanos(), gap.nacks)
    });
    let remembered = queue.remembered().map(|lost| format!("remembered {} {}", lost.number, lost.nacked_at.as_nanos()));
    entries.chain(gaps).chain(remembered)
}

fn or_none(value: Option<impl Display>) -> String {
    value.map_or("-".into(), |value| value.to_string())
}

fn hex(bytes: &[u8]) -> String {
    if bytes.is_empty() {
        return "-".into();
    }
    bytes.iter().map(|byte| format!("{byte:02x}")).collect()
}
