//! What a packet costs in a burst: the proved queue's `push_burst` and `push` through crate `bizhgemu`, and the Rust original's `push`, in turn in one
//! run. docs/PERFORMANCE.md has what it printed.

#[path = "cpu.rs"]
mod cpu;

use bizhgemu::{Config, Queue};
use original::Original;
use std::hint::black_box;
use std::time::Duration;

const BURST: usize = 32;
const BATCHES: usize = 400;
const PT: u8 = 0;
const SSRC: u32 = 0x1234_5678;
/// From one packet's instant to the next one's, in nanoseconds: far apart, so that all that waits can be handed out between; ticks of a packet.
const STEP: u64 = 800_000_000;
const TICKS: u32 = 160;
/// When all that came at an instant is due.
const DUE: u64 = 200_000_000;
const DELAY: Duration = Duration::from_millis(100);

/// Datagrams of 172 bytes, in order, or with one in 50 exchanged with the one after it.
struct Stream {
    next: u32,
    reordered: bool,
    buffer: Vec<u8>,
    ends: Vec<u64>,
}

impl Stream {
    fn new(reordered: bool) -> Stream {
        Stream { next: 0, reordered, buffer: Vec::new(), ends: Vec::new() }
    }

    /// The next datagrams, and the instant at which they come.
    fn fill(&mut self, count: usize) -> u64 {
        self.buffer.clear();
        self.ends.clear();
        for _ in 0..count {
            let place = match (self.reordered, self.next % 50) {
                (true, 20) => self.next + 1,
                (true, 21) => self.next - 1,
                _ => self.next,
            };
            self.buffer.extend([0x80, PT]);
            self.buffer.extend((place as u16).to_be_bytes());
            self.buffer.extend(place.wrapping_mul(TICKS).to_be_bytes());
            self.buffer.extend(SSRC.to_be_bytes());
            self.buffer.extend(0..160);
            self.ends.push(self.buffer.len() as u64);
            self.next += 1;
        }
        u64::from(self.next) * STEP
    }

    fn parts(&self) -> impl Iterator<Item = &[u8]> {
        let starts = std::iter::once(0).chain(self.ends.iter().copied());
        starts.zip(&self.ends).map(|(start, end)| &self.buffer[start as usize..*end as usize])
    }
}

fn ours(max_entries: usize, max_gaps: usize) -> Queue {
    let mut config = Config::default();
    (config.delay, config.max_entries, config.max_gaps) = (DELAY, max_entries, max_gaps);
    (config.payload_type, config.ssrc) = (PT, SSRC);
    Queue::open(&config).expect("settings in range")
}

/// Everything that waits is handed out, apart from what is measured.
fn drain(queue: &mut Queue, now: u64) -> usize {
    let mut count = 0;
    while queue.poll(Duration::from_nanos(now)).expect("accepted").is_some() {
        count += 1;
    }
    count
}

fn drain_original(queue: &mut Original, now: u64) -> usize {
    let mut payload = [0; 320];
    let mut count = 0;
    while queue.poll(now, &mut payload).is_some() {
        count += 1;
    }
    count
}

/// The best batch of each, in nanoseconds of processor time: a burst of 32, a burst of one, one single call, 32 of the original's.
fn row(max_entries: usize, max_gaps: usize, reordered: bool) {
    Original::set_depth(max_entries);
    let (mut whole, mut one, mut single) =
        (ours(max_entries, max_gaps), ours(max_entries, max_gaps), ours(max_entries, max_gaps));
    let mut original = Original::open(DELAY, 8_000, PT, SSRC, 97, 0x8765_4321);
    let mut streams: Vec<Stream> = (0..4).map(|_| Stream::new(reordered)).collect();
    let mut best = [f64::INFINITY; 4];
    let mut handed = [0; 4];
    for _ in 0..BATCHES {
        let now = streams[0].fill(BURST);
        let s = &streams[0];
        best[0] = best[0].min(cpu::time(|| {
            black_box(whole.push_burst(Duration::from_nanos(now), black_box(&s.buffer), &s.ends).expect("ends fit"));
        }));
        handed[0] += drain(&mut whole, now + DUE);
        for _ in 0..BURST {
            let now = streams[1].fill(1);
            let s = &streams[1];
            best[1] = best[1].min(cpu::time(|| {
                black_box(one.push_burst(Duration::from_nanos(now), black_box(&s.buffer), &s.ends).expect("ends fit"));
            }));
            let now = streams[2].fill(1);
            let s = &streams[2];
            best[2] = best[2].min(cpu::time(|| {
                let _ = black_box(single.push(Duration::from_nanos(now), black_box(&s.buffer)));
            }));
        }
        handed[1] += drain(&mut one, u64::from(streams[1].next) * STEP + DUE);
        handed[2] += drain(&mut single, u64::from(streams[2].next) * STEP + DUE);
        let now = streams[3].fill(BURST);
        let s = &streams[3];
        best[3] = best[3].min(cpu::time(|| {
            for part in s.parts() {
                let _ = original.push(now, black_box(part));
            }
        }));
        handed[3] += drain_original(&mut original, now + DUE);
    }
    assert_eq!(handed[0], handed[3], "ours and the original hand out alike");
    let stream = if reordered { "2 % reordered" } else { "in order" };
    let [burst, one, single, rust] = best;
    let (each, rust) = (burst / BURST as f64, rust / BURST as f64);
    let more = (burst - one) / (BURST - 1) as f64;
    println!(
        "| {max_entries}, {max_gaps} | {stream} | {burst:.0} | {each:.0} | {more:.0} | {rust:.0} | {:.1} | {:.1} | {one:.0} | {single:.0} | {:.2} |",
        each / rust,
        more / rust,
        one / single
    );
}

fn main() {
    println!(
        "| D, G | stream | burst of 32 | each | each further | Rust | each : Rust | further : Rust | burst of one | single call | one : single |"
    );
    println!("|---|---|---|---|---|---|---|---|---|---|---|");
    for (max_entries, max_gaps) in [(100, 999), (1024, 4096)] {
        for reordered in [false, true] {
            row(max_entries, max_gaps, reordered);
        }
    }
}
