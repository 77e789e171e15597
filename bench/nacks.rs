//! What it costs to ask for lost numbers on the wire: `nack_wire`, against `poll_nack` and packing its numbers by hand; bench/nack-cost builds
//! and runs it, docs/PERFORMANCE.md has what it printed.

mod cpu;

use bizhgemu::{Config, Mode, Queue};
use std::hint::black_box;
use std::time::Duration;

const BATCHES: usize = 300;
/// Calls of a batch: fewer than a number may be NACKed in passthrough, so that none is given up.
const CALLS: usize = 200;
const GAPS: [usize; 3] = [10, 100, 1_000];
/// Numbers in a row, 17 to an entry; and one to an entry.
const ROW: (&str, u16) = ("in a row", 1);
const APART: (&str, u16) = ("18 apart", 18);

/// A queue with so many gaps, each due in every call: no delay before a NACK, nor between two. Nothing waits, and D is the least, so that
/// the gaps weigh most.
fn queue(gaps: usize, apart: u16) -> Queue {
    let mut config = Config::pcmu(1);
    (config.mode, config.max_nack_attempts) = (Mode::Passthrough, 255);
    (config.initial_nack_delay, config.default_nack_resend_delay) = (Duration::ZERO, Duration::ZERO);
    (config.max_entries, config.max_gaps) = (1, 1_024);
    let mut queue = Queue::open(&config).expect("settings in range");
    // a step over 1,000 would forget what is missing, so in a long row one comes
    let comes = if apart == 1 && gaps > 501 { 501 } else { 0 };
    let last = gaps as u16 + u16::from(comes > 0);
    for number in 0..=apart * (last + 1) {
        if number == comes || !number.is_multiple_of(apart) || !(1..=last).contains(&(number / apart)) {
            let [high, low] = number.to_be_bytes();
            queue.push(Duration::ZERO, &[0x80, 0, high, low, 0, 0, 0, 0, 0, 0, 0, 1]).expect("accepted");
            queue.poll(Duration::ZERO).expect("accepted").expect("handed out at once");
        }
    }
    queue
}

/// The entries of a generic NACK, as a host would make them of numbers: each begins at the first not yet named, and is written when it is
/// whole.
fn pack(numbers: &[u16], out: &mut [u8]) -> usize {
    let mut bytes = 0;
    let mut put = |first: u16, mask: u16| {
        out[bytes..bytes + 2].copy_from_slice(&first.to_be_bytes());
        out[bytes + 2..bytes + 4].copy_from_slice(&mask.to_be_bytes());
        bytes += 4;
    };
    let Some((&number, others)) = numbers.split_first() else {
        return 0;
    };
    let (mut first, mut mask) = (number, 0);
    for &number in others {
        let above = number.wrapping_sub(first);
        if above <= 16 {
            mask |= 1 << (above - 1);
        } else {
            put(first, mask);
            (first, mask) = (number, 0);
        }
    }
    put(first, mask);
    bytes
}

/// Nanoseconds a call, of one batch on a copy.
fn batch(queue: &Queue, mut call: impl FnMut(&mut Queue) -> usize, answer: usize) -> f64 {
    let mut queue = queue.clone();
    call(&mut queue); // its storage comes into the caches
    let time = cpu::time(|| {
        for _ in 0..CALLS {
            assert_eq!(call(&mut queue), answer);
        }
    });
    time / CALLS as f64
}

fn row(gaps: usize, (pattern, apart): (&str, u16)) {
    let queue = queue(gaps, apart);
    let now = Duration::ZERO;
    let mut out = [0; 4 * 1_024];
    let entries = queue.clone().nack_wire(now).expect("accepted").to_vec();
    let numbers = queue.clone().poll_nack(now).expect("accepted").to_vec();
    let packed = pack(&numbers, &mut out);
    assert_eq!(out[..packed], entries);
    let [mut numbered, mut by_hand, mut wire] = [f64::INFINITY; 3];
    for _ in 0..BATCHES {
        numbered = numbered.min(batch(
            &queue,
            |queue| black_box(queue.poll_nack(now)).expect("accepted").len(),
            numbers.len(),
        ));
        let pack = |queue: &mut Queue| pack(black_box(queue.poll_nack(now)).expect("accepted"), black_box(&mut out));
        by_hand = by_hand.min(batch(&queue, pack, entries.len()));
        wire = wire.min(batch(&queue, |queue| black_box(queue.nack_wire(now)).expect("accepted").len(), entries.len()));
    }
    println!(
        "| {} | {pattern} | {} | {numbered:.0} | {by_hand:.0} | {wire:.0} | {:.2} |",
        numbers.len(),
        entries.len() / 4,
        wire / by_hand
    );
}

fn main() {
    println!("| gaps | numbers | entries | poll_nack | and packed by hand | nack_wire | nack_wire : by hand |");
    println!("|---|---|---|---|---|---|---|");
    for pattern in [ROW, APART] {
        for gaps in GAPS {
            row(gaps, pattern);
        }
    }
}
